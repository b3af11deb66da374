/* Generated plants. Each is, byte by byte, what host/generator.c writes, and leaves the same state; after a refusal the state is as it was. The
   inspector's checks, the old search and the cutter accept it. The buffers and the state lie among other bytes, in any order and of many lengths;
   of all these just the output, the working buffer and the state change. The state goes on from plant to plant. And the inspector finds the word in
   which a plant was changed.
   generate COUNT: so many random states and counts, and so many calls in a row. Below 1,000 every tenth number of nodes is tried. */
#include <inttypes.h>
#include <stdio.h>
#include <stdlib.h>

#include "among.h"
#include "checks.h"
#include "generator.h"
#include "plants.h"

enum { MOST_LETTERS = 4, MANY = 1000, SCANNED = 20000 };

struct counts {
    uint32_t state, nodes, edges;
};

static long accepted, refused, merged;

static _Noreturn void fail_at(const struct counts *c, const char *what)
{
    printf("state %" PRIu32 ", %" PRIu32 " nodes, %" PRIu32 " edges per node: ", c->state, c->nodes, c->edges);
    fail(what);
}

/* Document 02's words for 11. */
static bool refuses(const struct counts *c)
{
    return c->nodes < 1 || c->nodes > MOWQACHI_GENERATED_NODES || c->edges < 1 || c->edges > MOWQACHI_GENERATED_EDGES;
}

/* The number that is due in buffers of these lengths. */
static uint32_t number_due(const struct counts *c, const struct room *room)
{
    if (too_short(GENERATE, room))
        return MOWQACHI_BUFFER;
    return refuses(c) ? MOWQACHI_CUT : 0;
}

/* Every byte of the buffers and around them, and the state. The number. */
static uint32_t check_bytes(const struct counts *c, struct room room)
{
    struct asked asked = {GENERATE, {{NULL, 0}}, {c->state, c->nodes, c->edges}};
    struct due due = {.result = number_due(c, &room), .word = c->state};
    if (due.result == 0) {
        write_generated(&plant, &due.word, c->nodes, c->edges);
        due.files[0] = span_of(&plant);
    }
    const char *wrong = check_among(&asked, room, &due);
    if (wrong != NULL)
        fail_at(c, wrong);
    return due.result;
}

/* Buffers that are just long enough, and what the inspector says of the plant. The number. */
static uint32_t check_plant(const struct counts *c)
{
    uint32_t number = check_bytes(c, room_for(GENERATE));
    accepted += number == 0;
    refused += number != 0;
    if (number != 0)
        return number;
    struct tally tally = tally_of(span_of(&plant));
    if (check_whole(span_of(&plant)).number != 0 || site_of(word_at(span_of(&plant), 0)) != 0)
        fail_at(c, "not accepted by the inspector");
    if (tally.nodes != c->nodes || tally.doors != 1 || tally.stopped != 0 || tally.edges < c->nodes || tally.edges > c->nodes * c->edges)
        fail_at(c, "other counts in the plant");
    merged += tally.edges < c->nodes * c->edges;
    return number;
}

/* Around every limit, with numbers whose lowest bits are within, and from the states around 0. */
static void check_limits(void)
{
    static const uint32_t nodes[] = {0, 1, 2, 3, 4, 5, 15, 16, 17, 127, 128, 254, 255, 256, 257, 258, 4096, 65536, 65537, 0x1000001, 0x7fffffff,
                                     0x80000000, 0x80000001, 0xffffff00, 0xffffff01, 0xffffffff};
    static const uint32_t edges[] = {0, 1, 2, 3, 4, 5, 6, 8, 256, 257, 65537, 0x80000000, 0x80000001, 0xfffffffc, 0xffffffff};
    /* The last two move on to 0 and to 0xffffffff. */
    static const uint32_t states[] = {0, 1, 0x7fffffff, 0x80000000, 0xffffffff, 0x25d60fe5, 0x26f5b720};
    enum { NODES = sizeof nodes / sizeof *nodes, EDGES = sizeof edges / sizeof *edges, STATES = sizeof states / sizeof *states };
    for (int n = 0; n < NODES; n++)
        for (int e = 0; e < EDGES; e++)
            for (int s = 0; s < STATES; s++)
                check_plant(&(struct counts){states[s], nodes[n], edges[e]});
}

/* Numbers of nodes with each number of edges. */
static void check_counts(uint32_t step)
{
    for (uint32_t nodes = 1; nodes <= MOWQACHI_GENERATED_NODES; nodes += step)
        for (uint32_t edges = 1; edges <= MOWQACHI_GENERATED_EDGES; edges++)
            check_plant(&(struct counts){draw(UINT32_MAX), nodes, edges});
}

/* Plants in which equal edges became one: two, three and three of four edges of one node, and what is met on the way from state 0. */
static void check_equal(void)
{
    static const struct counts some[] = {{107873, 1, 2}, {30927704, 1, 3}, {30927704, 1, 4}};
    for (size_t k = 0; k < sizeof some / sizeof *some; k++)
        check_plant(&some[k]);
    for (uint32_t first = 0; first < SCANNED; first++) {
        struct counts c = {first, 1 + draw(3), MOWQACHI_GENERATED_EDGES};
        uint32_t state = c.state;
        write_generated(&plant, &state, c.nodes, c.edges);
        if (tally_of(span_of(&plant)).edges < c.nodes * c.edges)
            check_plant(&c);
    }
}

/* Buffers about as long as asked for, short ones with counts that would be refused too. */
static void check_lengths(void)
{
    static const struct counts some[] = {{0, 1, 1}, {1, 256, 4}, {0xffffffff, 3, 2}, {2, 0, 1}, {3, 257, 4}, {4, 256, 5}, {5, 1, 0}};
    static const size_t outs[] = {0, 1, 4, 16380, 16383, 16384, 16385, 16388, 17001}, works[] = {0, 1, 32764, 32767, 32768, 32769, 33001};
    for (size_t c = 0; c < sizeof some / sizeof *some; c++)
        for (size_t i = 0; i < sizeof outs / sizeof *outs; i++)
            for (size_t k = 0; k < sizeof works / sizeof *works; k++)
                check_bytes(&some[c], (struct room){{outs[i]}, works[k]});
}

static uint32_t draw_letter(void)
{
    return range(draw(MOWQACHI_LABELS / 2), MOWQACHI_LABELS / 2 + draw(MOWQACHI_LABELS / 2));
}

/* What the library says of the plant. */
static void check_accepted(const struct counts *c)
{
    static uint8_t cuts[MOWQACHI_GENERATED_NODES];
    struct span found;
    draw_path(MOST_LETTERS, draw_letter);
    for (uint32_t x = 0; x < c->nodes; x++)
        cuts[x] = (uint8_t)draw(MOWQACHI_SITES);
    struct asked search = {OLD_SEARCH, {span_of(&plant), span_of(&path)}, {0}};
    struct asked cut = {CUT, {span_of(&plant), {cuts, c->nodes}}, {draw(MOWQACHI_SITES)}};
    if (call(&search, &found) != 0 || call(&cut, &found) != 0)
        fail_at(c, "not accepted by the library");
}

/* The inspector finds the plant, and not one with another site, another word or one word less. */
static void check_origin(const struct counts *c)
{
    struct draft changed = plant;
    size_t words = words_of(span_of(&plant)), at = 1 + draw((uint32_t)words - 1);
    if (!origin_of(span_of(&plant), c->state, c->nodes, c->edges).same)
        fail_at(c, "not found by the inspector");
    changed.bytes[3] ^= 1;
    struct origin sited = origin_of(span_of(&changed), c->state, c->nodes, c->edges);
    changed.bytes[4 * at] ^= 1;
    struct origin other = origin_of(span_of(&changed), c->state, c->nodes, c->edges);
    struct origin less = origin_of(upto(span_of(&plant), words - 1), c->state, c->nodes, c->edges);
    if (sited.same || sited.at != 0 || other.same || other.at != at || less.same || less.at != words - 1)
        fail_at(c, "another difference for the inspector");
}

static void check_drawn(void)
{
    struct counts c = {draw(UINT32_MAX), draw(MOWQACHI_GENERATED_NODES + 10), draw(MOWQACHI_GENERATED_EDGES + 2)};
    check_bytes(&c, draw_room(GENERATE));
    if (check_plant(&c) == 0) {
        check_accepted(&c);
        check_origin(&c);
    }
}

/* Plants one after another, with refusals in between, from a state that is lent on. */
static void check_row(uint32_t state, long count)
{
    uint32_t ours = state;
    for (long r = 0; r < count; r++) {
        struct counts c = {state, draw(MOWQACHI_GENERATED_NODES + 10), draw(MOWQACHI_GENERATED_EDGES + 2)};
        struct asked asked = {GENERATE, {{NULL, 0}}, {c.state, c.nodes, c.edges}};
        struct span found;
        uint32_t number = call(&asked, &found);
        if (number == 0) {
            struct draft written = {.len = 0};
            put_bytes(&written, found);
            write_generated(&plant, &ours, c.nodes, c.edges);
            must_be("a plant in a row", plant, written);
        }
        state = word_left();
        if (state != ours || number != (refuses(&c) ? MOWQACHI_CUT : 0))
            fail_at(&c, "another state or number in a row");
    }
}

int main(int argc, char **argv)
{
    long count = argc > 1 ? atol(argv[1]) : 0;
    check_limits();
    check_counts(count < MANY ? 10 : 1);
    check_equal();
    check_lengths();
    for (long r = 0; r < count; r++)
        check_drawn();
    check_row(0, count);
    printf("generate: %ld counts, %ld refused with 11; %ld plants with equal edges; %ld calls in a row\n",
           accepted + refused, refused, merged, count);
    if (merged == 0)
        fail("no plant with equal edges");
    return 0;
}
