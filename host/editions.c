/* The triple edition, both ways. What the library writes is, byte by byte, what this test writes itself: of triples a whole, by marks for nodes,
   labels and targets, so that nothing is put in order and repeats vanish; of a whole its triples as they stand. A whole can be said if it comes back
   that way. The inspector's checks give the same numbers, each on both sides of its limit and in its order. The buffers and the count lie among
   other bytes, in any order and of many lengths; of all these just the output, the working buffer and the count change. Whatever order and repeats
   triples have, the whole is the same, and the old search accepts it. And generated plants come back byte by byte.
   editions COUNT: so many random triple files, wholes, generated plants and random bytes. Below 1,000 fewer of the largest files are tried. */
#include <stdio.h>
#include <stdlib.h>
#include <string.h>

#include "among.h"
#include "checks.h"
#include "plants.h"

enum { MOST_LETTERS = 4, MANY = 1000, SHOWN = 40, BLOCK = 64, MOST_TRIPLES = (MOWQACHI_TRIPLE_WORDS - 1) / 3, EDGE_WORD = 0x30000000 };

static long given[2][NUMBERS];

static _Noreturn void fail_at(struct span file, const char *what)
{
    printf("%s, of a file of %zu bytes:", what, file.len);
    for (size_t i = 0; i < words_of(file) && i < SHOWN; i++)
        printf(" %08x", (unsigned)word_at(file, i));
    printf("\n");
    exit(1);
}

/* The lowest number of a set from x on, or as many as there are nodes. */
static unsigned next_in(const struct nodes *set, unsigned x)
{
    static const uint8_t none_of[BLOCK];
    while (x < MOWQACHI_NODES && !has_node(set, x))
        x += x % (8 * BLOCK) == 0 && memcmp(set->bits + x / 8, none_of, BLOCK) == 0 ? 8 * BLOCK : 1;
    return x;
}

/* The edges of node x with label a. */
static void put_targets(struct draft *whole, struct span file, unsigned x, unsigned a)
{
    struct nodes targets = {{0}};
    for (size_t k = 0; k < triples_of(file); k++)
        if (word_at(triple_at(file, k), 0) == x && word_at(triple_at(file, k), 1) == a)
            add_node(&targets, word_at(triple_at(file, k), 2));
    for (unsigned y = next_in(&targets, 0); y < MOWQACHI_NODES; y = next_in(&targets, y + 1))
        put(whole, EDGE_WORD + (a << 16) + y);
}

static void put_edges(struct draft *whole, struct span file, unsigned x)
{
    struct nodes labels = {{0}};
    for (size_t k = 0; k < triples_of(file); k++)
        if (word_at(triple_at(file, k), 0) == x)
            add_node(&labels, word_at(triple_at(file, k), 1));
    for (unsigned a = next_in(&labels, 0); a < MOWQACHI_NODES; a = next_in(&labels, a + 1))
        put_targets(whole, file, x, a);
}

/* The whole of a triple file whose words are in their fields, also where it is over its limit. */
static void write_whole(struct draft *whole, struct span file)
{
    struct nodes ends = {{0}};
    uint32_t root_word = word_at(file, 0);
    add_node(&ends, root_word);
    for (size_t k = 0; k < triples_of(file); k++) {
        add_node(&ends, word_at(triple_at(file, k), 0));
        add_node(&ends, word_at(triple_at(file, k), 2));
    }
    whole->len = 4;
    for (unsigned x = next_in(&ends, 0); x < MOWQACHI_NODES; x = next_in(&ends, x + 1)) {
        put(whole, 0x20000000 + (x == root_word ? ROOT_BIT + DOOR_BIT : 0) + x);
        put_edges(whole, file, x);
    }
    end_file(whole, 0, 0x10000000);
}

/* The triples of an accepted whole, as its edges stand there. */
static void write_triples(struct draft *file, struct span whole)
{
    uint32_t source = 0, root_node = 0;
    file->len = 4;
    for (size_t i = 1; i < words_of(whole); i++) {
        uint32_t w = word_at(whole, i);
        if (kind_of(w) == NODE) {
            source = node_of(w);
            root_node = root_bit(w) ? source : root_node;
        } else {
            put(file, source);
            put(file, label_of(w));
            put(file, node_of(w));
        }
    }
    size_t end = file->len;
    file->len = 0;
    put(file, root_node);
    file->len = end;
}

/* A whole with site 0 and only the root as door. */
static struct draft plain(struct span whole)
{
    struct draft d = {.len = 4};
    for (size_t i = 1; i < words_of(whole); i++) {
        uint32_t w = word_at(whole, i);
        put(&d, kind_of(w) == NODE && !root_bit(w) ? w & ~(uint32_t)DOOR_BIT : w);
    }
    end_file(&d, 0, 0x10000000);
    return d;
}

/* Document 02's words for 2 and 18. */
static uint32_t refusal_of(struct span file)
{
    size_t words = words_of(file);
    if (file.len % 4 != 0 || words == 0 || words > MOWQACHI_TRIPLE_WORDS)
        return MOWQACHI_SIZE;
    bool wrong = words % 3 != 1 || word_at(file, 0) > 65535;
    for (size_t i = 1; i < words; i++)
        wrong = wrong || word_at(file, i) > (i % 3 == 2 ? 4095 : 65535);
    return wrong ? MOWQACHI_TRIPLES : 0;
}

/* Every byte of the buffers and around them. The number; at 0 the whole is `plant`. */
static uint32_t check_from(struct span file, struct room room)
{
    struct asked asked = {FROM_TRIPLES, {file}, {0}};
    uint32_t number = refusal_of(file);
    if (number == 0) {
        write_whole(&plant, file);
        number = words_of(span_of(&plant)) > MOWQACHI_PART_WORDS ? MOWQACHI_RESULT : 0;
    }
    if (check_triples(file).number != number)
        fail_at(file, "another number of the inspector");
    struct due due = {.result = too_short(FROM_TRIPLES, &room) ? MOWQACHI_BUFFER : number};
    if (due.result == 0)
        due.files[0] = span_of(&plant);
    const char *wrong = check_among(&asked, room, &due);
    if (wrong != NULL)
        fail_at(file, wrong);
    given[0][due.result]++;
    return (uint32_t)due.result;
}

/* 19: what comes back is not the whole with site 0 and only the root as door. */
static uint32_t unsaid(struct span whole, const struct draft *triples)
{
    struct draft again, expected = plain(whole);
    write_whole(&again, span_of(triples));
    return equal(&again, &expected) ? 0 : MOWQACHI_UNSAID;
}

/* The same for a whole, where `before` stands in the word of the count. The number; at 0 its triples are in the draft. */
static uint32_t check_to(struct span whole, struct room room, uint32_t before, struct draft *triples)
{
    struct asked asked = {TO_TRIPLES, {whole}, {before}};
    uint32_t number = check_whole(whole).number;
    if (number == 0) {
        write_triples(triples, whole);
        number = unsaid(whole, triples);
    }
    if (check_said(whole).number != number)
        fail_at(whole, "another number of the inspector");
    struct due due = {.result = too_short(TO_TRIPLES, &room) ? MOWQACHI_BUFFER : number};
    if (due.result == 0) {
        due.files[0] = span_of(triples);
        due.word = (uint32_t)words_of(due.files[0]);
    }
    const char *wrong = check_among(&asked, room, &due);
    if (wrong != NULL)
        fail_at(whole, wrong);
    given[1][due.result]++;
    return (uint32_t)due.result;
}

static void expect_from(const struct draft *file, uint32_t number)
{
    if (check_from(span_of(file), room_for(FROM_TRIPLES)) != number)
        fail_at(span_of(file), "another number than is due");
}

static void put_triple(struct draft *file, uint32_t source, uint32_t label, uint32_t target)
{
    put(file, source);
    put(file, label);
    put(file, target);
}

/* The triples of a file and repeats of them, so many in all, in any order. */
static struct draft shuffled(struct span file, uint32_t count)
{
    struct draft d = {.len = 0};
    uint32_t order[MOST_TRIPLES], own = (uint32_t)triples_of(file);
    draw_order(order, count);
    put(&d, word_at(file, 0));
    for (uint32_t k = 0; k < count; k++)
        put_bytes(&d, triple_at(file, order[k] < own ? order[k] : draw(own)));
    return d;
}

/* Each word in turn around the limit of its field, and with bits set far above it. */
static void check_fields(void)
{
    static const uint32_t some[] = {0, 1, 4094, 4095, 4096, 4097, 65534, 65535, 65536, 65537, 0x01000005, 0x10000007, 0x7fffffff, 0x80000000,
                                    0x80000001, 0xffff0000, 0xffffffff};
    struct draft file = {.len = 0};
    put(&file, 1);
    for (uint32_t k = 0; k < 4; k++)
        put_triple(&file, k, 5 + k % 2, 3 - k);
    for (size_t i = 0; i < words_of(span_of(&file)); i++)
        for (size_t k = 0; k < sizeof some / sizeof *some; k++) {
            struct draft changed = file;
            changed.len = 4 * i;
            put(&changed, some[k]);
            changed.len = file.len;
            expect_from(&changed, some[k] > (i % 3 == 2 ? 4095 : 65535) ? MOWQACHI_TRIPLES : 0);
        }
}

/* Lengths about none and about the limit, in bytes; with a word that is too large in its field, and without. */
static void check_sizes(void)
{
    static const size_t most[] = {22, 4 * (MOWQACHI_TRIPLE_WORDS + 4)}, least[] = {0, 4 * (MOWQACHI_TRIPLE_WORDS - 3) - 1};
    struct draft file = {.len = 0};
    while (words_of(span_of(&file)) < MOWQACHI_TRIPLE_WORDS + 4)
        put(&file, 7);
    for (int k = 0; k < 2; k++)
        for (size_t len = least[k]; len <= most[k]; len++)
            for (uint32_t high = 0; high < 2; high++) {
                file.bytes[3] = (uint8_t)high;
                bool sized = len % 4 == 0 && len > 0 && len <= 4 * MOWQACHI_TRIPLE_WORDS, counted = len / 4 % 3 == 1;
                file.len = len;
                expect_from(&file, !sized ? MOWQACHI_SIZE : !counted || high > 0 ? MOWQACHI_TRIPLES : 0);
            }
}

/* Buffers about as long as asked for, short ones with a file that would be refused too. */
static void check_lengths(void)
{
    static const size_t works[] = {0, 1, 32764, 32767, 32768, 32769, 33001};
    static const struct {
        enum call call;
        size_t outs[8];
    } calls[] = {{FROM_TRIPLES, {0, 1, 4, 16380, 16383, 16384, 16385, 17001}}, {TO_TRIPLES, {0, 4, 16384, 49140, 49143, 49144, 49145, 50001}}};
    struct draft files[4] = {{.len = 0}}, triples;
    put(&files[1], 9);
    put(&files[2], 0x10000002);
    put(&files[2], 0x20030009);
    put(&files[3], 0x10000002);
    put(&files[3], 0x20070009);
    for (int c = 0; c < 2; c++)
        for (int f = 0; f < 4; f++)
            for (size_t i = 0; i < 8 * (sizeof works / sizeof *works); i++) {
                struct room room = {{calls[c].outs[i % 8]}, works[i / 8]};
                if (calls[c].call == FROM_TRIPLES)
                    check_from(span_of(&files[f]), room);
                else
                    check_to(span_of(&files[f]), room, draw(UINT32_MAX), &triples);
            }
}

/* A root with links to so many other nodes, on one label, and so many loops of it: 2 + 2 * others + loops words as a whole. */
static struct draft star(uint32_t others, uint32_t loops)
{
    struct draft d = {.len = 0};
    put(&d, 40000);
    for (uint32_t k = 0; k < others; k++)
        put_triple(&d, 40000, 7, 39000 + k + (k >= 1000));
    for (uint32_t k = 0; k < loops; k++)
        put_triple(&d, 40000, k, 40000);
    return d;
}

/* On both sides of 4,096 words, in order and without repeats, or in any order and with as many as fit; and a last word that is too large is 18, also
   where 15 would come behind it. */
static void check_limit(bool many)
{
    static const uint32_t shapes[][2] = {{2047, 0}, {1000, 2094}, {0, 4094}};
    for (size_t k = 0; k < (many ? sizeof shapes / sizeof *shapes : 1); k++)
        for (uint32_t more = 0; more < 2; more++) {
            struct draft file = star(shapes[k][0], shapes[k][1] + more), mixed = shuffled(span_of(&file), MOST_TRIPLES);
            uint32_t number = more > 0 ? MOWQACHI_RESULT : 0;
            expect_from(&file, number);
            expect_from(&mixed, number);
            mixed.bytes[mixed.len - 2] = 1;
            expect_from(&mixed, MOWQACHI_TRIPLES);
        }
}

/* 4,095 triples: all equal; in descending order, each two times; and each with ends of its own, whose whole would have over 12,000 words. */
static void check_largest(void)
{
    struct draft alike = {.len = 0}, twice = {.len = 0}, apart = {.len = 0};
    put(&alike, 3);
    put(&twice, 0);
    put(&apart, 65535);
    for (uint32_t k = 0; k < MOST_TRIPLES; k++) {
        put_triple(&alike, 65535, 4095, 0);
        put_triple(&twice, 65535 - k / 8, 4095 - k / 4, 65535 - k / 2 % 1000);
        put_triple(&apart, 2 * k, 4095 - k, 2 * k + 1);
    }
    expect_from(&alike, 0);
    expect_from(&twice, 0);
    expect_from(&apart, MOWQACHI_RESULT);
}

#define W 0x10000007, 0x20030001, 0x30050002, 0x20000002, 0x30060003, 0x20000003, 0x30050002

/* Wholes that can be said and that cannot, and the order of 19 behind all other numbers of a whole. */
static const struct {
    uint32_t number, words[8];
} wholes[] = {
    {0, {W}},
    {0, {0x1f000007, 0x20030001, 0x30050002, 0x20010002, 0x30060003, 0x20010003, 0x30050002}},
    {0, {0x10000002, 0x20030001}},
    {0, {0x10000004, 0x20030001, 0x20000002, 0x30050002}},
    {0, {0x10000005, 0x20000000, 0x30050002, 0x20030001, 0x20000002}},
    {0, {0x10000004, 0x2003ffff, 0x3ffeffff, 0x3fffffff}},
    {MOWQACHI_UNSAID, {0x10000002, 0x20070001}},
    {MOWQACHI_UNSAID, {0x10000007, 0x20030001, 0x30050002, 0x20000002, 0x30060003, 0x20040003, 0x30050002}},
    {MOWQACHI_UNSAID, {0x10000007, 0x20070001, 0x30050002, 0x20000002, 0x30060003, 0x20000003, 0x30050002}},
    {MOWQACHI_UNSAID, {0x10000003, 0x20030001, 0x20000002}},
    {MOWQACHI_UNSAID, {0x10000003, 0x20000000, 0x20030001}},
    {MOWQACHI_UNSAID, {0x10000003, 0x20030001, 0x20010002}},
    {MOWQACHI_UNSAID, {0x10000005, 0x20030001, 0x20000002, 0x20000003, 0x30050001}},
    {MOWQACHI_UNSAID, {0x10000004, 0x20030001, 0x20040002, 0x30050002}},
    {MOWQACHI_SIZE, {0}},
    {MOWQACHI_HEADER, {0x10100003, 0x20030001, 0x20040002}},
    {MOWQACHI_LENGTH, {0x10000004, 0x20030001, 0x20040002}},
    {MOWQACHI_WORD, {0x10000004, 0x20070001, 0x20040002, 0x40000000}},
    {MOWQACHI_ORDER, {0x10000004, 0x20070001, 0x20040002, 0x20040002}},
    {MOWQACHI_ROOT, {0x10000003, 0x20050001, 0x20040002}},
    {MOWQACHI_TARGET, {0x10000004, 0x20070001, 0x20040002, 0x30050003}},
};

static void check_wholes(void)
{
    static const uint32_t befores[] = {0, 1, 10, 12286, 0x80000000, 0xffffffff};
    struct draft whole, triples;
    for (size_t k = 0; k < sizeof wholes / sizeof *wholes; k++) {
        whole.len = 0;
        while (whole.len < 32 && wholes[k].words[whole.len / 4] != 0)
            put(&whole, wholes[k].words[whole.len / 4]);
        for (size_t b = 0; b < sizeof befores / sizeof *befores; b++)
            if (check_to(span_of(&whole), room_for(TO_TRIPLES), befores[b], &triples) != wholes[k].number)
                fail_at(span_of(&whole), "another number than is due");
    }
}

/* Back from triples that are accepted, and there again: the set of them, and the same whole. */
static void check_return(struct span file)
{
    struct draft whole, triples;
    if (check_from(file, room_for(FROM_TRIPLES)) != 0)
        fail_at(file, "not accepted");
    whole = plant;
    if (check_to(span_of(&whole), room_for(TO_TRIPLES), draw(UINT32_MAX), &triples) != 0)
        fail_at(file, "not said again");
    struct edition edition = edition_of(file);
    if (triples_of(span_of(&triples)) != edition.triples - edition.repeats)
        fail_at(file, "another number of triples");
    check_from(span_of(&triples), room_for(FROM_TRIPLES));
    must_be("a whole that comes back", whole, plant);
}

/* The longest triple file that a whole gives, of 4,096 words, and wholes a word longer. */
static void check_long_wholes(void)
{
    struct draft file = star(0, MOWQACHI_PART_WORDS - 2), triples;
    check_return(span_of(&file));
    put(&plant, EDGE_WORD + 0xffe0000 + 40000);
    end_file(&plant, 0, 0x10000000);
    struct draft whole = plant;
    if (check_to(span_of(&whole), room_for(TO_TRIPLES), 5, &triples) != MOWQACHI_SIZE)
        fail("a whole of 4,097 words");
}

static uint32_t draw_letter(void)
{
    return range(draw(MOWQACHI_LABELS / 2), MOWQACHI_LABELS / 2 + draw(MOWQACHI_LABELS / 2));
}

/* The old search accepts the whole, with any path. */
static void check_searched(const struct draft *whole)
{
    struct span found;
    draw_path(MOST_LETTERS, draw_letter);
    struct asked search = {OLD_SEARCH, {span_of(whole), span_of(&path)}, {0}};
    if (call(&search, &found) != 0)
        fail("not accepted by the old search");
}

/* Triples of few nodes and labels, often the lowest and the highest, so that many are equal. */
static struct draft draw_file(void)
{
    uint32_t triples = draw(20), nodes = 1 + draw(6), labels = 1 + draw(4), nodes_low = draw(2) * (MOWQACHI_NODES - nodes),
             labels_low = draw(2) * (MOWQACHI_LABELS - labels);
    struct draft d = {.len = 0};
    put(&d, draw(3) == 0 ? draw(MOWQACHI_NODES) : nodes_low + draw(nodes));
    for (uint32_t k = 0; k < triples; k++)
        put_triple(&d, nodes_low + draw(nodes), labels_low + draw(labels), nodes_low + draw(nodes));
    return d;
}

static void check_drawn(void)
{
    struct draft file = draw_file(), mixed, whole;
    uint32_t triples = (uint32_t)triples_of(span_of(&file));
    check_from(span_of(&file), draw_room(FROM_TRIPLES));
    check_return(span_of(&file));
    whole = plant;
    check_searched(&whole);
    mixed = shuffled(span_of(&file), triples == 0 ? 0 : triples + draw(10));
    check_from(span_of(&mixed), room_for(FROM_TRIPLES));
    must_be("a whole of the same triples in another order", whole, plant);
}

/* A random whole of any site, with any doors, and every other time without stopped nodes: what is said of it comes back without site and doors. */
static void check_drawn_whole(void)
{
    static const uint32_t labels[] = {0, 5, 4095};
    struct draft triples, whole;
    draw_plant(true, labels, 1 + draw(3));
    plant.bytes[3] = (uint8_t)(0x10 + draw(MOWQACHI_SITES));
    if (draw(2) == 0)
        start_all();
    whole = plant;
    check_to(span_of(&whole), draw_room(TO_TRIPLES), draw(UINT32_MAX), &triples);
    if (check_to(span_of(&whole), room_for(TO_TRIPLES), draw(UINT32_MAX), &triples) != 0)
        return;
    check_from(span_of(&triples), room_for(FROM_TRIPLES));
    must_be("a whole that comes back with site 0 and one door", plain(span_of(&whole)), plant);
}

/* A generated plant has site 0 and one door, and so comes back as it was. */
static void check_generated(void)
{
    struct asked asked = {GENERATE, {{NULL, 0}}, {draw(UINT32_MAX), 1 + draw(20), 1 + draw(MOWQACHI_GENERATED_EDGES)}};
    struct draft whole = {.len = 0}, triples;
    struct span found;
    if (call(&asked, &found) != 0)
        fail("no generated plant");
    put_bytes(&whole, found);
    if (check_to(span_of(&whole), room_for(TO_TRIPLES), draw(UINT32_MAX), &triples) != 0)
        fail_at(span_of(&whole), "not said");
    check_from(span_of(&triples), room_for(FROM_TRIPLES));
    must_be("a generated plant that comes back", whole, plant);
}

/* Bytes of any sort, whose upper ones are often zero. */
static void check_noise(void)
{
    struct draft noise = {.len = draw(64)}, triples;
    uint32_t zeros = draw(2);
    for (size_t i = 0; i < noise.len; i++)
        noise.bytes[i] = (uint8_t)(zeros > 0 && i % 4 > 1 ? 0 : draw(zeros > 0 && i % 4 == 1 ? 17 : 256));
    check_from(span_of(&noise), draw_room(FROM_TRIPLES));
    if (noise.len > 3)
        noise.bytes[3] = 0x10;
    check_to(span_of(&noise), draw_room(TO_TRIPLES), draw(UINT32_MAX), &triples);
}

static void print_given(int way, const char *name)
{
    printf("editions, %s:", name);
    for (int i = 0; i < NUMBERS; i++)
        if (given[way][i] > 0)
            printf("%s %d: %ld", i > 0 ? "," : "", i, given[way][i]);
    printf("\n");
}

int main(int argc, char **argv)
{
    long count = argc > 1 ? atol(argv[1]) : 0;
    check_fields();
    check_sizes();
    check_lengths();
    check_limit(count >= MANY);
    check_largest();
    check_wholes();
    check_long_wholes();
    for (long r = 0; r < count; r++) {
        check_drawn();
        check_drawn_whole();
        check_generated();
        check_noise();
    }
    print_given(0, "from triples");
    print_given(1, "to triples");
    return 0;
}
