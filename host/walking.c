/* Walks beside listed nodes. On random plants a node that the old search lists has a walk, byte by byte the one that this test finds by another
   method, and the checker says yes to it; any other node has 20. Damaged walks, and walks at random, longer than need be, through stopped nodes or
   with labels that the path does not accept, are walks to the checker exactly if they are to the inspector, which reads the path without states. The
   buffers and the yes lie among other bytes, in any order and of many lengths; of all these just the output, the working buffer and the yes change.
   With our groups the calls with groups leave what the others leave, whatever is damaged. And each number stands on both sides of its limit.
   walking COUNT: so many plants, each with a path and groups. */
#include <stdio.h>
#include <stdlib.h>
#include <string.h>

#include "among.h"
#include "checks.h"
#include "plants.h"
#include "spelled.h"
#include "walks.h"

enum { MOST_LETTERS = 6, MOST_LINKS = 12, RING = (MOWQACHI_WALK_WHOLE_WORDS - 1) / 2, LONGEST = MOWQACHI_WALK_WORDS - 1, NODE_BITS = 16 };

static const uint32_t labels[] = {0, 1, 2};
enum { LABELS = sizeof labels / sizeof *labels };

/* Walks that were found, and the most links of one; nodes without; walks that were checked, and how many of them were such. */
static struct met {
    long found, links, unlisted, checked, yes;
} met;

static uint32_t draw_letter(void)
{
    uint32_t label = labels[draw(LABELS)];
    switch (draw(8)) {
    case 0: return EMPTY_WORD;
    case 1: return 0x51000000 + draw(MOWQACHI_GROUP_COUNT);
    case 2: return draw_range(labels, LABELS) + draw(2) * (OUTSIDE << 24);
    default: return range(label, label);
    }
}

static void check(const char *what, const struct asked *asked, struct room room, struct due due)
{
    if (too_short(asked->call, &room))
        due = (struct due){.result = MOWQACHI_BUFFER};
    const char *wrong = check_among(asked, room, &due);
    if (wrong != NULL) {
        printf("%s, %s: ", what, call_names[asked->call]);
        fail(wrong);
    }
}

/* The check of a walk to a node of the plant, with any yes before it. */
static void check_yes(const char *what, uint32_t node, struct span walk, struct room room)
{
    struct asked asked = {CHECK_WALK_GROUPED, {span_of(&plant), span_of(&groups), span_of(&path), walk}, {draw(UINT32_MAX), node}};
    bool yes = leads_to(node, asked.in[0], asked.in[1], asked.in[2], walk);
    check(what, &asked, room, (struct due){.word = yes});
    met.checked++;
    met.yes += yes;
}

/* The call for a walk to a node, which is listed or not. */
static void check_node(uint32_t node, bool listed)
{
    struct asked asked = {WALK_GROUPED, {span_of(&plant), span_of(&groups), span_of(&path)}, {0, node}};
    struct draft walk;
    if (found_walk(node, &walk) != listed)
        fail("the old search lists another node");
    check("walk", &asked, draw_room(asked.call),
          listed ? (struct due){.files = {span_of(&walk)}} : (struct due){.result = MOWQACHI_UNLISTED});
    check_yes("walk", node, span_of(&walk), draw_room(CHECK_WALK_GROUPED));
    if (listed && !leads_to(node, asked.in[0], asked.in[1], asked.in[2], span_of(&walk)))
        fail("a walk that the inspector does not accept");
    met.found += listed;
    met.unlisted += !listed;
    met.links = listed && (long)walk.len / 4 - 1 > met.links ? (long)walk.len / 4 - 1 : met.links;
}

/* Every node of the plant, one that it has not, and one that is a node in its low bits. */
static void check_nodes(void)
{
    struct draft list = written(OLD_SEARCH_GROUPED, &plant, span_of(&groups), span_of(&path));
    struct nodes listed;
    collect(&listed, span_of(&list), ANSWER);
    for (uint32_t x = 0; x <= MOST_NODES; x++)
        check_node(x, has_node(&listed, x));
    check_node(draw(MOST_NODES) + (1u << (NODE_BITS + draw(32 - NODE_BITS))), false);
}

/* Edges one after another from the root, each of the node where the last one led to, stopped or not; now and then one of the root. */
static struct draft draw_walk(void)
{
    struct draft walk = {.len = 4};
    struct span whole = span_of(&plant);
    size_t place = root_at(whole);
    for (uint32_t k = draw(MOST_LINKS); k > 0 && edges_at(whole, place).len > 0; k--) {
        struct span edges = edges_at(whole, place);
        uint32_t w = word_at(edges, draw((uint32_t)words_of(edges)));
        put(&walk, w);
        place = draw(64) == 0 ? root_at(whole) : node_at(whole, node_of(w));
    }
    end_file(&walk, 0, 0);
    return walk;
}

/* A bit of each byte turned; and a length that is not the header's. */
static void check_damaged(uint32_t node, struct draft walk)
{
    for (size_t i = 0; i < walk.len; i++) {
        struct draft damaged = walk;
        damaged.bytes[i] ^= (uint8_t)(1u << draw(8));
        check_yes("damaged walk", node, span_of(&damaged), room_for(CHECK_WALK_GROUPED));
    }
    walk.len -= 1 + draw((uint32_t)walk.len);
    check_yes("cut walk", node, span_of(&walk), room_for(CHECK_WALK_GROUPED));
}

/* Whether the calls with our groups leave what those without leave: now and then with a bit turned in one of the inputs. */
static void check_groups_of(struct draft walk)
{
    struct draft whole = plant, letters = path, *const files[] = {&whole, &letters, &walk};
    struct draft *damaged = files[draw(3)];
    if (draw(2) == 0)
        damaged->bytes[draw((uint32_t)damaged->len)] ^= (uint8_t)(1u << draw(8));
    struct asked plain[] = {{WALK, {span_of(&whole), span_of(&letters)}, {0, draw(MOST_NODES)}},
                            {CHECK_WALK, {span_of(&whole), span_of(&letters), span_of(&walk)}, {draw(UINT32_MAX), draw(MOST_NODES)}}};
    for (int k = 0; k < 2; k++) {
        struct asked ours = with_groups(&plain[k], our_groups);
        if (!leave_the_same(&plain[k], &ours))
            fail(call_names[plain[k].call]);
    }
}

static void check_drawn(void)
{
    struct draft walk, any;
    uint32_t end;
    draw_plant(true, labels, LABELS);
    if (draw(2) == 0)
        start_all();
    draw_path(MOST_LETTERS, draw_letter);
    draw_groups(labels, LABELS);
    find_walks(span_of(&groups));
    check_nodes();
    any = draw_walk();
    end = draw(4) == 0 ? draw(MOST_NODES) : end_of(span_of(&plant), span_of(&any));
    check_yes("walk at random", end, span_of(&any), draw_room(CHECK_WALK_GROUPED));
    if (found_walk(draw(MOST_NODES), &walk))
        check_damaged(end_of(span_of(&plant), span_of(&walk)), walk);
    check_groups_of(any);
}

/* A file of words that begin with a header of any kind, which tells how many there are. */
static void put_file(struct draft *d, const uint32_t *words)
{
    d->len = 0;
    do
        put(d, words[d->len / 4]);
    while (words_of(span_of(d)) < length_of(words[0]));
}

/* Document 01's plant, with the path 5 then 6 then 5 and our groups. */
static void put_document(void)
{
    static const uint32_t whole[] = {0x10000007, 0x20030001, 0x30050002, 0x20000002, 0x30060003, 0x20000003, 0x30050002};
    static const uint32_t through[] = {0x40300006, 0x50005005, 0x50006006, THEN, 0x50005005, THEN};
    put_file(&plant, whole);
    put_file(&path, through);
    groups.len = 0;
    put_bytes(&groups, our_groups);
}

static const uint32_t around[] = {4, 0x30050002, 0x30060003, 0x30050002};

/* Every byte of a walk in turn, with every value. */
static void check_bytes(void)
{
    struct draft walk;
    put_document();
    put_file(&walk, around);
    for (size_t k = 0; k < 256 * walk.len; k++) {
        struct draft changed = walk;
        changed.bytes[k / 256] = (uint8_t)k;
        check_yes("changed walk", 2, span_of(&changed), room_for(CHECK_WALK_GROUPED));
    }
}

/* The walk and words behind it, at every length. */
static void check_ends(void)
{
    struct draft longer;
    put_document();
    put_file(&longer, around);
    put_bytes(&longer, span_of(&plant));
    for (size_t len = 0; len <= longer.len; len++)
        check_yes("longer walk", 2, (struct span){longer.bytes, len}, room_for(CHECK_WALK_GROUPED));
}

/* What refuses a call about a walk to a node of the plant: the inspector's number, and then, where a walk is looked for, 20 if there is none. */
static uint32_t refusal_of(const struct asked *asked, bool listed)
{
    uint32_t number = check_question(asked->in[0], asked->in[1], asked->in[2]).number;
    return number != 0 || listed || says_yes(asked->call) ? number : MOWQACHI_UNLISTED;
}

/* Both calls about this walk to node 2, or about a node that has none, with what stands in the drafts, right or wrong. */
static void check_both(struct room room, uint32_t node, const struct draft *walk)
{
    bool listed = node == 2;
    struct asked find = {WALK_GROUPED, {span_of(&plant), span_of(&groups), span_of(&path)}, {0, node}}, yes = find;
    struct due due = {.result = refusal_of(&find, listed)};
    yes.call = CHECK_WALK_GROUPED;
    yes.in[3] = span_of(walk);
    yes.values[0] = draw(UINT32_MAX);
    if (due.result == 0)
        due.files[0] = span_of(walk);
    check("in any room", &find, room, due);
    due = (struct due){.result = refusal_of(&yes, listed)};
    due.word = due.result == 0 && listed;
    room.out[0] = 0;
    check("in any room", &yes, room, due);
}

/* From the front: nothing wrong, a node that is not listed, then also the path, also the groups, also the whole. */
static void spoil(int wrong, uint32_t *node)
{
    put_document();
    *node = wrong > 0 ? 3 : 2;
    path.len -= wrong > 1 ? 4 : 0;
    groups.len -= wrong > 2 ? 4 : 0;
    plant.bytes[6] = wrong > 3 ? 2 : 3;
}

/* Buffers about as long as asked for, with inputs of which more and more would be refused. */
static void check_lengths(void)
{
    static const size_t works[] = {0, 1, 32764, 32767, 32768, 32769, 33001}, outs[] = {0, 1, 4, 16380, 16383, 16384, 16385, 17001};
    enum { WORKS = sizeof works / sizeof *works, OUTS = sizeof outs / sizeof *outs, WRONG = 5 };
    struct draft walk;
    uint32_t node;
    put_file(&walk, around);
    for (size_t k = 0; k < WORKS * OUTS * WRONG; k++) {
        spoil((int)(k % WRONG), &node);
        check_both((struct room){{outs[k / WRONG % OUTS]}, works[k / WRONG / OUTS]}, node, &walk);
    }
}

/* A plant of so many words: node 2 is the root, and has a link to itself. */
static void put_many(size_t words)
{
    plant.len = 4;
    put(&plant, 0x20030002);
    put(&plant, 0x30050002);
    while (words_of(span_of(&plant)) < words)
        put(&plant, 0x20000000 + (uint32_t)plant.len);
    end_file(&plant, 0, 0x10000000);
}

/* Wholes of about 1,024 words, and some bytes more. */
static void check_sizes(void)
{
    static const uint32_t one[] = {2, 0x30050002}, five[] = {0x40100002, 0x50005005};
    struct draft walk;
    put_document();
    put_file(&path, five);
    put_file(&walk, one);
    for (size_t len = 4 * (MOWQACHI_WALK_WHOLE_WORDS - 2); len <= 4 * (MOWQACHI_WALK_WHOLE_WORDS + 2); len++) {
        put_many(len / 4);
        plant.len = len;
        check_both(room_for(WALK), 2, &walk);
    }
}

/* The walk of so many links round the ring, which may be longer than a walk's file. */
static struct draft round_ring(uint32_t links)
{
    struct draft walk = {.len = 4};
    for (uint32_t k = 1; k <= links; k++)
        put(&walk, 0x30000000 + k % RING);
    end_file(&walk, 0, 0);
    return walk;
}

/* In the ring a walk is made by its number of links. That to this node has so many, the fewest that the path accepts; or there is none, if 0. */
static void check_ring(uint32_t ahead, uint32_t turn, uint32_t node, uint32_t links)
{
    struct draft walk = round_ring(links);
    fill_ring(&plant, RING);
    fill_turns(&path, ahead, turn);
    struct asked asked = {WALK_GROUPED, {span_of(&plant), span_of(&groups), span_of(&path)}, {0, node}};
    struct due due = {.result = links == 0 ? MOWQACHI_UNLISTED : links > LONGEST ? MOWQACHI_RESULT : 0};
    if (due.result == 0)
        due.files[0] = span_of(&walk);
    check("ring", &asked, draw_room(asked.call), due);
    check("ring", &asked, room_for(asked.call), due);
    long before = met.yes;
    check_yes("ring", node, span_of(&walk), room_for(CHECK_WALK_GROUPED));
    if (met.yes - before != (links > 0 && links <= LONGEST))
        fail("another answer than is due");
}

/* 511 is 7 times 73: in turns of 7 links no walk comes to node 1, and in turns of 13 or 15 one comes to every node. */
static void check_rings(void)
{
    groups.len = 0;
    put_bytes(&groups, our_groups);
    check_ring(0, 15, 4095 % RING, 4095);
    check_ring(0, 15, 4110 % RING, 4110);
    check_ring(1, 13, 4096 % RING, 4096);
    check_ring(1, 13, 4083 % RING, 4083);
    check_ring(0, 7, 504, 504);
    check_ring(0, 7, 1, 0);
    check_ring(14, 1, 13, 13 + RING);
    check_ring(0, 1, RING, 0);
}

int main(int argc, char **argv)
{
    long count = argc > 1 ? atol(argv[1]) : 0;
    check_bytes();
    check_ends();
    check_lengths();
    check_sizes();
    check_rings();
    met = (struct met){0};
    for (long r = 0; r < count; r++)
        check_drawn();
    printf("walking: %ld plants, %ld listed nodes with a walk of at most %ld links, %ld others with 20; %ld walks checked, yes to %ld\n", count,
           met.found, met.links, met.unlisted, met.checked, met.yes);
    return 0;
}
