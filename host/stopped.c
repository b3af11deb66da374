/* Stopped nodes, on random plants. What a call writes is what it writes once the stopped nodes, their links and the links to them are taken
   out, so that no stopped bit is left; but a first reply has a door word for each stopped door, and the list is empty where the root is
   stopped. The cutter copies the bits and heeds them in nothing else. And the joined list is the old search's.
   stopped COUNT: so many parts, and so many wholes. */
#include <stdio.h>
#include <stdlib.h>

#include "plants.h"

static const uint32_t labels[] = {0, 1};
enum { LABELS = sizeof labels / sizeof *labels };

/* Over these labels: the empty word, 0 then 1, (0 or 1)*, 0 then (1 then 0)*, any three links, any even number of links, (any but 0, then any
   but 1)*. */
static const uint32_t paths[][7] = {
    {0x40000002, 0x60000000},
    {0x40200004, 0x50000000, 0x50001001, 0x60000001},
    {0x40200005, 0x50000000, 0x50001001, 0x60000002, 0x60000003},
    {0x40300007, 0x50000000, 0x50001001, 0x50000000, 0x60000001, 0x60000003, 0x60000001},
    {0x40300006, 0x50fff000, 0x50fff000, 0x60000001, 0x50fff000, 0x60000001},
    {0x40200005, 0x50fff000, 0x50fff000, 0x60000001, 0x60000003},
    {0x40200005, 0x52000000, 0x52001001, 0x60000001, 0x60000003},
};

static const struct nodes nobody;

static void pick_path(void)
{
    const uint32_t *words = paths[draw(sizeof paths / sizeof *paths)];
    path.len = 0;
    for (size_t i = 0; i < length_of(words[0]); i++)
        put(&path, words[i]);
}

/* A part with the stopped bit on just these nodes. */
static struct draft marked(const struct draft *part, const struct nodes *these)
{
    struct draft d = {.len = 0};
    for (size_t i = 0; i < words_of(span_of(part)); i++) {
        uint32_t w = word_at(span_of(part), i);
        bool node = kind_of(w) == NODE;
        put(&d, (node ? w & ~(uint32_t)STOPPED_BIT : w) + (node && has_node(these, node_of(w)) ? STOPPED_BIT : 0));
    }
    return d;
}

/* The first reply of the plant without its stopped nodes, with door words for the stopped doors put in. */
static struct draft with_doors(const struct draft *reply)
{
    struct draft d = {.len = 4};
    struct span from_reply = span_of(reply);
    size_t next = 1;
    for (size_t i = 1; i < words_of(span_of(&plant)); i++) {
        uint32_t w = word_at(span_of(&plant), i);
        if (kind_of(w) != NODE || !door_bit(w))
            continue;
        if (stopped_bit(w)) {
            put(&d, 0x80000000 + (root_bit(w) ? 0x10000 : 0) + node_of(w));
            continue;
        }
        do
            put(&d, word_at(from_reply, next++));
        while (next < words_of(from_reply) && kind_of(word_at(from_reply, next)) != DOOR);
    }
    end_file(&d, 0, header_of(reply));
    return d;
}

static void check_part(void)
{
    draw_plant(false, labels, LABELS);
    pick_path();
    struct draft rest = without(&plant, &stopped, false), calls = draw_calls();
    struct draft reply = written(FIRST_REPLY, &rest, span_of(&path), none);
    must_be("first reply", with_doors(&reply), written(FIRST_REPLY, &plant, span_of(&path), none));
    must_be("second reply", written(SECOND_REPLY, &rest, span_of(&path), span_of(&calls)),
            written(SECOND_REPLY, &plant, span_of(&path), span_of(&calls)));
}

/* Each site's part. Stopped nodes or not, the doors are the same. */
static void cut_plant(struct draft parts[SITES])
{
    static struct draft plain[SITES];
    struct draft running = marked(&plant, &nobody);
    struct span cuts = draw_cuts(SITES);
    cut_up(&plant, cuts, parts, SITES);
    cut_up(&running, cuts, plain, SITES);
    for (int s = 0; s < SITES; s++)
        must_be("part", marked(&plain[s], &stopped), parts[s]);
}

static void check_whole(void)
{
    static struct draft parts[SITES];
    struct draft expected = {.len = 4};
    draw_plant(true, labels, LABELS);
    pick_path();
    end_file(&expected, 0, 0xf0000000);
    if (!has_node(&stopped, root)) {
        struct draft rest = without(&plant, &stopped, false);
        expected = written(OLD_SEARCH, &rest, span_of(&path), none);
    }
    must_be("old search", expected, written(OLD_SEARCH, &plant, span_of(&path), none));
    cut_plant(parts);
    must_be("joined list", expected, joined(&(struct question){parts, SITES, none, span_of(&path)}));
}

int main(int argc, char **argv)
{
    long count = argc > 1 ? atol(argv[1]) : 0, roots = 0;
    for (long r = 0; r < count; r++) {
        check_part();
        check_whole();
        roots += has_node(&stopped, root);
    }
    printf("stopped: %ld parts and %ld wholes, %ld of these with a stopped root, as without their stopped nodes\n", count, count, roots);
    return 0;
}
