#include "reached.h"

#include <string.h>

#include "mowqachi.h"

/* One pass: doors are reached, and targets of reached nodes' edges, if they are nodes of the part. Whether one is new. */
static bool reach_more(struct nodes *reached, const struct nodes *own, struct span part)
{
    bool more = false, on = false;
    for (size_t i = 1; i < words_of(part); i++) {
        uint32_t w = word_at(part, i);
        bool node = kind_of(w) == NODE;
        if (node ? door_bit(w) : on && has_node(own, node_of(w))) {
            more |= !has_node(reached, node_of(w));
            add_node(reached, node_of(w));
        }
        if (node)
            on = has_node(reached, node_of(w));
    }
    return more;
}

void find_reached(struct nodes *reached, struct span part)
{
    struct nodes own;
    collect(&own, part, NODE);
    memset(reached, 0, sizeof *reached);
    while (reach_more(reached, &own, part))
        ;
}

static struct side side_of(struct span part)
{
    struct side side = {.part = part};
    find_reached(&side.reached, part);
    return side;
}

/* The word at which a side is; 0, which is no word of a part, behind the last one. */
static uint32_t word_here(const struct side *side)
{
    return side->at < words_of(side->part) ? word_at(side->part, side->at) : 0;
}

/* On to the next word of a reached node. Edges right behind one are of the same node, and right behind the header there are none. */
static void step(struct side *side)
{
    bool on = true;
    for (side->at++; side->at < words_of(side->part); side->at++) {
        uint32_t w = word_here(side);
        if (kind_of(w) == NODE)
            on = has_node(&side->reached, node_of(w));
        if (on)
            return;
    }
}

/* What may come next behind the same words, in the order of a part: an edge of the node before, a node by its number, nothing. */
static unsigned rank(const struct side *side)
{
    uint32_t w = word_here(side);
    if (w == 0)
        return MOWQACHI_NODES + 1;
    return kind_of(w) == NODE ? 1 + node_of(w) : 0;
}

/* Nodes ascend and edges stand behind theirs, so the reached nodes and their words are the same if these words are, one after another. */
bool find_difference(struct span first, struct span second, struct side sides[2])
{
    bool same = site_of(word_at(first, 0)) == site_of(word_at(second, 0));
    sides[0] = side_of(first);
    sides[1] = side_of(second);
    while (same && word_here(&sides[0]) != 0) {
        step(&sides[0]);
        step(&sides[1]);
        same = word_here(&sides[0]) == word_here(&sides[1]);
    }
    sides[0].stands = rank(&sides[0]) <= rank(&sides[1]);
    sides[1].stands = rank(&sides[1]) <= rank(&sides[0]);
    return !same;
}
