#include "walks.h"

#include <string.h>

#include "automaton.h"

static struct automaton automaton;

static struct link {
    unsigned from, label, to;
} links[MOWQACHI_PART_WORDS];
static size_t link_count;

static void read_links(void)
{
    unsigned from = 0;
    link_count = 0;
    for (size_t i = 1; i < words_of(span_of(&plant)); i++) {
        uint32_t w = word_at(span_of(&plant), i);
        if (kind_of(w) == NODE)
            from = node_of(w);
        else
            links[link_count++] = (struct link){from, label_of(w), node_of(w)};
    }
}

/* The states in which walks from the root come to each node, if just these are stopped. */
static void come(const struct nodes *halted, unsigned states[MOST_NODES])
{
    bool more = true;
    states[root] = 1;
    while (more) {
        more = false;
        for (size_t k = 0; k < link_count; k++) {
            struct link l = links[k];
            unsigned to = has_node(halted, l.from) ? 0 : stepped(&automaton, states[l.from], l.label) & ~states[l.to];
            states[l.to] |= to;
            more |= to != 0;
        }
    }
}

/* By the states in which walks come to where the link begins: as the plant is, and if no node were stopped. */
static enum reason reason_of(struct link l, unsigned states, unsigned unstopped)
{
    if (!has_node(&stopped, l.from) && stepped(&automaton, states, l.label) != 0)
        return WALKED;
    if (stepped(&automaton, unstopped, l.label) != 0)
        return STOPPED_AHEAD;
    if (unstopped == 0)
        return NOT_COME_TO;
    return holding(&automaton, l.label) == 0 ? NO_LETTER : NO_STATE;
}

unsigned reasons_of_links(const struct nodes *targets)
{
    static const struct nodes nobody;
    unsigned states[MOST_NODES] = {0}, unstopped[MOST_NODES] = {0}, reasons = 0;
    automaton = automaton_of(span_of(&path), our_groups);
    read_links();
    come(&stopped, states);
    come(&nobody, unstopped);
    for (size_t k = 0; k < link_count; k++)
        if (has_node(targets, links[k].to))
            reasons |= 1u << reason_of(links[k], states[links[k].from], unstopped[links[k].from]);
    return reasons;
}

/* The first of all walks from the root to a node in a state, unless none comes there. It meets no pair of a node and a state twice. */
struct arrival {
    bool come;
    size_t links;
    uint32_t words[MOST_NODES * MOWQACHI_STATES];
};
static struct arrival arrivals[MOST_NODES][MOWQACHI_STATES];

/* Whether a walk has fewer links than another, or as many and a lower one at the first difference. */
static bool is_ahead(const struct arrival *a, const struct arrival *b)
{
    size_t k = 0;
    while (a->links == b->links && k < a->links && a->words[k] == b->words[k])
        k++;
    return a->links != b->links ? a->links < b->links : k < a->links && a->words[k] < b->words[k];
}

/* A walk with a link more comes to this pair. Whether it is the first there so far. */
static bool arrive(struct arrival *at, const struct arrival *by, uint32_t word)
{
    struct arrival longer = *by;
    longer.words[longer.links++] = word;
    if (at->come && !is_ahead(&longer, at))
        return false;
    *at = longer;
    return true;
}

/* The first walks to where a link begins, in the state q, go on by it. Whether that makes a difference. */
static bool go_on(struct link l, unsigned q)
{
    const struct arrival *by = &arrivals[l.from][q];
    unsigned to = by->come && !has_node(&stopped, l.to) ? stepped(&automaton, 1u << q, l.label) : 0;
    bool more = false;
    for (unsigned p = 0; p < MOWQACHI_STATES; p++)
        if (to >> p & 1)
            more |= arrive(&arrivals[l.to][p], by, (uint32_t)(EDGE << 28 | l.label << 16 | l.to));
    return more;
}

static bool go_on_everywhere(void)
{
    bool more = false;
    for (size_t k = 0; k < link_count * MOWQACHI_STATES; k++)
        more |= go_on(links[k / MOWQACHI_STATES], k % MOWQACHI_STATES);
    return more;
}

/* Until no walk is ahead of the first ones: a walk that is ahead of another stays so if both go on in the same way. */
void find_walks(struct span groups)
{
    automaton = automaton_of(span_of(&path), groups);
    read_links();
    memset(arrivals, 0, sizeof arrivals);
    arrivals[root][0].come = !has_node(&stopped, root);
    while (go_on_everywhere())
        ;
}

/* The first walk to a node in a state that accepts, or NULL. */
static const struct arrival *first_to(uint32_t node)
{
    const struct arrival *first = NULL;
    for (unsigned p = 0; p < MOWQACHI_STATES && node < MOST_NODES; p++) {
        const struct arrival *one = &arrivals[node][p];
        if (automaton.accepting >> p & 1 && one->come && (first == NULL || is_ahead(one, first)))
            first = one;
    }
    return first;
}

bool found_walk(uint32_t node, struct draft *walk)
{
    const struct arrival *first = first_to(node);
    walk->len = 4;
    for (size_t k = 0; first != NULL && k < first->links; k++)
        put(walk, first->words[k]);
    end_file(walk, 0, 0);
    return first != NULL;
}
