/* Links to removed nodes, on random plants. Some nodes of a whole are taken out, and the links to them stay in the parts. Where no walk from the
   root can step on one of these, both trips run, the joined list is the old search's for the whole without them, and the second replies hold just
   the listed nodes. Where one can, the hub gives 14. The old search and the cutter, handed all of it in one file, give 8 either way.
   idle COUNT: so many plants, each with a path. */
#include <stdio.h>
#include <stdlib.h>

#include "plants.h"
#include "walks.h"

enum { MOST_LETTERS = 6 };

static const uint32_t labels[] = {0, 1, 2};
enum { LABELS = sizeof labels / sizeof *labels };

static struct nodes removed;
static struct draft parts[MOWQACHI_SITES];

static uint32_t draw_letter(void)
{
    uint32_t label = labels[draw(LABELS)];
    return draw(4) == 0 ? draw_range(labels, LABELS) + draw(2) * (OUTSIDE << 24) : range(label, label);
}

/* A plant with links to removed nodes, and a path. It is cut up for so many sites while these nodes are there. */
static void draw_question(uint32_t sites)
{
    draw_plant(true, labels, LABELS);
    draw_path(MOST_LETTERS, draw_letter);
    cut_up(&plant, draw_cuts(sites), parts, sites);
    removed = (struct nodes){{0}};
    for (uint32_t x = 0; x < MOST_NODES; x++)
        if (x != root && draw(3) == 0)
            add_node(&removed, x);
    plant = without(&plant, &removed, true);
    for (uint32_t s = 0; s < sites; s++)
        parts[s] = without(&parts[s], &removed, true);
}

static void must_refuse(enum call name, const struct draft *x, struct span y, uint32_t number)
{
    struct asked asked = {name, {span_of(x), y}, {0}};
    struct span found;
    if (call(&asked, &found) != number)
        fail(call_names[name]);
}

static size_t count_words(const struct draft *d, unsigned kind)
{
    size_t count = 0;
    for (size_t i = 0; i < words_of(span_of(d)); i++)
        count += kind_of(word_at(span_of(d), i)) == kind;
    return count;
}

/* Both trips, from the first replies on. */
static void run_to_end(const struct question *q, const struct draft *firsts)
{
    struct draft rest = without(&plant, &removed, false), list = written(OLD_SEARCH, &rest, span_of(&path), none);
    struct draft calls = written(CALL_LIST, firsts, none, none), seconds = replies(q, SECOND_REPLY, span_of(&calls));
    must_be("joined list", list, written(JOIN, &seconds, none, none));
    if (count_words(&seconds, ANSWER) != count_words(&list, ANSWER))
        fail("the second replies do not hold just the listed nodes");
}

/* Whether the replies name a removed node. */
static bool named(const struct draft *firsts)
{
    for (size_t i = 0; i < words_of(span_of(firsts)); i++) {
        uint32_t w = word_at(span_of(firsts), i);
        if (kind_of(w) == REACH && has_node(&removed, pair_node(w)))
            return true;
    }
    return false;
}

/* How many plants had a walked link, how many idle ones alone, for which reasons, and in how many of these a reply names a removed node. */
static struct {
    long walked, idle, reasons[REASONS], named;
} met;

static void count_in(unsigned reasons, const struct draft *firsts)
{
    if (reasons >> WALKED & 1) {
        met.walked++;
        return;
    }
    met.idle += reasons != 0;
    met.named += named(firsts);
    for (int k = 0; k < REASONS; k++)
        met.reasons[k] += reasons >> k & 1;
}

static void check(void)
{
    uint32_t sites = 1 + draw(MOWQACHI_SITES);
    draw_question(sites);
    struct question q = {parts, sites, none, span_of(&path)};
    struct draft firsts = replies(&q, FIRST_REPLY, none);
    unsigned reasons = reasons_of_links(&removed);
    count_in(reasons, &firsts);
    if (reasons != 0) {
        must_refuse(OLD_SEARCH, &plant, span_of(&path), MOWQACHI_TARGET);
        must_refuse(CUT, &plant, draw_cuts(sites), MOWQACHI_TARGET);
    }
    if (reasons >> WALKED & 1)
        must_refuse(CALL_LIST, &firsts, none, MOWQACHI_DOOR);
    else
        run_to_end(&q, &firsts);
}

static void print_met(long count)
{
    static const char *const names[REASONS] = {"", "behind a stopped node", "where no walk comes", "by label", "by state"};
    printf("idle: %ld plants, %ld with a walked link to a removed node: 14; %ld with idle ones: listed as without them", count, met.walked, met.idle);
    for (int k = WALKED + 1; k < REASONS; k++)
        printf(", %ld %s", met.reasons[k], names[k]);
    printf("; in %ld of these a reply names one\n", met.named);
}

int main(int argc, char **argv)
{
    long count = argc > 1 ? atol(argv[1]) : 0;
    for (long r = 0; r < count; r++)
        check();
    print_met(count);
    for (int k = WALKED + 1; k < REASONS; k++)
        if (count > 0 && met.reasons[k] == 0)
            fail("a kind of idle link is missing");
    return 0;
}
