/* Labels outside a range, on random plants. For a path with label words of sort 2 both searches list what they list for the same path with
   ranges alone, in which each such word is an or of what lies below its range and what lies above.
   outside COUNT: so many plants, each with a path. */
#include <stdio.h>
#include <stdlib.h>

#include "plants.h"

/* With ranges alone a letter may be two labels and their or: a path then has 10 labels at most, and 6 operands that wait. */
enum { MOST_LETTERS = 5, UNLINKED = 2000 };

/* Of the links, and the ends of ranges: around the least label and the greatest. UNLINKED is none of them. */
static const uint32_t labels[] = {0, 1, 2, 4093, 4094, 4095};
enum { LABELS = sizeof labels / sizeof *labels };

static uint32_t draw_letter(void)
{
    uint32_t w = draw_range(labels, LABELS);
    return draw(4) == 0 ? w : w + (OUTSIDE << 24);
}

/* What is outside, as ranges. Where nothing is, the range is one that no link is in. */
static void put_outside(struct draft *d, uint32_t low, uint32_t high)
{
    bool below = low > 0, above = high < MOWQACHI_LABELS - 1;
    if (below)
        put(d, range(0, low - 1));
    if (above)
        put(d, range(high + 1, MOWQACHI_LABELS - 1));
    if (below && above)
        put(d, OR);
    if (!below && !above)
        put(d, range(UNLINKED, UNLINKED));
}

/* The path with ranges alone. */
static struct draft with_ranges(void)
{
    struct draft d = {.len = 4};
    for (size_t i = 1; i < words_of(span_of(&path)); i++) {
        uint32_t w = word_at(span_of(&path), i);
        if (kind_of(w) == LABEL && sort_of(w) == OUTSIDE)
            put_outside(&d, low_of(w), high_of(w));
        else
            put(&d, w);
    }
    end_path(&d);
    return d;
}

/* Whether anything is listed. */
static bool check(void)
{
    static struct draft parts[SITES];
    draw_plant(true, labels, LABELS);
    draw_path(MOST_LETTERS, draw_letter);
    struct draft ranges = with_ranges();
    cut_up(&plant, draw_cuts(SITES), parts, SITES);
    struct draft expected = written(OLD_SEARCH, &plant, span_of(&ranges), none);
    must_be("old search", expected, written(OLD_SEARCH, &plant, span_of(&path), none));
    must_be("joined list, ranges alone", expected, joined(&(struct question){parts, SITES, none, span_of(&ranges)}));
    must_be("joined list", expected, joined(&(struct question){parts, SITES, none, span_of(&path)}));
    return words_of(span_of(&expected)) > 1;
}

int main(int argc, char **argv)
{
    long count = argc > 1 ? atol(argv[1]) : 0, listed = 0;
    for (long r = 0; r < count; r++)
        listed += check();
    printf("outside: %ld wholes, %ld of these with a list that is not empty, as with ranges alone\n", count, listed);
    return 0;
}
