/* Groups of the caller's own, on random plants. A call with groups leaves what the call without leaves for the path in which each group word
   is turned into the group's range word, and with our groups what the call without leaves for the path itself: also where the path is damaged,
   and in buffers of any length. And with the same groups the joined list is the old search's.
   groups COUNT: so many parts, and so many wholes, each with groups and a path. */
#include <stdio.h>
#include <stdlib.h>

#include "plants.h"

enum { MOST_LETTERS = 8 };

/* Of the links, and the ends of ranges: both sides of every end of our groups. */
static const uint32_t labels[] = {0, 255, 256, 1023, 1024, 1535, 1536, 1791, 1792, 2047, 2048, 3071, 3072, 4031, 4032, 4095};
enum { LABELS = sizeof labels / sizeof *labels };

static uint32_t draw_letter(void)
{
    switch (draw(4)) {
    case 0: return draw_range(labels, LABELS);
    case 1: return draw_range(labels, LABELS) + (OUTSIDE << 24);
    default: return 0x51000000 + draw(MOWQACHI_GROUP_COUNT);
    }
}

static void draw_question(bool whole)
{
    draw_plant(whole, labels, LABELS);
    draw_path(MOST_LETTERS, draw_letter);
    draw_groups(labels, LABELS);
}

/* A bit turned, and now and then some bytes short. */
static void damage_path(void)
{
    path.bytes[draw((uint32_t)path.len)] ^= (uint8_t)(1u << draw(8));
    path.len -= draw(8) == 0 ? draw(8) : 0;
}

/* The path with range words for its group words. A header, and a word with a bit that no group word has, stay as they are. */
static struct draft with_ranges(void)
{
    struct draft d = path;
    for (size_t i = 1; i < words_of(span_of(&path)); i++) {
        d.len = 4 * i;
        put(&d, loaded(word_at(span_of(&path), i), span_of(&groups)));
    }
    d.len = path.len;
    return d;
}

static void compare(enum call name, struct span calls)
{
    struct draft ranges = with_ranges();
    struct asked plain = {name, {span_of(&plant), span_of(&path), calls}, {0}}, ranged = {name, {span_of(&plant), span_of(&ranges), calls}, {0}};
    struct asked ours = with_groups(&plain, our_groups), own = with_groups(&plain, span_of(&groups));
    if (!leave_the_same(&plain, &ours))
        fail(call_names[plain.call]);
    if (!leave_the_same(&ranged, &own))
        fail(call_names[own.call]);
}

static void check_part(void)
{
    draw_question(false);
    struct draft calls = draw_calls();
    if (draw(2) == 0)
        damage_path();
    compare(FIRST_REPLY, none);
    compare(SECOND_REPLY, span_of(&calls));
}

/* Whether the list is another than by our groups. */
static bool check_whole(void)
{
    static struct draft parts[SITES];
    draw_question(true);
    cut_up(&plant, draw_cuts(SITES), parts, SITES);
    struct draft list = written(OLD_SEARCH_GROUPED, &plant, span_of(&groups), span_of(&path));
    struct draft by_ours = written(OLD_SEARCH, &plant, span_of(&path), none);
    must_be("joined list", list, joined(&(struct question){parts, SITES, span_of(&groups), span_of(&path)}));
    compare(OLD_SEARCH, none);
    damage_path();
    compare(OLD_SEARCH, none);
    return !equal(&list, &by_ours);
}

int main(int argc, char **argv)
{
    long count = argc > 1 ? atol(argv[1]) : 0, others = 0;
    for (long r = 0; r < count; r++) {
        check_part();
        others += check_whole();
    }
    printf("groups: %ld parts and %ld wholes, %ld of these with another list than by our groups, as with their ranges\n", count, count, others);
    return 0;
}
