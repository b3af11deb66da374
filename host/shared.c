/* What replies may tell of a part (document 02, request 12): the inspector's verdict against the library, on random pairs of parts. Where it finds no
   difference, the calls for both replies leave the same for either part: for any path, groups and calls, damaged ones too, unless a call names an
   unreached node. And where only unreached nodes were changed, it finds none.
   shared COUNT: so many pairs, each with some questions. */
#include <stdio.h>
#include <stdlib.h>
#include <string.h>

#include "checks.h"
#include "plants.h"
#include "reached.h"

enum { MOST_LETTERS = 5, QUESTIONS = 6, MANY = 500, UNCHECKED = 0 };

static const uint32_t labels[] = {0, 300, 4095};
enum { LABELS = sizeof labels / sizeof *labels };

/* The plant is the first part. */
static struct draft second, calls;
static long alike, through, one_refuses, apart, told;

/* Stops with both parts and the call list, one behind another in place of the plant: each header has the length of its file. */
static _Noreturn void fail_with_both(const char *what)
{
    put_bytes(&plant, span_of(&second));
    put_bytes(&plant, span_of(&calls));
    fail(what);
}

/* Turns a bit, more often one of those where marks and small numbers are, unless the inspector would then refuse the file. Whether it did. */
static bool turn_bit(struct draft *d, unsigned kind)
{
    uint32_t at = 32 * draw((uint32_t)words_of(span_of(d))) + (draw(2) == 0 ? draw(32) : 16 * draw(2) + draw(8));
    d->bytes[at / 8] ^= (uint8_t)(1u << at % 8);
    if (kind == UNCHECKED || check_file(span_of(d), kind).number == 0)
        return true;
    d->bytes[at / 8] ^= (uint8_t)(1u << at % 8);
    return false;
}

/* Appends a node's words, if the part has it, without these marks; of its links one in so many. */
static void put_node(struct draft *to, const struct draft *part, uint32_t x, uint32_t marks, uint32_t one_in)
{
    bool on = false;
    for (size_t i = 1; i < words_of(span_of(part)); i++) {
        uint32_t w = word_at(span_of(part), i);
        bool node = kind_of(w) == NODE;
        on = node ? node_of(w) == x : on;
        if (on && (node || draw(one_in) == 0))
            put(to, node ? w & ~marks : w);
    }
}

/* The first part has few doors and links, so that nodes are unreached, or far from the doors. The second has its reached nodes, and for the others
   those of a third part: some are added, removed, stopped or linked otherwise. In half of the pairs any bit is turned, too. Whether none is. */
static bool draw_parts(void)
{
    struct nodes reached;
    draw_plant(false, labels, LABELS);
    struct draft third = plant;
    draw_plant(false, labels, LABELS);
    struct draft dense = plant;
    plant.len = second.len = 4;
    for (uint32_t x = 0; x < MOST_NODES; x++)
        put_node(&plant, &dense, x, x == root ? 0 : draw(2) * DOOR_BIT, 3);
    end_file(&plant, 0, header_of(&dense));
    find_reached(&reached, span_of(&plant));
    for (uint32_t x = 0; x < MOST_NODES; x++)
        put_node(&second, has_node(&reached, x) ? &plant : &third, x, has_node(&reached, x) ? 0 : DOOR_BIT + ROOT_BIT, 1);
    end_file(&second, 0, header_of(&plant));
    bool turned = draw(2) == 0;
    while (turned && !turn_bit(&second, PART))
        ;
    if (check_file(span_of(&plant), PART).number != 0 || check_file(span_of(&second), PART).number != 0)
        fail_with_both("not accepted by the inspector");
    return !turned;
}

static uint32_t draw_letter(void)
{
    return draw(4) == 0 ? 0x51000000 + draw(MOWQACHI_GROUP_COUNT) : draw_range(labels, LABELS) + draw(2) * (OUTSIDE << 24);
}

/* Calls at doors, some of them turned to other nodes. A file may be damaged. */
static void draw_question(void)
{
    struct draft *files[] = {&path, &groups, &calls};
    draw_path(MOST_LETTERS, draw_letter);
    draw_groups(labels, LABELS);
    calls = draw_calls();
    for (uint32_t k = draw(6); k > 0; k--)
        turn_bit(&calls, CALLS);
    if (draw(4) == 0)
        turn_bit(files[draw(3)], UNCHECKED);
    if (draw(16) == 0)
        files[draw(3)]->len -= 1 + draw(4);
}

static bool names_unreached(const struct side *side)
{
    struct nodes own;
    collect(&own, side->part, NODE);
    for (size_t i = 1; i < words_of(span_of(&calls)); i++) {
        uint32_t w = word_at(span_of(&calls), i);
        if (kind_of(w) == CALL && has_node(&own, pair_node(w)) && !has_node(&side->reached, pair_node(w)))
            return true;
    }
    return false;
}

static bool same_replies(enum call trip, struct span list)
{
    struct asked a = {trip, {span_of(&plant), span_of(&path), list}, {0}}, b = {trip, {span_of(&second), span_of(&path), list}, {0}};
    struct asked grouped_a = with_groups(&a, span_of(&groups)), grouped_b = with_groups(&b, span_of(&groups));
    return leave_the_same(&a, &b) && leave_the_same(&grouped_a, &grouped_b);
}

static uint32_t second_number(const struct draft *part)
{
    struct span found;
    return call(&(struct asked){SECOND_REPLY, {span_of(part), span_of(&path), span_of(&calls)}, {0}}, &found);
}

/* Whether a running node of the plant is reached, but not by running nodes alone. */
static bool reached_through_stopped(const struct nodes *reached)
{
    struct nodes by_running;
    struct draft running = without(&plant, &stopped, true);
    find_reached(&by_running, span_of(&running));
    for (uint32_t x = 0; x < MOST_NODES; x++)
        if (has_node(reached, x) && !has_node(&stopped, x) && !has_node(&by_running, x))
            return true;
    return false;
}

static void check(void)
{
    struct side sides[2];
    bool only_unreached = draw_parts(), differ = find_difference(span_of(&plant), span_of(&second), sides), tells = false;
    if (differ && only_unreached && memcmp(&sides[0].reached, &sides[1].reached, sizeof sides[0].reached) == 0)
        fail_with_both("a difference, and only unreached nodes were changed");
    for (int k = 0; k < QUESTIONS; k++) {
        draw_question();
        bool excepted = names_unreached(&sides[0]) || names_unreached(&sides[1]);
        bool firsts = same_replies(FIRST_REPLY, none), seconds = same_replies(SECOND_REPLY, span_of(&calls));
        if (!differ && (!firsts || (!seconds && !excepted)))
            fail_with_both(firsts ? "no difference, and other second replies" : "no difference, and other first replies");
        tells |= !firsts || !seconds;
        /* 14 and 0: other numbers both parts give alike, and none gives 7, as both are accepted. */
        one_refuses += !differ && excepted && second_number(&plant) + second_number(&second) == MOWQACHI_DOOR;
    }
    if (!differ && !equal(&plant, &second)) {
        alike++;
        through += reached_through_stopped(&sides[0].reached);
    }
    apart += differ;
    told += differ && tells;
}

int main(int argc, char **argv)
{
    long count = argc > 1 ? atol(argv[1]) : 0;
    for (long r = 0; r < count; r++)
        check();
    printf("shared: %ld pairs; %ld alike and not the same, %ld of these with a node reached through a stopped one: the same replies, but %ld times "
           "14 and 0 for calls of unreached nodes; %ld others, %ld of these with other replies\n", count, alike, through, one_refuses, apart, told);
    if (count >= MANY && (alike == 0 || through == 0 || one_refuses == 0 || told == 0))
        fail("a kind of pair or call did not come up");
    return 0;
}
