/* Four paths in one visit (document 02, request 6), on random parts, groups and bundles of paths. A path's number and the file in its output are what
   the call for one first reply gives for this path by itself, in buffers of the same lengths, whatever becomes of the others; past the last path the
   number is 0 and the output all zero. What refuses the whole gives its number four times: 1, then the part's, 16, 17. Inputs and buffers lie among
   other bytes, in any order and of many lengths; of all these just the outputs and the working buffer change.
   visits COUNT: so many random visits, each with our groups and with others. */
#include <stdio.h>
#include <stdlib.h>

#include "among.h"
#include "bundles.h"

enum { MANY = 500 };
/* The numbers that a visit has, 0 to 7, 16 and 17, and those that one of its paths has, as bits. */
enum {
    WHOLE_NUMBERS = 0xff | 1 << MOWQACHI_GROUPS | 1 << MOWQACHI_PATHS,
    SINGLE_NUMBERS = 1 | 1 << MOWQACHI_SIZE | 1 << MOWQACHI_HEADER | 1 << MOWQACHI_WORD | 1 << MOWQACHI_OPERAND | 1 << MOWQACHI_RESULT
};

static long visits, wholes[NUMBERS], singles[NUMBERS];

/* What is due; the files, until the next. */
static struct due due_for(const struct asked *visit, const struct room *room)
{
    static struct draft files[OUTPUTS];
    uint32_t whole = whole_number(visit, room);
    struct due due = {.result = number_for_all(visit->call, whole)};
    wholes[whole]++;
    for (size_t k = 0; whole == 0 && file_in(paths_of(visit), k).len > 0; k++) {
        struct asked one = alone(visit, k);
        uint64_t number = call_with(&one, (struct room){{room->out[k]}, room->work});
        files[k].len = 0;
        put_bytes(&files[k], result_of(0));
        due.files[k] = span_of(&files[k]);
        due.result |= number << 8 * k;
        singles[number]++;
    }
    return due;
}

/* Every byte of the inputs and buffers and around them. The result. */
static uint64_t check_bytes(const struct asked *visit, struct room room)
{
    struct due due = due_for(visit, &room);
    const char *wrong = check_among(visit, room, &due);
    visits++;
    if (wrong != NULL)
        fail_with_bundle(wrong);
    return due.result;
}

static const struct tested tested = {FOUR_REPLIES, check_bytes};

/* The dearest part of so many outside targets, and its path at some of four places, where its reply is over the limit, or not. */
static void check_long_replies(uint32_t targets, uint32_t number)
{
    struct span found;
    if (call(&(struct asked){DEAREST, {{NULL, 0}}, {2, targets, MOWQACHI_PATH_LABELS}}, &found) != 0)
        fail("no dearest part");
    plant.len = path.len = 0;
    put_bytes(&plant, found);
    put_bytes(&path, result_of(1));
    for (unsigned long_ones = 0; long_ones < 1u << MOWQACHI_VISIT_PATHS; long_ones++) {
        uint32_t result = 0;
        paths.len = 0;
        for (int k = 0; k < MOWQACHI_VISIT_PATHS; k++) {
            bool is_long = long_ones >> k & 1;
            if (is_long)
                put_bytes(&paths, span_of(&path));
            result |= (is_long ? number : put_path(2 + (uint32_t)k, 2 + (uint32_t)k)) << 8 * k;
        }
        must_give(&tested, result);
    }
}

int main(int argc, char **argv)
{
    long count = argc > 1 ? atol(argv[1]) : 0;
    check_splits(&tested);
    check_long_replies(8, 0);
    check_long_replies(9, MOWQACHI_RESULT);
    check_orders(&tested);
    for (long r = 0; r < count; r++)
        check_drawn(&tested);
    printf("visits: %ld;", visits);
    unsigned whole = print_counts(" as a whole", wholes), single = print_counts("; paths, each as by itself", singles);
    printf("\n");
    if (count >= MANY && (whole != WHOLE_NUMBERS || single != SINGLE_NUMBERS))
        fail("a number did not come up, or another did");
    return 0;
}
