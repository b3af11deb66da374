/* How long first replies can get, for those who size the lines. The library writes the dearest part and path of so many doors, outside targets and
   labels, and then their first reply: no part with as many doors and outside targets has a longer one, for any path of as many labels.
     planner                          a table: for labels and doors, the most outside targets with which it fits
     planner DOORS TARGETS LABELS     the words of the part, of the path and of the first reply, or the number that refuses
   The exit code is the number, 0 where none refuses, and 64 where the arguments are no three numbers. */
#include <inttypes.h>
#include <limits.h>
#include <stdbool.h>
#include <stdio.h>
#include <stdlib.h>
#include <string.h>

#include "mowqachi.h"

enum { NOTHING = 64 };

static uint8_t part[MOWQACHI_PART_BYTES], path[MOWQACHI_PATH_BYTES], reply[MOWQACHI_REPLY_BYTES], work[MOWQACHI_WORK_BYTES];

static uint32_t write_files(uint32_t doors, uint32_t targets, uint32_t labels)
{
    return mowqachi_dearest(doors, targets, labels, part, sizeof part, path, sizeof path, work, sizeof work);
}

static uint32_t write_reply(void)
{
    return mowqachi_first_reply(part, mowqachi_file_bytes(part), path, mowqachi_file_bytes(path), reply, sizeof reply, work, sizeof work);
}

static uint32_t write_all(uint32_t doors, uint32_t targets, uint32_t labels)
{
    uint32_t number = write_files(doors, targets, labels);
    return number != MOWQACHI_ACCEPTED ? number : write_reply();
}

/* The most outside targets with which the first reply fits, 0 where it does with none. It is longer than the part with one target more, so that one
   too many is refused for the reply, and never for the part. */
static uint32_t most_targets(uint32_t doors, uint32_t labels)
{
    uint32_t fits = 0, over = MOWQACHI_PART_WORDS;
    while (over - fits > 1) {
        uint32_t middle = fits + (over - fits) / 2;
        if (write_all(doors, middle, labels) == MOWQACHI_ACCEPTED)
            fits = middle;
        else
            over = middle;
    }
    if (write_all(doors, over, labels) != MOWQACHI_RESULT) {
        fprintf(stderr, "planner: %" PRIu32 " doors, %" PRIu32 " outside targets, %" PRIu32 " labels: not 15\n", doors, over, labels);
        exit(1);
    }
    return fits;
}

static void print_table(void)
{
    enum { MOST_DOORS = 256 };
    printf("| labels |");
    for (uint32_t doors = 1; doors <= MOST_DOORS; doors *= 2)
        printf(" %" PRIu32 " door%s |", doors, doors == 1 ? "" : "s");
    printf("\n|---|");
    for (uint32_t doors = 1; doors <= MOST_DOORS; doors *= 2)
        printf("---|");
    for (uint32_t labels = 1; labels <= MOWQACHI_PATH_LABELS; labels++) {
        printf("\n| %" PRIu32 " |", labels);
        for (uint32_t doors = 1; doors <= MOST_DOORS; doors *= 2) {
            uint32_t targets = most_targets(doors, labels);
            if (targets > 0)
                printf(" %" PRIu32 " |", targets);
            else
                printf(" - |");
        }
    }
    printf("\n");
}

static void print_words(const char *name, const uint8_t *file)
{
    printf("%s: %zu words\n", name, mowqachi_file_bytes(file) / 4);
}

static uint32_t print_one(uint32_t doors, uint32_t targets, uint32_t labels)
{
    uint32_t number = write_files(doors, targets, labels);
    if (number != MOWQACHI_ACCEPTED) {
        printf("refused %" PRIu32 ": a 0, over %d labels, or a part of 1 + doors x (1 + targets) words that is over %d\n",
               number, MOWQACHI_PATH_LABELS, MOWQACHI_PART_WORDS);
        return number;
    }
    print_words("part", part);
    print_words("path", path);
    number = write_reply();
    if (number == MOWQACHI_ACCEPTED)
        print_words("first reply", reply);
    else
        printf("first reply: refused %" PRIu32 ", over %d words\n", number, MOWQACHI_REPLY_WORDS);
    return number;
}

/* Whether the text is a number of 32 bits, in decimal digits. */
static bool read_number(const char *text, uint32_t *number)
{
    size_t digits = strspn(text, "0123456789");
    unsigned long long value = digits > 0 && digits <= 10 && text[digits] == '\0' ? strtoull(text, NULL, 10) : ULLONG_MAX;
    *number = (uint32_t)value;
    return value <= UINT32_MAX;
}

int main(int argc, char **argv)
{
    uint32_t doors, targets, labels;
    if (argc == 1) {
        print_table();
        return 0;
    }
    if (argc != 4 || !read_number(argv[1], &doors) || !read_number(argv[2], &targets) || !read_number(argv[3], &labels)) {
        fprintf(stderr, "usage: planner [DOORS TARGETS LABELS]\n");
        return NOTHING;
    }
    return (int)print_one(doors, targets, labels);
}
