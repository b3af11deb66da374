/* The dearest part and path. Both files are, byte by byte, what this test writes itself; the inspector's checks accept them, and their first reply
   has just as many words as the inspector says that one can have, or is refused with 15. The buffers lie among other bytes, in any order and of many
   lengths; of all these just the outputs and the working buffer change. And no random part has a longer first reply than the inspector says, for any
   path, with groups or without.
   dearest COUNT: so many random counts, and so many random parts with a path. Below 1,000 the limits are tried at every tenth number of doors. */
#include <inttypes.h>
#include <stdio.h>
#include <stdlib.h>

#include "among.h"
#include "checks.h"
#include "plants.h"

enum { MOST_LETTERS = 4, MANY = 1000 };

struct counts {
    uint32_t doors, targets, labels;
};

static long accepted, refused, replies_given, replies_over;

static _Noreturn void fail_at(const struct counts *c, const char *what)
{
    printf("%" PRIu32 " doors, %" PRIu32 " targets, %" PRIu32 " labels: ", c->doors, c->targets, c->labels);
    fail(what);
}

/* Document 02's words for 21. In 64 bits no sum or product of 32-bit numbers wraps. */
static bool refuses(const struct counts *c)
{
    uint64_t doors = c->doors, targets = c->targets;
    return doors == 0 || targets == 0 || c->labels == 0 || c->labels > MOWQACHI_PATH_LABELS || doors + targets > MOWQACHI_NODES ||
           1 + doors * (1 + targets) > MOWQACHI_PART_WORDS;
}

/* The number that is due in buffers of these lengths. */
static uint32_t number_due(const struct counts *c, const struct room *room)
{
    if (too_short(DEAREST, room))
        return MOWQACHI_BUFFER;
    return refuses(c) ? MOWQACHI_COUNTS : 0;
}

static void write_files(const struct counts *c)
{
    plant.len = 4;
    for (uint32_t x = 0; x < c->doors; x++) {
        put(&plant, 0x20000000 + DOOR_BIT + x);
        for (uint32_t t = 0; t < c->targets; t++)
            put(&plant, 0x30000000 + c->doors + t);
    }
    end_file(&plant, 0, 0x10000000);
    path.len = 4;
    for (uint32_t k = 0; k < c->labels; k++) {
        put(&path, 0x50fff000);
        if (k > 0)
            put(&path, OR);
    }
    put(&path, STAR);
    end_path(&path);
}

/* Every byte of the buffers and around them. The number. */
static uint32_t check_bytes(const struct counts *c, struct room room)
{
    struct asked asked = {DEAREST, {{NULL, 0}}, {c->doors, c->targets, c->labels}};
    struct due due = {.result = number_due(c, &room)};
    if (due.result == 0) {
        write_files(c);
        due.files[0] = span_of(&plant);
        due.files[1] = span_of(&path);
    }
    const char *wrong = check_among(&asked, room, &due);
    if (wrong != NULL)
        fail_at(c, wrong);
    return due.result;
}

/* The words that a first reply can have, of the part and the path that there are. */
static size_t longest(void)
{
    struct tally tally = tally_of(span_of(&plant));
    return longest_reply(&tally, n_of(word_at(span_of(&path), 0)));
}

/* Buffers that are just long enough, and what the inspector says of the files. The number. */
static uint32_t check_files(const struct counts *c)
{
    uint32_t number = check_bytes(c, room_for(DEAREST));
    accepted += number == 0;
    refused += number != 0;
    if (number != 0)
        return number;
    if (check_file(span_of(&plant), PART).number != 0 || check_file(span_of(&path), PATH).number != 0)
        fail_at(c, "not accepted by the inspector");
    struct tally tally = tally_of(span_of(&plant));
    if (tally.nodes != c->doors || tally.doors != c->doors || tally.outside != c->targets || tally.stopped != 0)
        fail_at(c, "other counts in the part");
    return number;
}

/* The files, and if there are any their first reply. The number of this, or 21. */
static uint32_t check_reply(const struct counts *c)
{
    struct span found;
    if (check_files(c) != 0)
        return MOWQACHI_COUNTS;
    struct asked asked = {FIRST_REPLY, {span_of(&plant), span_of(&path)}, {0}};
    uint32_t number = call(&asked, &found);
    if (number != (longest() > MOWQACHI_REPLY_WORDS ? MOWQACHI_RESULT : 0) || (number == 0 && words_of(found) != longest()))
        fail_at(c, "a first reply of another length");
    replies_given += number == 0;
    replies_over += number != 0;
    return number;
}

/* Around every limit, and where sums and products of 32 bits would wrap. */
static void check_edges(void)
{
    static const uint32_t some[] = {0, 1, 2, 3, 15, 16, 63, 64, 65, 2046, 2047, 2048, 4093, 4094, 4095, 4096, 32768, 65534, 65535, 65536, 65537,
                                    0x7fffffff, 0x80000000, 0x80000001, 0xfffeffff, 0xffff0000, 0xfffffffe, 0xffffffff};
    static const uint32_t labels[] = {0, 1, 2, 14, 15, 16, 17, 0x80000001, 0xffffffff};
    enum { SOME = sizeof some / sizeof *some, LABELS = sizeof labels / sizeof *labels };
    for (int d = 0; d < SOME; d++)
        for (int t = 0; t < SOME; t++)
            for (int n = 0; n < LABELS; n++)
                check_reply(&(struct counts){some[d], some[t], labels[n]});
}

/* For numbers of doors the longest part, and one target more. */
static void check_part_limit(uint32_t step)
{
    for (uint32_t doors = 1; doors < MOWQACHI_PART_WORDS; doors += step) {
        uint32_t most = (MOWQACHI_PART_WORDS - 1) / doors - 1, labels = 1 + draw(MOWQACHI_PATH_LABELS);
        check_files(&(struct counts){doors, most, labels});
        check_files(&(struct counts){doors, most + 1, labels});
    }
}

/* For so many labels and numbers of doors the longest reply, and one target more, up to where not even one target fits. */
static void check_reply_limit(uint32_t labels, uint32_t step)
{
    for (uint32_t doors = 1, most = 1; most > 0; doors += step) {
        uint32_t of_door = (MOWQACHI_REPLY_WORDS - 1) / doors - 1, of_row = of_door / (labels + 1);
        most = of_row < 1 ? 0 : (of_row - 1) / labels;
        struct counts fits = {doors, most, labels}, more = {doors, most + 1, labels};
        if (most > 0 && check_reply(&fits) != 0)
            fail_at(&fits, "refused within the limit");
        if (check_reply(&more) != MOWQACHI_RESULT)
            fail_at(&more, "not refused over the limit");
    }
}

/* Buffers about as long as asked for, short ones with counts that would be refused too. */
static void check_lengths(void)
{
    static const struct counts some[] = {{1, 1, 1}, {2, 9, 15}, {63, 64, 15}, {1, 4094, 1}, {0, 1, 1}, {1, 1, 16}, {2048, 1, 1}, {65536, 65535, 1}};
    static const size_t parts[] = {0, 1, 16380, 16383, 16384, 16385, 16388, 17001}, works[] = {0, 32767, 32768, 32769, 33001};
    for (size_t c = 0; c < sizeof some / sizeof *some; c++)
        for (size_t i = 0; i < sizeof parts / sizeof *parts; i++)
            for (size_t k = 0; k < sizeof works / sizeof *works; k++)
                for (size_t len = 0; len < 300; len += len < 250 ? 50 : 1)
                    check_bytes(&some[c], (struct room){{parts[i], len}, works[k]});
}

static void check_drawn(void)
{
    struct counts c = {draw(70), draw(70), draw(MOWQACHI_PATH_LABELS + 2)};
    check_bytes(&c, draw_room(DEAREST));
    check_reply(&c);
}

static const uint32_t labels[] = {0, 1, 4095};
enum { LABELS = sizeof labels / sizeof *labels };

static uint32_t draw_letter(void)
{
    switch (draw(4)) {
    case 0: return draw_range(labels, LABELS) + (OUTSIDE << 24);
    case 1: return 0x51000000 + draw(MOWQACHI_GROUP_COUNT);
    default: return 0x50fff000;
    }
}

/* Whether a random part's first reply is as long as it can be, with reach words in it. */
static bool check_part(void)
{
    struct span found;
    bool as_long = false;
    draw_plant(false, labels, LABELS);
    draw_path(MOST_LETTERS, draw_letter);
    draw_groups(labels, LABELS);
    struct asked plain = {FIRST_REPLY, {span_of(&plant), span_of(&path)}, {0}}, grouped = with_groups(&plain, span_of(&groups));
    for (int k = 0; k < 2; k++) {
        if (call(k == 0 ? &plain : &grouped, &found) != 0 || words_of(found) > longest())
            fail("a first reply that is too long");
        as_long = as_long || (words_of(found) == longest() && kind_of(word_at(found, words_of(found) - 1)) == REACH);
    }
    return as_long;
}

int main(int argc, char **argv)
{
    long count = argc > 1 ? atol(argv[1]) : 0, as_long = 0;
    uint32_t step = count < MANY ? 10 : 1;
    check_edges();
    check_part_limit(step);
    for (uint32_t n = 1; n <= MOWQACHI_PATH_LABELS; n++)
        check_reply_limit(n, step);
    check_lengths();
    for (long r = 0; r < count; r++) {
        check_drawn();
        as_long += check_part();
    }
    printf("dearest: %ld counts, %ld refused with 21; %ld replies as long as can be, %ld times 15; %ld random parts, none longer, %ld as long\n",
           accepted + refused, refused, replies_given, replies_over, count, as_long);
    if (count >= MANY && as_long == 0)
        fail("no random part has as long a reply");
    return 0;
}
