/* One reply for eight desks (document 02, request 11), on parts and bundles whose first replies have the lengths that are asked for, and on random
   ones. A desk is held to the call for one first reply, for its path by itself in buffers of the same lengths: its number is that of this call, but
   15 where the choice leaves it out, and the replies of those with 0 stand in the output one behind another, and zeros behind them. The choice is
   made here from the numbers and lengths of all desks. What refuses the whole gives its number eight times: 1, then the part's, 16, 17. Inputs and
   buffers lie among other bytes, in any order and of many lengths; of all these just the output and the working buffer change.
   desks COUNT: so many random bundles, and as many of those with long replies, each with our groups and with others.
   desks --table [DIRECTORY]: the examples of docs/FORMATS.md, as the library has them; their outputs are written to DIRECTORY, for the inspector. */
#include <inttypes.h>
#include <stdio.h>
#include <stdlib.h>
#include <string.h>

#include "among.h"
#include "bundles.h"

enum { MANY = 500, LABELS = 512, WRONG = 10000, PATH_HEADER = 0x40000000 };
/* The numbers that all desks have, 0 to 7, 16 and 17, and those that one of them has, as bits. */
enum {
    WHOLE_NUMBERS = 0xff | 1 << MOWQACHI_GROUPS | 1 << MOWQACHI_PATHS,
    SINGLE_NUMBERS = 1 | 1 << MOWQACHI_SIZE | 1 << MOWQACHI_HEADER | 1 << MOWQACHI_WORD | 1 << MOWQACHI_OPERAND | 1 << MOWQACHI_RESULT
};

/* What desks would get by themselves: a number, and the words of a reply, none where there is no path. */
struct desks {
    uint32_t numbers[MOWQACHI_DESKS];
    size_t words[MOWQACHI_DESKS];
};

static long asked_for, wholes[NUMBERS], singles[NUMBERS];
/* How often a long reply went in, found no room, went in behind one that found none, would have had room without a short one asked later, or by one
   word less; and the output was filled. */
static struct {
    long in, out, behind, kept, by_a_word, filled;
} met;

static bool is_short(const struct desks *d, int k)
{
    return d->numbers[k] == 0 && d->words[k] <= MOWQACHI_SHORT_WORDS;
}

/* Document 02's choice: all short replies, and of the long ones, in the order of asking, each that fits beside them and those chosen before. The
   others get 15. */
static void choose_replies(struct desks *d)
{
    size_t taken = 0;
    for (int k = 0; k < MOWQACHI_DESKS; k++)
        if (is_short(d, k))
            taken += d->words[k];
    for (int k = 0; k < MOWQACHI_DESKS; k++) {
        if (d->numbers[k] != 0 || is_short(d, k))
            continue;
        if (taken + d->words[k] <= MOWQACHI_REPLY_WORDS)
            taken += d->words[k];
        else
            d->numbers[k] = MOWQACHI_RESULT;
    }
}

/* Which of the cases above the desks are, by their lengths ahead of the choice and the numbers behind it. */
static void count_cases(const struct desks *before, const struct desks *after)
{
    size_t taken = 0, ahead = 0;
    bool left_out = false;
    for (int k = 0; k < MOWQACHI_DESKS; k++)
        taken += is_short(after, k) ? after->words[k] : 0;
    for (int k = 0; k < MOWQACHI_DESKS; k++) {
        bool is_long = before->numbers[k] == 0 && !is_short(before, k), in = is_long && after->numbers[k] == 0;
        met.in += in;
        met.behind += in && left_out;
        met.out += is_long && !in;
        met.kept += is_long && !in && ahead + before->words[k] <= MOWQACHI_REPLY_WORDS;
        met.by_a_word += is_long && !in && taken + before->words[k] == MOWQACHI_REPLY_WORDS + 1;
        left_out = left_out || (is_long && !in);
        taken += in ? before->words[k] : 0;
        ahead += after->numbers[k] == 0 ? after->words[k] : 0;
    }
    met.filled += taken == MOWQACHI_REPLY_WORDS;
}

/* The desks' own numbers and replies, by single calls; the replies, until the next. */
static struct desks ask_alone(const struct asked *shared, const struct room *room, struct draft *replies)
{
    struct desks d = {{0}, {0}};
    for (size_t k = 0; k < MOWQACHI_DESKS; k++) {
        struct asked one = alone(shared, k);
        replies[k].len = 0;
        if (file_in(paths_of(shared), k).len == 0)
            continue;
        d.numbers[k] = (uint32_t)call_with(&one, (struct room){{room->out[0]}, room->work});
        put_bytes(&replies[k], result_of(0));
        d.words[k] = words_of(span_of(&replies[k]));
    }
    return d;
}

/* What is due, and each desk's reply; all of it until the next. */
static struct due due_for(const struct asked *shared, const struct room *room, struct draft *replies)
{
    static struct draft output;
    uint32_t whole = whole_number(shared, room);
    struct due due = {.result = number_for_all(shared->call, whole)};
    output.len = 0;
    wholes[whole]++;
    if (whole != 0)
        return due;
    struct desks before = ask_alone(shared, room, replies), after = before;
    choose_replies(&after);
    count_cases(&before, &after);
    for (int k = 0; k < MOWQACHI_DESKS; k++) {
        due.result |= (uint64_t)after.numbers[k] << 8 * k;
        if (after.numbers[k] == 0)
            put_bytes(&output, span_of(&replies[k]));
        if (file_in(paths_of(shared), (size_t)k).len > 0)
            singles[after.numbers[k]]++;
    }
    due.files[0] = span_of(&output);
    return due;
}

/* Every byte of the inputs and buffers and around them; and where each desk finds its reply, by the header. The result. */
static uint64_t check_bytes(const struct asked *shared, struct room room)
{
    static struct draft replies[MOWQACHI_DESKS];
    struct due due = due_for(shared, &room, replies);
    const char *wrong = check_among(shared, room, &due);
    asked_for++;
    if (wrong != NULL)
        fail_with_bundle(wrong);
    if (call_with(shared, room) != due.result)
        fail_with_bundle("another result");
    for (int k = 0; k < MOWQACHI_DESKS; k++) {
        struct span found = result_of(k);
        bool in = due.files[0].len > 0 && mowqachi_desk_number(due.result, (unsigned)k) == 0;
        if (found.len != (in ? replies[k].len : 0) || (found.len > 0 && memcmp(found.bytes, replies[k].bytes, found.len) != 0))
            fail_with_bundle("another reply of a desk");
    }
    return due.result;
}

static const struct tested tested = {EIGHT_REPLIES, check_bytes};

/* A part of one door with links of the labels 0 to 511, each to a node of its own outside. The reply to an or of ranges has three words, and one for
   each label of each range. */
static void write_measured(void)
{
    plant.len = 4;
    put(&plant, 0x20000000 + DOOR_BIT);
    for (uint32_t label = 0; label < LABELS; label++)
        put(&plant, 0x30000000 + (label << 16) + 1 + label);
    end_file(&plant, 0, 0x10000000);
}

/* A path that is refused with 2, 3, 5 or 9. */
static void put_wrong(uint32_t number)
{
    switch (number) {
    case MOWQACHI_SIZE: put_path(MOWQACHI_PATH_WORDS + 1, MOWQACHI_PATH_WORDS + 1); break;
    case MOWQACHI_HEADER: put(&paths, 0x10000001); break;
    case MOWQACHI_WORD: put(&paths, PATH_HEADER + 2); put(&paths, 0x53000000); break;
    default: put(&paths, PATH_HEADER + 2); put(&paths, STAR); break;
    }
}

/* Appends a path whose reply has just so many words: 2, or from 4 up to 15 times 512 labels. Above WRONG one that is refused with what is over it. */
static void put_measured(uint32_t words)
{
    if (words > WRONG) {
        put_wrong(words - WRONG);
        return;
    }
    path.len = 4;
    if (words == 2)
        put(&path, EMPTY_WORD);
    for (uint32_t left = words == 2 ? 0 : words - 3, taken; left > 0; left -= taken) {
        bool first = path.len == 4;
        taken = left < LABELS ? left : LABELS;
        put(&path, range(0, taken - 1));
        if (!first)
            put(&path, OR);
    }
    end_path(&path);
    put_bytes(&paths, span_of(&path));
}

/* Lengths of replies, or numbers over WRONG, in the order of asking; the number of each desk, and what there is to see. */
static const struct example {
    uint32_t asked[MOWQACHI_DESKS], numbers[MOWQACHI_DESKS];
    const char *why;
} examples[] = {
    {{4096}, {0}, "one desk may have all of it"},
    {{4097}, {15}, "too long by itself"},
    {{512, 512, 512, 512, 512, 512, 512, 512}, {0}, "eight short ones always fit, and fill it here"},
    {{512, 512, 512, 512, 513, 512, 512, 512}, {0, 0, 0, 0, 15}, "513 words are long, and there are 512 left beside seven short ones"},
    {{513, 513, 513, 513, 513, 513, 513, 513}, {0, 0, 0, 0, 0, 0, 0, 15}, "seven long ones of 513 words fit, and an eighth does not"},
    {{3584, 512}, {0}, "4,096 words together"},
    {{3585, 512}, {15, 0}, "4,097: the short one has its room, though it was asked for later"},
    {{4096, 2}, {15, 0}, "the same for two words"},
    {{512, 3585}, {0, 15}, "the other way round"},
    {{2048, 2048}, {0}, "two long ones, 4,096 words together"},
    {{2048, 2049}, {0, 15}, "4,097: the one asked for first goes in"},
    {{3000, 2000, 1000}, {0, 15, 0}, "the second has no room and takes none, so the third fits"},
    {{2000, 2000, 97}, {0, 15, 0}, "beside the short one, only one long one fits"},
    {{2000, 2000, 96}, {0}, "with a word less, both do"},
    {{600, WRONG + 9, 3496}, {0, 9, 0}, "a refused path takes no room"},
    {{5000, 2000, 2096}, {15, 0, 0}, "nor does a reply that is too long by itself"},
    {{4096, 4096, 4096, 512, 4096, 4096, 4096, 4096}, {15, 15, 15, 0, 15, 15, 15, 15}, "whatever seven others ask, the short one goes in"},
    {{4096, 4096, 4096, 513, 4096, 4096, 4096, 4096}, {0, 15, 15, 15, 15, 15, 15, 15}, "a long one may go without"},
    {{WRONG + 2, WRONG + 3, WRONG + 5, WRONG + 9}, {2, 3, 5, 9}, "all refused: nothing stands"},
};
enum { EXAMPLES = sizeof examples / sizeof *examples };

static void put_example(const struct example *e)
{
    paths.len = 0;
    for (int k = 0; k < MOWQACHI_DESKS && e->asked[k] > 0; k++)
        put_measured(e->asked[k]);
}

static void check_examples(void)
{
    write_measured();
    for (int i = 0; i < EXAMPLES; i++) {
        uint64_t result = 0;
        for (int k = 0; k < MOWQACHI_DESKS; k++)
            result |= (uint64_t)examples[i].numbers[k] << 8 * k;
        put_example(&examples[i]);
        must_give(&tested, result);
    }
}

/* The shared reply in an example of docs/FORMATS.md: document 01's part of site 0, with its path, two files that are refused, and the empty word. */
static void check_document(void)
{
    static const uint32_t part[] = {0x10000005, 0x20030001, 0x30050002, 0x20010003, 0x30050002};
    static const uint32_t bundle[] = {0x40300007, 0x50005005, 0x50006006, 0x50005005, 0x60000001, 0x60000003, 0x60000001, 0x40000002, 0x60000003,
                                      0x11000003, 0x20010002, 0x30060003, 0x40000002, 0x60000000};
    plant.len = paths.len = 0;
    for (size_t i = 0; i < sizeof part / sizeof *part; i++)
        put(&plant, part[i]);
    for (size_t i = 0; i < sizeof bundle / sizeof *bundle; i++)
        put(&paths, bundle[i]);
    must_give(&tested, 0x30900);
}

/* A short reply of each length at each place, among seven desks that ask for so many words. */
static void check_eighth(uint32_t others)
{
    static const uint32_t lengths[] = {2, 4, 511, 512};
    write_measured();
    for (size_t i = 0; i < sizeof lengths / sizeof *lengths; i++)
        for (int place = 0; place < MOWQACHI_DESKS; place++) {
            paths.len = 0;
            for (int k = 0; k < MOWQACHI_DESKS; k++)
                put_measured(k == place ? lengths[i] : others);
            struct asked plain = asked_without_groups(EIGHT_REPLIES);
            if (mowqachi_desk_number(check_bytes(&plain, room_for(plain.call)), (unsigned)place) != 0)
                fail_with_bundle("a short reply without room");
        }
}

/* The files that are dearest for these numbers: the part, and the path in place of the one that there was. */
static struct draft dearest(uint32_t doors, uint32_t targets, uint32_t n)
{
    struct draft part = {.len = 0};
    struct span found;
    if (call(&(struct asked){DEAREST, {{NULL, 0}}, {doors, targets, n}}, &found) != 0)
        fail("no dearest part");
    put_bytes(&part, found);
    path.len = 0;
    put_bytes(&path, result_of(1));
    return part;
}

/* Eight times the dearest path on its part, whose reply has so many words in many rows: short ones fill the output, or long ones find no room. */
static void check_dearest(uint32_t doors, uint32_t targets, uint32_t n, size_t words, uint64_t result)
{
    struct tally tally = {.doors = doors, .outside = targets};
    plant = dearest(doors, targets, n);
    if (longest_reply(&tally, n) != words)
        fail("a dearest reply of another length");
    paths.len = 0;
    for (int k = 0; k < MOWQACHI_DESKS; k++)
        put_bytes(&paths, span_of(&path));
    must_give(&tested, result);
}

/* A length about a limit, or between two. */
static uint32_t draw_words(void)
{
    static const uint32_t wrong[] = {MOWQACHI_SIZE, MOWQACHI_HEADER, MOWQACHI_WORD, MOWQACHI_OPERAND};
    switch (draw(10)) {
    case 0: return WRONG + wrong[draw(4)];
    case 1: return 2;
    case 2: return MOWQACHI_SHORT_WORDS - 1 + draw(4);
    case 3: return MOWQACHI_REPLY_WORDS - 1 + draw(4);
    case 4: return 4 + draw(2 * MOWQACHI_REPLY_WORDS - 1000);
    case 5: return MOWQACHI_SHORT_WORDS + 1 + draw(3000);
    case 6: case 7: return MOWQACHI_SHORT_WORDS + 1 + draw(800);
    default: return 4 + draw(MOWQACHI_SHORT_WORDS - 3);
    }
}

/* Some labels of the paths become groups, so that with other groups the replies have other lengths. */
static void put_groups(void)
{
    for (size_t i = 0; i < words_of(span_of(&paths)); i++)
        if (kind_of(word_at(span_of(&paths), i)) == LABEL && draw(4) == 0) {
            paths.bytes[4 * i + 3] = 0x51;
            paths.bytes[4 * i + 2] = paths.bytes[4 * i + 1] = 0;
            paths.bytes[4 * i] = (uint8_t)draw(MOWQACHI_GROUP_COUNT);
        }
}

/* Desks whose replies have random lengths; one of them may have just what the others leave, or a word more or less. */
static void check_measured(void)
{
    uint32_t count = 1 + draw(MOWQACHI_DESKS), words[MOWQACHI_DESKS], others = 0, last = draw(count);
    for (uint32_t k = 0; k < count; k++) {
        words[k] = draw_words();
        others += k == last || words[k] > MOWQACHI_REPLY_WORDS ? 0 : words[k];
    }
    if (draw(2) == 0 && others < MOWQACHI_REPLY_WORDS - 5)
        words[last] = MOWQACHI_REPLY_WORDS - others + draw(3) - 1;
    paths.len = 0;
    for (uint32_t k = 0; k < count; k++)
        put_measured(words[k]);
    if (draw(4) == 0)
        put_groups();
    write_measured();
    check_both(&tested);
}

/* A dearest part, and dearest paths of random numbers of labels. */
static void check_dear(void)
{
    struct draft part = dearest(1 + draw(4), 1 + draw(40), 1);
    paths.len = 0;
    for (uint32_t k = 1 + draw(MOWQACHI_DESKS); k > 0; k--) {
        dearest(1, 1, 1 + draw(MOWQACHI_PATH_LABELS));
        put_bytes(&paths, span_of(&path));
    }
    plant = part;
    check_both(&tested);
}

/* The buffers of the examples that are printed. */
static uint8_t out[MOWQACHI_REPLY_BYTES], work[MOWQACHI_WORK_BYTES];

static uint64_t ask_example(const struct example *e)
{
    const struct buffers buffers = {.out = {out}, .work = work, .room = room_for(EIGHT_REPLIES)};
    put_example(e);
    struct asked plain = asked_without_groups(EIGHT_REPLIES);
    return invoke(&plain, &buffers);
}

/* The words of a desk's reply, and where it begins. */
static size_t find_reply(uint64_t result, int desk, size_t *at)
{
    const uint8_t *reply = mowqachi_desk_reply(out, result, (unsigned)desk);
    *at = reply == NULL ? 0 : (size_t)(reply - out) / 4;
    return reply == NULL ? 0 : mowqachi_file_bytes(reply) / 4;
}

/* A text, or where there is none the number. */
static void print_cell(const char *text, size_t number)
{
    if (text != NULL)
        printf("%s", text);
    else
        printf("%zu", number);
}

/* A row of the table: what was asked, the library's numbers, and the words at which replies begin. */
static void print_example(const struct example *e, uint64_t result)
{
    size_t at, all = 0;
    int desks = 0;
    for (; desks < MOWQACHI_DESKS && e->asked[desks] > 0; desks++) {
        printf("%s", desks == 0 ? "| " : ", ");
        print_cell(e->asked[desks] > WRONG ? "refused" : NULL, e->asked[desks]);
    }
    for (int k = 0; k < desks; k++)
        printf("%s%u", k == 0 ? " | " : ", ", (unsigned)mowqachi_desk_number(result, (unsigned)k));
    for (int k = 0; k < desks; k++) {
        size_t words = find_reply(result, k, &at);
        printf("%s", k == 0 ? " | " : ", ");
        print_cell(words == 0 ? "-" : NULL, at);
        all += words;
    }
    printf(" | %zu | %s |\n", all, e->why);
}

static FILE *open_file(const char *directory, int place, const char *ending)
{
    char name[4096];
    snprintf(name, sizeof name, "%s/%d%s", directory, place, ending);
    FILE *f = fopen(name, "wb");
    if (f == NULL)
        fail("a file cannot be written");
    return f;
}

/* An example for the inspector: the output, the numbers, and what it must say of each desk. */
static void write_example(const struct example *e, uint64_t result, const char *directory, int place)
{
    FILE *output = open_file(directory, place, ".out"), *numbers = open_file(directory, place, ".numbers");
    FILE *due = open_file(directory, place, ".due");
    bool written = fwrite(out, 1, sizeof out, output) == sizeof out && fprintf(numbers, "%" PRIu64 "\n", result) > 0;
    for (int k = 0; k < MOWQACHI_DESKS; k++) {
        size_t at, words = find_reply(result, k, &at);
        if (words > 0)
            fprintf(due, "desk %d: %zu words from word %zu on\n", k + 1, words, at);
        else if (e->asked[k] > 0)
            fprintf(due, "desk %d: refused %u\n", k + 1, (unsigned)mowqachi_desk_number(result, (unsigned)k));
        else
            fprintf(due, "desk %d: no path\n", k + 1);
    }
    if (!written || fclose(output) != 0 || fclose(numbers) != 0 || fclose(due) != 0)
        fail("a file cannot be written");
}

static void print_table(const char *directory)
{
    printf("| words of each first reply, in the order of asking | numbers | begin at the words | words in all | |\n|---|---|---|---|---|\n");
    write_measured();
    for (int i = 0; i < EXAMPLES; i++) {
        uint64_t result = ask_example(&examples[i]);
        print_example(&examples[i], result);
        if (directory != NULL)
            write_example(&examples[i], result, directory, i);
    }
}

static void check_all(long count)
{
    check_splits(&tested);
    check_orders(&tested);
    check_examples();
    check_document();
    check_eighth(512);
    check_eighth(513);
    check_eighth(MOWQACHI_REPLY_WORDS);
    check_eighth(WRONG + MOWQACHI_OPERAND);
    check_dearest(1, 254, 1, 512, 0);
    check_dearest(1, 12, 6, 513, 0x0f00000000000000);
    check_dearest(2, 8, 15, 3875, 0x0f0f0f0f0f0f0f00);
    check_dearest(2, 9, 15, 4355, 0x0f0f0f0f0f0f0f0f);
    for (long r = 0; r < count; r++) {
        check_drawn(&tested);
        draw_groups((const uint32_t[]){0, 100, LABELS - 1}, 3);
        if (r % 2 == 0)
            check_measured();
        else
            check_dear();
    }
}

int main(int argc, char **argv)
{
    if (argc > 1 && strcmp(argv[1], "--table") == 0) {
        print_table(argc > 2 ? argv[2] : NULL);
        return 0;
    }
    long count = argc > 1 ? atol(argv[1]) : 0;
    check_all(count);
    printf("desks: %ld bundles;", asked_for);
    unsigned whole = print_counts(" as a whole", wholes), single = print_counts("; desks", singles);
    printf("; long replies in %ld, %ld of them behind one left out; left out %ld, %ld of them for a short one asked later, %ld by a word; full %ld\n",
           met.in, met.behind, met.out, met.kept, met.by_a_word, met.filled);
    if (count >= MANY && (whole != WHOLE_NUMBERS || single != SINGLE_NUMBERS))
        fail("a number did not come up, or another did");
    if (count >= MANY && (met.behind == 0 || met.kept == 0 || met.by_a_word == 0 || met.filled == 0))
        fail("a case of the choice did not come up");
    return 0;
}
