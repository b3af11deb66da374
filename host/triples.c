/* Plants of the first release, as a host brings them over: a triple file in, a whole out, and back.
     triples                        some small plants there and back, in words; what is found in each on the way
     triples --whole IN OUT         writes the whole of a triple file
     triples --triples IN OUT       writes the triple file of a whole
   The exit code is the number that refuses, 0 where none does, and 64 where a file cannot be read or written. */
#include <inttypes.h>
#include <stdbool.h>
#include <stdio.h>
#include <stdlib.h>
#include <string.h>

#include "mowqachi.h"

enum { NOTHING = 64, MOST = MOWQACHI_TRIPLE_BYTES };

/* A file in a buffer that is long enough for any of both kinds, and for a byte more than either may have. */
struct file {
    size_t len;
    uint8_t bytes[MOST + 1];
};

static struct file triples, whole, again;
static uint8_t work[MOWQACHI_WORK_BYTES];

static uint32_t word_at(const struct file *f, size_t i)
{
    const uint8_t *b = f->bytes + 4 * i;
    return b[0] | (uint32_t)b[1] << 8 | (uint32_t)b[2] << 16 | (uint32_t)b[3] << 24;
}

/* The whole of a triple file: its header tells its length. */
static uint32_t from_triples(const struct file *in, struct file *out)
{
    uint32_t number = mowqachi_from_triples(in->bytes, in->len, out->bytes, MOWQACHI_PART_BYTES, work, sizeof work);
    out->len = number == MOWQACHI_ACCEPTED ? mowqachi_file_bytes(out->bytes) : 0;
    return number;
}

/* The triple file of a whole: it has no header, and the count tells its words, 0 after a refusal. */
static uint32_t to_triples(const struct file *in, struct file *out)
{
    uint32_t count, number = mowqachi_to_triples(in->bytes, in->len, out->bytes, MOWQACHI_TRIPLE_BYTES, &count, work, sizeof work);
    out->len = 4 * (size_t)count;
    return number;
}

static const char *reason(uint32_t number)
{
    switch (number) {
    case MOWQACHI_SIZE: return "no words, too many, or bytes not in fours";
    case MOWQACHI_RESULT: return "a whole of over 4096 words";
    case MOWQACHI_TRIPLES: return "a word too large for its field, or words that are not one more than a multiple of three";
    case MOWQACHI_UNSAID: return "a stopped node, or a node other than the root without a link";
    default: return "no whole, as inspect --whole tells";
    }
}

static void print_refusal(uint32_t number)
{
    printf("refused %" PRIu32 ": %s\n", number, reason(number));
}

static void print_triples(const struct file *f)
{
    size_t words = f->len / 4, i = 1;
    printf("triple file of %zu word%s: root %" PRIu32, words, words == 1 ? "" : "s", word_at(f, 0));
    for (; i + 2 < words; i += 3)
        printf("; %" PRIu32 " by %" PRIu32 " to %" PRIu32, word_at(f, i), word_at(f, i + 1), word_at(f, i + 2));
    if (i < words)
        printf("; %zu words left over", words - i);
    printf("\n");
}

/* A node with its links a line. */
static void print_whole(const struct file *f)
{
    printf("whole of %zu words, site %u:", f->len / 4, f->bytes[3] & 0xfu);
    for (size_t i = 1; i < f->len / 4; i++) {
        uint32_t w = word_at(f, i);
        bool root = w >> 17 & 1, door = w >> 16 & 1, stopped = w >> 18 & 1;
        if (w >> 28 == 2)
            printf("\n  node %" PRIu32 "%s%s", w & 0xffff, root ? ", root" : door ? ", door" : "", stopped ? ", stopped" : "");
        else
            printf("; by %" PRIu32 " to %" PRIu32, w >> 16 & 0xfff, w & 0xffff);
    }
    printf("\n");
}

/* The nodes that any number of any links lead to from the root. */
static void print_found(const struct file *f)
{
    static const uint8_t any[] = {3, 0, 0x10, 0x40, 0, 0xf0, 0xff, 0x50, 3, 0, 0, 0x60};
    static struct file list;
    uint32_t number = mowqachi_old_search(f->bytes, f->len, any, sizeof any, list.bytes, MOWQACHI_LIST_BYTES, work, sizeof work);
    if (number != MOWQACHI_ACCEPTED) {
        print_refusal(number);
        exit(1);
    }
    printf("found from the root by any links:");
    for (size_t i = 1; i < mowqachi_file_bytes(list.bytes) / 4; i++)
        printf("%s %" PRIu32, i > 1 ? "," : "", word_at(&list, i) & 0xffff);
    printf("\n");
}

/* There and back from triples, and there again: the whole must be the same. */
static uint32_t try_triples(void)
{
    print_triples(&triples);
    uint32_t number = from_triples(&triples, &whole);
    if (number != MOWQACHI_ACCEPTED)
        return number;
    print_whole(&whole);
    print_found(&whole);
    number = to_triples(&whole, &triples);
    if (number != MOWQACHI_ACCEPTED)
        return number;
    print_triples(&triples);
    number = from_triples(&triples, &again);
    if (number != MOWQACHI_ACCEPTED)
        return number;
    if (again.len != whole.len || memcmp(again.bytes, whole.bytes, whole.len) != 0) {
        printf("another whole\n");
        exit(1);
    }
    printf("read again: the same whole\n");
    return MOWQACHI_ACCEPTED;
}

/* From a whole there and back. */
static uint32_t try_whole(void)
{
    print_whole(&whole);
    uint32_t number = to_triples(&whole, &triples);
    if (number != MOWQACHI_ACCEPTED)
        return number;
    print_triples(&triples);
    number = from_triples(&triples, &again);
    if (number == MOWQACHI_ACCEPTED)
        print_whole(&again);
    return number;
}

/* The words of a triple file, or of a whole, which begins with its header. */
static const struct trial {
    const char *name;
    size_t count;
    uint32_t words[13];
} trials[] = {
    {"document 01's plant, in no order and with a repeat", 13, {1, 3, 5, 2, 1, 5, 2, 2, 6, 3, 1, 5, 2}},
    {"a loop, and the lowest and highest numbers", 10, {9, 65535, 4095, 65535, 9, 0, 65535, 0, 0, 65535}},
    {"a root that is no end of a triple", 4, {9, 1, 5, 2}},
    {"a root alone", 1, {9}},
    {"a label too large", 4, {1, 1, 4096, 2}},
    {"a triple without its target", 3, {1, 1, 5}},
    {"document 01's plant at site 5, with all its nodes doors", 7,
     {0x15000007, 0x20030001, 0x30050002, 0x20010002, 0x30060003, 0x20010003, 0x30050002}},
    {"a node that is stopped", 7, {0x10000007, 0x20030001, 0x30050002, 0x20000002, 0x30060003, 0x20040003, 0x30050002}},
    {"a node without a link", 4, {0x10000004, 0x20030001, 0x30050001, 0x20000002}},
    {"a link to no node", 3, {0x10000003, 0x20030001, 0x30050002}},
};

static void run(const struct trial *t)
{
    bool headed = t->words[0] >> 28 == 1;
    struct file *f = headed ? &whole : &triples;
    f->len = 4 * t->count;
    for (size_t i = 0; i < f->len; i++)
        f->bytes[i] = (uint8_t)(t->words[i / 4] >> 8 * (i % 4));
    printf("%s\n", t->name);
    uint32_t number = headed ? try_whole() : try_triples();
    if (number != MOWQACHI_ACCEPTED)
        print_refusal(number);
    printf("\n");
}

static _Noreturn void give_up(const char *name)
{
    fprintf(stderr, "triples: %s: cannot be read or written\n", name);
    exit(NOTHING);
}

static uint32_t convert(bool to_whole, const char *in, const char *out)
{
    static struct file from, to;
    FILE *f = fopen(in, "rb");
    if (f == NULL)
        give_up(in);
    from.len = fread(from.bytes, 1, sizeof from.bytes, f);
    if (ferror(f) || fclose(f) != 0)
        give_up(in);
    uint32_t number = to_whole ? from_triples(&from, &to) : to_triples(&from, &to);
    if (number != MOWQACHI_ACCEPTED) {
        print_refusal(number);
        return number;
    }
    f = fopen(out, "wb");
    if (f == NULL || fwrite(to.bytes, 1, to.len, f) != to.len || fclose(f) != 0)
        give_up(out);
    return number;
}

int main(int argc, char **argv)
{
    bool to_whole = argc == 4 && strcmp(argv[1], "--whole") == 0;
    if (to_whole || (argc == 4 && strcmp(argv[1], "--triples") == 0))
        return (int)convert(to_whole, argv[2], argv[3]);
    if (argc != 1) {
        fprintf(stderr, "usage: triples [--whole IN OUT | --triples IN OUT]\n");
        return NOTHING;
    }
    for (size_t i = 0; i < sizeof trials / sizeof *trials; i++)
        run(&trials[i]);
    return 0;
}
