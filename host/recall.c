/* Recall lists, as a publisher prints them: the nodes that the old search lists, and beside each how it was reached. A walk that is printed has
   passed the checker, which owes nothing to the search.
     recall                         some small plants, each with a path
     recall WHOLE PATH [GROUPS]     the list of these files; a whole of at most 1,024 words
   The exit code is the number that refuses, 0 where none does, 1 where the checker says no, and 64 where a file cannot be read. */
#include <inttypes.h>
#include <stdbool.h>
#include <stdio.h>
#include <stdlib.h>

#include "mowqachi.h"

enum { NOTHING = 64 };

/* A file in a buffer that is long enough for any that is read or written here, and for a byte more. */
struct file {
    size_t len;
    uint8_t bytes[MOWQACHI_LIST_BYTES + 1];
};

static struct file whole, groups, path, list, walk;
static bool grouped;    /* whether the groups are a maker's own, and not ours */
static uint8_t work[MOWQACHI_WORK_BYTES];

static uint32_t word_at(const struct file *f, size_t i)
{
    const uint8_t *b = f->bytes + 4 * i;
    return b[0] | (uint32_t)b[1] << 8 | (uint32_t)b[2] << 16 | (uint32_t)b[3] << 24;
}

/* After a refusal an output is all zero, and so is its length. */
static uint32_t take(struct file *f, uint32_t number)
{
    f->len = mowqachi_file_bytes(f->bytes);
    return number;
}

/* Whoever prints no walks may search larger wholes too. */
static uint32_t search(void)
{
    if (whole.len > 4 * MOWQACHI_WALK_WHOLE_WORDS)
        return MOWQACHI_SIZE;
    if (!grouped)
        return take(&list, mowqachi_old_search(whole.bytes, whole.len, path.bytes, path.len, list.bytes, MOWQACHI_LIST_BYTES, work, sizeof work));
    return take(&list, mowqachi_old_search_grouped(whole.bytes, whole.len, groups.bytes, groups.len, path.bytes, path.len,
                                                   list.bytes, MOWQACHI_LIST_BYTES, work, sizeof work));
}

static uint32_t find_walk(uint32_t node)
{
    if (!grouped)
        return take(&walk, mowqachi_walk(whole.bytes, whole.len, path.bytes, path.len, node, walk.bytes, MOWQACHI_WALK_BYTES, work, sizeof work));
    return take(&walk, mowqachi_walk_grouped(whole.bytes, whole.len, groups.bytes, groups.len, path.bytes, path.len, node,
                                             walk.bytes, MOWQACHI_WALK_BYTES, work, sizeof work));
}

/* Whether the checker says yes to the walk: it takes a file of any maker's. */
static bool passes(uint32_t node)
{
    uint32_t yes;
    if (!grouped)
        mowqachi_check_walk(whole.bytes, whole.len, path.bytes, path.len, node, walk.bytes, walk.len, &yes, work, sizeof work);
    else
        mowqachi_check_walk_grouped(whole.bytes, whole.len, groups.bytes, groups.len, path.bytes, path.len, node,
                                    walk.bytes, walk.len, &yes, work, sizeof work);
    return yes == 1;
}

static void print_walk(uint32_t node)
{
    size_t links = mowqachi_walk_links(walk.bytes);
    printf("node %" PRIu32 ":%s", node, links == 0 ? " the root itself" : "");
    for (size_t i = 0; i < links; i++)
        printf("%s by label %" PRIu32 " to node %" PRIu32, i > 0 ? "," : "", mowqachi_link_label(walk.bytes, i), mowqachi_link_target(walk.bytes, i));
    printf("\n");
}

/* A node of the list with its walk. A walk that is too long to be written leaves the rest of the list alone. */
static uint32_t print_node(uint32_t node)
{
    uint32_t number = find_walk(node);
    if (number == MOWQACHI_RESULT) {
        printf("node %" PRIu32 ": by more than %d links\n", node, MOWQACHI_WALK_WORDS - 1);
        return MOWQACHI_ACCEPTED;
    }
    if (number != MOWQACHI_ACCEPTED)
        return number;
    if (!passes(node)) {
        printf("node %" PRIu32 ": the checker says no\n", node);
        exit(1);
    }
    print_walk(node);
    return number;
}

static const char *reason(uint32_t number)
{
    return number == MOWQACHI_SIZE ? ": no words, too many, or bytes not in fours; a whole has at most 1024 words here" : "";
}

static uint32_t print_list(void)
{
    uint32_t number = search();
    size_t nodes = number == MOWQACHI_ACCEPTED ? list.len / 4 - 1 : 0;
    if (number == MOWQACHI_ACCEPTED)
        printf("recall list: %zu node%s\n", nodes, nodes == 1 ? "" : "s");
    for (size_t i = 1; i <= nodes && number == MOWQACHI_ACCEPTED; i++)
        number = print_node(word_at(&list, i) & 0xffff);
    if (number != MOWQACHI_ACCEPTED)
        printf("refused %" PRIu32 "%s\n", number, reason(number));
    return number;
}

#define W {0x10000007, 0x20030001, 0x30050002, 0x20000002, 0x30060003, 0x20000003, 0x30050002}
#define HALTED {0x10000007, 0x20030001, 0x30050002, 0x20000002, 0x30060003, 0x20040003, 0x30050002}
#define P {0x40300007, 0x50005005, 0x50006006, 0x50005005, 0x60000001, 0x60000003, 0x60000001}
#define ANY {0x40100003, 0x50fff000, 0x60000003}
#define DIAMOND {0x1000000a, 0x20030001, 0x30050002, 0x30050003, 0x20000002, 0x30090004, 0x20000003, 0x30070004, 0x30080004, 0x20000004}

/* 5, 6, 5 to 6, all labels, 0, 2048 to 4095, 5 again, 4095. */
static const uint32_t makers[] = {0x50005005, 0x50006006, 0x50006005, 0x50fff000, 0x50000000, 0x50fff800, 0x50005005, 0x50ffffff};

/* The words of a whole and of a path, each as many as its header says; and groups, or NULL for ours. */
static const struct trial {
    const char *name;
    uint32_t whole[10], path[7];
    const uint32_t *groups;
} trials[] = {
    {"document 01's plant, 5 then (6 then 5)*", W, P, NULL},
    {"5 then 6 then 5: the walk comes to node 2 twice", W, {0x40300006, 0x50005005, 0x50006006, 0x60000001, 0x50005005, 0x60000001}, NULL},
    {"any number of any links", W, ANY, NULL},
    {"the same with node 3 stopped: no walk leads to it", HALTED, ANY, NULL},
    {"the root stopped", {0x10000002, 0x20070001}, ANY, NULL},
    {"two links to node 4: of three walks the one whose first link is lower, though its second is higher", DIAMOND,
     {0x40200004, 0x50fff000, 0x50fff000, 0x60000001}, NULL},
    {"the same by 5, then 7 or 8: of two walks with the same first link the one whose second is lower", DIAMOND,
     {0x40200004, 0x50005005, 0x50008007, 0x60000001}, NULL},
    {"a longer walk with lower links, and a shorter one", {0x10000007, 0x20030001, 0x30010002, 0x30090003, 0x20000002, 0x30010003, 0x20000003},
     ANY, NULL},
    {"document 01's plant, group 6 then (group 1 then group 6)*: no link is in our group 6", W,
     {0x40300007, 0x51000006, 0x51000001, 0x51000006, 0x60000001, 0x60000003, 0x60000001}, NULL},
    {"the same with a press maker's groups", W, {0x40300007, 0x51000006, 0x51000001, 0x51000006, 0x60000001, 0x60000003, 0x60000001}, makers},
    {"a path with an operand missing", W, {0x40000002, 0x60000003}, NULL},
};

static void put_words(struct file *f, const uint32_t *words, size_t count)
{
    f->len = 4 * count;
    for (size_t i = 0; i < f->len; i++)
        f->bytes[i] = (uint8_t)(words[i / 4] >> 8 * (i % 4));
}

static void run(const struct trial *t)
{
    grouped = t->groups != NULL;
    put_words(&whole, t->whole, t->whole[0] & 0x3fff);
    put_words(&path, t->path, t->path[0] & 0x3fff);
    put_words(&groups, t->groups, grouped ? MOWQACHI_GROUP_COUNT : 0);
    printf("%s\n", t->name);
    print_list();
    printf("\n");
}

static void read_file(struct file *to, const char *name)
{
    FILE *f = fopen(name, "rb");
    if (f != NULL)
        to->len = fread(to->bytes, 1, sizeof to->bytes, f);
    if (f == NULL || ferror(f) || fclose(f) != 0) {
        fprintf(stderr, "recall: %s: cannot be read\n", name);
        exit(NOTHING);
    }
}

int main(int argc, char **argv)
{
    struct file *const files[] = {&whole, &path, &groups};
    if (argc == 2 || argc > 4) {
        fprintf(stderr, "usage: recall [WHOLE PATH [GROUPS]]\n");
        return NOTHING;
    }
    for (int k = 1; k < argc; k++)
        read_file(files[k - 1], argv[k]);
    grouped = argc > 3;
    if (argc > 1)
        return (int)print_list();
    for (size_t i = 0; i < sizeof trials / sizeof *trials; i++)
        run(&trials[i]);
    return 0;
}
