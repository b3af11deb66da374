/* Questions from end to end, as a host asks them: document 01's whole W, cut at 0, 1, 0, and its path P; then plants with a stopped node, paths
   of labels outside a range, a path of groups, by ours and by a press maker's, and a link to a removed node, idle and walked. Each site and the hub
   are played in turn; the joined list must be the old search's. Prints every file that goes over a line. */
#include <inttypes.h>
#include <stdbool.h>
#include <stdio.h>
#include <stdlib.h>
#include <string.h>

#include "mowqachi.h"

enum { SITES = 2 };

/* A file in a buffer that is long enough for any output; len is what is handed on. */
struct file {
    size_t len;
    uint8_t bytes[MOWQACHI_LIST_BYTES];
};

static struct file whole, groups, path, parts[SITES], firsts[SITES], calls, seconds[SITES], bundle, joined, old;
static const uint8_t cuts[] = {0, 1, 0};
static uint8_t work[MOWQACHI_WORK_BYTES];

#define W {0x10000007, 0x20030001, 0x30050002, 0x20000002, 0x30060003, 0x20000003, 0x30050002}
#define HALTED {0x10000007, 0x20030001, 0x30050002, 0x20000002, 0x30060003, 0x20040003, 0x30050002}
#define P {0x40300007, 0x50005005, 0x50006006, 0x50005005, 0x60000001, 0x60000003, 0x60000001}
#define GROUPED {0x40300007, 0x51000006, 0x51000001, 0x51000006, 0x60000001, 0x60000003, 0x60000001}

/* 5, 6, 5 to 6, all labels, 0, 2048 to 4095, 5 again, 4095. */
static const uint32_t makers[] = {0x50005005, 0x50006006, 0x50006005, 0x50fff000, 0x50000000, 0x50fff800, 0x50005005, 0x50ffffff};

static const struct question {
    const char *name;
    size_t nodes;       /* bytes of the cut list */
    uint32_t whole[7], path[7];
    const uint32_t *groups;     /* NULL: ours */
    uint32_t part[4];   /* of site 1, where it has a link that the whole has not */
} questions[] = {
    {"document 01: 5 then (6 then 5)*", 3, W, P, NULL, {0}},
    {"node 3 stopped: 5 then (6 then 5)*", 3, HALTED, P, NULL, {0}},
    {"node 3 stopped: 5 then 6, which ends there", 3, HALTED, {0x40200004, 0x50005005, 0x50006006, 0x60000001}, NULL, {0}},
    {"node 3 stopped: 5 then 6 then 5, through it", 3, HALTED, {0x40300006, 0x50005005, 0x50006006, 0x60000001, 0x50005005, 0x60000001}, NULL, {0}},
    {"the root stopped: the empty word", 1, {0x10000002, 0x20070001}, {0x40000002, 0x60000000}, NULL, {0}},
    {"any link but 6, then (any but 5, any but 6)*: as document 01's path", 3, W,
     {0x40300007, 0x52006006, 0x52005005, 0x52006006, 0x60000001, 0x60000003, 0x60000001}, NULL, {0}},
    {"any number of links but 6", 3, W, {0x40100003, 0x52006006, 0x60000003}, NULL, {0}},
    {"any number of links but 0 to 4095, of which there are none", 3, W, {0x40100003, 0x52fff000, 0x60000003}, NULL, {0}},
    {"group 6 then (group 1 then group 6)*, and no link is in our group 6", 3, W, GROUPED, NULL, {0}},
    {"the same with a press maker's groups: as document 01's path", 3, W, GROUPED, makers, {0}},
    {"a link 5 of node 2 to the removed node 99, which no walk takes", 3, W, P, NULL, {0x11000004, 0x20010002, 0x30050063, 0x30060003}},
    {"a link 6 there, which walks take", 3, W, P, NULL, {0x11000004, 0x20010002, 0x30060003, 0x30060063}},
};

static void put_words(struct file *f, const uint32_t *words, size_t count)
{
    f->len = 4 * count;
    for (size_t i = 0; i < f->len; i++)
        f->bytes[i] = (uint8_t)(words[i / 4] >> 8 * (i % 4));
}

/* Words that begin with a header, which tells how many there are. */
static void put_file(struct file *f, const uint32_t *words)
{
    put_words(f, words, words[0] & 0x3fffu);
}

static void print_file(const char *name, const struct file *f)
{
    printf("%s:", name);
    for (size_t i = 0; i < f->len; i += 4)
        printf(" %02x%02x%02x%02x", f->bytes[i + 3], f->bytes[i + 2], f->bytes[i + 1], f->bytes[i]);
    printf("\n");
}

/* What a host does after every call: a refusal ends the question, an output is handed on at its length. */
static bool take(const char *name, uint32_t number, struct file *f)
{
    if (number != MOWQACHI_ACCEPTED) {
        printf("%s: refused %" PRIu32 "\n", name, number);
        return false;
    }
    f->len = mowqachi_file_bytes(f->bytes);
    print_file(name, f);
    return true;
}

/* Two replies always fit a bundle; a host with more sites looks whether they do. */
static void bundle_up(const struct file *files)
{
    bundle.len = 0;
    for (int s = 0; s < SITES; s++) {
        memcpy(bundle.bytes + bundle.len, files[s].bytes, files[s].len);
        bundle.len += files[s].len;
    }
}

/* The parts that the cutter makes, or a site's own as it stands there. */
static bool cut_whole(const struct question *q)
{
    for (uint32_t s = 0; s < SITES; s++)
        if (!take("part", mowqachi_cut(whole.bytes, whole.len, cuts, q->nodes, s, parts[s].bytes, sizeof parts[s].bytes, work, sizeof work),
                  &parts[s]))
            return false;
    if (q->part[0] != 0) {
        put_file(&parts[1], q->part);
        print_file("part as it stands", &parts[1]);
    }
    return true;
}

static uint32_t first_reply(const struct file *part, struct file *out)
{
    if (groups.len == 0)
        return mowqachi_first_reply(part->bytes, part->len, path.bytes, path.len, out->bytes, sizeof out->bytes, work, sizeof work);
    return mowqachi_first_reply_grouped(part->bytes, part->len, groups.bytes, groups.len, path.bytes, path.len,
                                        out->bytes, sizeof out->bytes, work, sizeof work);
}

static bool first_trip(void)
{
    for (int s = 0; s < SITES; s++)
        if (!take("first reply", first_reply(&parts[s], &firsts[s]), &firsts[s]))
            return false;
    bundle_up(firsts);
    return take("call list", mowqachi_call_list(bundle.bytes, bundle.len, calls.bytes, sizeof calls.bytes, work, sizeof work), &calls);
}

/* By the groups of the first trip. */
static uint32_t second_reply(const struct file *part, struct file *out)
{
    if (groups.len == 0)
        return mowqachi_second_reply(part->bytes, part->len, path.bytes, path.len, calls.bytes, calls.len,
                                     out->bytes, sizeof out->bytes, work, sizeof work);
    return mowqachi_second_reply_grouped(part->bytes, part->len, groups.bytes, groups.len, path.bytes, path.len, calls.bytes, calls.len,
                                         out->bytes, sizeof out->bytes, work, sizeof work);
}

static bool second_trip(void)
{
    for (int s = 0; s < SITES; s++)
        if (!take("second reply", second_reply(&parts[s], &seconds[s]), &seconds[s]))
            return false;
    bundle_up(seconds);
    return take("final list", mowqachi_join(bundle.bytes, bundle.len, joined.bytes, sizeof joined.bytes, work, sizeof work), &joined);
}

static uint32_t old_search(void)
{
    if (groups.len == 0)
        return mowqachi_old_search(whole.bytes, whole.len, path.bytes, path.len, old.bytes, sizeof old.bytes, work, sizeof work);
    return mowqachi_old_search_grouped(whole.bytes, whole.len, groups.bytes, groups.len, path.bytes, path.len,
                                       old.bytes, sizeof old.bytes, work, sizeof work);
}

static void ask(const struct question *q)
{
    printf("%s\n", q->name);
    put_file(&whole, q->whole);
    put_words(&groups, q->groups, q->groups == NULL ? 0 : MOWQACHI_GROUP_COUNT);
    put_file(&path, q->path);
    print_file("whole", &whole);
    if (groups.len > 0)
        print_file("groups", &groups);
    print_file("path", &path);
    if (!cut_whole(q) || !first_trip() || !second_trip() || !take("old search", old_search(), &old)) {
        printf("the question has ended\n\n");
        return;
    }
    if (memcmp(joined.bytes, old.bytes, sizeof old.bytes) != 0) {
        printf("the two lists differ\n");
        exit(1);
    }
    printf("the joined list is the old search's\n\n");
}

int main(void)
{
    for (size_t i = 0; i < sizeof questions / sizeof *questions; i++)
        ask(&questions[i]);
    return 0;
}
