/* Every call on a stack of 64 KiB with a guard page below it, on the heaviest inputs: an overrun would end the program. The stack is painted
   ahead of a call, and afterwards the deepest byte that lost its paint tells how far the call went. Then all calls again, at once, each on a
   stack and buffers of its own, with the same outputs. */
#define _GNU_SOURCE
#include <pthread.h>
#include <stdio.h>
#include <stdlib.h>
#include <string.h>
#include <sys/mman.h>

#include "calls.h"
#include "drafts.h"

/* No call may need as many bytes: docs/CALLS.md says so. */
enum { STACK = 65536, GUARD = 4096, PAINT = 0xc3, RED_ZONE = 128, BOUND = 2048, MOST_JOBS = 100 };

/* A call to be made on the small stack, and what came of it. */
struct job {
    struct asked asked;
    uint64_t expected, number;
    size_t depth;
    uint8_t *low;       /* of the stack */
    uint32_t word;      /* of the host's, that the call writes */
    struct buffers buffers;
    pthread_t thread;
};

static struct job jobs[MOST_JOBS];
static int job_count;

static _Noreturn void fail(const char *what)
{
    printf("%s\n", what);
    exit(1);
}

static void *get(size_t len)
{
    void *bytes = malloc(len);
    if (bytes == NULL)
        fail("no memory");
    return bytes;
}

/* Nodes from 0 upward, all of them doors, node 0 the root, each with so many links on label 0 to nodes below `targets`: a part of at most so many
   words. Every `stop`-th node is stopped, none where it is 0. */
static void fill_part(uint32_t words, struct draft *f, uint32_t links, uint32_t targets, uint32_t stop)
{
    uint32_t nodes = (words - 1) / (links + 1);
    f->len = 4;
    for (uint32_t x = 0; x < nodes; x++) {
        bool stopped = stop > 0 && x % stop == stop - 1;
        put(f, (x == 0 ? 0x20030000 : 0x20010000) + (stopped ? 0x40000 : 0) + x);
        for (uint32_t k = 0; k < links; k++)
            put(f, 0x30000000 + k * (targets / links) + draw(targets / links));
    }
    end_file(f, 0, 0x10000000);
}

/* One door, and as many outside targets as fit, met in descending order: the dearest to keep in order. */
static void fill_outside(struct draft *f)
{
    f->len = 4;
    put(f, 0x20010000);
    for (uint32_t i = 0; i < MOWQACHI_PART_WORDS - 2; i++)
        put(f, 0x30000000 + (i << 16) + (60000 - i));
    end_file(f, 0, 0x10000000);
}

/* 64 words and 15 labels: an empty word, then full ranges, all labels but 4095, and groups by turns. Once as many wait as may, an operator stands
   behind each; the other operators follow, then stars. */
static void fill_path(struct draft *f, uint32_t operator)
{
    static const uint32_t labels[] = {0x50fff000, 0x52ffffff, 0x51000000};
    f->len = 4;
    put(f, 0x60000000);
    for (int i = 0; i < MOWQACHI_PATH_LABELS; i++) {
        put(f, labels[i % 3]);
        if (i + 2 >= MOWQACHI_WAITING)
            put(f, operator);
    }
    for (int i = 0; i < MOWQACHI_WAITING - 2; i++)
        put(f, operator);
    while (f->len < 4 * MOWQACHI_PATH_WORDS)
        put(f, 0x60000003);
    end_file(f, 0, 0x40f00000);
}

/* Two replies of doors in a chain: each door's row leads to the door before, so that the hub's search goes back and forth. */
static void fill_chain(struct draft *f)
{
    uint32_t each = (MOWQACHI_REPLY_WORDS - 1) / 3;
    f->len = 0;
    for (uint32_t site = 0; site < 2; site++) {
        size_t from = f->len;
        f->len += 4;
        for (uint32_t x = site * each; x < (site + 1) * each; x++) {
            put(f, (x + 1 == 2 * each ? 0x80010000 : 0x80000000) + x);
            put(f, 0x90000000);
            put(f, 0xa0000000 + 16 * (x == 0 ? 0 : x - 1));
        }
        end_file(f, from, 0x70f00000 + (site << 24));
    }
}

/* A root that reaches 255 doors in all states, the first of which reaches one door more in so many; and at most 4,096 words of doors behind it. */
static void fill_wide(struct draft *f, uint32_t further)
{
    f->len = 4;
    put(f, 0x80010000);
    put(f, 0x90000000);
    for (uint32_t c = 16; c < 16 * 256; c++)
        put(f, 0xa0000000 + c);
    end_file(f, 0, 0x70f00000);
    size_t from = f->len;
    f->len += 4;
    put(f, 0x80000001);
    put(f, 0x90000000);
    for (uint32_t q = 0; q < further; q++)
        put(f, 0xa0001000 + q);
    for (uint32_t x = 2; f->len < from + 4 * MOWQACHI_REPLY_WORDS; x++)
        put(f, 0x80000000 + x);
    end_file(f, from, 0x71f00000);
}

/* Sixteen replies of doors all over the nodes, each with a row to the next door, which is in the next reply; that of the last door leads to the
   node so far behind it: to itself, or to no door. */
static void fill_spread(struct draft *f, uint32_t behind)
{
    uint32_t each = (MOWQACHI_BUNDLE_WORDS / MOWQACHI_SITES - 1) / 3, doors = each * MOWQACHI_SITES, apart = MOWQACHI_NODES / doors;
    f->len = 0;
    for (uint32_t site = 0; site < MOWQACHI_SITES; site++) {
        size_t from = f->len;
        f->len += 4;
        for (uint32_t x = site; x < doors; x += MOWQACHI_SITES) {
            put(f, (x == 0 ? 0x80010000 : 0x80000000) + apart * x);
            put(f, 0x90000000);
            put(f, 0xa0000000 + 16 * (x + 1 == doors ? apart * x + behind : apart * (x + 1)));
        }
        end_file(f, from, 0x70f00000 + (site << 24));
    }
}

/* Words of a kind that go up by one: a call list, or a second reply. */
static void fill_words(struct draft *f, uint32_t header, uint32_t first)
{
    size_t from = f->len;
    f->len += 4;
    for (uint32_t i = 0; i + 1 < MOWQACHI_REPLY_WORDS; i++)
        put(f, first + i);
    end_file(f, from, header);
}

/* As many triples as fit: a root's links to so many nodes, in descending order over and over. Their whole has 2 + 2 * others words. */
static void fill_triples(struct draft *f, uint32_t others)
{
    f->len = 0;
    put(f, 0);
    for (uint32_t k = 0; k < (MOWQACHI_TRIPLE_WORDS - 1) / 3; k++) {
        put(f, 0);
        put(f, 7);
        put(f, others - k % others);
    }
}

/* A call, and where it reads paths also the one with groups. */
static void add_asked(struct asked asked, uint64_t expected)
{
    jobs[job_count++] = (struct job){.asked = asked, .expected = expected};
    if (reads_path(asked.call))
        jobs[job_count++] = (struct job){.asked = with_groups(&asked, our_groups), .expected = expected};
}

static void add(enum call call, uint64_t expected, struct span a, struct span b, struct span c)
{
    add_asked((struct asked){call, {a, b, c}, {0}}, expected);
}

static void add_searches(void)
{
    static struct draft loops, halted, ring, reply, outside, ors, thens, calls;
    static uint8_t cuts[MOWQACHI_PART_WORDS];
    const struct span none = {NULL, 0};
    fill_part(MOWQACHI_PART_WORDS, &loops, 2, 1365, 0);
    fill_part(MOWQACHI_PART_WORDS, &halted, 2, 1365, 3);
    fill_part(MOWQACHI_PART_WORDS, &ring, 1, 2047, 0);
    fill_part(MOWQACHI_PART_WORDS, &reply, 3, 60000, 0);
    fill_outside(&outside);
    fill_path(&ors, 0x60000002);
    fill_path(&thens, 0x60000001);
    fill_words(&calls, 0xb0f00000, 0xc0000000);
    for (size_t i = 0; i < sizeof cuts; i++)
        cuts[i] = (uint8_t)draw(MOWQACHI_SITES);
    add(OLD_SEARCH, 0, span_of(&loops), span_of(&ors), none);
    add(OLD_SEARCH, 0, span_of(&halted), span_of(&ors), none);
    add(OLD_SEARCH, 0, span_of(&ring), span_of(&thens), none);
    add(CUT, 0, span_of(&loops), (struct span){cuts, 1365}, none);
    add(CUT, 0, span_of(&halted), (struct span){cuts, 1365}, none);
    add(CUT, 0, span_of(&ring), (struct span){cuts, 2047}, none);
    add(FIRST_REPLY, 0, span_of(&loops), span_of(&ors), none);
    add(FIRST_REPLY, 0, span_of(&halted), span_of(&ors), none);
    add(FIRST_REPLY, 0, span_of(&ring), span_of(&thens), none);
    add(FIRST_REPLY, MOWQACHI_RESULT, span_of(&reply), span_of(&ors), none);
    add(FIRST_REPLY, MOWQACHI_RESULT, span_of(&outside), span_of(&thens), none);
    add(SECOND_REPLY, 0, span_of(&loops), span_of(&ors), span_of(&calls));
    add(SECOND_REPLY, 0, span_of(&halted), span_of(&ors), span_of(&calls));
    add(SECOND_REPLY, 0, span_of(&ring), span_of(&thens), span_of(&calls));
    add(SECOND_REPLY, 0, span_of(&outside), span_of(&ors), span_of(&calls));
}

/* Paths of full size, ors and thens by turns. */
static void fill_bundle(struct draft *f, size_t paths)
{
    struct draft path;
    f->len = 0;
    for (size_t k = 0; k < paths; k++) {
        fill_path(&path, k % 2 == 0 ? 0x60000002 : 0x60000001);
        put_bytes(f, span_of(&path));
    }
}

/* Visits and desks. Replies of `short_ones` have 512 words, so that those of eight desks fill the output; of those with 1,366 words two fit. */
static void add_visits(void)
{
    static struct draft loops, halted, short_ones, reply, outside, four, eight;
    const struct span none = {NULL, 0};
    fill_part(MOWQACHI_PART_WORDS, &loops, 2, 1365, 0);
    fill_part(MOWQACHI_PART_WORDS, &halted, 2, 1365, 3);
    fill_part(MOWQACHI_PART_WORDS, &short_ones, 7, 511, 0);
    fill_part(MOWQACHI_PART_WORDS, &reply, 3, 60000, 0);
    fill_outside(&outside);
    fill_bundle(&four, MOWQACHI_VISIT_PATHS);
    fill_bundle(&eight, MOWQACHI_DESKS);
    add(FOUR_REPLIES, 0, span_of(&loops), span_of(&four), none);
    add(FOUR_REPLIES, 0, span_of(&halted), span_of(&four), none);
    add(FOUR_REPLIES, 0x0f0f0f0f, span_of(&reply), span_of(&four), none);
    add(FOUR_REPLIES, 0x0f0f0f0f, span_of(&outside), span_of(&four), none);
    add(EIGHT_REPLIES, 0, span_of(&short_ones), span_of(&eight), none);
    add(EIGHT_REPLIES, 0x0f0f0f0f0f0f0000, span_of(&loops), span_of(&eight), none);
    add(EIGHT_REPLIES, 0x0f0f0f0f0f0f0000, span_of(&halted), span_of(&eight), none);
    add(EIGHT_REPLIES, 0x0f0f0f0f0f0f0f0f, span_of(&reply), span_of(&eight), none);
    add(EIGHT_REPLIES, 0x0f0f0f0f0f0f0f0f, span_of(&outside), span_of(&eight), none);
}

static void add_bundles(void)
{
    static struct draft chain, wide, over, spread, stray, answers;
    const struct span none = {NULL, 0};
    fill_chain(&chain);
    fill_wide(&wide, 14);
    fill_wide(&over, 15);
    fill_spread(&spread, 0);
    fill_spread(&stray, 1);
    fill_words(&answers, 0xd0f00000, 0xe0000000);
    fill_words(&answers, 0xdff00000, 0xe000f000);
    add(CALL_LIST, 0, span_of(&chain), none, none);
    add(CALL_LIST, 0, span_of(&wide), none, none);
    add(CALL_LIST, MOWQACHI_RESULT, span_of(&over), none, none);
    add(CALL_LIST, 0, span_of(&spread), none, none);
    add(CALL_LIST, MOWQACHI_DOOR, span_of(&stray), none, none);
    add(JOIN, 0, span_of(&answers), none, none);
}

/* Triples whose whole just fits, does not fit, and is small; and back wholes of full size, one of which has stopped nodes. */
static void add_editions(void)
{
    static struct draft full, over, alike, loops, ring, halted;
    const struct span none = {NULL, 0};
    fill_triples(&full, MOWQACHI_PART_WORDS / 2 - 1);
    fill_triples(&over, MOWQACHI_PART_WORDS / 2);
    fill_triples(&alike, 1);
    fill_part(MOWQACHI_PART_WORDS, &loops, 2, 1365, 0);
    fill_part(MOWQACHI_PART_WORDS, &ring, 1, 2047, 0);
    fill_part(MOWQACHI_PART_WORDS, &halted, 2, 1365, 3);
    add(FROM_TRIPLES, 0, span_of(&full), none, none);
    add(FROM_TRIPLES, MOWQACHI_RESULT, span_of(&over), none, none);
    add(FROM_TRIPLES, 0, span_of(&alike), none, none);
    add(TO_TRIPLES, 0, span_of(&loops), none, none);
    add(TO_TRIPLES, 0, span_of(&ring), none, none);
    add(TO_TRIPLES, MOWQACHI_UNSAID, span_of(&halted), none, none);
}

/* A walk's file of full size: round and round the ring. */
static void fill_walk(struct draft *f, uint32_t nodes)
{
    f->len = 4;
    for (uint32_t k = 1; k < MOWQACHI_WALK_WORDS; k++)
        put(f, 0x30000000 + k % nodes);
    end_file(f, 0, 0);
}

/* Walks in wholes of 1,024 words, or one less: one of no links, and none, as the node is stopped; in a ring one of 510 links, one of full size, and
   one that would be longer. Then the check of a walk of full size, accepted or not, and of words that are none. */
static void add_walks(void)
{
    enum { RING = (MOWQACHI_WALK_WHOLE_WORDS - 1) / 2 };
    static struct draft loops, halted, ring, ors, thens, full, over, walk;
    fill_part(MOWQACHI_WALK_WHOLE_WORDS, &loops, 2, 341, 0);
    fill_part(MOWQACHI_WALK_WHOLE_WORDS, &halted, 2, 341, 3);
    fill_ring(&ring, RING);
    fill_path(&ors, OR);
    fill_path(&thens, THEN);
    fill_turns(&full, 0, 15);
    fill_turns(&over, 1, 13);
    fill_walk(&walk, RING);
    add_asked((struct asked){WALK, {span_of(&loops), span_of(&ors)}, {0, 0}}, 0);
    add_asked((struct asked){WALK, {span_of(&halted), span_of(&ors)}, {0, 2}}, MOWQACHI_UNLISTED);
    add_asked((struct asked){WALK, {span_of(&ring), span_of(&thens)}, {0, RING - 1}}, 0);
    add_asked((struct asked){WALK, {span_of(&ring), span_of(&full)}, {0, 4095 % RING}}, 0);
    add_asked((struct asked){WALK, {span_of(&ring), span_of(&over)}, {0, 4096 % RING}}, MOWQACHI_RESULT);
    add_asked((struct asked){CHECK_WALK, {span_of(&ring), span_of(&full), span_of(&walk)}, {7, 4095 % RING}}, 0);
    add_asked((struct asked){CHECK_WALK, {span_of(&ring), span_of(&thens), span_of(&walk)}, {7, 4095 % RING}}, 0);
    add_asked((struct asked){CHECK_WALK, {span_of(&loops), span_of(&ors), span_of(&loops)}, {7, 0}}, 0);
}

/* A call that takes three numbers alone. */
static void add_counted(enum call call, uint32_t expected, uint32_t first, uint32_t second, uint32_t third)
{
    jobs[job_count++] = (struct job){.asked = {call, {{NULL, 0}}, {first, second, third}}, .expected = expected};
}

/* Dearest parts of 4,096 words, or one less, and one that would have one more; generated plants, the largest and the smallest, and one too large. */
static void add_counts(void)
{
    add_counted(DEAREST, 0, 1, 4094, MOWQACHI_PATH_LABELS);
    add_counted(DEAREST, 0, 63, 64, MOWQACHI_PATH_LABELS);
    add_counted(DEAREST, 0, 2047, 1, MOWQACHI_PATH_LABELS);
    add_counted(DEAREST, MOWQACHI_COUNTS, 2048, 1, MOWQACHI_PATH_LABELS);
    add_counted(GENERATE, 0, 0, MOWQACHI_GENERATED_NODES, MOWQACHI_GENERATED_EDGES);
    add_counted(GENERATE, 0, 0xffffffff, 1, 1);
    add_counted(GENERATE, MOWQACHI_CUT, 0, MOWQACHI_GENERATED_NODES + 1, MOWQACHI_GENERATED_EDGES);
}

/* Paints the stack below this frame, makes the call, and looks for the deepest byte that changed. */
static void *run(void *argument)
{
    struct job *job = argument;
    uint8_t *here;
    __asm__ volatile("mov %%rsp, %0" : "=r"(here));
    for (volatile uint8_t *p = job->low; p < here - RED_ZONE; p++)
        *p = PAINT;
    job->number = invoke(&job->asked, &job->buffers);
    const volatile uint8_t *p = job->low;
    while (p < here && *p == PAINT)
        p++;
    job->depth = (size_t)(here - p);
    return NULL;
}

static void start(struct job *job)
{
    pthread_attr_t attributes;
    uint8_t *block = mmap(NULL, STACK + GUARD, PROT_READ | PROT_WRITE, MAP_PRIVATE | MAP_ANONYMOUS, -1, 0);
    if (block == MAP_FAILED || mprotect(block, GUARD, PROT_NONE) != 0)
        fail("no stack");
    job->low = block + GUARD;
    job->buffers.room = room_for(job->asked.call);
    for (int k = 0; k < OUTPUTS && job->buffers.room.out[k] > 0; k++)
        job->buffers.out[k] = get(job->buffers.room.out[k]);
    job->buffers.work = get(job->buffers.room.work);
    job->word = job->asked.values[0];
    job->buffers.word = &job->word;
    if (pthread_attr_init(&attributes) != 0 || pthread_attr_setstack(&attributes, job->low, STACK) != 0 ||
        pthread_create(&job->thread, &attributes, run, job) != 0)
        fail("no thread");
    pthread_attr_destroy(&attributes);
}

static void finish(struct job *job)
{
    if (pthread_join(job->thread, NULL) != 0 || munmap(job->low - GUARD, STACK + GUARD) != 0)
        fail("no end of a thread");
    if (job->number != job->expected)
        fail("another number than expected");
    if (job->depth >= BOUND) {
        printf("%s: %zu bytes: ", call_names[job->asked.call], job->depth);
        fail("more stack than docs/CALLS.md says");
    }
    free(job->buffers.work);
}

static void report(void)
{
    for (int c = 0; c < CALL_COUNT; c++) {
        size_t deepest = 0;
        for (int k = 0; k < job_count; k++)
            if (jobs[k].asked.call == (enum call)c && jobs[k].depth > deepest)
                deepest = jobs[k].depth;
        printf("%-21s %5zu bytes of stack\n", call_names[c], deepest);
    }
}

/* Whether two runs of a call left the same word of the host's and the same outputs, which are given back. */
static bool same_outputs(struct job *a, struct job *b)
{
    bool same = a->word == b->word;
    for (int k = 0; k < OUTPUTS && a->buffers.room.out[k] > 0; k++) {
        same = same && memcmp(a->buffers.out[k], b->buffers.out[k], a->buffers.room.out[k]) == 0;
        free(a->buffers.out[k]);
        free(b->buffers.out[k]);
    }
    return same;
}

int main(void)
{
    static struct job again[MOST_JOBS];
    add_searches();
    add_visits();
    add_bundles();
    add_counts();
    add_editions();
    add_walks();
    for (int k = 0; k < job_count; k++) {
        start(&jobs[k]);
        finish(&jobs[k]);
    }
    report();
    memcpy(again, jobs, sizeof again);
    for (int k = 0; k < job_count; k++)
        start(&again[k]);
    for (int k = 0; k < job_count; k++) {
        finish(&again[k]);
        if (!same_outputs(&again[k], &jobs[k]))
            fail("another output in a call beside others");
    }
    printf("%d calls at once: the same outputs\n", job_count);
    return 0;
}
