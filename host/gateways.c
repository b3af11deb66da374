/* The load bench, for support: plants that the library draws, the same on every machine, each searched old and split over sites. Prints first what
   every gateway must print alike, counts and checksums, and behind a blank line its times. bench/gateways builds and runs it.
     gateways [N] [--state S] [--lists] [--keep DIR]
   The exit code is 1 where a joined list is not the old search's, a call refuses what it should accept or a file cannot be kept, and 64 where the
   arguments are wrong. */
#define _POSIX_C_SOURCE 200809L
#include <inttypes.h>
#include <limits.h>
#include <stdio.h>
#include <stdlib.h>
#include <string.h>
#include <time.h>
#include <unistd.h>

#include "calls.h"
#include "drafts.h"

enum { NOTHING = 64, PLANTS = 1000, MOST_PLANTS = 1000000, FIRST_STATE = 1, MOST_NODES = MOWQACHI_GENERATED_NODES, MOST_WORDS = 8 };
/* In nanoseconds; the last is a tenth of a second. */
enum { MICROSECOND = 1000, TENTH = 100000000 };

struct options {
    uint32_t plants, state;
    bool lists;         /* what is the same everywhere, and no times */
    const char *keep;   /* a directory for the plants, or NULL */
};

/* Labels are spread evenly over 0 to 4095, so a letter's share of them is its share of the links. */
static const uint32_t paths[][MOST_WORDS] = {
    /* (group 0)*: all links, any number of them. Lists most of a plant. */
    {0x40100003, 0x51000000, 0x60000003},
    /* 0 to 3071, then (outside 1024 to 2047)*: three quarters of the links, any number. Lists many nodes. */
    {0x40200005, 0x50bff000, 0x527ff400, 0x60000003, 0x60000001},
    /* (512 to 3583 or group 2)* then group 7, one link in 64. Lists few nodes, by long walks. */
    {0x40300007, 0x50dff200, 0x51000002, 0x60000002, 0x60000003, 0x51000007, 0x60000001},
    /* Group 0 then outside 1024 to 3071 then 1024 to 4095: three links. Lists few nodes. */
    {0x40300006, 0x51000000, 0x52bff400, 0x60000001, 0x50fff400, 0x60000001},
    /* The empty word, or group 0 then group 6: the root, and few nodes two links away. */
    {0x40200006, 0x60000000, 0x51000000, 0x51000006, 0x60000001, 0x60000002},
    /* Group 0 then outside 0 to 4095, which holds no label. Lists nothing. */
    {0x40200004, 0x51000000, 0x52fff000, 0x60000001},
    /* (0 to 3071 then outside 512 to 1535)*: an even number of links. Lists many nodes. */
    {0x40200005, 0x50bff000, 0x525ff200, 0x60000001, 0x60000003},
};
enum { PATHS = sizeof paths / sizeof *paths };

/* What is fixed of a plant by its number: its counts, what is asked, and the site of each node. */
struct plan {
    uint32_t number, nodes, edges, sites;
    const uint32_t *path;
    uint8_t cuts[MOST_NODES];
};

/* What became of the split search: a list; 15 of a first reply or a call list; or more words than a bundle may have. */
enum ending { JOINED, REFUSED, OVER, ENDINGS };

/* What is the same on every machine. Sent are first replies, the call list to each site and second replies, where a list was joined; the checksum
   has the call list once. */
struct results {
    uint32_t plants, first, last, endings[ENDINGS];
    uint64_t nodes, links, listed, sent;
    uint64_t whole_sum, old_sum, sent_sum, joined_sum;
};

struct timing {
    uint64_t calls, total, largest;     /* nanoseconds */
};

static struct draft whole, path, old, parts[MOWQACHI_SITES], reply, firsts, calls, seconds, joined;
static uint8_t work[MOWQACHI_WORK_BYTES];
static uint32_t state;      /* lent to each generate, and so handed on from plant to plant */
static struct timing times[CALL_COUNT];

static uint64_t now(void)
{
    struct timespec t;
    clock_gettime(CLOCK_MONOTONIC, &t);
    return (uint64_t)t.tv_sec * 1000000000 + (uint64_t)t.tv_nsec;
}

static void add_time(struct timing *t, uint64_t start)
{
    uint64_t taken = now() - start;
    t->calls++;
    t->total += taken;
    if (taken > t->largest)
        t->largest = taken;
}

/* On a terminal a line says how far it is, at most ten times a second; at the end it is cleared. */
static void show_progress(uint32_t number, uint32_t plants)
{
    static uint64_t shown;
    if (!isatty(STDERR_FILENO) || now() - shown < TENTH)
        return;
    shown = now();
    fprintf(stderr, "\rplant %" PRIu32 " of %" PRIu32, number, plants);
}

static void clear_progress(void)
{
    if (isatty(STDERR_FILENO))
        fprintf(stderr, "\r\033[K");
}

static _Noreturn void fail(const struct plan *p, const char *name, const char *what)
{
    clear_progress();
    fprintf(stderr, "gateways: plant %" PRIu32 ": %s%s\n", p->number, name, what);
    exit(1);
}

static _Noreturn void fail_refused(const struct plan *p, const char *call, uint32_t number)
{
    char what[32];
    snprintf(what, sizeof what, ": refused %" PRIu32, number);
    fail(p, call, what);
}

/* Three ways of cutting. Links lead anywhere, so by turns and by stretches nearly all nodes are doors; in the third the first site has all nodes but
   the last ones, of which every other site has one. With more sites than nodes some have none. */
static uint8_t site_of_node(const struct plan *p, uint32_t x)
{
    switch (p->number % 3) {
    case 0: return (uint8_t)(x % p->sites);
    case 1: return (uint8_t)(x * p->sites / p->nodes);
    default: return (uint8_t)(x + p->sites > p->nodes ? x + p->sites - p->nodes : 0);
    }
}

/* Of 256 plants one after another each has another k from 0 to 255; half of them have 192 nodes and more, sixteen have 256, and one has one. Half of
   the plants have four edges a node. Sixteen numbers of sites, seven paths and three cuts have no divisor in common, so each meets each. */
static struct plan plan_of(uint32_t number)
{
    static const uint8_t edges[] = {4, 1, 4, 3, 2, 4, 3, 4};
    uint32_t k = number * 203 % 256;
    struct plan p = {.number = number, .nodes = MOST_NODES - k * k / 255, .edges = edges[number / 16 % sizeof edges],
                     .sites = 1 + number % MOWQACHI_SITES, .path = paths[number % PATHS]};
    for (uint32_t x = 0; x < p.nodes; x++)
        p.cuts[x] = site_of_node(&p, x);
    return p;
}

/* Whose reply comes k-th in a bundle. Both trips begin with another site than the first; from there the first goes up, and the second down. */
static uint32_t site_at(const struct plan *p, enum call trip, uint32_t k)
{
    uint32_t start = p->sites == 1 ? 0 : 1 + p->number % (p->sites - 1);
    return (start + (trip == FIRST_REPLY ? k : p->sites - k)) % p->sites;
}

static uint32_t timed(const struct asked *asked, struct draft *out)
{
    struct buffers b = {.out = {out->bytes}, .work = work, .room = room_for(asked->call), .word = &state};
    uint64_t start = now();
    uint32_t number = invoke(asked, &b);
    add_time(&times[asked->call], start);
    out->len = number == MOWQACHI_ACCEPTED ? mowqachi_file_bytes(out->bytes) : 0;
    return number;
}

/* Whether a call wrote its file. Only 15, of the two calls that have it, is no mistake. */
static bool writes(const struct plan *p, const struct asked *asked, struct draft *out)
{
    uint32_t number = timed(asked, out);
    bool limited = asked->call == FIRST_REPLY || asked->call == CALL_LIST;
    if (number != MOWQACHI_ACCEPTED && !(limited && number == MOWQACHI_RESULT))
        fail_refused(p, call_names[asked->call], number);
    return number == MOWQACHI_ACCEPTED;
}

static void put_path(const struct plan *p)
{
    path.len = 0;
    for (size_t i = 0; i < length_of(p->path[0]); i++)
        put(&path, p->path[i]);
}

/* The replies of one trip, as a bundle; in the second the sites have the call list. */
static enum ending gather(const struct plan *p, enum call trip, struct span list, struct draft *bundle)
{
    bundle->len = 0;
    for (uint32_t k = 0; k < p->sites; k++) {
        struct asked asked = {.call = trip, .in = {span_of(&parts[site_at(p, trip, k)]), span_of(&path), list}};
        if (!writes(p, &asked, &reply))
            return REFUSED;
        if (bundle->len + reply.len > 4 * MOWQACHI_BUNDLE_WORDS)
            return OVER;
        put_bytes(bundle, span_of(&reply));
    }
    return JOINED;
}

static enum ending search_split(const struct plan *p)
{
    for (uint32_t s = 0; s < p->sites; s++)
        writes(p, &(struct asked){.call = CUT, .in = {span_of(&whole), {p->cuts, p->nodes}}, .values = {s}}, &parts[s]);
    enum ending ending = gather(p, FIRST_REPLY, (struct span){NULL, 0}, &firsts);
    if (ending != JOINED)
        return ending;
    if (!writes(p, &(struct asked){.call = CALL_LIST, .in = {span_of(&firsts)}}, &calls))
        return REFUSED;
    ending = gather(p, SECOND_REPLY, span_of(&calls), &seconds);
    if (ending == JOINED)
        writes(p, &(struct asked){.call = JOIN, .in = {span_of(&seconds)}}, &joined);
    return ending;
}

/* FNV-1a of 64 bits, byte by byte as the files stand; what it was before goes in. */
static void add_sum(uint64_t *sum, const struct draft *file)
{
    for (size_t i = 0; i < file->len; i++)
        *sum = (*sum ^ file->bytes[i]) * 0x100000001b3u;
}

static void add_results(struct results *r, const struct plan *p, enum ending ending)
{
    r->plants++;
    r->endings[ending]++;
    r->nodes += p->nodes;
    r->links += words_of(span_of(&whole)) - 1 - p->nodes;
    r->listed += words_of(span_of(&old)) - 1;
    add_sum(&r->whole_sum, &whole);
    add_sum(&r->old_sum, &old);
    if (ending != JOINED)
        return;
    r->sent += words_of(span_of(&firsts)) + p->sites * words_of(span_of(&calls)) + words_of(span_of(&seconds));
    add_sum(&r->sent_sum, &firsts);
    add_sum(&r->sent_sum, &calls);
    add_sum(&r->sent_sum, &seconds);
    add_sum(&r->joined_sum, &joined);
}

static void keep_file(const struct plan *p, const char *directory, const char *kind, struct span s)
{
    char name[PATH_MAX];
    int len = snprintf(name, sizeof name, "%s/%04" PRIu32 ".%s", directory, p->number, kind);
    FILE *f = len < (int)sizeof name ? fopen(name, "wb") : NULL;
    bool kept = f != NULL && fwrite(s.bytes, 1, s.len, f) == s.len;
    if (f == NULL || fclose(f) != 0 || !kept)
        fail(p, name, ": cannot be written");
}

static void run_plant(const struct plan *p, const char *keep, struct results *r)
{
    writes(p, &(struct asked){.call = GENERATE, .values = {state, p->nodes, p->edges}}, &whole);
    put_path(p);
    if (keep != NULL) {
        keep_file(p, keep, "whole", span_of(&whole));
        keep_file(p, keep, "path", span_of(&path));
        keep_file(p, keep, "cut", (struct span){p->cuts, p->nodes});
    }
    writes(p, &(struct asked){.call = OLD_SEARCH, .in = {span_of(&whole), span_of(&path)}}, &old);
    enum ending ending = search_split(p);
    if (ending == JOINED && !equal(&old, &joined))
        fail(p, "the joined list", " is not the old search's");
    add_results(r, p, ending);
}

static void print_count(const char *name, uint64_t count)
{
    printf("%-26s %" PRIu64 "\n", name, count);
}

static void print_sum(const char *name, uint64_t sum)
{
    printf("%-26s %016" PRIx64 "\n", name, sum);
}

static void print_results(const struct results *r)
{
    print_count("plants", r->plants);
    print_count("first state", r->first);
    print_count("last state", r->last);
    print_count("nodes", r->nodes);
    print_count("links", r->links);
    print_count("nodes listed", r->listed);
    print_count("lists joined", r->endings[JOINED]);
    print_count("refused with 15", r->endings[REFUSED]);
    print_count("too long for a bundle", r->endings[OVER]);
    print_count("words sent", r->sent);
    print_sum("checksum of plants", r->whole_sum);
    print_sum("checksum of old lists", r->old_sum);
    print_sum("checksum of files sent", r->sent_sum);
    print_sum("checksum of joined lists", r->joined_sum);
}

static void print_time(const char *name, const struct timing *t)
{
    printf("%-14s %8" PRIu64 " %12.3f %12.3f %12.3f\n", name, t->calls, (double)t->total / MICROSECOND / 1000,
           t->calls == 0 ? 0 : (double)t->total / (double)t->calls / MICROSECOND, (double)t->largest / MICROSECOND);
}

static void print_times(void)
{
    printf("\n%-14s %8s %12s %12s %12s\n", "call", "calls", "total ms", "mean us", "largest us");
    print_time(call_names[GENERATE], &times[GENERATE]);
    for (enum call c = OLD_SEARCH; c <= JOIN; c++)
        print_time(call_names[c], &times[c]);
}

static _Noreturn void reject(const char *what, const char *text)
{
    fprintf(stderr, "gateways: %s, not '%s'\nusage: gateways [N] [--state S] [--lists] [--keep DIR]\n", what, text == NULL ? "" : text);
    exit(NOTHING);
}

static uint32_t read_within(const char *what, const char *text, uint32_t least, uint32_t most)
{
    uint32_t value;
    if (text == NULL || !read_number(text, &value) || value < least || value > most)
        reject(what, text);
    return value;
}

static struct options read_options(int argc, char **argv)
{
    struct options o = {0, FIRST_STATE, false, NULL};
    for (int i = 1; i < argc; i++) {
        if (strcmp(argv[i], "--lists") == 0)
            o.lists = true;
        else if (strcmp(argv[i], "--state") == 0)
            o.state = read_within("a state is 0 to 4294967295", argv[++i], 0, UINT32_MAX);
        else if (strcmp(argv[i], "--keep") == 0 && argv[i + 1] != NULL)
            o.keep = argv[++i];
        else if (argv[i][0] != '-' && o.plants == 0)
            o.plants = read_within("there are 1 to 1000000 plants", argv[i], 1, MOST_PLANTS);
        else
            reject("one number, --state S, --lists and --keep DIR are known", argv[i]);
    }
    if (o.plants == 0)
        o.plants = PLANTS;
    return o;
}

int main(int argc, char **argv)
{
    static const uint64_t basis = 0xcbf29ce484222325u;
    struct options o = read_options(argc, argv);
    struct results r = {.first = o.state, .whole_sum = basis, .old_sum = basis, .sent_sum = basis, .joined_sum = basis};
    state = o.state;
    for (uint32_t number = 1; number <= o.plants; number++) {
        struct plan p = plan_of(number);
        run_plant(&p, o.keep, &r);
        show_progress(number, o.plants);
    }
    clear_progress();
    r.last = state;
    print_results(&r);
    if (!o.lists)
        print_times();
    return 0;
}
