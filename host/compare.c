#include "compare.h"

#include <inttypes.h>
#include <stdio.h>
#include <stdlib.h>
#include <string.h>

#include "calls.h"
#include "checks.h"
#include "drafts.h"
#include "spelled.h"

enum { WRITTEN_EVERY = 1000, GROUPED_EVERY = 4, MADE_EVERY = 4, MOST_ASKED = 7 };

/* The kinds of the calls' results, 0 for triples and walks: the inspector must accept what the library writes. */
static const unsigned result_kinds[CALL_COUNT] = {
    LIST, PART, FIRST, CALLS, SECOND, LIST, LIST, FIRST, SECOND, FIRST, FIRST, FIRST, FIRST, PART, PART, PART};

const char *const options[SUBJECTS] = {"--part", "--whole", "--path", "--calls", "--firsts", "--seconds", "--paths", "--desks", "--cut", "--groups",
                                       "--asked", "--triples", "--said", "--walk"};

struct input {
    size_t len;
    uint8_t bytes[4 * 3 * MOST];
};

static struct input inputs[MOST_FILES];
static const char *directory;
static FILE *list, *walks;
static size_t numbers[SUBJECTS][NO_WALK + 1], written;   /* NO_WALK: the checker says no */
static bool yes;    /* what it said last */

static FILE *open_list(const char *name)
{
    char path[4096];
    snprintf(path, sizeof path, "%s/%s", directory, name);
    FILE *f = fopen(path, "w");
    if (f == NULL)
        exit(1);
    return f;
}

void write_into(const char *name)
{
    directory = name;
    list = open_list("list");
    walks = open_list("walks");
}

void print_compared(void)
{
    for (int k = 0; k < SUBJECTS; k++) {
        printf("%-9s ", options[k]);
        for (unsigned i = 0; i < NUMBERS; i++)
            if (numbers[k][i] > 0)
                printf(" %u: %zu", i, numbers[k][i]);
        if (numbers[k][NO_WALK] > 0)
            printf(" no: %zu", numbers[k][NO_WALK]);
        printf("\n");
    }
    if (directory != NULL && (fclose(list) != 0 || fclose(walks) != 0))
        exit(1);
}

static void append(struct input *in, const struct file *f, size_t width)
{
    for (size_t i = 0; i < f->count; i++)
        for (size_t k = 0; k < width; k++)
            in->bytes[in->len++] = (uint8_t)(f->words[i] >> 8 * k);
}

bool headless(const struct sample *s, int k)
{
    switch (s->subject) {
    case AS_CUT: return k == 1;
    case AS_GROUPS: return k == 0;
    case AS_ASKED: case AS_WALK: return s->files == INPUTS && k == 1;
    case AS_TRIPLES: return true;
    default: return false;
    }
}

static int lay_out(const struct sample *s)
{
    bool apart = s->subject == AS_CUT || s->subject == AS_GROUPS || s->subject == AS_ASKED || s->subject == AS_WALK;
    for (int k = 0; k < MOST_FILES; k++)
        inputs[k].len = 0;
    for (int k = 0; k < s->files; k++)
        append(&inputs[apart ? k : 0], &s->file[k], s->subject == AS_CUT && k == 1 ? 1 : 4);
    struct input *cut = &inputs[apart ? s->cut_file : 0];
    cut->len -= s->cut_off < cut->len ? s->cut_off : cut->len;
    return apart ? s->files : 1;
}

static struct span input(int k)
{
    return (struct span){inputs[k].bytes, inputs[k].len};
}

static struct verdict then(struct verdict v, struct verdict next)
{
    return v.number != 0 ? v : next;
}

static struct verdict inspected_asked(struct span part, struct verdict groups, struct span path, struct span calls)
{
    struct verdict v = then(then(check_file(part, PART), groups), then(check_file(path, PATH), check_file(calls, CALLS)));
    return v.number != 0 ? v : check_against(part, path, calls);
}

static struct verdict inspected(const struct sample *s)
{
    struct span a = input(0), b = input(1), c = input(2);
    struct verdict v;
    switch (s->subject) {
    case AS_PART: return check_file(a, PART);
    case AS_WHOLE: return check_whole(a);
    case AS_PATH: return check_file(a, PATH);
    case AS_CALLS: return check_file(a, CALLS);
    case AS_FIRSTS: return check_bundle(a, FIRST);
    case AS_SECONDS: return check_bundle(a, SECOND);
    case AS_CUT:
        v = check_whole(a);
        return v.number != 0 ? v : check_cuts(a, b, s->site);
    case AS_GROUPS: return then(check_groups(a), check_file(b, PATH));
    case AS_TRIPLES: return check_triples(a);
    case AS_SAID: return check_said(a);
    default:
        return s->files == INPUTS ? inspected_asked(a, check_groups(b), c, input(3)) : inspected_asked(a, check_groups(our_groups), b, c);
    }
}

/* The numbers of a visit, or of desks, whose replies are within their limit, and have room. */
static uint64_t inspected_visit(const struct asked *a)
{
    struct span paths = paths_of(a);
    struct verdict v = check_visit(a->in[0], groups_of(a), paths, most_paths(a->call));
    uint64_t result = number_for_all(a->call, v.number);
    for (size_t k = 0; v.number == 0 && file_in(paths, k).len > 0; k++)
        result |= (uint64_t)check_file(file_in(paths, k), PATH).number << 8 * k;
    return result;
}

static bool is_walked(enum call call)
{
    return call == WALK || call == WALK_GROUPED || says_yes(call);
}

/* Whether the checker is due to say yes to a walk, where its call is accepted. */
static bool is_due_yes(const struct asked *a, struct span walk)
{
    return leads_to(a->values[1], a->in[0], groups_of(a), paths_of(a), walk);
}

static const uint8_t one[] = {1, 0, 0, 0};
static const struct span no_links = {one, sizeof one};

/* The number of a call about a walk. No walk that is looked for here can have a link: its path has the empty word alone, or its whole no edge. */
static uint64_t inspected_walk(const struct asked *a)
{
    unsigned number = check_question(a->in[0], groups_of(a), paths_of(a)).number;
    return number != 0 || says_yes(a->call) || is_due_yes(a, no_links) ? number : MOWQACHI_UNLISTED;
}

void put_or(struct file *f, uint32_t label, size_t labels, size_t most)
{
    size_t waiting = 0;
    for (size_t i = 0; i < labels; i++) {
        f->words[f->count++] = label;
        waiting++;
        if (waiting == most) {
            f->words[f->count++] = 0x60000002;
            waiting--;
        }
    }
    for (; waiting > 1; waiting--)
        f->words[f->count++] = 0x60000002;
}

/* A path of n labels: their or, or the empty word. */
static struct span path_of(unsigned n)
{
    static uint8_t bytes[4 * MOWQACHI_PATH_WORDS];
    struct input in = {.len = 0};
    struct file f = {.count = 1};
    put_or(&f, 0x50fff000, n, 2);
    if (n == 0)
        f.words[f.count++] = 0x60000000;
    f.words[0] = 0x40000000 + n * 0x100000 + (uint32_t)f.count;
    append(&in, &f, 4);
    memcpy(bytes, in.bytes, in.len);
    return (struct span){bytes, in.len};
}

/* The n of a file's header, 0 where there is none. */
static unsigned n_in(struct span s)
{
    return s.len < 4 ? 0 : n_of(word_at(s, 0));
}

/* A cut list for this whole, all of it at site 0. */
static struct span no_cut(struct span whole)
{
    static const uint8_t zeros[MOST];
    size_t nodes = 0;
    for (size_t i = 1; i < words_of(whole); i++)
        nodes += kind_of(word_at(whole, i)) == NODE;
    return (struct span){zeros, nodes};
}

static const uint8_t lone[] = {1, 0, 0, 0x10}, root[] = {2, 0, 0, 0x10, 0, 0, 3, 0x20};
static const struct span lone_part = {lone, sizeof lone}, lone_root = {root, sizeof root};

/* A call list without calls. */
static struct span no_calls(unsigned n)
{
    static uint8_t bare[] = {1, 0, 0, 0xb0};
    bare[2] = (uint8_t)(n << 4);
    return (struct span){bare, sizeof bare};
}

/* The calls that read a path, also as a bundle of one. */
static int calls_for_path(struct span path, struct asked asked[MOST_ASKED])
{
    asked[0] = (struct asked){FIRST_REPLY, {lone_part, path}, {0}};
    asked[1] = (struct asked){OLD_SEARCH, {lone_root, path}, {0}};
    asked[2] = (struct asked){SECOND_REPLY, {lone_part, path, no_calls(n_in(path))}, {0}};
    asked[3] = (struct asked){FOUR_REPLIES, {lone_part, path}, {0}};
    asked[4] = (struct asked){EIGHT_REPLIES, {lone_part, path}, {0}};
    asked[5] = (struct asked){WALK, {lone_root, path}, {0, draw(2)}};
    asked[6] = (struct asked){CHECK_WALK, {lone_root, path, no_links}, {draw(UINT32_MAX), draw(2)}};
    return 7;
}

/* The same with groups. */
static int calls_for_groups(struct span groups, struct span path, struct asked asked[MOST_ASKED])
{
    int count = calls_for_path(path, asked);
    for (int k = 0; k < count; k++)
        asked[k] = with_groups(&asked[k], groups);
    return count;
}

/* The calls that read the sample as what it is given as, with nothing to refuse in their other inputs. */
static int calls_for(const struct sample *s, struct asked asked[MOST_ASKED])
{
    struct span a = input(0), b = input(1), c = input(2);
    switch (s->subject) {
    case AS_PART:
        asked[0] = (struct asked){FIRST_REPLY, {a, path_of(0)}, {0}};
        asked[1] = (struct asked){SECOND_REPLY, {a, path_of(0), no_calls(0)}, {0}};
        asked[2] = (struct asked){FOUR_REPLIES, {a, path_of(0)}, {0}};
        asked[3] = (struct asked){EIGHT_REPLIES, {a, path_of(0)}, {0}};
        return 4;
    case AS_WHOLE:
        asked[0] = (struct asked){OLD_SEARCH, {a, path_of(0)}, {0}};
        asked[1] = (struct asked){CUT, {a, no_cut(a)}, {0}};
        asked[2] = (struct asked){WALK, {a, path_of(0)}, {0, draw(4)}};
        asked[3] = (struct asked){CHECK_WALK, {a, path_of(0), no_links}, {draw(UINT32_MAX), draw(4)}};
        return 4;
    case AS_PATH: return calls_for_path(a, asked);
    case AS_GROUPS: return calls_for_groups(a, b, asked);
    case AS_CALLS: asked[0] = (struct asked){SECOND_REPLY, {lone_part, path_of(n_in(a)), a}, {0}}; return 1;
    case AS_FIRSTS: asked[0] = (struct asked){CALL_LIST, {a}, {0}}; return 1;
    case AS_SECONDS: asked[0] = (struct asked){JOIN, {a}, {0}}; return 1;
    case AS_PATHS: asked[0] = (struct asked){FOUR_REPLIES, {lone_part, a}, {0}}; return 1;
    case AS_DESKS: asked[0] = (struct asked){EIGHT_REPLIES, {lone_part, a}, {0}}; return 1;
    case AS_CUT: asked[0] = (struct asked){CUT, {a, b}, {s->site}}; return 1;
    case AS_TRIPLES: asked[0] = (struct asked){FROM_TRIPLES, {a}, {0}}; return 1;
    case AS_SAID: asked[0] = (struct asked){TO_TRIPLES, {a}, {draw(UINT32_MAX)}}; return 1;
    case AS_WALK:
        asked[0] = (struct asked){s->files == INPUTS ? CHECK_WALK_GROUPED : CHECK_WALK, {a, b, c, input(3)}, {draw(UINT32_MAX), s->node}};
        return 1;
    default: asked[0] = (struct asked){s->files == INPUTS ? SECOND_REPLY_GROUPED : SECOND_REPLY, {a, b, c, input(3)}, {0}}; return 1;
    }
}

/* The sample's files, and behind what is said of them a line of their names. */
static void write_files(FILE *to, int count)
{
    for (int k = 0; k < count; k++) {
        char name[4096];
        snprintf(name, sizeof name, "%s/%zu-%d", directory, written, k);
        FILE *f = fopen(name, "wb");
        if (f == NULL || fwrite(inputs[k].bytes, 1, inputs[k].len, f) != inputs[k].len || fclose(f) != 0)
            exit(1);
        fprintf(to, " %s", name);
    }
    fprintf(to, "\n");
    written++;
}

static void write_out(const struct sample *s, int count, unsigned number)
{
    bool checked = s->subject == AS_WALK && (number == 0 || number == NO_WALK);
    if (directory == NULL || (s->subject == AS_CUT && s->site != 0))
        return;
    if (checked)
        fprintf(walks, "%s %u", number == 0 ? "yes" : "no", (unsigned)s->node);
    else
        fprintf(list, "%u %s", number, options[s->subject]);
    write_files(checked ? walks : list, count);
}

static _Noreturn void stop_at_inputs(void)
{
    for (int k = 0; k < MOST_FILES; k++)
        for (size_t i = 0; i < inputs[k].len; i++)
            printf("%02x%s", inputs[k].bytes[i], i % 4 == 3 || i + 1 == inputs[k].len ? "\n" : "");
    exit(1);
}

static _Noreturn void disagree(const struct sample *s, uint64_t theirs, uint64_t ours)
{
    printf("%s: the library gives %" PRIu64 " (0x%" PRIx64 "), the inspector %" PRIu64 " (0x%" PRIx64 "), for\n",
           options[s->subject], theirs, theirs, ours, ours);
    stop_at_inputs();
}

/* A call that reads paths, beside the one that is handed our groups. */
static void compare_groups(const struct sample *s, const struct asked *plain)
{
    struct asked ours = with_groups(plain, our_groups);
    if (leave_the_same(plain, &ours))
        return;
    printf("%s: %s does not leave what %s leaves with our groups, for\n", options[s->subject], call_names[plain->call], call_names[ours.call]);
    stop_at_inputs();
}

/* A reply by itself is refused as in a bundle, and the bundle of it may lack more. */
static void compare_alone(const struct sample *s, uint32_t number)
{
    struct span a = input(0);
    if (s->subject != AS_FIRSTS && s->subject != AS_SECONDS)
        return;
    if (a.len < 4 || words_of(a) > MOWQACHI_REPLY_WORDS || length_of(word_at(a, 0)) != words_of(a))
        return;
    struct verdict v = check_file(a, s->subject == AS_FIRSTS ? FIRST : SECOND);
    bool over_all = number == 0 || ((number == 7 || number == 14) && s->subject == AS_FIRSTS);
    if (v.number == 0 ? !over_all : v.number != number)
        disagree(s, number, v.number);
}

/* A file that a call wrote. */
static struct verdict inspected_result(const struct asked *asked, struct span file)
{
    unsigned kind = result_kinds[asked->call];
    if (kind != 0)
        return check_file(file, kind);
    return is_walked(asked->call) ? check_walk(asked->in[0], file) : check_triples(file);
}

/* What the checker said of the walk, its last input: the inspector says it too. */
static void compare_yes(const struct sample *s, const struct asked *asked, uint64_t result)
{
    bool due = result == 0 && is_due_yes(asked, asked->in[reads_path(asked->call) ? 2 : 3]);
    yes = word_left();
    if (yes == due)
        return;
    printf("%s, node %u: the checker says %s, for\n", options[s->subject], (unsigned)asked->values[1], due ? "no" : "yes");
    stop_at_inputs();
}

/* The inspector's result of a call on the sample. */
static uint64_t due_result(const struct sample *s, const struct asked *asked)
{
    if (is_visit(asked->call))
        return inspected_visit(asked);
    return is_walked(asked->call) ? inspected_walk(asked) : inspected(s).number;
}

/* A call on the sample: its result, which is the inspector's too. */
static uint64_t compare_call(const struct sample *s, const struct asked *asked)
{
    struct span found;
    uint64_t result = call(asked, &found), due = due_result(s, asked);
    if (result != due)
        disagree(s, result, due);
    for (int k = 0; k < FILES; k++) {
        struct span file = result_of(k);
        if (file.len > 0 && inspected_result(asked, file).number != 0)
            disagree(s, result, inspected_result(asked, file).number);
    }
    if (says_yes(asked->call))
        compare_yes(s, asked, result);
    if (reads_path(asked->call) && draw(GROUPED_EVERY) == 0)
        compare_groups(s, asked);
    return result;
}

/* Whether a call is made: one of a visit or about a walk, which takes time, only now and then where the sample is not for these. */
static bool is_made(const struct sample *s, const struct asked *asked)
{
    bool own = s->subject == AS_PATHS || s->subject == AS_DESKS || s->subject == AS_WALK;
    return own || !(is_visit(asked->call) || is_walked(asked->call)) || draw(MADE_EVERY) == 0;
}

/* The first number of a result that is not 0, if there is one. */
static uint32_t first_refusal(uint64_t result)
{
    while (result != 0 && mowqachi_desk_number(result, 0) == 0)
        result >>= 8;
    return mowqachi_desk_number(result, 0);
}

uint64_t compare(const struct sample *s)
{
    struct asked asked[MOST_ASKED];
    int count = lay_out(s);
    uint64_t result = 0;
    for (int k = calls_for(s, asked) - 1; k >= 0; k--)
        if (is_made(s, &asked[k]))
            result = compare_call(s, &asked[k]);
    uint32_t number = first_refusal(result);
    compare_alone(s, number);
    unsigned kept = s->subject == AS_WALK && number == 0 && !yes ? NO_WALK : number;
    if (numbers[s->subject][kept]++ % WRITTEN_EVERY < 2)
        write_out(s, count, kept);
    return result;
}

bool said_yes(void)
{
    return yes;
}

void expect(const struct sample *s, uint64_t result)
{
    uint64_t got = compare(s);
    if (got != result) {
        printf("%s: %" PRIu64 " (0x%" PRIx64 ") is due, the library gives %" PRIu64 " (0x%" PRIx64 "), for\n",
               options[s->subject], result, result, got, got);
        stop_at_inputs();
    }
}
