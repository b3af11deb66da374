/* The inspector's checks against the library's, on document 01's examples, at its limits, and on damaged files; and the numbers that each
   call can give, as docs/CALLS.md has them.
   agree COUNT [DIRECTORY]: COUNT random samples for each seed, none of the damaged files at 0; some of the files are written to DIRECTORY, for
   the inspector itself. */
#include <stdio.h>
#include <stdlib.h>
#include <string.h>

#include "calls.h"
#include "checks.h"
#include "compare.h"
#include "drafts.h"

static void push(struct file *f, uint32_t w)
{
    f->words[f->count++] = w;
}

/* Writes the header with the file's length. */
static void head(struct file *f, uint32_t header)
{
    f->words[0] = header + (uint32_t)f->count;
}

/* A text of hexadecimal words; files are parted by semicolons. Walks are checked as those to node 2, unless it is changed. */
static void parse(struct sample *s, enum subject subject, const char *text)
{
    s->subject = subject;
    s->site = 0;
    s->node = 2;
    s->cut_off = 0;
    s->cut_file = 0;
    s->files = 1;
    s->file[0].count = 0;
    for (char *end; *text != '\0'; text = end) {
        uint32_t w = (uint32_t)strtoul(text, &end, 16);
        if (end != text)
            push(&s->file[s->files - 1], w);
        end += strspn(end, " ");
        if (*end == ';') {
            s->file[s->files++].count = 0;
            end++;
        }
    }
}

#define W "10000007 20030001 30050002 20000002 30060003 20000003 30050002"
#define HALTED "10000007 20030001 30050002 20000002 30060003 20040003 30050002"
#define P "40300007 50005005 50006006 50005005 60000001 60000003 60000001"
#define BUT "40300007 52006006 52005005 52006006 60000001 60000003 60000001"
#define FIRST_0 "7030000b 80010001 90000000 a0000021 90000002 a0000023 80000003 90000000 a0000021 90000002 a0000023"
#define FIRST_1 "71300006 80000002 90000001 a0000032 90000003 a0000032"
#define CALL_WORDS "b0300005 c0000010 c0000021 c0000023 c0000032"
#define STOPPED_DOOR "10000005 20030001 30050002 20050003 30050002"
#define OURS "50fff000 503ff000 500ff000 505ff400 506ff600 507ff700 50bff800 50ffffc0"
#define MAKERS "50005005 50006006 50006005 50fff000 50000000 50fff800 50005005 50ffffff"
#define GROUPED "40300007 51000006 51000001 51000006 60000001 60000003 60000001"
#define IDLE_1 "7130000a 80000002 90000000 a0000631 90000001 a0000032 90000002 a0000633 90000003 a0000032"
#define WALKED_1 "71300008 80000002 90000001 a0000032 a0000632 90000003 a0000032 a0000632"
#define STRAY "70000004 80010001 90000000 a0000020"
#define EMPTY "40000002 60000000"
#define TRIPLES "1 3 5 2 1 5 2 2 6 3 1 5 2"
#define THROUGH "40300006 50005005 50006006 60000001 50005005 60000001"
#define WALKED "4 30050002 30060003 30050002"
#define THREE EMPTY "; " EMPTY "; " EMPTY
/* The result of a visit, or of desks, that is refused with 17 as a whole. */
#define NO_SPLIT 0x11111111
#define NO_DESKS 0x1111111111111111

/* Document 01's table and end-to-end files, then rows of docs/DECISIONS.md on which readings differ, then stopped nodes, then labels outside a
   range, then groups: ours, a press maker's, and wrong ones; then reach words to no door, in rows that nobody follows and in others, and what comes
   ahead of 14; then bundles of paths, with the number of each path in a byte of the result, in a visit and for desks; then triples, and wholes that
   they can say and that they cannot. */
static const struct example {
    enum subject subject;
    uint64_t result;
    const char *text;
} examples[] = {
    {AS_PART, 3, "10100001"},
    {AS_PART, 4, "10000002"},
    {AS_PART, 5, "10000002 30050002"},
    {AS_PART, 6, "10000003 20000002 20000002"},
    {AS_PART, 7, "10000002 20020001"},
    {AS_WHOLE, 8, "10000003 20030001 30050002"},
    {AS_PATH, 9, "40000002 60000003"},
    {AS_CALLS, 10, "b0000002 c0000011"},
    {AS_CUT, 11, W "; 0 10 0"},
    {AS_FIRSTS, 12, "70000001; 70000001"},
    {AS_FIRSTS, 13, "70000002 80010001; 71000002 80000001"},
    {AS_FIRSTS, 14, STRAY},
    {AS_PART, 0, "10000001"},
    {AS_PART, 0, "10000005 20030001 30050002 20010003 30050002"},
    {AS_PART, 0, "11000003 20010002 30060003"},
    {AS_WHOLE, 0, W},
    {AS_PATH, 0, P},
    {AS_PATH, 0, "40000002 60000000"},
    {AS_CUT, 0, W "; 0 1 0"},
    {AS_FIRSTS, 0, FIRST_0 "; " FIRST_1},
    {AS_FIRSTS, 0, FIRST_1 "; " FIRST_0},
    {AS_CALLS, 0, CALL_WORDS},
    {AS_SECONDS, 0, "d0300001; d1300002 e0000002"},
    {AS_ASKED, 0, "10000005 20030001 30050002 20010003 30050002; " P "; " CALL_WORDS},
    {AS_ASKED, 12, "10000001; 40000002 60000000; " CALL_WORDS},
    {AS_ASKED, 14, "10000002 20000002; " P "; " CALL_WORDS},
    {AS_WHOLE, 7, "10000002 20010001"},
    {AS_PART, 7, "10000003 20030001 20030002"},
    {AS_PATH, 9, "40000001"},
    {AS_PATH, 5, "40100002 53001001"},
    {AS_PATH, 5, "40100002 50001002"},
    {AS_PATH, 9, "40200002 50001001"},
    {AS_FIRSTS, 7, "70000002 80000001"},
    {AS_FIRSTS, 7, "70000002 80010001; 71000002 80010002"},
    {AS_FIRSTS, 5, "70000003 80010001 90000000; 71000001"},
    {AS_FIRSTS, 5, "70000004 80010001 90000000 80010000"},
    {AS_FIRSTS, 12, "70000002 80010001; 71100001"},
    {AS_FIRSTS, 4, "70000000"},
    {AS_SECONDS, 13, "d0000002 e0000001; d1000002 e0000001"},
    {AS_SECONDS, 12, "d0000002 e0000001; d0000002 e0000001"},
    {AS_SECONDS, 0, "d0000001"},
    {AS_WHOLE, 0, HALTED},
    {AS_WHOLE, 0, "10000002 20070001"},
    {AS_WHOLE, 7, "10000002 20050001"},
    {AS_WHOLE, 8, "10000003 20070001 30050002"},
    {AS_PART, 0, STOPPED_DOOR},
    {AS_PART, 5, "10000002 20080001"},
    {AS_PART, 6, "10000003 20040002 20000002"},
    {AS_PART, 7, "10000002 20060001"},
    {AS_PART, 7, "10000003 20070001 20030002"},
    {AS_CUT, 0, HALTED "; 0 1 0"},
    {AS_ASKED, 0, STOPPED_DOOR "; " P "; b0300004 c0000010 c0000021 c0000032"},
    {AS_ASKED, 14, "10000002 20040002; " P "; " CALL_WORDS},
    {AS_PATH, 0, BUT},
    {AS_PATH, 0, "40100002 52001001"},
    {AS_PATH, 0, "40100002 52fff000"},
    {AS_PATH, 5, "40100002 52001002"},
    {AS_PATH, 9, "40200002 52001001"},
    {AS_ASKED, 0, STOPPED_DOOR "; " BUT "; " CALL_WORDS},
    {AS_ASKED, 5, STOPPED_DOOR "; 40100002 52000fff; " CALL_WORDS},
    {AS_GROUPS, 0, OURS "; " P},
    {AS_GROUPS, 0, MAKERS "; " GROUPED},
    {AS_GROUPS, 5, MAKERS "; 40100002 51000008"},
    {AS_GROUPS, 9, MAKERS "; 40200002 51000007"},
    {AS_GROUPS, 16, "; " P},
    {AS_GROUPS, 16, MAKERS " 50fff000; " GROUPED},
    {AS_GROUPS, 16, P "; " P},
    {AS_ASKED, 0, STOPPED_DOOR "; " MAKERS "; " GROUPED "; " CALL_WORDS},
    {AS_ASKED, 16, STOPPED_DOOR "; ; ; "},
    {AS_ASKED, 7, "10000002 20060001; ; ; "},
    {AS_FIRSTS, 0, FIRST_0 "; " IDLE_1},
    {AS_FIRSTS, 0, IDLE_1 "; " FIRST_0},
    {AS_FIRSTS, 14, FIRST_0 "; " WALKED_1},
    {AS_FIRSTS, 14, WALKED_1 "; " FIRST_0},
    {AS_FIRSTS, 0, "70100004 80010001 90000001 a0000020"},
    {AS_FIRSTS, 0, "70000005 80010001 80000003 90000000 a0000020"},
    {AS_FIRSTS, 14, "70000007 80010001 90000000 a0000030 80000003 90000000 a0000020"},
    {AS_FIRSTS, 5, STRAY "; 71000003 80000003 90000000"},
    {AS_FIRSTS, 12, STRAY "; 70000001"},
    {AS_FIRSTS, 7, STRAY "; 71000002 80010003"},
    {AS_FIRSTS, 13, STRAY "; 71000002 80000001"},
    {AS_PATHS, 0, P},
    {AS_PATHS, 0, P "; " EMPTY "; " BUT "; " GROUPED},
    {AS_PATHS, 0x00030900, P "; 40000002 60000003; 10000001; " EMPTY},
    {AS_PATHS, 0x05000003, "40004002 60000000; " P "; " P "; 40100002 53001001"},
    {AS_PATHS, 0x00000309, "40300006 50005005 50006006 50005005 60000001 60000003; 60000001"},
    {AS_PATHS, NO_SPLIT, ""},
    {AS_PATHS, NO_SPLIT, "40000000"},
    {AS_PATHS, NO_SPLIT, P "; 40000003 60000000"},
    {AS_PATHS, NO_SPLIT, P "; 40000000 60000000; " P},
    {AS_PATHS, NO_SPLIT, THREE "; " EMPTY "; " EMPTY},
    {AS_DESKS, 0, P},
    {AS_DESKS, 0, P "; " EMPTY "; " BUT "; " GROUPED "; " P},
    {AS_DESKS, 0, THREE "; " P "; " BUT "; " THREE},
    {AS_DESKS, 0x0500000000030900, P "; 40000002 60000003; 10000001; " THREE "; " EMPTY "; 40100002 53001001"},
    {AS_DESKS, 0x0909090909090909, "40000001; 40000001; 40000001; 40000001; 40000001; 40000001; 40000001; 40000001"},
    {AS_DESKS, NO_DESKS, ""},
    {AS_DESKS, NO_DESKS, THREE "; 40000000"},
    {AS_DESKS, NO_DESKS, THREE "; " THREE "; " EMPTY "; 40000003 60000000"},
    {AS_DESKS, NO_DESKS, THREE "; 40000000 60000000; " P},
    {AS_DESKS, NO_DESKS, THREE "; " THREE "; " THREE},
    {AS_TRIPLES, 0, TRIPLES},
    {AS_TRIPLES, 0, "ffff"},
    {AS_TRIPLES, 0, "9 1 5 2"},
    {AS_TRIPLES, 2, ""},
    {AS_TRIPLES, 18, "1 1"},
    {AS_TRIPLES, 18, "1 1 5"},
    {AS_TRIPLES, 18, "10000"},
    {AS_TRIPLES, 18, "1 10000 fff ffff"},
    {AS_TRIPLES, 18, "1 ffff 1000 ffff"},
    {AS_TRIPLES, 18, "1 ffff fff 10000"},
    {AS_TRIPLES, 18, W},
    {AS_SAID, 0, W},
    {AS_SAID, 0, "10000002 20030001"},
    {AS_SAID, 0, "10000004 20030001 20000002 30050002"},
    {AS_SAID, 19, HALTED},
    {AS_SAID, 19, "10000002 20070001"},
    {AS_SAID, 19, "10000003 20030001 20010002"},
    {AS_SAID, 8, "10000004 20030001 20040002 30050003"},
    {AS_SAID, 7, "10000003 20010001 20040002"},
};

/* Files that the damaged ones are made of, with and without stopped nodes, labels outside a range, groups and reach words to no door, a path in
   which as many operands wait as may, bundles of paths for a visit and for desks, some of them full, triples and wholes that they can say, and walks
   beside their wholes and paths. */
static const struct example seeds[] = {
    {AS_PART, 0, "10000005 20030001 30050002 20010003 30050002"},
    {AS_PART, 0, "1a000009 20040000 30000000 30000001 3fff0000 20070007 37ff0007 3800ffff 2005ffff"},
    {AS_WHOLE, 0, W},
    {AS_WHOLE, 0, "1f000007 20040000 20070002 30010000 30010002 30020003 20050003"},
    {AS_PATH, 0, P},
    {AS_PATH, 0, "40200006 51000007 60000000 60000002 50fff000 60000001"},
    {AS_PATH, 0, "40300007 52009008 52fff000 60000002 60000003 51000003 60000001"},
    {AS_PATH, 0, "40800017 50005005 51000003 60000000 52009008 50fff000 60000000 51000007 52fff000 60000001 50001000 60000002 60000000 "
                 "60000003 60000001 52001001 60000002 60000001 60000002 60000001 60000002 60000001 60000002"},
    {AS_CALLS, 0, CALL_WORDS},
    {AS_FIRSTS, 0, FIRST_0 "; " FIRST_1},
    {AS_FIRSTS, 0, "72100003 80000000 80010005; 70100007 80000007 90000000 a0000051 a0000071 90000001 a0000001; 73100001"},
    {AS_FIRSTS, 0, FIRST_0 "; " IDLE_1},
    {AS_FIRSTS, 0, "71100006 80000002 90000000 a0000031 90000001 a0000061; 70100007 80010005 90000000 a0000071 80000007 90000000 a0000030"},
    {AS_SECONDS, 0, "d0300001; d1300002 e0000002"},
    {AS_SECONDS, 0, "d5f00004 e0000001 e0000003 e000ffff; d0f00003 e0000000 e0000002; dff00001"},
    {AS_CUT, 0, HALTED "; 0 1 0"},
    {AS_ASKED, 0, "10000005 20030001 30050002 20010003 30050002; " P "; " CALL_WORDS},
    {AS_ASKED, 0, "10000003 20070001 20040002; " BUT "; b0300003 c0000010 c0000033"},
    {AS_GROUPS, 0, OURS "; " P},
    {AS_GROUPS, 0, MAKERS "; 40200006 51000007 60000000 60000002 50fff000 60000001"},
    {AS_ASKED, 0, STOPPED_DOOR "; " MAKERS "; " GROUPED "; " CALL_WORDS},
    {AS_PATHS, 0, P "; " EMPTY "; 40100002 52005005"},
    {AS_PATHS, 0, "40100003 51000007 60000003; " EMPTY "; " BUT "; 40200004 50005005 51000003 60000002"},
    {AS_DESKS, 0, P "; " THREE "; 40100002 52005005"},
    {AS_DESKS, 0, "40100003 51000007 60000003; " THREE "; 40200004 50005005 51000003 60000002; " THREE},
    {AS_TRIPLES, 0, TRIPLES},
    {AS_TRIPLES, 0, "ffff 0 fff ffff ffff 0 0 7 800 7 0 fff ffff"},
    {AS_SAID, 0, W},
    {AS_SAID, 0, "1f00000a 20000000 30010000 20030002 20010003 30000003 37ff0000 3fff0002 2000ffff 3fffffff"},
    {AS_WALK, 0, W "; " THROUGH "; " WALKED},
    {AS_WALK, 0, "1f00000a 20000000 30010000 30010002 20030002 30000000 30000002 30020003 20050003 30000002; "
                 "40200007 52002002 51000007 60000002 60000003 60000000 60000001; 5 30000000 30010000 30010002 30000002"},
    {AS_WALK, 0, HALTED "; " MAKERS "; 40200005 51000006 51000001 60000002 60000003; 2 30050002"},
};

static void copy(struct sample *to, const struct sample *from)
{
    to->subject = from->subject;
    to->site = from->site;
    to->node = from->node;
    to->files = from->files;
    to->cut_off = from->cut_off;
    to->cut_file = from->cut_file;
    for (int k = 0; k < from->files; k++) {
        to->file[k].count = from->file[k].count;
        memcpy(to->file[k].words, from->file[k].words, 4 * from->file[k].count);
    }
}

static void remove_word(struct file *f, size_t i)
{
    memmove(f->words + i, f->words + i + 1, 4 * (f->count - i - 1));
    f->count--;
}

static void insert_word(struct file *f, size_t i, uint32_t w)
{
    memmove(f->words + i + 1, f->words + i, 4 * (f->count - i));
    f->words[i] = w;
    f->count++;
}

static void swap_words(struct file *f, size_t i, size_t k)
{
    uint32_t w = f->words[i];
    f->words[i] = f->words[k];
    f->words[k] = w;
}

/* Makes the lengths right again, so that a later check is reached. */
static void mend(struct sample *s)
{
    for (int k = 0; k < s->files; k++)
        if (s->file[k].count > 0 && !headless(s, k))
            head(&s->file[k], s->file[k].words[0] & 0xffffc000u);
}

static uint32_t any_word(const struct sample *s)
{
    const struct file *f = &s->file[draw((uint32_t)s->files)];
    return f->count == 0 ? draw(16) << 28 : f->words[draw((uint32_t)f->count)];
}

static void damage(struct sample *s)
{
    struct file *f = &s->file[draw((uint32_t)s->files)];
    size_t i = f->count == 0 ? 0 : draw((uint32_t)f->count);
    if (f->count == 0 || f->count > 60)
        return;
    switch (draw(8)) {
    case 0: f->words[i] ^= 1u << draw(32); break;
    case 1: f->words[i] += draw(3) - 1; break;
    case 2: f->words[i] = (f->words[i] & 0x0fffffffu) | draw(16) << 28; break;
    case 3: remove_word(f, i); break;
    case 4: insert_word(f, i, any_word(s)); break;
    case 5: swap_words(f, i, f->count - 1); break;
    case 6: f->words[i] = draw(UINT32_MAX); break;
    default: f->words[i] = any_word(s); break;
    }
}

static void damage_at_random(const struct sample *seed, long samples)
{
    static struct sample s;
    for (long r = 0; r < samples; r++) {
        copy(&s, seed);
        for (uint32_t k = draw(4); k > 0; k--)
            damage(&s);
        if (draw(8) > 0)
            mend(&s);
        if (draw(32) == 0) {
            s.cut_off = draw(9);
            s.cut_file = (int)draw((uint32_t)s.files);
        }
        if (s.subject == AS_CUT)
            s.site = draw(18);
        if (draw(8) == 0)
            s.node = draw(2) == 0 ? draw(4) : any_word(&s);
        compare(&s);
    }
}

/* Every bit of every word turned, and every word left out, doubled and swapped, with lengths left and mended. */
static void damage_everywhere(const struct sample *seed)
{
    static struct sample s;
    for (int k = 0; k < seed->files; k++)
        for (size_t i = 0; i < seed->file[k].count; i++)
            for (unsigned way = 0; way < 38; way++) {
                copy(&s, seed);
                struct file *f = &s.file[k];
                if (way < 32)
                    f->words[i] ^= 1u << way;
                else if (way < 34)
                    remove_word(f, i);
                else if (way < 36)
                    insert_word(f, i, f->words[i]);
                else
                    swap_words(f, i, f->count - 1);
                if (way >= 32 && way % 2 == 1)
                    mend(&s);
                compare(&s);
            }
}

/* A file of so many words: the header, and behind it words that go up by step. */
static void fill(struct sample *s, int k, uint32_t header, uint32_t first, uint32_t step, size_t count)
{
    s->files = k + 1;
    s->file[k].count = 1;
    for (uint32_t i = 0; i + 1 < count; i++)
        push(&s->file[k], first + step * i);
    head(&s->file[k], header);
}

static void test_sizes(void)
{
    static struct sample s;
    static const struct {
        enum subject subject;
        uint32_t header, first, step;
        size_t limit;
    } files[] = {
        {AS_PART, 0x10000000, 0x20000000, 1, MOWQACHI_PART_WORDS},
        {AS_PATH, 0x40000000, 0x60000000, 0, MOWQACHI_WAITING + 1},
        {AS_CALLS, 0xb0f00000, 0xc0000000, 1, MOWQACHI_CALLS_WORDS},
        {AS_SECONDS, 0xd0000000, 0xe0000000, 1, MOWQACHI_REPLY_WORDS},
        {AS_FIRSTS, 0x70000000, 0x80000000, 1, MOWQACHI_REPLY_WORDS},
        {AS_PATHS, 0x40000000, 0x60000000, 0, MOWQACHI_WAITING + 1},
        {AS_PATHS, 0x40000000, 0x60000000, 0, MOWQACHI_PATH_WORDS},
        {AS_PATHS, 0x40000000, 0x60000000, 0, MOWQACHI_BUNDLE_WORDS},
        {AS_DESKS, 0x40000000, 0x60000000, 0, MOWQACHI_PATH_WORDS},
        {AS_DESKS, 0x40000000, 0x60000000, 0, MOWQACHI_BUNDLE_WORDS},
    };
    for (size_t k = 0; k < sizeof files / sizeof *files; k++)
        for (size_t count = files[k].limit - 1; count <= files[k].limit + 2; count++) {
            parse(&s, files[k].subject, "");
            fill(&s, 0, files[k].header, files[k].first, files[k].step, count);
            compare(&s);
        }
}

static void test_bundles(void)
{
    static struct sample s;
    parse(&s, AS_SECONDS, "");
    fill(&s, 0, 0xd0000000, 0xe0000000, 1, MOWQACHI_REPLY_WORDS);
    fill(&s, 1, 0xd1000000, 0xe0008000, 1, MOWQACHI_REPLY_WORDS);
    expect(&s, 0);
    fill(&s, 2, 0xd2000000, 0, 0, 1);
    expect(&s, 2);
    parse(&s, AS_FIRSTS, "");
    fill(&s, 0, 0x70000000, 0x80000000, 1, MOWQACHI_REPLY_WORDS);
    fill(&s, 1, 0x71000000, 0x80008000, 1, MOWQACHI_REPLY_WORDS);
    expect(&s, 7);
    s.file[1].words[1] |= 0x10000;
    expect(&s, 0);
    fill(&s, 2, 0x72000000, 0, 0, 1);
    expect(&s, 2);
    parse(&s, AS_FIRSTS, "");
    fill(&s, 0, 0x70000000, 0x80000000, 1, MOWQACHI_REPLY_WORDS + 1);
    expect(&s, 4);
}

/* A path of labels, then operators. */
static void fill_path(struct sample *s, uint32_t n, uint32_t label, size_t labels, uint32_t operator, size_t operators)
{
    parse(s, AS_PATH, "40000000");
    for (size_t i = 0; i < labels; i++)
        push(&s->file[0], label);
    for (size_t i = 0; i < operators; i++)
        push(&s->file[0], operator);
    head(&s->file[0], 0x40000000 + n * 0x100000);
}

/* A path that is an or of labels, at most `most` of which wait. */
static void fill_or(struct sample *s, uint32_t n, uint32_t label, size_t labels, size_t most)
{
    parse(s, AS_PATH, "40000000");
    put_or(&s->file[0], label, labels, most);
    head(&s->file[0], 0x40000000 + n * 0x100000);
}

/* One label too many shows at the end, so that any wrong word gives 5 first; one operand too many shows at its own word. */
static void test_paths(void)
{
    static const uint32_t labels[] = {0x50fff000, 0x52fff000};
    static struct sample s;
    fill_path(&s, 0, 0x60000000, 1, 0x60000003, MOWQACHI_PATH_WORDS - 2);
    expect(&s, 0);
    fill_path(&s, 0, 0x60000000, 1, 0x60000003, MOWQACHI_PATH_WORDS - 1);
    expect(&s, 2);
    for (int k = 0; k < 2; k++)
        for (size_t most = 2; most <= MOWQACHI_PATH_LABELS; most++) {
            fill_or(&s, MOWQACHI_PATH_LABELS, labels[k], MOWQACHI_PATH_LABELS, most);
            expect(&s, most <= MOWQACHI_WAITING ? 0 : 9);
            fill_or(&s, 0, labels[k], MOWQACHI_PATH_LABELS + 1, most);
            expect(&s, 9);
            s.file[0].words[s.file[0].count - 1] = 0x70000000;
            expect(&s, most <= MOWQACHI_WAITING ? 5 : 9);
        }
}

/* So many operands wait, then operators follow, also with a star ahead of them. A wrong word at each place in turn gives 5, up to the operand that
   is one too many and with it; behind that operand 9 comes first. */
static void test_waiting(uint32_t operand, size_t operands)
{
    static const uint32_t wrong[] = {0x50000001, 0x51000008, 0x52000001, 0x53000000, 0x60000004, 0x70000000};
    static struct sample s;
    uint32_t n = kind_of(operand) == LABEL ? (uint32_t)operands : 0, number = operands > MOWQACHI_WAITING ? 9 : 0;
    fill_path(&s, n, operand, operands, 0x60000001, operands - 1);
    expect(&s, number);
    insert_word(&s.file[0], operands + 1, 0x60000003);
    mend(&s);
    expect(&s, number);
    for (size_t i = 1; i < 2 * operands; i++)
        for (size_t k = 0; k < sizeof wrong / sizeof *wrong; k++) {
            fill_path(&s, n, operand, operands, 0x60000001, operands - 1);
            s.file[0].words[i] = wrong[k];
            expect(&s, i > MOWQACHI_WAITING + 1 && number == 9 ? 9 : 5);
        }
}

static void test_most_waiting(void)
{
    static const uint32_t operands[] = {0x60000000, 0x50fff000, 0x51000003, 0x52fff000};
    for (size_t k = 0; k < sizeof operands / sizeof *operands; k++) {
        test_waiting(operands[k], MOWQACHI_WAITING);
        test_waiting(operands[k], MOWQACHI_WAITING + 1);
    }
}

/* A label word of every sort, with ends in the middle and at the limits, in order and not. */
static void test_sorts(void)
{
    static const uint32_t ends[4] = {0, 7, 8, 4095};
    static struct sample s;
    for (uint32_t sort = 0; sort < 16; sort++)
        for (int h = 0; h < 4; h++)
            for (int l = 0; l < 4; l++) {
                bool group = ends[h] == 0 && ends[l] < 8;
                fill_path(&s, 1, 0x50000000 + (sort << 24) + (ends[h] << 12) + ends[l], 1, 0, 0);
                expect(&s, (sort == 1 ? group : sort <= 2 && l <= h) ? 0 : 5);
            }
}

/* This word in the place of one of our groups, and a path that names none. */
static void test_group(size_t place, uint32_t w)
{
    static struct sample s;
    parse(&s, AS_GROUPS, OURS "; " P);
    s.file[0].words[place] = w;
    expect(&s, kind_of(w) == LABEL && sort_of(w) == RANGE && low_of(w) <= high_of(w) ? 0 : MOWQACHI_GROUPS);
}

/* At each place words of every kind and of every sort, and ranges with their ends in order and not. */
static void test_groups(void)
{
    static const uint32_t ends[] = {0x007007, 0x008007, 0x007008, 0x000fff};
    for (size_t place = 0; place < MOWQACHI_GROUP_COUNT; place++) {
        for (uint32_t k = 0; k < 16; k++) {
            test_group(place, k << 28);
            test_group(place, (LABEL << 28) + (k << 24));
            test_group(place, (LABEL << 28) + (k << 24) + 0xfff000);
        }
        for (size_t k = 0; k < sizeof ends / sizeof *ends; k++)
            test_group(place, (LABEL << 28) + ends[k]);
    }
}

static void test_group_bytes(void)
{
    static struct sample s;
    for (size_t bytes = 0; bytes <= 40; bytes++) {
        parse(&s, AS_GROUPS, OURS " 50fff000 50fff000; " GROUPED);
        s.cut_off = 40 - bytes;
        expect(&s, bytes == MOWQACHI_GROUPS_BYTES ? 0 : MOWQACHI_GROUPS);
    }
}

static void must_be(const char *what, size_t expected, size_t got)
{
    if (expected != got) {
        printf("%s: %zu, not %zu\n", what, got, expected);
        exit(1);
    }
}

/* The bytes of a file, in a buffer of the caller's. */
static struct span bytes_of(const struct file *f, uint8_t *bytes)
{
    for (size_t i = 0; i < 4 * f->count; i++)
        bytes[i] = (uint8_t)(f->words[i / 4] >> 8 * (i % 4));
    return (struct span){bytes, 4 * f->count};
}

/* A walk's file that the checker says yes to, or no, for a node. */
static const struct answer {
    uint32_t yes, node;
    const char *text;
} answers[] = {
    {1, 2, W "; " THROUGH "; " WALKED},
    {0, 3, W "; " THROUGH "; " WALKED},
    {0, 65538, W "; " THROUGH "; " WALKED},
    {1, 2, W "; " P "; 2 30050002"},
    {1, 2, W "; " P "; " WALKED},
    {1, 2, W "; " P "; 6 30050002 30060003 30050002 30060003 30050002"},
    {0, 3, W "; " P "; 3 30050002 30060003"},
    {1, 3, W "; 40100003 51000000 60000003; 3 30050002 30060003"},
    {1, 1, W "; " EMPTY "; 1"},
    {0, 2, W "; " EMPTY "; 1"},
    {0, 1, W "; " P "; 1"},
    {0, 1, "10000002 20070001; " EMPTY "; 1"},
    {0, 2, HALTED "; " P "; " WALKED},
    {0, 3, HALTED "; 40100003 51000000 60000003; 3 30050002 30060003"},
    {1, 2, HALTED "; " P "; 2 30050002"},
    {1, 2, W "; " MAKERS "; " GROUPED "; " WALKED},
    {0, 2, W "; " OURS "; " GROUPED "; " WALKED},
    {0, 2, W "; " P "; "},
    {0, 2, W "; " P "; 0"},
    {0, 2, W "; " P "; 3 30050002"},
    {0, 2, W "; " P "; 10000002 30050002"},
    {0, 2, W "; " P "; 4002 30050002"},
    {0, 2, W "; " P "; 2 30060003"},
    {0, 2, W "; " P "; 2 20050002"},
    {0, 2, W "; " P "; 2 30050003"},
    {0, 2, W "; " P "; " W},
};

static void test_answers(void)
{
    static struct sample s;
    for (size_t i = 0; i < sizeof answers / sizeof *answers; i++) {
        parse(&s, AS_WALK, answers[i].text);
        s.node = answers[i].node;
        expect(&s, 0);
        must_be(answers[i].text, answers[i].yes, said_yes());
    }
}

#define FOUR_EMPTY EMPTY " " EMPTY " " EMPTY " " EMPTY

/* Inputs of the calls with groups, right ones and wrong ones with their numbers; the last call list is wrong beside the path, and a bundle of paths
   is wrong as a whole. */
static const struct choice {
    uint32_t number;
    const char *text;
} some_wholes[] = {{0, W}, {2, ""}, {7, "10000002 20010001"}, {8, "10000003 20030001 30050002"}},
  some_parts[] = {{0, STOPPED_DOOR}, {2, ""}, {5, "10000002 30050002"}, {7, "10000002 20060001"}},
  some_groups[] = {{0, MAKERS}, {16, ""}, {16, P}, {16, "50fff000 503ff000 500ff000 505ff400 506ff600 507ff700 50bff800 51000007"}},
  some_paths[] = {{0, GROUPED}, {2, ""}, {5, "40100002 51000008"}, {9, "40000002 60000003"}},
  some_lists[] = {{0, CALL_WORDS}, {3, P}, {10, "b0000002 c0000011"}, {12, "b0000001"}},
  some_bundles[] = {{0, P " " GROUPED}, {17, ""}, {17, P " 40000000"}, {17, FOUR_EMPTY " " EMPTY}},
  some_desks[] = {{0, FOUR_EMPTY " " GROUPED}, {17, ""}, {17, P " 40000000"}, {17, FOUR_EMPTY " " FOUR_EMPTY " " EMPTY}},
  plain_paths[] = {{0, P}, {2, ""}, {5, "40100002 51000008"}, {9, "40000002 60000003"}},
  any_walks[] = {{0, WALKED}, {0, ""}, {0, P}, {0, "1"}};

/* A call on all choices of its inputs: the first that is wrong gives the number. A walk is looked for or checked that leads to node 2. */
static void test_order(enum call name, const struct choice *const *inputs, int count)
{
    static uint8_t bytes[INPUTS][4 * 64];
    static struct sample s;
    struct span found;
    for (unsigned i = 0; i < 1u << 2 * count; i++) {
        struct asked asked = {name, {{NULL, 0}}, {0, 2}};
        uint32_t number = 0;
        for (int k = count - 1; k >= 0; k--) {
            const struct choice *chosen = &inputs[k][i >> 2 * k & 3];
            parse(&s, AS_PART, chosen->text);
            asked.in[k] = bytes_of(&s.file[0], bytes[k]);
            number = chosen->number != 0 ? chosen->number : number;
        }
        must_be(call_names[name], number_for_all(name, number), call(&asked, &found));
    }
}

static void test_orders(void)
{
    static const struct choice *const old[] = {some_wholes, some_groups, some_paths};
    static const struct choice *const site[] = {some_parts, some_groups, some_paths, some_lists};
    static const struct choice *const visit[] = {some_parts, some_groups, some_bundles}, *const ungrouped[] = {some_parts, some_bundles};
    static const struct choice *const desks[] = {some_parts, some_groups, some_desks}, *const ungrouped_desks[] = {some_parts, some_desks};
    static const struct choice *const walk[] = {some_wholes, some_groups, some_paths, any_walks};
    static const struct choice *const ungrouped_walk[] = {some_wholes, plain_paths, any_walks};
    test_order(OLD_SEARCH_GROUPED, old, 3);
    test_order(FIRST_REPLY_GROUPED, site, 3);
    test_order(SECOND_REPLY_GROUPED, site, 4);
    test_order(FOUR_REPLIES_GROUPED, visit, 3);
    test_order(FOUR_REPLIES, ungrouped, 2);
    test_order(EIGHT_REPLIES_GROUPED, desks, 3);
    test_order(EIGHT_REPLIES, ungrouped_desks, 2);
    test_order(WALK_GROUPED, walk, 3);
    test_order(WALK, ungrouped_walk, 2);
    test_order(CHECK_WALK_GROUPED, walk, 4);
    test_order(CHECK_WALK, ungrouped_walk, 3);
}

/* A call that takes three numbers alone. */
static void test_counts(enum call name, uint32_t first, uint32_t second, uint32_t third, uint32_t number)
{
    const struct asked asked = {name, {{NULL, 0}}, {first, second, third}};
    struct span found;
    must_be(call_names[name], number, call(&asked, &found));
}

/* A call for first replies, and the one with groups: its result, and the words of one of its files. */
static void test_long_reply(const struct asked *plain, uint64_t result, int file, size_t words)
{
    const struct asked calls[] = {*plain, with_groups(plain, our_groups)};
    struct span found;
    for (int k = 0; k < 2; k++) {
        must_be("result of the dear reply", result, call(&calls[k], &found));
        must_be("words of the dear reply", words, words_of(result_of(file)));
    }
}

/* Row 15: two doors, so many targets each, the star of an or of 15 full ranges, by itself, as the second path of a visit, and at a
   second desk. */
static void test_dear_reply(uint32_t targets, uint32_t number, size_t words)
{
    static const uint8_t empty[] = {2, 0, 0, 0x40, 0, 0, 0, 0x60};
    struct draft part = {.len = 0}, path = {.len = 0}, two = {.len = 0};
    test_counts(DEAREST, 2, targets, MOWQACHI_PATH_LABELS, 0);
    put_bytes(&part, result_of(0));
    put_bytes(&path, result_of(1));
    put_bytes(&two, (struct span){empty, sizeof empty});
    put_bytes(&two, span_of(&path));
    test_long_reply(&(struct asked){FIRST_REPLY, {span_of(&part), span_of(&path)}, {0}}, number, 0, words);
    test_long_reply(&(struct asked){FOUR_REPLIES, {span_of(&part), span_of(&two)}, {0}}, number << 8, 1, words);
    test_long_reply(&(struct asked){EIGHT_REPLIES, {span_of(&part), span_of(&two)}, {0}}, number << 8, 1, words);
}

/* A root's row that reaches 255 doors in all states, and one node on from there in so many: 4,081 pairs and those. That node is a door, or not. */
static void test_long_list(uint32_t further, bool door, uint32_t number, size_t words)
{
    static struct file f;
    static uint8_t bytes[4 * MOST];
    struct span found, first;
    f.count = 1;
    push(&f, 0x80010000);
    push(&f, 0x90000000);
    for (uint32_t c = 16; c < 16 * 256; c++)
        push(&f, 0xa0000000 + c);
    head(&f, 0x70f00000);
    first = bytes_of(&f, bytes);
    f.count = 1;
    for (uint32_t x = 1; x < 256; x++)
        push(&f, 0x80000000 + x);
    push(&f, 0x90000003);
    for (uint32_t q = 0; q < further; q++)
        push(&f, 0xa0001000 + q);
    if (door)
        push(&f, 0x80000100);
    head(&f, 0x71f00000);
    struct asked asked = {CALL_LIST, {{bytes, first.len + bytes_of(&f, bytes + first.len).len}}, {0}};
    must_be("number of the long call list", number, call(&asked, &found));
    must_be("words of the long call list", words, words_of(found));
}

/* Loops of one node, so many: two words more as a whole. Then the same triples over and over, up to the limit of a triple file, and past it. */
static void test_triples(uint32_t loops, uint32_t number)
{
    static struct sample s;
    parse(&s, AS_TRIPLES, "9");
    for (uint32_t k = 0; s.file[0].count < MOWQACHI_TRIPLE_WORDS; k++) {
        if (k == loops)
            expect(&s, number);
        push(&s.file[0], 9);
        push(&s.file[0], k % loops);
        push(&s.file[0], 9);
    }
    expect(&s, number);
    push(&s.file[0], 9);
    expect(&s, MOWQACHI_SIZE);
}

/* In a ring of 511 nodes, each of which has walks of so many links and every 511 more: that to this node which the path accepts. */
static void test_long_walk(uint32_t ahead, uint32_t turn, uint32_t node, uint32_t number, size_t words)
{
    struct draft whole, path;
    fill_ring(&whole, (MOWQACHI_WALK_WHOLE_WORDS - 1) / 2);
    fill_turns(&path, ahead, turn);
    const struct asked plain = {WALK, {span_of(&whole), span_of(&path)}, {0, node}}, calls[] = {plain, with_groups(&plain, our_groups)};
    struct span found;
    for (int k = 0; k < 2; k++) {
        must_be("number of the long walk", number, call(&calls[k], &found));
        must_be("words of the long walk", words, words_of(found));
    }
}

/* Number 1, ahead of inputs that would be refused too; longer buffers are fine. */
static void test_room(const struct asked *asked)
{
    const struct asked none = {asked->call, {{NULL, 0}}, {99}};
    const struct room least = room_for(asked->call);
    const uint64_t refused = number_for_all(asked->call, MOWQACHI_BUFFER);
    struct room more = {.work = least.work + 3}, shorter = least;
    must_be("number at just enough", 0, call_with(asked, least));
    for (int k = 0; k < OUTPUTS && least.out[k] > 0; k++)
        more.out[k] = least.out[k] + (k == 0 ? 1234567 : 7);
    must_be("number with more", 0, call_with(asked, more));
    for (int k = 0; k < OUTPUTS && least.out[k] > 0; k++) {
        struct room room = least;
        room.out[k]--;
        must_be("number of a short output", refused, call_with(asked, room));
        must_be("number of a short output and no inputs", refused, call_with(&none, room));
    }
    shorter.work--;
    must_be("number of a short working buffer", refused, call_with(asked, shorter));
    must_be("number of no buffers and inputs", refused, call_with(&none, (struct room){{0}, 0}));
}

static void test_buffers(void)
{
    static const char *const texts[] = {W, P, "10000003 20010002 30060003", FIRST_0 " " FIRST_1, CALL_WORDS, "d0300001 d1300002 e0000002",
                                        P " " EMPTY " " BUT " " GROUPED, TRIPLES, WALKED};
    enum { TEXTS = sizeof texts / sizeof *texts };
    static const uint8_t cuts[] = {0, 1, 0};
    static uint8_t bytes[TEXTS][4 * 64];
    static struct sample s;
    struct span f[TEXTS], cut = {cuts, sizeof cuts};
    for (int k = 0; k < TEXTS; k++) {
        parse(&s, AS_PART, texts[k]);
        f[k] = bytes_of(&s.file[0], bytes[k]);
    }
    const struct asked asked[] = {{OLD_SEARCH, {f[0], f[1]}, {0}}, {CUT, {f[0], cut}, {1}}, {FIRST_REPLY, {f[2], f[1]}, {0}},
                                  {CALL_LIST, {f[3]}, {0}}, {SECOND_REPLY, {f[2], f[1], f[4]}, {0}}, {JOIN, {f[5]}, {0}},
                                  {OLD_SEARCH_GROUPED, {f[0], our_groups, f[1]}, {0}}, {FIRST_REPLY_GROUPED, {f[2], our_groups, f[1]}, {0}},
                                  {SECOND_REPLY_GROUPED, {f[2], our_groups, f[1], f[4]}, {0}}, {FOUR_REPLIES, {f[2], f[6]}, {0}},
                                  {FOUR_REPLIES_GROUPED, {f[2], our_groups, f[6]}, {0}}, {EIGHT_REPLIES, {f[2], f[6]}, {0}},
                                  {EIGHT_REPLIES_GROUPED, {f[2], our_groups, f[6]}, {0}}, {DEAREST, {{NULL, 0}}, {2, 3, 4}},
                                  {GENERATE, {{NULL, 0}}, {7, 3, 4}}, {FROM_TRIPLES, {f[7]}, {0}}, {TO_TRIPLES, {f[0]}, {7}},
                                  {WALK, {f[0], f[1]}, {0, 2}}, {WALK_GROUPED, {f[0], our_groups, f[1]}, {0, 2}},
                                  {CHECK_WALK, {f[0], f[1], f[8]}, {7, 2}}, {CHECK_WALK_GROUPED, {f[0], our_groups, f[1], f[8]}, {7, 2}}};
    for (int c = 0; c < CALL_COUNT; c++)
        test_room(&asked[c]);
}

/* The rows of the table of docs/CALLS.md. */
static void print_table(void)
{
    for (int c = 0; c < CALL_COUNT; c++) {
        printf("| `%s` |", call_names[c]);
        for (unsigned i = 1; i < NUMBERS; i++)
            printf(numbers_given((enum call)c) >> i & 1 ? " %u |" : " |", i);
        printf("\n");
    }
}

/* Results that just fit, and that are one too long; counts at their limits and past them. */
static void test_limits(void)
{
    test_dear_reply(8, 0, 3875);
    test_dear_reply(9, MOWQACHI_RESULT, 0);
    test_counts(DEAREST, 2, 0, MOWQACHI_PATH_LABELS, MOWQACHI_COUNTS);
    test_counts(GENERATE, 0, MOWQACHI_GENERATED_NODES, MOWQACHI_GENERATED_EDGES, 0);
    test_counts(GENERATE, 0, MOWQACHI_GENERATED_NODES + 1, 1, MOWQACHI_CUT);
    test_counts(GENERATE, 0, 1, MOWQACHI_GENERATED_EDGES + 1, MOWQACHI_CUT);
    test_long_list(14, true, 0, 4096);
    test_long_list(15, true, MOWQACHI_RESULT, 0);
    test_long_list(14, false, MOWQACHI_DOOR, 0);
    test_long_list(15, false, MOWQACHI_DOOR, 0);
    test_triples(MOWQACHI_PART_WORDS - 2, 0);
    test_triples(MOWQACHI_PART_WORDS - 1, MOWQACHI_RESULT);
    test_long_walk(0, 15, 4095 % 511, 0, MOWQACHI_WALK_WORDS);
    test_long_walk(1, 13, 4096 % 511, MOWQACHI_RESULT, 0);
    test_long_walk(0, 15, 511, MOWQACHI_UNLISTED, 0);
}

int main(int argc, char **argv)
{
    static struct sample s;
    long samples = argc > 1 ? atol(argv[1]) : 0;
    if (argc > 2)
        write_into(argv[2]);
    for (size_t i = 0; i < sizeof examples / sizeof *examples; i++) {
        parse(&s, examples[i].subject, examples[i].text);
        expect(&s, examples[i].result);
    }
    test_sizes();
    test_bundles();
    test_paths();
    test_most_waiting();
    test_sorts();
    test_groups();
    test_group_bytes();
    test_orders();
    test_limits();
    test_answers();
    test_buffers();
    for (size_t i = 0; i < sizeof seeds / sizeof *seeds && samples > 0; i++) {
        parse(&s, seeds[i].subject, seeds[i].text);
        expect(&s, 0);
        damage_everywhere(&s);
        damage_at_random(&s, samples);
    }
    print_compared();
    print_table();
    return 0;
}
