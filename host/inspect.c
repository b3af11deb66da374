/* The inspector: a file of document 01, or document 02's groups, bundle of paths, one reply for several desks, triple file or walk, word by word, and
   the first check that fails. Its exit code is the refusal's number, 0 where all is accepted, and 64 where there is nothing to inspect. */
#include <ctype.h>
#include <errno.h>
#include <stdio.h>
#include <stdlib.h>
#include <string.h>

#include "checks.h"
#include "describe.h"
#include "mowqachi.h"
#include "reached.h"
#include "spelled.h"

enum { NOTHING = 64, MOST_BYTES = 1 << 20, MOST_FILES = 4 };

static const struct span our_groups = {(const uint8_t *)mowqachi_our_groups, sizeof mowqachi_our_groups};

static const char usage[] =
    "usage: inspect [--hex] [AS] FILE              a file or a bundle\n"
    "       inspect [--hex] --cut WHOLE CUT        a cut list beside its whole\n"
    "       inspect [--hex] --groups GROUPS [PATH] eight words for the groups; a path with these groups\n"
    "       inspect [--hex] --paths [GROUPS] PATHS a bundle of paths for one visit: its split, and each path by itself\n"
    "       inspect [--hex] --desks [GROUPS] PATHS a bundle of paths of several desks, in the same way\n"
    "       inspect [--hex] --served NUMBERS FILE  one reply for several desks, by their numbers as the call gave them: each desk's own\n"
    "       inspect [--hex] --asked PART [GROUPS] PATH LIST\n"
    "                                              a call list beside the part and path of the site asked\n"
    "       inspect [--hex] --longest PART PATH    how long a first reply can be, by doors, outside targets and labels\n"
    "       inspect [--hex] --shared PART [PART]   of which nodes replies may tell; whether they may tell two parts apart\n"
    "       inspect [--hex] --generated STATE FILE whether the generator writes this whole from that state, decimal or 0x..\n"
    "       inspect [--hex] --triples FILE         a triple file of the first release, with its repeats, and how long its whole is\n"
    "       inspect [--hex] --said WHOLE           a whole, and whether triples can say it\n"
    "       inspect [--hex] --walk WHOLE [[GROUPS] PATH] WALK\n"
    "                                              a walk in a whole, link by link; with a path, for which node the checker says yes\n"
    "       inspect [--hex] --dot FILE             a part as a Graphviz picture\n"
    "AS tells what the file should be; without it the header tells:\n"
    "       --part --whole --path --calls --list   one file\n"
    "       --firsts --seconds                     a bundle of replies, checked over all files too\n"
    "       --files                                files one after another, each by itself\n"
    "Without GROUPS a path has our groups.\n"
    "--hex: the input is text, words in hexadecimal (a cut list: numbers of bytes). FILE may be -, for standard input.\n"
    "The exit code is the first refusal's number, 0 where all is accepted, be two parts alike or not, a plant generated or not, desks that were\n"
    "refused or not, and words a walk or not, and 64 where there is nothing to inspect.\n";

static _Noreturn void give_up(const char *what, const char *why)
{
    fprintf(stderr, "inspect: %s: %s\n", what, why);
    exit(NOTHING);
}

static struct span read_bytes(const char *name)
{
    FILE *f = strcmp(name, "-") == 0 ? stdin : fopen(name, "rb");
    uint8_t *bytes = malloc(MOST_BYTES + 1);
    if (f == NULL || bytes == NULL)
        give_up(name, strerror(errno));
    size_t len = fread(bytes, 1, MOST_BYTES + 1, f);
    if (ferror(f))
        give_up(name, "cannot be read");
    if (len > MOST_BYTES)
        give_up(name, "is over a mebibyte, and no file of document 01");
    if (f != stdin)
        fclose(f);
    return (struct span){bytes, len};
}

/* The hexadecimal numbers of a text, in `width` bytes each. */
static struct span read_hex(const char *name, size_t width)
{
    struct span text = read_bytes(name);
    uint8_t *bytes = malloc(width * text.len + 1);
    size_t len = 0, digits = 0;
    uint32_t number = 0;
    if (bytes == NULL)
        give_up(name, strerror(errno));
    for (size_t i = 0; i <= text.len; i++) {
        int c = i < text.len ? text.bytes[i] : ' ';
        if (isxdigit(c)) {
            number = 16 * number + (uint32_t)(isdigit(c) ? c - '0' : tolower(c) - 'a' + 10);
            digits++;
        } else if (!isspace(c)) {
            give_up(name, "has a character that is no hexadecimal digit");
        } else if (digits > 2 * width) {
            give_up(name, "has a number with too many digits");
        } else if (digits > 0) {
            for (size_t k = 0; k < width; k++)
                bytes[len++] = (uint8_t)(number >> 8 * k);
            number = 0;
            digits = 0;
        }
    }
    free((void *)text.bytes);
    return (struct span){bytes, len};
}

/* A number in so many bytes. */
static struct span in_bytes(const char *text, uint64_t number, size_t len)
{
    uint8_t *bytes = malloc(len);
    if (bytes == NULL)
        give_up(text, strerror(errno));
    for (size_t k = 0; k < len; k++)
        bytes[k] = (uint8_t)(number >> 8 * k);
    return (struct span){bytes, len};
}

/* The state of a generator, as a word. */
static struct span read_state(const char *text)
{
    uint32_t state;
    if (!read_number(text, &state))
        give_up(text, "is no state, a number of 32 bits, decimal or behind 0x");
    return in_bytes(text, state, 4);
}

/* The numbers of several desks, a byte each. */
static struct span read_numbers(const char *text)
{
    uint64_t numbers;
    if (!read_wide(text, &numbers))
        give_up(text, "is no result of a call for desks, a number of 64 bits, decimal or behind 0x");
    for (unsigned k = 0; k < MOWQACHI_DESKS; k++)
        if (mowqachi_desk_number(numbers, k) > MOWQACHI_PATHS)
            give_up(text, "has a byte that is no number of a desk");
    return in_bytes(text, numbers, MOWQACHI_DESKS);
}

/* The report of one file: its words, what there is to say of an accepted one, and the verdict. */
static unsigned report_beside(struct span s, struct verdict v, const struct beside *beside)
{
    print_words(s, v, beside);
    if (v.number == 0 && kind_of(word_at(s, 0)) == PATH)
        print_expression(s);
    if (v.number == 0 && kind_of(word_at(s, 0)) == PART)
        print_counts(s);
    if (beside->reached != NULL)
        print_reached(s, beside->reached);
    if (beside->calls != NULL)
        print_strays(s, beside->calls);
    print_verdict(v, "word", words_of(s));
    return v.number;
}

static unsigned report(struct span s, struct verdict v)
{
    return report_beside(s, v, &(struct beside){.groups = mowqachi_our_groups});
}

/* A bundle of first replies. Which pairs are called can be told once 13 is passed. */
static unsigned report_firsts(struct span s)
{
    static struct calls calls;
    struct verdict v = check_bundle(s, FIRST);
    bool told = v.number == 0 || v.number == MOWQACHI_DOOR;
    if (told)
        find_calls(s, &calls);
    return report_beside(s, v, &(struct beside){.groups = mowqachi_our_groups, .calls = told ? &calls : NULL});
}

static unsigned report_groups(struct span s, struct verdict v)
{
    print_groups(s, v);
    print_verdict(v, "word", words_of(s));
    return v.number;
}

static unsigned as_part(const struct span *in) { return report(in[0], check_file(in[0], PART)); }
static unsigned as_whole(const struct span *in) { return report(in[0], check_whole(in[0])); }
static unsigned as_path(const struct span *in) { return report(in[0], check_file(in[0], PATH)); }
static unsigned as_calls(const struct span *in) { return report(in[0], check_file(in[0], CALLS)); }
static unsigned as_list(const struct span *in) { return report(in[0], check_file(in[0], LIST)); }
static unsigned as_firsts(const struct span *in) { return report_firsts(in[0]); }
static unsigned as_seconds(const struct span *in) { return report(in[0], check_bundle(in[0], SECOND)); }

/* What the header says. A reply that fills its file stands by itself; words behind it make the file a bundle. */
static unsigned by_header(const struct span *in)
{
    uint32_t header = words_of(in[0]) > 0 ? word_at(in[0], 0) : 0;
    unsigned kind = kind_of(header);
    if (file_name(kind) == NULL) {
        struct verdict v = check_file(in[0], PART);
        if (v.number == 3)
            v.why = kind == 0 ? "the first word is no header, unless of a walk, for which there is --walk" : "the first word is no header";
        return report(in[0], v);
    }
    if ((kind == FIRST || kind == SECOND) && length_of(header) != words_of(in[0]))
        return kind == FIRST ? as_firsts(in) : as_seconds(in);
    return report(in[0], check_file(in[0], kind));
}

/* Each file by itself, up to the first that is refused; what its header cannot bound goes with it. */
static unsigned as_files(const struct span *in)
{
    struct span rest = in[0];
    unsigned number;
    do {
        struct span one = front_of(rest);
        number = by_header(&one);
        rest = behind(rest, one);
        if (rest.len > 0)
            printf("\n");
    } while (number == 0 && rest.len > 0);
    return number;
}

static unsigned as_picture(const struct span *in)
{
    struct verdict v = check_file(in[0], PART);
    if (v.number == 0)
        print_picture(in[0]);
    else
        fprintf(stderr, "refused %u %s at word %zu: %s\n", v.number, number_name(v.number), v.at, v.why);
    return v.number;
}

static unsigned as_cut(const struct span *in)
{
    struct verdict v = check_whole(in[0]);
    size_t k = 0;
    if (v.number != 0)
        return report(in[0], v);
    v = check_cuts(in[0], in[1], 0);
    for (size_t i = 1; i < words_of(in[0]) && k < in[1].len; i++) {
        uint32_t w = word_at(in[0], i);
        if (kind_of(w) == NODE) {
            printf("%5zu  %02x        node %u%s at site %u\n", k, in[1].bytes[k], node_of(w), stopped_bit(w) ? ", stopped," : "", in[1].bytes[k]);
            k++;
        }
    }
    print_verdict(v, "byte", in[1].len);
    return v.number;
}

/* The words of groups that are accepted; others are reported. The number. */
static unsigned read_groups(struct span s, uint32_t words[MOWQACHI_GROUP_COUNT])
{
    struct verdict v = check_groups(s);
    if (v.number != 0)
        return report_groups(s, v);
    for (size_t g = 0; g < MOWQACHI_GROUP_COUNT; g++)
        words[g] = word_at(s, g);
    return 0;
}

static unsigned as_groups(const struct span *in)
{
    uint32_t groups[MOWQACHI_GROUP_COUNT];
    if (in[1].bytes == NULL)
        return report_groups(in[0], check_groups(in[0]));
    unsigned number = read_groups(in[0], groups);
    return number != 0 ? number : report_beside(in[1], check_file(in[1], PATH), &(struct beside){.groups = groups});
}

/* What takes a bundle of paths: how each of them is called, and how many there are at most. */
struct taker {
    const char *name;
    size_t most;
};

/* How far a bundle of paths can be split: the files that are as long as their headers say. */
static void print_split(struct span paths, const struct taker *taker)
{
    struct span rest = paths;
    for (size_t number = 1; number <= taker->most && words_of(rest) > 0; number++) {
        struct span one = front_of(rest);
        if (length_of(word_at(one, 0)) != words_of(one))
            return;
        print_stretch(taker->name, number, paths, one);
        rest = behind(rest, one);
    }
}

/* The paths of a bundle that can be split, each by itself, and then their numbers and the first refusal. */
static unsigned report_each(struct span paths, const struct taker *taker, const struct beside *beside)
{
    struct verdict first = {0, 0, NULL};
    uint64_t numbers = 0;
    for (size_t k = 0; file_in(paths, k).len > 0; k++) {
        struct span one = file_in(paths, k);
        struct verdict v = check_file(one, PATH);
        print_stretch(taker->name, k + 1, paths, one);
        numbers |= (uint64_t)report_beside(one, v, beside) << 8 * k;
        printf("\n");
        if (first.number == 0)
            first = (struct verdict){v.number, k + 1, v.why};
    }
    print_numbers(taker->name, numbers, taker->most);
    print_verdict(first, taker->name, SIZE_MAX);
    return first.number;
}

static unsigned report_paths(const struct span *in, const struct taker *taker)
{
    uint32_t groups[MOWQACHI_GROUP_COUNT];
    bool grouped = in[1].bytes != NULL;
    struct span paths = in[grouped ? 1 : 0];
    struct beside beside = {.groups = groups};
    unsigned number = read_groups(grouped ? in[0] : our_groups, groups);
    if (number != 0)
        return number;
    struct verdict v = check_paths(paths, taker->most);
    if (v.number == 0)
        return report_each(paths, taker, &beside);
    print_split(paths, taker);
    return report_beside(paths, v, &beside);
}

static unsigned as_paths(const struct span *in) { return report_paths(in, &(struct taker){"path", MOWQACHI_VISIT_PATHS}); }
static unsigned as_desks(const struct span *in) { return report_paths(in, &(struct taker){"desk", MOWQACHI_DESKS}); }

/* An output up to its last word that is not zero, as no first reply ends with such a word; bytes that are not in fours stay. */
static struct span without_zeros(struct span out)
{
    while (out.len % 4 == 0 && out.len > 0 && word_at(out, words_of(out) - 1) == 0)
        out.len -= 4;
    return out;
}

/* One desk's share of what is left of an output, and where that goes on. A reply that its header cannot bound takes all that is left. */
static unsigned report_desk(struct span out, struct span *rest, unsigned desk, unsigned number)
{
    struct span one = front_of(*rest);
    if (number != 0) {
        const char *why = number == MOWQACHI_RESULT ? ": over 512 words, and without room beside the others, or over 4096 by itself" : "";
        printf("desk %u: refused %u %s%s\n", desk, number, number_name(number), why);
        return 0;
    }
    if (rest->len == 0) {
        printf("desk %u: no path\n", desk);
        return 0;
    }
    print_stretch("desk", desk, out, one);
    *rest = behind(*rest, one);
    return report(one, check_file(one, FIRST));
}

/* What an output holds of short replies and of long ones. */
static void print_shares(struct span out)
{
    size_t words[2] = {0, 0};
    for (struct span rest = out; rest.len > 0; rest = behind(rest, front_of(rest)))
        words[words_of(front_of(rest)) > MOWQACHI_SHORT_WORDS] += words_of(front_of(rest));
    printf("words of short replies %zu, of long ones %zu, together %zu of %d\n", words[0], words[1], words[0] + words[1], MOWQACHI_REPLY_WORDS);
}

/* What is wrong with an output beside these numbers, all of its files being first replies of which `rest` is left over. */
static struct verdict check_served(struct span out, struct span rest, const uint8_t *numbers, unsigned replies)
{
    size_t due = 0;
    for (unsigned k = 0, accepted = 0; k < MOWQACHI_DESKS; k++) {
        accepted += numbers[k] == 0;
        due = numbers[k] != 0 ? accepted : due;
    }
    if (replies < due)
        return (struct verdict){2, words_of(out), "a desk whose number is 0 has no reply, and a later one has another number"};
    if (rest.len > 0)
        return (struct verdict){2, words_of(out) - words_of(rest), "there are words behind the replies of all desks"};
    if (words_of(out) > MOWQACHI_REPLY_WORDS)
        return (struct verdict){2, MOWQACHI_REPLY_WORDS, "there are more words than one reply holds"};
    return (struct verdict){0, 0, NULL};
}

/* The numbers, a byte for each desk, and the output. */
static unsigned as_served(const struct span *in)
{
    struct span out = without_zeros(in[1]), rest = out;
    unsigned replies = 0;
    for (unsigned k = 0; k < MOWQACHI_DESKS; k++) {
        bool has_reply = in[0].bytes[k] == 0 && rest.len > 0;
        unsigned number = report_desk(out, &rest, k + 1, in[0].bytes[k]);
        if (number != 0)
            return number;
        replies += has_reply;
        printf("%s", has_reply ? "\n" : "");
    }
    print_shares(out);
    struct verdict v = check_served(out, rest, in[0].bytes, replies);
    print_verdict(v, "word", words_of(out));
    return v.number;
}

/* The words of groups and then a path that are accepted; the first that is not is reported. The number. */
static unsigned read_groups_and_path(struct span groups, struct span path, uint32_t words[MOWQACHI_GROUP_COUNT])
{
    unsigned number = read_groups(groups, words);
    if (number != 0)
        return number;
    struct verdict v = check_file(path, PATH);
    return v.number == 0 ? 0 : report_beside(path, v, &(struct beside){.groups = words});
}

/* The inputs in the order in which a second reply is asked for: the groups, if there are any, stand between part and path. */
static unsigned as_asked(const struct span *in)
{
    uint32_t groups[MOWQACHI_GROUP_COUNT];
    bool grouped = in[3].bytes != NULL;
    struct span part = in[0], path = in[grouped ? 2 : 1], list = in[grouped ? 3 : 2];
    struct verdict v = check_file(part, PART);
    if (v.number != 0)
        return report(part, v);
    unsigned number = read_groups_and_path(grouped ? in[1] : our_groups, path, groups);
    if (number != 0)
        return number;
    v = check_file(list, CALLS);
    return report_beside(list, v.number != 0 ? v : check_against(part, path, list), &(struct beside){.part = part, .groups = groups});
}

static unsigned as_longest(const struct span *in)
{
    struct verdict part = check_file(in[0], PART), path = check_file(in[1], PATH);
    if (part.number != 0)
        return report(in[0], part);
    if (path.number != 0)
        return report(in[1], path);
    print_longest(in[0], in[1]);
    return 0;
}

/* What replies may tell of a part. Which nodes are reached can be told of an accepted one alone. */
static unsigned report_shared(struct span part)
{
    struct nodes reached;
    struct verdict v = check_file(part, PART);
    bool told = v.number == 0;
    if (told)
        find_reached(&reached, part);
    return report_beside(part, v, &(struct beside){.groups = mowqachi_our_groups, .reached = told ? &reached : NULL});
}

static unsigned as_shared(const struct span *in)
{
    if (in[1].bytes == NULL)
        return report_shared(in[0]);
    for (int k = 0; k < 2; k++) {
        struct verdict v = check_file(in[k], PART);
        if (v.number != 0) {
            printf("the %s part:\n", k == 0 ? "first" : "second");
            return report(in[k], v);
        }
    }
    print_apart(in[0], in[1]);
    return 0;
}

static unsigned as_generated(const struct span *in)
{
    struct verdict v = check_whole(in[1]);
    if (v.number != 0)
        return report(in[1], v);
    print_generated(in[1], word_at(in[0], 0));
    return 0;
}

/* A triple file. What it has can be told once all its words are in their fields. */
static unsigned as_triples(const struct span *in)
{
    struct verdict v = check_triples(in[0]);
    print_triples(in[0], v);
    if (v.number == 0 || v.number == MOWQACHI_RESULT)
        print_edition(in[0]);
    print_verdict(v, "word", words_of(in[0]));
    return v.number;
}

static unsigned as_said(const struct span *in)
{
    struct verdict v = check_said(in[0]);
    print_words(in[0], v, &(struct beside){.groups = mowqachi_our_groups});
    if (v.number == 0)
        print_said(in[0]);
    print_verdict(v, "word", words_of(in[0]));
    return v.number;
}

/* The inputs in the order in which a walk is checked: groups, if there are any, stand between whole and path, and the walk is the last. Without a
   path it is only looked whether it is a walk of the whole. What the checker says is no number. */
static unsigned as_walk(const struct span *in)
{
    uint32_t words[MOWQACHI_GROUP_COUNT];
    bool asked = in[2].bytes != NULL, grouped = in[3].bytes != NULL;
    struct span whole = in[0], groups = grouped ? in[1] : our_groups, path = in[grouped ? 2 : 1], walk = in[grouped ? 3 : asked ? 2 : 1];
    struct verdict v = check_small_whole(whole);
    if (v.number != 0)
        return report(whole, v);
    unsigned number = asked ? read_groups_and_path(groups, path, words) : 0;
    if (number != 0)
        return number;
    v = check_walk(whole, walk);
    print_walk(whole, walk, v);
    if (v.number == 0)
        print_ends(whole, walk);
    if (v.number != 0 || asked)
        print_answer(whole, walk, v, v.number == 0 && spells(walk, groups, path));
    return 0;
}

/* What an option asks for, and how many files it takes, a state or numbers being one of them; those that are not given are NULL. */
static const struct mode {
    const char *option;
    int least, most;
    unsigned (*run)(const struct span *in);
} modes[] = {
    {"--part", 1, 1, as_part}, {"--whole", 1, 1, as_whole}, {"--path", 1, 1, as_path}, {"--calls", 1, 1, as_calls}, {"--list", 1, 1, as_list},
    {"--firsts", 1, 1, as_firsts}, {"--seconds", 1, 1, as_seconds}, {"--files", 1, 1, as_files}, {"--dot", 1, 1, as_picture},
    {"--cut", 2, 2, as_cut}, {"--groups", 1, 2, as_groups}, {"--paths", 1, 2, as_paths}, {"--desks", 1, 2, as_desks},
    {"--served", 2, 2, as_served}, {"--asked", 3, MOST_FILES, as_asked}, {"--longest", 2, 2, as_longest}, {"--shared", 1, 2, as_shared},
    {"--generated", 2, 2, as_generated}, {"--triples", 1, 1, as_triples}, {"--said", 1, 1, as_said}, {"--walk", 2, MOST_FILES, as_walk},
};

static struct mode mode_of(const char *option)
{
    for (size_t i = 0; i < sizeof modes / sizeof *modes; i++)
        if (strcmp(option, modes[i].option) == 0)
            return modes[i];
    return (struct mode){NULL, 1, 1, by_header};
}

/* The argument k of those that an option takes. */
static struct span read_input(const struct mode *mode, int k, const char *text, bool hex)
{
    if (mode->run == as_generated && k == 0)
        return read_state(text);
    if (mode->run == as_served && k == 0)
        return read_numbers(text);
    bool bytes = mode->run == as_cut && k == 1;
    return hex ? read_hex(text, bytes ? 1 : 4) : read_bytes(text);
}

int main(int argc, char **argv)
{
    struct span in[MOST_FILES] = {{NULL, 0}};
    int next = 1;
    bool hex = next < argc && strcmp(argv[next], "--hex") == 0;
    next += hex;
    struct mode mode = mode_of(next < argc ? argv[next] : "");
    next += mode.option != NULL;
    int files = argc - next;
    if (files < mode.least || files > mode.most || strncmp(argv[next], "--", 2) == 0) {
        fputs(usage, stderr);
        return NOTHING;
    }
    for (int k = 0; k < files; k++)
        in[k] = read_input(&mode, k, argv[next + k], hex);
    unsigned number = mode.run(in);
    for (int k = 0; k < files; k++)
        free((void *)in[k].bytes);
    return (int)number;
}
