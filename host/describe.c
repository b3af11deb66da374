#include "describe.h"

#include <inttypes.h>
#include <stdio.h>

#include "generator.h"
#include "mowqachi.h"
#include "reached.h"

/* What a line needs to know besides its word. */
struct place {
    struct nodes own;       /* the nodes of the file's node words */
    struct nodes stopped;   /* the stopped nodes of the part beside it */
    const uint32_t *groups; /* of a path */
    const struct calls *calls;  /* of a bundle of first replies, or NULL */
    const struct nodes *reached;    /* of a part, or NULL */
    unsigned labels;        /* label words of the file so far */
    struct span triples;    /* the file, if it is a triple file */
    struct span whole, walk;    /* a walk, and where it is one */
};

typedef void line_printer(uint32_t w, size_t i, struct place *place);

static void print_header(uint32_t w)
{
    unsigned kind = kind_of(w);
    printf("%-12s ", file_name(kind));
    if (kind == PART || kind == FIRST || kind == SECOND)
        printf("site %u, ", site_of(w));
    if (kind == PATH || kind == FIRST || kind == CALLS || kind == SECOND)
        printf("n %u, ", n_of(w));
    printf("%zu word%s", length_of(w), length_of(w) == 1 ? "" : "s");
}

static void print_label(uint32_t w, const uint32_t *groups)
{
    uint32_t range = groups[group_of(w)];
    switch (sort_of(w)) {
    case RANGE: printf("range %u to %u", low_of(w), high_of(w)); break;
    case GROUP: printf("group %u, %u to %u", group_of(w), low_of(range), high_of(range)); break;
    case OUTSIDE: printf("outside %u to %u%s", low_of(w), high_of(w), holds_none(w) ? ", no label" : ""); break;
    default: printf("sort %u", sort_of(w)); break;
    }
}

static void print_part_word(uint32_t w, const struct place *place)
{
    bool unreached = place->reached != NULL && !has_node(place->reached, node_of(w));
    if (kind_of(w) == NODE)
        printf("%-12s %u%s%s%s%s", "node", node_of(w), door_bit(w) ? ", door" : "", root_bit(w) ? ", root" : "",
               stopped_bit(w) ? ", stopped" : "", unreached ? ", not reached" : "");
    else
        printf("%-12s label %u, target %u%s", "edge", label_of(w), node_of(w), has_node(&place->own, node_of(w)) ? "" : ", outside");
}

static void print_reply_word(uint32_t w, const struct place *place)
{
    bool stray = place->calls != NULL && is_stray(w, place->calls);
    switch (kind_of(w)) {
    case DOOR: printf("%-12s %u%s", "door", node_of(w), door_root(w) ? ", root" : ""); break;
    case ROW: printf("%-12s state %u", "row", state_of(w)); break;
    case REACH: printf("%-12s node %u, state %u%s", "reach", pair_node(w), state_of(w), stray ? ", no door" : ""); break;
    case CALL:
        printf("%-12s node %u, state %u%s", "call", pair_node(w), state_of(w), has_node(&place->stopped, pair_node(w)) ? ", stopped" : "");
        break;
    case ANSWER: printf("%-12s node %u", "answer", node_of(w)); break;
    default: printf("kind 0"); break;
    }
}

static void print_word(uint32_t w, size_t i, struct place *place)
{
    static const char *const operators[] = {"empty word", "then", "or", "star"};
    bool header = file_name(kind_of(w)) != NULL;
    printf("%s%5zu  %08x  ", header && i > 0 ? "\n" : "", i, (unsigned)w);
    if (header) {
        print_header(w);
        place->labels = 0;
    } else if (kind_of(w) == LABEL) {
        printf("%-12s state %u, ", "label", ++place->labels);
        print_label(w, place->groups);
    } else if (kind_of(w) == OPERATOR) {
        printf("%-12s %s", "operator", operators[operator_of(w)]);
    } else if (kind_of(w) == NODE || kind_of(w) == EDGE) {
        print_part_word(w, place);
    } else {
        print_reply_word(w, place);
    }
    printf("\n");
}

/* A word of groups, which needs to know nothing else. */
static void print_group(uint32_t w, size_t i, struct place *place)
{
    (void)place;
    printf("%5zu  %08x  %-12s %zu, ", i, (unsigned)w, i < MOWQACHI_GROUP_COUNT ? "group" : "no group", i);
    if (kind_of(w) != LABEL)
        printf("kind %X\n", kind_of(w));
    else if (sort_of(w) != RANGE)
        printf("sort %u\n", sort_of(w));
    else
        printf("%u to %u\n", low_of(w), high_of(w));
}

/* A word of a triple file: the root, or a field of a triple. */
static void print_field(uint32_t w, size_t i, struct place *place)
{
    static const char *const names[] = {"target", "source", "label"};
    bool ends = i > 0 && i % 3 == 0;
    size_t first = ends ? first_equal(place->triples, i / 3 - 1) : 0;
    printf("%5zu  %08x  %-12s %" PRIu32, i, (unsigned)w, i == 0 ? "root" : names[i % 3], w);
    if (ends && first < i / 3 - 1)
        printf(", again: as words %zu to %zu", 3 * first + 1, 3 * first + 3);
    printf("\n");
}

/* A word of a walk: its header, or a link from the root or from where the link before it leads to. */
static void print_link(uint32_t w, size_t i, struct place *place)
{
    bool plain = bits(w, 31, 14) == 0;
    printf("%5zu  %08x  ", i, (unsigned)w);
    if (i == 0 && plain)
        printf("%-12s %zu word%s\n", "walk", length_of(w), length_of(w) == 1 ? "" : "s");
    else if (i == 0 || kind_of(w) != EDGE)
        printf("%-12s kind %X\n", i == 0 ? "no header" : "no link", kind_of(w));
    else
        printf("%-12s from node %u by label %u to node %u%s\n", "link", end_of(place->whole, upto(place->walk, i)), label_of(w), node_of(w),
               has_node(&place->stopped, node_of(w)) ? ", stopped" : "");
}

static void print_mark(struct verdict v, size_t i)
{
    if (v.number == NO_WALK && v.at == i)
        printf("       ^^^^^^^^  no\n");
    else if (v.number != 0 && v.at == i)
        printf("       ^^^^^^^^  %u %s\n", v.number, number_name(v.number));
}

static void collect_stopped(struct nodes *set, struct span part)
{
    for (size_t i = 1; i < words_of(part); i++)
        if (kind_of(word_at(part, i)) == NODE && stopped_bit(word_at(part, i)))
            add_node(set, node_of(word_at(part, i)));
}

static void print_lines(struct span s, struct verdict v, line_printer *print_line, struct place *place)
{
    size_t shown = words_of(s) < MOWQACHI_TRIPLE_WORDS ? words_of(s) : MOWQACHI_TRIPLE_WORDS;
    for (size_t i = 0; i < shown; i++) {
        print_line(word_at(s, i), i, place);
        print_mark(v, i);
    }
    if (shown < words_of(s))
        printf("       and %zu words more\n", words_of(s) - shown);
    for (size_t i = 4 * words_of(s); i < s.len; i++)
        printf("%5zu  %02x        byte\n", i, s.bytes[i]);
    if (v.at >= shown)
        print_mark(v, v.at);
}

void print_words(struct span s, struct verdict v, const struct beside *beside)
{
    struct place place = {.groups = beside->groups, .calls = beside->calls, .reached = beside->reached};
    collect(&place.own, s, NODE);
    collect_stopped(&place.stopped, beside->part);
    print_lines(s, v, print_word, &place);
}

void print_groups(struct span s, struct verdict v)
{
    print_lines(s, v, print_group, NULL);
}

void print_triples(struct span s, struct verdict v)
{
    print_lines(s, v, print_field, &(struct place){.triples = s});
}

void print_walk(struct span whole, struct span walk, struct verdict v)
{
    struct place place = {.whole = whole, .walk = walk};
    collect_stopped(&place.stopped, whole);
    print_lines(walk, v, print_link, &place);
}

void print_verdict(struct verdict v, const char *unit, size_t count)
{
    if (v.number == 0)
        printf("accepted\n");
    else if (v.at < count)
        printf("refused %u %s at %s %zu: %s\n", v.number, number_name(v.number), unit, v.at, v.why);
    else
        printf("refused %u %s at the end: %s\n", v.number, number_name(v.number), v.why);
}

void print_stretch(const char *name, size_t number, struct span bundle, struct span file)
{
    size_t words = words_of(file);
    printf("%s %zu: %zu word%s from word %zu on\n", name, number, words, words == 1 ? "" : "s", (size_t)(file.bytes - bundle.bytes) / 4);
}

void print_numbers(const char *name, uint64_t numbers, size_t count)
{
    printf("numbers of the %ss:", name);
    for (unsigned k = 0; k < count; k++)
        printf("%s %u", k == 0 ? "" : ",", (unsigned)mowqachi_desk_number(numbers, k));
    printf("\n");
}

static void print_label_set(uint32_t w)
{
    const char *but = sort_of(w) == OUTSIDE ? "outside " : "";
    if (sort_of(w) == GROUP)
        printf("group %u", group_of(w));
    else if (holds_none(w))
        printf("no label");
    else if (low_of(w) == high_of(w))
        printf("%s%u", but, low_of(w));
    else
        printf("%s%u to %u", but, low_of(w), high_of(w));
}

static void print_operand(struct span path, size_t i, bool bare);

/* The two sides of an operator. A left side of the same operator needs no parentheses. */
static void print_two(struct span path, size_t i, const char *name)
{
    size_t left = i - 1 - operand_words(path, i - 1);
    print_operand(path, left, word_at(path, left) == word_at(path, i));
    printf(" %s ", name);
    print_operand(path, i - 1, false);
}

/* The operand that ends at word i, in parentheses unless bare. */
static void print_operand(struct span path, size_t i, bool bare)
{
    uint32_t w = word_at(path, i);
    bool two = operands_of(w) == 2;
    printf("%s", two && !bare ? "(" : "");
    if (kind_of(w) == LABEL) {
        print_label_set(w);
    } else if (two) {
        print_two(path, i, operator_of(w) == 1 ? "then" : "or");
    } else if (operator_of(w) == 3) {
        print_operand(path, i - 1, false);
        printf("*");
    } else {
        printf("empty word");
    }
    printf("%s", two && !bare ? ")" : "");
}

void print_expression(struct span path)
{
    printf("expression: ");
    print_operand(path, words_of(path) - 1, true);
    printf("\n");
}

void print_counts(struct span part)
{
    struct tally tally = tally_of(part);
    printf("nodes %zu, doors %zu, stopped %zu, edges %zu, outside targets %zu\n",
           tally.nodes, tally.doors, tally.stopped, tally.edges, tally.outside);
}

void print_longest(struct span part, struct span path)
{
    struct tally tally = tally_of(part);
    unsigned n = n_of(word_at(path, 0));
    size_t words = longest_reply(&tally, n);
    printf("doors %zu, outside targets %zu, labels %u: a first reply has at most %zu word%s",
           tally.doors, tally.outside, n, words, words == 1 ? "" : "s");
    if (words > MOWQACHI_REPLY_WORDS)
        printf(", over %d", MOWQACHI_REPLY_WORDS);
    printf("\n");
}

/* The nodes of a set: how many, what it means for them, and which, numbers in a row by their ends. */
static void print_nodes(const char *name, const char *meaning, const struct nodes *set)
{
    const char *mark = ":";
    size_t count = count_nodes(set);
    printf("%s %zu%s", name, count, count > 0 ? meaning : "");
    for (unsigned x = 0; x < MOWQACHI_NODES; x++) {
        bool low = x == 0 || !has_node(set, x - 1), high = x == MOWQACHI_NODES - 1 || !has_node(set, x + 1);
        if (has_node(set, x) && low) {
            printf("%s %u", mark, x);
            mark = ",";
        } else if (has_node(set, x) && high) {
            printf(" to %u", x);
        }
    }
    printf("\n");
}

void print_reached(struct span part, const struct nodes *reached)
{
    struct nodes others;
    collect(&others, part, NODE);
    for (size_t k = 0; k < sizeof others.bits; k++)
        others.bits[k] &= (uint8_t)~reached->bits[k];
    print_nodes("reached from the doors", ", replies may tell of them", reached);
    print_nodes("not reached", ", no reply tells of them unless a call list names one", &others);
}

/* The node whose word i of a part is, or whose edge. */
static unsigned owner_at(struct span part, size_t i)
{
    while (kind_of(word_at(part, i)) != NODE)
        i--;
    return node_of(word_at(part, i));
}

/* Word i of one of two parts, or what is said where it is missing. */
static void print_at(const char *name, struct span part, size_t i, const struct nodes *reached, const char *missing)
{
    struct place place = {.reached = reached};
    collect(&place.own, part, NODE);
    printf("%-8s", name);
    if (missing == NULL)
        print_word(word_at(part, i), i, &place);
    else
        printf("%s\n", missing);
}

static void print_side(const char *name, const struct side *side, const char *missing)
{
    print_at(name, side->part, side->at, &side->reached, side->stands ? NULL : missing);
}

/* The condition that is proved is enough for the same replies, and no more: parts that do not meet it may have them too. */
void print_apart(struct span first, struct span second)
{
    struct side sides[2];
    if (!find_difference(first, second, sides)) {
        printf("no reply tells them apart, unless a call list names a node that is not reached from the doors\n");
        return;
    }
    const struct side *with = &sides[sides[0].stands ? 0 : 1];
    bool node = kind_of(word_at(with->part, with->at)) == NODE;
    printf("replies may tell them apart by ");
    if (with->at == 0)
        printf("their sites\n");
    else
        printf("%s %u\n", node ? "node" : "the edges of node", owner_at(with->part, with->at));
    print_side("first", &sides[0], node ? "not reached" : "none");
    print_side("second", &sides[1], node ? "not reached" : "none");
}

static void print_same(uint32_t state, size_t nodes, const struct origin *o)
{
    printf("generated from state %" PRIu32 ": nodes %zu, edges per node %" PRIu32 ", state left %" PRIu32 " (0x%08" PRIx32 ")\n",
           state, nodes, o->edges, o->left, o->left);
}

static void print_other(uint32_t state, size_t nodes, const struct origin *o, struct span whole)
{
    static const char *const names[] = {"file", "drawn"};
    const struct span files[] = {whole, span_of(&o->written)};
    printf("not generated from state %" PRIu32 ": with nodes %zu, edges per node %" PRIu32 " it agrees furthest, and ", state, nodes, o->edges);
    if (o->at == 0)
        printf("differs in the header alone\n");
    else
        printf("behind the header differs first at word %zu\n", o->at);
    for (int k = 0; k < 2; k++)
        print_at(names[k], files[k], o->at, NULL, o->at < words_of(files[k]) ? NULL : "no word");
}

/* Where equal edges became one, several numbers of edges may give the same file; they leave different states. */
void print_generated(struct span whole, uint32_t state)
{
    struct origin furthest = {.edges = 0};
    size_t nodes = tally_of(whole).nodes;
    bool same = false;
    if (nodes > MOWQACHI_GENERATED_NODES) {
        printf("not generated: nodes %zu, over %d\n", nodes, MOWQACHI_GENERATED_NODES);
        return;
    }
    for (uint32_t edges = 1; edges <= MOWQACHI_GENERATED_EDGES; edges++) {
        struct origin o = origin_of(whole, state, (uint32_t)nodes, edges);
        same = same || o.same;
        if (o.same)
            print_same(state, nodes, &o);
        if (edges == 1 || o.agree > furthest.agree)
            furthest = o;
    }
    if (!same)
        print_other(state, nodes, &furthest, whole);
}

/* The words that call a pair, from the root's door word on. */
static void print_way(struct span bundle, struct place *place, size_t k)
{
    const struct called *pair = &place->calls->pairs[k];
    if (k > 0)
        print_way(bundle, place, pair->by);
    print_word(word_at(bundle, pair->at), pair->at, place);
}

/* The site of the file that word i stands in. */
static unsigned site_at(struct span bundle, size_t i)
{
    size_t head = 0;
    while (head + length_of(word_at(bundle, head)) <= i)
        head += length_of(word_at(bundle, head));
    return site_of(word_at(bundle, head));
}

/* How a pair that names no door is called. */
static void print_stray(struct span bundle, const struct calls *calls, size_t k)
{
    const struct called *stray = &calls->pairs[k], *by = &calls->pairs[stray->by];
    printf("the way from the root:\n");
    print_way(bundle, &(struct place){.calls = calls}, k);
    printf("site %u reports node %u of its door %u in state %u\n", site_at(bundle, stray->at), stray->node, by->node, by->state);
}

void print_strays(struct span bundle, const struct calls *calls)
{
    size_t strays = 0, stray = first_stray(calls);
    for (size_t i = 0; i < words_of(bundle); i++)
        strays += is_stray(word_at(bundle, i), calls);
    if (stray < calls->count)
        print_stray(bundle, calls, stray);
    else if (strays > 0)
        printf("reach words to no door %zu, in rows that nobody follows\n", strays);
}

/* A whole has at least two words, the header and the root. */
void print_edition(struct span triples)
{
    struct edition edition = edition_of(triples);
    size_t words = whole_words(&edition);
    printf("nodes %zu, triples %zu, repeats %zu: a whole of %zu words", edition.nodes, edition.triples, edition.repeats, words);
    if (words > MOWQACHI_PART_WORDS)
        printf(", over %d", MOWQACHI_PART_WORDS);
    printf("\n");
}

void print_said(struct span whole)
{
    struct tally tally = tally_of(whole);
    unsigned site = site_of(word_at(whole, 0));
    size_t words = 1 + 3 * tally.edges;
    printf("triples %zu: a triple file of %zu word%s\n", tally.edges, words, words == 1 ? "" : "s");
    if (site != 0 || tally.doors > 1)
        printf("not said: site %u, doors other than the root %zu\n", site, tally.doors - 1);
}

void print_ends(struct span whole, struct span walk)
{
    size_t links = words_of(walk) - 1;
    printf("a walk of %zu link%s from node %u, the root, to node %u\n", links, links == 1 ? "" : "s",
           end_of(whole, upto(walk, 1)), end_of(whole, walk));
}

void print_answer(struct span whole, struct span walk, struct verdict v, bool spelled)
{
    if (v.number == 0 && spelled)
        printf("yes for node %u: the path accepts its labels\n", end_of(whole, walk));
    else if (v.number == 0)
        printf("no for any node: the path does not accept its labels\n");
    else if (v.at < words_of(walk))
        printf("no for any node, at word %zu: %s\n", v.at, v.why);
    else
        printf("no for any node, at the end: %s\n", v.why);
}

static void print_outside(struct span part)
{
    struct nodes done;
    collect(&done, part, NODE);
    for (size_t i = 1; i < words_of(part); i++) {
        unsigned target = node_of(word_at(part, i));
        if (kind_of(word_at(part, i)) == EDGE && !has_node(&done, target)) {
            printf("    %u [style=dashed];\n", target);
            add_node(&done, target);
        }
    }
}

/* A node's shape tells what it is; a stopped one is filled, as dashes stand for outside. */
static void print_shape(uint32_t node)
{
    printf("    %u [shape=%s%s];\n", node_of(node), root_bit(node) ? "doubleoctagon" : door_bit(node) ? "box" : "ellipse",
           stopped_bit(node) ? ", style=filled, fillcolor=gray" : "");
}

void print_picture(struct span part)
{
    unsigned owner = 0;
    printf("digraph part {\n    rankdir=LR;\n    label=\"site %u\";\n", site_of(word_at(part, 0)));
    for (size_t i = 1; i < words_of(part); i++) {
        uint32_t w = word_at(part, i);
        if (kind_of(w) == NODE) {
            owner = node_of(w);
            print_shape(w);
        } else {
            printf("    %u -> %u [label=\"%u\"];\n", owner, node_of(w), label_of(w));
        }
    }
    print_outside(part);
    printf("}\n");
}
