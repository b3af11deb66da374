#include "checks.h"

#include <string.h>

/* What the words so far say of the next one. */
struct seen {
    uint32_t last;      /* the word before it, 0 behind the header */
    unsigned n;         /* of the file's header */
    unsigned low;       /* the least number of a next node or door; 0: there was none yet */
    unsigned row;       /* the least state of a next row of this door */
    unsigned waiting;   /* operands */
    unsigned labels;    /* label words */
    bool rooted;
};

typedef struct verdict word_check(const struct seen *seen, uint32_t w);

/* A constant of mowqachi.h as text. */
#define TEXT_OF(constant) AS_WRITTEN(constant)
#define AS_WRITTEN(value) #value

static const struct verdict fine = {0, 0, "accepted"};

static struct verdict fault(unsigned number, const char *why)
{
    return (struct verdict){number, 0, why};
}

static struct verdict at(struct verdict v, size_t i)
{
    v.at = i;
    return v;
}

static struct verdict check_node(const struct seen *seen, uint32_t w)
{
    if (bits(w, 27, 19) != 0)
        return fault(5, "a bit of 27..19 is set in a node word");
    if (node_of(w) < seen->low)
        return fault(6, "the node is not above the one before");
    if (root_bit(w) && !door_bit(w))
        return fault(7, "a root that is no door");
    if (root_bit(w) && seen->rooted)
        return fault(7, "a second root");
    return fine;
}

static struct verdict check_edge(const struct seen *seen, uint32_t w)
{
    if (seen->low == 0)
        return fault(5, "an edge word ahead of any node word");
    if (w <= seen->last)
        return fault(6, "the edge is not above the one before");
    return fine;
}

static struct verdict check_part_word(const struct seen *seen, uint32_t w)
{
    if (kind_of(w) == NODE)
        return check_node(seen, w);
    if (kind_of(w) == EDGE)
        return check_edge(seen, w);
    return fault(5, "neither a node nor an edge word");
}

static struct verdict check_label(uint32_t w)
{
    switch (sort_of(w)) {
    case RANGE: return low_of(w) <= high_of(w) ? fine : fault(5, "the range's low end is above its high end");
    case GROUP: return bits(w, 23, 3) == 0 ? fine : fault(5, "a bit of 23..3 is set in a group word");
    case OUTSIDE: return low_of(w) <= high_of(w) ? fine : fault(5, "the low end of the range left out is above its high end");
    default: return fault(5, "no such sort of label word");
    }
}

static struct verdict check_expression(uint32_t w)
{
    if (kind_of(w) == LABEL)
        return check_label(w);
    if (kind_of(w) == OPERATOR)
        return bits(w, 27, 2) == 0 ? fine : fault(5, "a bit of 27..2 is set in an operator word");
    return fault(5, "neither a label nor an operator word");
}

static struct verdict check_path_word(const struct seen *seen, uint32_t w)
{
    struct verdict v = check_expression(w);
    if (v.number != 0)
        return v;
    if (seen->waiting < operands_of(w))
        return fault(9, "an operand is missing");
    if (seen->waiting - operands_of(w) + 1 > MOWQACHI_WAITING)
        return fault(9, "more than " TEXT_OF(MOWQACHI_WAITING) " operands wait");
    return fine;
}

static struct verdict check_door(const struct seen *seen, uint32_t w)
{
    if (bits(w, 27, 17) != 0)
        return fault(5, "a bit of 27..17 is set in a door word");
    if (kind_of(seen->last) == ROW)
        return fault(5, "the row before it has no reach words");
    if (node_of(w) < seen->low)
        return fault(6, "the door is not above the one before");
    if (door_root(w) && seen->rooted)
        return fault(7, "a second root");
    return fine;
}

static struct verdict check_row(const struct seen *seen, uint32_t w)
{
    if (bits(w, 27, 4) != 0)
        return fault(5, "a bit of 27..4 is set in a row word");
    if (seen->low == 0)
        return fault(5, "a row word ahead of any door word");
    if (kind_of(seen->last) == ROW)
        return fault(5, "the row before it has no reach words");
    if (state_of(w) > seen->n)
        return fault(10, "the row's state is above n");
    if (state_of(w) < seen->row)
        return fault(6, "the row is not above the one before");
    return fine;
}

static struct verdict check_reach(const struct seen *seen, uint32_t w)
{
    if (bits(w, 27, 20) != 0)
        return fault(5, "a bit of 27..20 is set in a reach word");
    if (kind_of(seen->last) != ROW && kind_of(seen->last) != REACH)
        return fault(5, "a reach word outside any row");
    if (state_of(w) > seen->n)
        return fault(10, "the reached state is above n");
    if (w <= seen->last)
        return fault(6, "the reach word is not above the one before");
    return fine;
}

static struct verdict check_first_word(const struct seen *seen, uint32_t w)
{
    if (kind_of(w) == DOOR)
        return check_door(seen, w);
    if (kind_of(w) == ROW)
        return check_row(seen, w);
    if (kind_of(w) == REACH)
        return check_reach(seen, w);
    return fault(5, "neither a door nor a row nor a reach word");
}

static struct verdict check_call_word(const struct seen *seen, uint32_t w)
{
    if (kind_of(w) != CALL)
        return fault(5, "no call word");
    if (bits(w, 27, 20) != 0)
        return fault(5, "a bit of 27..20 is set in a call word");
    if (state_of(w) > seen->n)
        return fault(10, "the called state is above n");
    if (w <= seen->last)
        return fault(6, "the call is not above the one before");
    return fine;
}

static struct verdict check_answer_word(const struct seen *seen, uint32_t w)
{
    if (kind_of(w) != ANSWER)
        return fault(5, "no answer word");
    if (bits(w, 27, 16) != 0)
        return fault(5, "a bit of 27..16 is set in an answer word");
    if (w <= seen->last)
        return fault(6, "the answer is not above the one before");
    return fine;
}

/* The kinds of file: which header fields are used, how many words there may be, and the check of a word behind the header. */
static const struct layout {
    const char *name;
    bool site, n;
    size_t limit;
    word_check *word;
} layouts[16] = {
    [PART] = {"part", true, false, MOWQACHI_PART_WORDS, check_part_word},
    [PATH] = {"path", false, true, MOWQACHI_PATH_WORDS, check_path_word},
    [FIRST] = {"first reply", true, true, MOWQACHI_REPLY_WORDS, check_first_word},
    [CALLS] = {"call list", false, true, MOWQACHI_CALLS_WORDS, check_call_word},
    [SECOND] = {"second reply", true, true, MOWQACHI_REPLY_WORDS, check_answer_word},
    [LIST] = {"final list", false, false, MOWQACHI_LIST_WORDS, check_answer_word},
};

const char *file_name(unsigned kind)
{
    return layouts[kind].name;
}

const char *number_name(unsigned number)
{
    static const char *const names[] = {
        "ACCEPTED", "BUFFER", "SIZE", "HEADER", "LENGTH", "WORD", "ORDER", "ROOT",
        "TARGET", "OPERAND", "STATE", "CUT", "BUNDLE", "TWICE", "DOOR", "RESULT", "GROUPS", "PATHS", "TRIPLES", "UNSAID", "UNLISTED", "COUNTS"};
    return names[number];
}

static struct seen after(struct seen seen, uint32_t w)
{
    unsigned kind = kind_of(w);
    if (kind == NODE || kind == DOOR) {
        seen.low = node_of(w) + 1;
        seen.row = 0;
        seen.rooted |= kind == NODE ? root_bit(w) : door_root(w);
    }
    if (kind == ROW)
        seen.row = state_of(w) + 1;
    if (kind == LABEL || kind == OPERATOR)
        seen.waiting = seen.waiting - operands_of(w) + 1;
    if (kind == LABEL)
        seen.labels++;
    seen.last = w;
    return seen;
}

static struct verdict check_end(const struct seen *seen, unsigned kind)
{
    if (kind == FIRST && kind_of(seen->last) == ROW)
        return fault(5, "the last row has no reach words");
    if (kind == PATH && seen->waiting != 1)
        return fault(9, seen->waiting == 0 ? "no operand is left" : "more than one operand is left");
    if (kind == PATH && seen->labels != seen->n)
        return fault(9, "the number of label words is not n");
    return fine;
}

/* Behind the header. */
static struct verdict check_words(struct span s, unsigned kind)
{
    struct seen seen = {.n = n_of(word_at(s, 0))};
    for (size_t i = 1; i < words_of(s); i++) {
        uint32_t w = word_at(s, i);
        struct verdict v = layouts[kind].word(&seen, w);
        if (v.number != 0)
            return at(v, i);
        seen = after(seen, w);
    }
    return at(check_end(&seen, kind), words_of(s));
}

static struct verdict check_size(struct span s, size_t limit)
{
    if (s.len % 4 != 0)
        return at(fault(2, "the bytes are not in fours"), words_of(s));
    if (s.len == 0)
        return fault(2, "there are no words");
    if (words_of(s) > limit)
        return at(fault(2, "there are more words than a file of its kind holds"), limit);
    return fine;
}

static struct verdict check_header(uint32_t header, unsigned kind)
{
    if (kind_of(header) != kind)
        return fault(3, "a header of another kind");
    if (bits(header, 19, 14) != 0)
        return fault(3, "a bit of 19..14 is set in the header");
    if (!layouts[kind].site && site_of(header) != 0)
        return fault(3, "a site in the header, where this kind has none");
    if (!layouts[kind].n && n_of(header) != 0)
        return fault(3, "n in the header, where this kind has none");
    return fine;
}

struct verdict check_file(struct span s, unsigned kind)
{
    struct verdict v = check_size(s, layouts[kind].limit);
    if (v.number != 0)
        return v;
    v = check_header(word_at(s, 0), kind);
    if (v.number != 0)
        return v;
    if (length_of(word_at(s, 0)) != words_of(s))
        return fault(4, "the header's length is not the number of words");
    return check_words(s, kind);
}

struct verdict check_whole(struct span s)
{
    struct nodes own;
    struct verdict v = check_file(s, PART);
    if (v.number != 0)
        return v;
    if (root_at(s) == 0)
        return at(fault(7, "a whole without root"), words_of(s));
    collect(&own, s, NODE);
    for (size_t i = 1; i < words_of(s); i++)
        if (kind_of(word_at(s, i)) == EDGE && !has_node(&own, node_of(word_at(s, i))))
            return at(fault(8, "the target is no node of the whole"), i);
    return fine;
}

struct verdict check_small_whole(struct span s)
{
    struct verdict v = check_size(s, MOWQACHI_WALK_WHOLE_WORDS);
    return v.number != 0 ? v : check_whole(s);
}

/* The length of the file at the front of a stretch. */
static struct verdict check_length(struct span s, size_t limit)
{
    size_t length = length_of(word_at(s, 0));
    if (length == 0)
        return fault(4, "the header's length is 0");
    if (length > limit)
        return fault(4, "the header's length is over the limit");
    if (length > words_of(s))
        return fault(4, "the header's length leads past the end");
    return fine;
}

struct verdict check_front(struct span s, unsigned kind)
{
    struct verdict v = check_header(word_at(s, 0), kind);
    if (v.number == 0)
        v = check_length(s, layouts[kind].limit);
    return v.number != 0 ? v : check_words(front_of(s), kind);
}

/* 12: a site twice, or a different n. */
static struct verdict check_headers(struct span s)
{
    unsigned sites = 0;
    for (size_t i = 0; i < words_of(s); i += length_of(word_at(s, i))) {
        uint32_t header = word_at(s, i);
        if (sites >> site_of(header) & 1)
            return at(fault(12, "the site has a file in the bundle already"), i);
        if (n_of(header) != n_of(word_at(s, 0)))
            return at(fault(12, "n is not that of the first file"), i);
        sites |= 1u << site_of(header);
    }
    return fine;
}

/* 7: not one root. */
static struct verdict check_roots(struct span s)
{
    bool rooted = false;
    for (size_t i = 0; i < words_of(s); i++) {
        uint32_t w = word_at(s, i);
        if (kind_of(w) != DOOR || !door_root(w))
            continue;
        if (rooted)
            return at(fault(7, "a second root in the bundle"), i);
        rooted = true;
    }
    return rooted ? fine : at(fault(7, "a first bundle without root"), words_of(s));
}

/* 13: a node in two words of a kind. */
static struct verdict check_twice(struct span s, unsigned kind)
{
    struct nodes met = {{0}};
    for (size_t i = 0; i < words_of(s); i++) {
        uint32_t w = word_at(s, i);
        if (kind_of(w) != kind)
            continue;
        if (has_node(&met, node_of(w)))
            return at(fault(13, "the node stands in an earlier file too"), i);
        add_node(&met, node_of(w));
    }
    return fine;
}

/* Puts a pair into the set, unless it is there. */
static void enter(struct calls *calls, struct called pair)
{
    uint16_t state = (uint16_t)(1u << pair.state);
    if ((calls->states[pair.node] & state) == 0)
        calls->pairs[calls->count++] = pair;
    calls->states[pair.node] |= state;
}

/* A pair's row, if its node is a door that has one: the reach words behind it put their pairs in. */
static void follow(struct span s, struct calls *calls, size_t place)
{
    struct called pair = calls->pairs[place];
    size_t door = calls->doors[pair.node];
    bool followed = false;
    for (size_t i = door + 1; door > 0 && i < words_of(s); i++) {
        uint32_t w = word_at(s, i);
        if (kind_of(w) != ROW && kind_of(w) != REACH)
            return;
        if (kind_of(w) == ROW)
            followed = state_of(w) == pair.state;
        else if (followed)
            enter(calls, (struct called){pair_node(w), state_of(w), i, place});
    }
}

void find_calls(struct span bundle, struct calls *calls)
{
    calls->count = 0;
    memset(calls->states, 0, sizeof calls->states);
    memset(calls->doors, 0, sizeof calls->doors);
    for (size_t i = 0; i < words_of(bundle); i++) {
        uint32_t w = word_at(bundle, i);
        if (kind_of(w) != DOOR)
            continue;
        calls->doors[node_of(w)] = (uint16_t)i;
        if (door_root(w))
            enter(calls, (struct called){node_of(w), 0, i, 0});
    }
    for (size_t place = 0; place < calls->count; place++)
        follow(bundle, calls, place);
}

bool is_stray(uint32_t w, const struct calls *calls)
{
    return kind_of(w) == REACH && calls->doors[pair_node(w)] == 0;
}

size_t first_stray(const struct calls *calls)
{
    size_t place = 0;
    while (place < calls->count && calls->doors[calls->pairs[place].node] != 0)
        place++;
    return place;
}

/* 14: a called node is no door. */
static struct verdict check_calls(struct span s)
{
    static struct calls calls;
    find_calls(s, &calls);
    size_t stray = first_stray(&calls);
    return stray == calls.count ? fine : at(fault(14, "a followed row reaches a node that is no door of the bundle"), calls.pairs[stray].at);
}

static struct verdict check_files(struct span s, unsigned kind)
{
    for (size_t i = 0; i < words_of(s); i += length_of(word_at(s, i))) {
        struct verdict v = check_front(from(s, i), kind);
        if (v.number != 0)
            return at(v, i + v.at);
    }
    return fine;
}

struct verdict check_bundle(struct span s, unsigned kind)
{
    struct verdict v = check_size(s, MOWQACHI_BUNDLE_WORDS);
    if (v.number == 0)
        v = check_files(s, kind);
    if (v.number == 0)
        v = check_headers(s);
    if (v.number == 0 && kind == FIRST)
        v = check_roots(s);
    if (v.number == 0)
        v = check_twice(s, kind == FIRST ? DOOR : ANSWER);
    if (v.number == 0 && kind == FIRST)
        v = check_calls(s);
    return v;
}

struct verdict check_cuts(struct span whole, struct span cuts, unsigned site)
{
    size_t nodes = 0;
    for (size_t i = 1; i < words_of(whole); i++)
        nodes += kind_of(word_at(whole, i)) == NODE;
    if (cuts.len != nodes)
        return at(fault(11, "the number of bytes is not that of the node words"), cuts.len < nodes ? cuts.len : nodes);
    for (size_t i = 0; i < cuts.len; i++)
        if (cuts.bytes[i] >= MOWQACHI_SITES)
            return at(fault(11, "the byte is above 15"), i);
    if (site >= MOWQACHI_SITES)
        return at(fault(11, "the site asked is above 15"), cuts.len);
    return fine;
}

static struct verdict check_group(uint32_t w)
{
    if (kind_of(w) != LABEL)
        return fault(16, "no label word");
    if (sort_of(w) != RANGE)
        return fault(16, "a label word that is no range");
    return check_label(w).number == 0 ? fine : fault(16, check_label(w).why);
}

struct verdict check_groups(struct span s)
{
    if (s.len < MOWQACHI_GROUPS_BYTES)
        return at(fault(16, "there are fewer than eight words"), words_of(s));
    if (s.len > MOWQACHI_GROUPS_BYTES)
        return at(fault(16, "there is more behind the eighth word"), MOWQACHI_GROUP_COUNT);
    for (size_t i = 0; i < words_of(s); i++)
        if (check_group(word_at(s, i)).number != 0)
            return at(check_group(word_at(s, i)), i);
    return fine;
}

struct verdict check_paths(struct span s, size_t most)
{
    struct verdict v = check_size(s, MOWQACHI_BUNDLE_WORDS);
    for (size_t i = 0, files = 0; v.number == 0 && i < words_of(s); i += length_of(word_at(s, i)), files++)
        v = at(files < most ? check_length(from(s, i), SIZE_MAX) : fault(17, "there are more paths than the call takes"), i);
    return v.number == 0 ? fine : at(fault(17, v.why), v.at);
}

struct verdict check_visit(struct span part, struct span groups, struct span paths, size_t most)
{
    struct verdict v = check_file(part, PART);
    if (v.number == 0)
        v = check_groups(groups);
    if (v.number == 0)
        v = check_paths(paths, most);
    return v;
}

static struct verdict check_field(uint32_t w, size_t i)
{
    static const char *const whys[] = {"the target is over 65535", "the source is over 65535", "the label is over 4095"};
    if (w < (i % 3 == 2 ? MOWQACHI_LABELS : MOWQACHI_NODES))
        return fine;
    return at(fault(18, i == 0 ? "the root is over 65535; a triple file has no header" : whys[i % 3]), i);
}

struct verdict check_triples(struct span s)
{
    struct verdict v = check_size(s, MOWQACHI_TRIPLE_WORDS);
    if (v.number == 0 && words_of(s) % 3 != 1)
        v = at(fault(18, "the words are not one more than a multiple of three"), 1 + 3 * triples_of(s));
    for (size_t i = 0; v.number == 0 && i < words_of(s); i++)
        v = check_field(word_at(s, i), i);
    if (v.number != 0)
        return v;
    struct edition edition = edition_of(s);
    return whole_words(&edition) <= MOWQACHI_PART_WORDS ? fine : at(fault(15, "the whole would be over 4096 words"), words_of(s));
}

/* 19: no triple says that the node at word i is there, or that it is stopped. */
static struct verdict check_unsaid(struct span whole, const struct nodes *targets, size_t i)
{
    uint32_t w = word_at(whole, i);
    bool has_edge = i + 1 < words_of(whole) && kind_of(word_at(whole, i + 1)) == EDGE;
    if (stopped_bit(w))
        return fault(19, "the node is stopped");
    if (!root_bit(w) && !has_edge && !has_node(targets, node_of(w)))
        return fault(19, "the node is not the root, and has no edge of its own and none to it");
    return fine;
}

struct verdict check_said(struct span s)
{
    struct nodes targets;
    struct verdict v = check_whole(s);
    if (v.number != 0)
        return v;
    collect(&targets, s, EDGE);
    for (size_t i = 1; v.number == 0 && i < words_of(s); i++)
        if (kind_of(word_at(s, i)) == NODE)
            v = at(check_unsaid(s, &targets, i), i);
    return v;
}

struct verdict check_question(struct span whole, struct span groups, struct span path)
{
    struct verdict v = check_small_whole(whole);
    if (v.number == 0)
        v = check_groups(groups);
    return v.number != 0 ? v : check_file(path, PATH);
}

static bool is_among(struct span words, uint32_t w)
{
    bool found = false;
    for (size_t i = 0; i < words_of(words); i++)
        found |= word_at(words, i) == w;
    return found;
}

/* The link w of a walk that stands at the node at this place. */
static struct verdict check_link(struct span whole, size_t place, uint32_t w)
{
    if (!is_among(edges_at(whole, place), w))
        return fault(NO_WALK, "it is no edge of the node where the walk stands");
    if (stopped_bit(word_at(whole, node_at(whole, node_of(w)))))
        return fault(NO_WALK, "it leads to a stopped node");
    return fine;
}

struct verdict check_walk(struct span whole, struct span walk)
{
    size_t place = root_at(whole);
    struct verdict v = check_size(walk, MOWQACHI_WALK_WORDS);
    if (v.number != 0)
        return at(fault(NO_WALK, v.why), v.at);
    if (word_at(walk, 0) != words_of(walk))
        return fault(NO_WALK, "the header is not just the number of words");
    if (stopped_bit(word_at(whole, place)))
        return fault(NO_WALK, "the root is stopped");
    for (size_t i = 1; i < words_of(walk); i++) {
        v = check_link(whole, place, word_at(walk, i));
        if (v.number != 0)
            return at(v, i);
        place = node_at(whole, node_of(word_at(walk, i)));
    }
    return fine;
}

struct verdict check_against(struct span part, struct span path, struct span calls)
{
    struct nodes closed = {{0}};
    if (n_of(word_at(calls, 0)) != n_of(word_at(path, 0)))
        return fault(12, "the call list's n is not the path's");
    for (size_t i = 1; i < words_of(part); i++)
        if (kind_of(word_at(part, i)) == NODE && !door_bit(word_at(part, i)))
            add_node(&closed, node_of(word_at(part, i)));
    for (size_t i = 1; i < words_of(calls); i++)
        if (has_node(&closed, pair_node(word_at(calls, i))))
            return at(fault(14, "the called node is a node of the part and no door"), i);
    return fine;
}
