#include "words.h"

#include <errno.h>
#include <stdlib.h>
#include <string.h>

#include "mowqachi.h"

bool read_wide(const char *text, uint64_t *number)
{
    bool hex = strncmp(text, "0x", 2) == 0;
    const char *digits = text + (hex ? 2 : 0);
    size_t count = strspn(digits, hex ? "0123456789abcdefABCDEF" : "0123456789");
    errno = 0;
    *number = strtoull(digits, NULL, hex ? 16 : 10);
    return count > 0 && digits[count] == '\0' && errno == 0;
}

bool read_number(const char *text, uint32_t *number)
{
    uint64_t wide;
    bool read = read_wide(text, &wide);
    *number = (uint32_t)wide;
    return read && wide <= UINT32_MAX;
}

size_t words_of(struct span s)
{
    return s.len / 4;
}

uint32_t word_at(struct span s, size_t i)
{
    const uint8_t *b = s.bytes + 4 * i;
    return b[0] | (uint32_t)b[1] << 8 | (uint32_t)b[2] << 16 | (uint32_t)b[3] << 24;
}

uint32_t bits(uint32_t w, unsigned high, unsigned low)
{
    return w >> low & (0xffffffffu >> (31 - (high - low)));
}

struct span from(struct span s, size_t i)
{
    return (struct span){s.bytes + 4 * i, s.len - 4 * i};
}

struct span upto(struct span s, size_t count)
{
    return (struct span){s.bytes, 4 * count};
}

struct span front_of(struct span s)
{
    size_t length = words_of(s) > 0 ? length_of(word_at(s, 0)) : 0;
    return length > 0 && length < words_of(s) ? upto(s, length) : s;
}

struct span behind(struct span s, struct span front)
{
    return (struct span){s.bytes + front.len, s.len - front.len};
}

struct span file_in(struct span s, size_t index)
{
    for (; index > 0 && s.len > 0; index--)
        s = behind(s, front_of(s));
    return front_of(s);
}

unsigned kind_of(uint32_t w) { return bits(w, 31, 28); }
unsigned site_of(uint32_t header) { return bits(header, 27, 24); }
unsigned n_of(uint32_t header) { return bits(header, 23, 20); }
size_t length_of(uint32_t header) { return bits(header, 13, 0); }
unsigned node_of(uint32_t w) { return bits(w, 15, 0); }
bool door_bit(uint32_t node) { return bits(node, 16, 16); }
bool root_bit(uint32_t node) { return bits(node, 17, 17); }
bool stopped_bit(uint32_t node) { return bits(node, 18, 18); }
bool door_root(uint32_t door) { return bits(door, 16, 16); }
unsigned label_of(uint32_t edge) { return bits(edge, 27, 16); }
unsigned sort_of(uint32_t label) { return bits(label, 27, 24); }
unsigned low_of(uint32_t label) { return bits(label, 11, 0); }
unsigned high_of(uint32_t label) { return bits(label, 23, 12); }
unsigned group_of(uint32_t group) { return bits(group, 2, 0); }
unsigned operator_of(uint32_t w) { return bits(w, 1, 0); }
unsigned pair_node(uint32_t w) { return bits(w, 19, 4); }
unsigned state_of(uint32_t w) { return bits(w, 3, 0); }

unsigned operands_of(uint32_t expression)
{
    static const unsigned taken[] = {0, 2, 2, 1};
    return kind_of(expression) == OPERATOR ? taken[operator_of(expression)] : 0;
}

size_t operand_words(struct span path, size_t i)
{
    size_t taken = 1;
    for (unsigned k = operands_of(word_at(path, i)); k > 0; k--)
        taken += operand_words(path, i - taken);
    return taken;
}

bool holds_none(uint32_t label)
{
    return sort_of(label) == OUTSIDE && low_of(label) == 0 && high_of(label) == MOWQACHI_LABELS - 1;
}

uint32_t loaded(uint32_t w, struct span groups)
{
    return bits(w, 31, 3) == 0x51000000 >> 3 ? word_at(groups, group_of(w)) : w;
}

bool holds(uint32_t letter, unsigned label)
{
    bool inside = low_of(letter) <= label && label <= high_of(letter);
    return inside != (sort_of(letter) == OUTSIDE);
}

void add_node(struct nodes *set, unsigned x)
{
    set->bits[x / 8] |= (uint8_t)(1u << x % 8);
}

bool has_node(const struct nodes *set, unsigned x)
{
    return set->bits[x / 8] >> x % 8 & 1;
}

size_t count_nodes(const struct nodes *set)
{
    size_t count = 0;
    for (unsigned x = 0; x < MOWQACHI_NODES; x++)
        count += has_node(set, x);
    return count;
}

void collect(struct nodes *set, struct span s, unsigned kind)
{
    memset(set, 0, sizeof *set);
    for (size_t i = 0; i < words_of(s); i++)
        if (kind_of(word_at(s, i)) == kind)
            add_node(set, node_of(word_at(s, i)));
}

/* The first node word, if any, of which these bits are so. */
static size_t find_node(struct span part, uint32_t mask, uint32_t wanted)
{
    for (size_t i = 1; i < words_of(part); i++)
        if (kind_of(word_at(part, i)) == NODE && (word_at(part, i) & mask) == wanted)
            return i;
    return 0;
}

size_t root_at(struct span part)
{
    return find_node(part, 0x20000, 0x20000);
}

size_t node_at(struct span part, unsigned x)
{
    return find_node(part, 0xffff, x);
}

struct span edges_at(struct span part, size_t place)
{
    struct span rest = from(part, place + 1);
    size_t count = 0;
    while (count < words_of(rest) && kind_of(word_at(rest, count)) == EDGE)
        count++;
    return upto(rest, count);
}

unsigned end_of(struct span whole, struct span walk)
{
    return node_of(words_of(walk) > 1 ? word_at(walk, words_of(walk) - 1) : word_at(whole, root_at(whole)));
}

struct tally tally_of(struct span part)
{
    struct tally tally = {0};
    struct nodes met;
    collect(&met, part, NODE);
    for (size_t i = 1; i < words_of(part); i++) {
        uint32_t w = word_at(part, i);
        bool node = kind_of(w) == NODE;
        tally.nodes += node;
        tally.doors += node && door_bit(w);
        tally.stopped += node && stopped_bit(w);
        tally.edges += !node;
        tally.outside += !node && !has_node(&met, node_of(w));
        add_node(&met, node_of(w));
    }
    return tally;
}

/* A door has its word and, in each of n + 1 states, a row of all targets in the states 1 to n. There is no row without reach words. */
size_t longest_reply(const struct tally *part, unsigned n)
{
    size_t pairs = part->outside * n;
    return 1 + part->doors * (1 + (pairs == 0 ? 0 : (n + 1) * (1 + pairs)));
}

size_t triples_of(struct span file)
{
    return words_of(file) < 1 ? 0 : (words_of(file) - 1) / 3;
}

struct span triple_at(struct span file, size_t index)
{
    return upto(from(file, 1 + 3 * index), 3);
}

size_t first_equal(struct span file, size_t index)
{
    struct span triple = triple_at(file, index);
    size_t first = 0;
    while (memcmp(triple_at(file, first).bytes, triple.bytes, triple.len) != 0)
        first++;
    return first;
}

/* Every word but a label is a node. */
struct edition edition_of(struct span file)
{
    struct edition edition = {.triples = triples_of(file)};
    struct nodes met = {{0}};
    for (size_t k = 0; k < edition.triples; k++)
        edition.repeats += first_equal(file, k) < k;
    for (size_t i = 0; i < words_of(file); i++)
        if (i % 3 != 2) {
            edition.nodes += !has_node(&met, word_at(file, i));
            add_node(&met, word_at(file, i));
        }
    return edition;
}

size_t whole_words(const struct edition *triples)
{
    return 1 + triples->nodes + triples->triples - triples->repeats;
}
