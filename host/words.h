/* The words and fields of document 01's files, with document 02's labels outside a range (request 1), its stopped bit (request 7), its triple
   files (request 8) and its walks (request 10). */
#ifndef WORDS_H
#define WORDS_H

#include <stdbool.h>
#include <stddef.h>
#include <stdint.h>

enum kind {
    PART = 0x1, NODE = 0x2, EDGE = 0x3, PATH = 0x4, LABEL = 0x5, OPERATOR = 0x6, FIRST = 0x7, DOOR = 0x8,
    ROW = 0x9, REACH = 0xa, CALLS = 0xb, CALL = 0xc, SECOND = 0xd, ANSWER = 0xe, LIST = 0xf
};

/* The sorts of label words. */
enum sort { RANGE = 0, GROUP = 1, OUTSIDE = 2 };

/* The operator words. */
enum { EMPTY_WORD = 0x60000000, THEN = 0x60000001, OR = 0x60000002, STAR = 0x60000003 };

/* A stretch of bytes. Its words are the whole fours of it. */
struct span {
    const uint8_t *bytes;
    size_t len;
};

/* One bit for each node. */
struct nodes {
    uint8_t bits[8192];
};

/* Whether the text is a number of 32 bits, or of 64: decimal digits, or hexadecimal ones behind 0x. */
bool read_number(const char *text, uint32_t *number);
bool read_wide(const char *text, uint64_t *number);
size_t words_of(struct span s);
uint32_t word_at(struct span s, size_t i);
uint32_t bits(uint32_t w, unsigned high, unsigned low);
/* From word i on, and the first count words. */
struct span from(struct span s, size_t i);
struct span upto(struct span s, size_t count);
/* Files one after another, each as long as its header says: the one at the front of a stretch, all of which goes with it where its length is 0 or
   leads past the end; what is behind it; and the file at an index, empty past the last one. */
struct span front_of(struct span s);
struct span behind(struct span s, struct span front);
struct span file_in(struct span s, size_t index);

unsigned kind_of(uint32_t w);
unsigned site_of(uint32_t header);
unsigned n_of(uint32_t header);
size_t length_of(uint32_t header);
unsigned node_of(uint32_t w);     /* of a node, door or answer word; an edge's target */
bool door_bit(uint32_t node);
bool root_bit(uint32_t node);
bool stopped_bit(uint32_t node);
bool door_root(uint32_t door);
unsigned label_of(uint32_t edge);
unsigned sort_of(uint32_t label);
unsigned low_of(uint32_t label);  /* of a range, or of the range that an outside word leaves out */
unsigned high_of(uint32_t label);
unsigned group_of(uint32_t group);
unsigned operator_of(uint32_t w);
unsigned operands_of(uint32_t expression);
size_t operand_words(struct span path, size_t i);   /* of an accepted path: those of the operand that ends at word i */
unsigned pair_node(uint32_t w);   /* of a reach or call word */
unsigned state_of(uint32_t w);    /* of a row, reach or call word */

/* An outside word that leaves out every label. */
bool holds_none(uint32_t label);
/* The word of its group among eight, for a group word; any other word as it stands. */
uint32_t loaded(uint32_t w, struct span groups);
/* Whether a range or an outside word holds a label. */
bool holds(uint32_t letter, unsigned label);

void add_node(struct nodes *set, unsigned x);
bool has_node(const struct nodes *set, unsigned x);
size_t count_nodes(const struct nodes *set);
/* The nodes of the words of one kind. */
void collect(struct nodes *set, struct span s, unsigned kind);

/* Where a part's root stands, or one of its nodes; 0, as at the header, where there is none. */
size_t root_at(struct span part);
size_t node_at(struct span part, unsigned x);
/* The edge words of the node that stands there. */
struct span edges_at(struct span part, size_t place);
/* Where a walk of a whole from its root ends: the target of its last link, or the root where it has none. */
unsigned end_of(struct span whole, struct span walk);

/* How many an accepted part has: doors with those that are stopped, and each outside target once. */
struct tally {
    size_t nodes, doors, stopped, edges, outside;
};
struct tally tally_of(struct span part);
/* The words of a first reply, at most: of any part with so many doors and outside targets, and any path of n labels. */
size_t longest_reply(const struct tally *part, unsigned n);

/* A triple file has its root ahead of its triples, which are counted from 0. How many of these are whole; the words of one; and the first that is
   equal to it, itself where no earlier one is. */
size_t triples_of(struct span file);
struct span triple_at(struct span file, size_t index);
size_t first_equal(struct span file, size_t index);
/* How many a triple file has whose words are in their fields: triples, those of them that an earlier one is equal to, and nodes. */
struct edition {
    size_t triples, repeats, nodes;
};
struct edition edition_of(struct span file);
/* The words of its whole. */
size_t whole_words(const struct edition *triples);

#endif
