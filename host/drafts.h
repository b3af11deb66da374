/* Files that a program writes word by word, and numbers drawn for tests. */
#ifndef DRAFTS_H
#define DRAFTS_H

#include "mowqachi.h"
#include "words.h"

/* There is room for the longest file, a triple file, and for some words more than it may have. */
struct draft {
    size_t len;
    uint8_t bytes[4 * (MOWQACHI_TRIPLE_WORDS + 8)];
};

/* The same numbers in every run. */
uint32_t draw(uint32_t below);
/* So many numbers from 0 on, in any order. */
void draw_order(uint32_t *order, uint32_t count);
/* A length of a buffer of which at least so many bytes are asked: often just so many, more, one less or far less. */
size_t draw_length(size_t least);

void put(struct draft *d, uint32_t w);
void put_bytes(struct draft *d, struct span s);
/* Ends the file that begins at byte `from`, where room was left for its header. */
void end_file(struct draft *d, size_t from, uint32_t header);
/* A whole of so many nodes in a ring, each with a link of label 0 to the next one, and node 0 the root; and a path of one 0 after another, so many,
   and then any number of turns of so many more. It accepts just the words of ahead + k * turn labels, so that some nodes are far round the ring. */
void fill_ring(struct draft *whole, uint32_t nodes);
void fill_turns(struct draft *path, uint32_t ahead, uint32_t turn);
struct span span_of(const struct draft *d);
bool equal(const struct draft *a, const struct draft *b);

#endif
