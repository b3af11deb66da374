/* Document 02's generator of plants (request 2), without the library: what mowqachi_generate is held to, and what the inspector compares with. */
#ifndef GENERATOR_H
#define GENERATOR_H

#include "drafts.h"

/* Writes the whole of so many nodes, 1 to 256, and edges per node, 1 to 4, that is drawn from a state, and moves this on. */
void write_generated(struct draft *file, uint32_t *state, uint32_t nodes, uint32_t edges);

/* A file beside the one that is drawn with so many edges per node. */
struct origin {
    uint32_t edges;
    uint32_t left;          /* the state after the last draw */
    struct draft written;
    size_t agree;           /* how many words behind the header are the same, up to the first that is not */
    bool same;
    size_t at;              /* where they are not the same: the first such word, which one of the two may lack; 0 where only the headers differ */
};

struct origin origin_of(struct span file, uint32_t state, uint32_t nodes, uint32_t edges);

#endif
