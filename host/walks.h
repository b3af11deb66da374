/* Why links of the plant are not walked, and which walks to its nodes come first, by another reading of the path than the library's, for tests. */
#ifndef WALKS_H
#define WALKS_H

#include "plants.h"

/* A walk from the root on which the path's states can step takes the link; or it would, if no node were stopped; or none comes to where the link
   begins; or no letter of the path holds its label; or none does that may come next there. */
enum reason { WALKED, STOPPED_AHEAD, NOT_COME_TO, NO_LETTER, NO_STATE, REASONS };

/* The reasons of the plant's links to these nodes, as bits. */
unsigned reasons_of_links(const struct nodes *targets);

/* Finds for each node of the plant, of the walks from the root that the path accepts with these groups, the one with the fewest links, and of those
   with as many the lowest. */
void find_walks(struct span groups);
/* Writes the file of the one to this node; false where there is none. */
bool found_walk(uint32_t node, struct draft *walk);

#endif
