/* What the labels of a walk spell, by the path's expression itself and without states, for the inspector and for tests. */
#ifndef SPELLED_H
#define SPELLED_H

#include "words.h"

/* Whether an accepted path, with these eight groups, has the word that the links of a walk's file spell. The file has at least its header. */
bool spells(struct span walk, struct span groups, struct span path);
/* Whether a file is a walk to this node that the path accepts, of an accepted whole: what the checker is due to say. */
bool leads_to(uint32_t node, struct span whole, struct span groups, struct span path, struct span walk);

#endif
