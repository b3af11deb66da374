/* What of a part replies may tell (document 02, request 12): its nodes that are reached from the doors, and where two parts differ in these. */
#ifndef REACHED_H
#define REACHED_H

#include "words.h"

/* The nodes of an accepted part that are reached from its doors, by any labels and through stopped nodes too. */
void find_reached(struct nodes *reached, struct span part);

/* One of two parts, where they differ. */
struct side {
    struct span part;
    struct nodes reached;
    size_t at;      /* the word: the header, or one of a reached node; the number of words, where there is none left */
    bool stands;    /* whether it is what differs: false where the other part alone has such a word */
};

/* Finds the first difference of two accepted parts: in their sites, or in the words of reached nodes. False where there is none. */
bool find_difference(struct span first, struct span second, struct side sides[2]);

#endif
