/* A path's position automaton, for tests: another reading of the path than the library's. */
#ifndef AUTOMATON_H
#define AUTOMATON_H

#include "mowqachi.h"
#include "words.h"

/* Of each state those that may come next, as bits, and its label word, never a group; and the states that accept. */
struct automaton {
    unsigned n, accepting;
    uint16_t next[MOWQACHI_STATES];
    uint32_t letters[MOWQACHI_STATES];
};

/* Of an accepted path, with these eight groups. */
struct automaton automaton_of(struct span path, struct span groups);
/* The states whose letters hold a label. */
unsigned holding(const struct automaton *a, unsigned label);
/* The states to which some of these step on a label. */
unsigned stepped(const struct automaton *a, unsigned states, unsigned label);

#endif
