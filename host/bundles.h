/* Bundles of paths, for tests of the calls that take one: every way to 17 on both sides of its line, the order of checks, and random ones. What is
   due of a bundle the test of a call says itself. */
#ifndef BUNDLES_H
#define BUNDLES_H

#include "plants.h"

/* A call that takes a bundle, without groups, and a check of it, or of the one with groups, in buffers of these lengths. The check stops where
   anything is not as due; the result. */
struct tested {
    enum call call;
    uint64_t (*check)(const struct asked *visit, struct room room);
};

/* The bundle that is asked about. */
extern struct draft paths;

/* Stops with the bundle in place of the path. */
_Noreturn void fail_with_bundle(const char *what);
/* A call on the part and the bundle that there are. */
struct asked asked_without_groups(enum call call);
/* The call for the first reply to one of the paths. */
struct asked alone(const struct asked *visit, size_t k);
/* What refuses the whole, by the inspector's checks. */
uint32_t whole_number(const struct asked *visit, const struct room *room);

/* Appends a file of so many words, the empty word with stars, whose header has this length. The number of such a path, where they are the same. */
uint32_t put_path(uint32_t length, uint32_t words);
/* The bundle that there is, by the call and by the one with our groups, in buffers that are just long enough: this is due. */
void must_give(const struct tested *t, uint64_t result);

/* Whether a bundle splits, for one door without rows: 17, and each path's own 2, 3 and 9. */
void check_splits(const struct tested *t);
/* 1, the part's numbers, 16, 17, then those of a path. */
void check_orders(const struct tested *t);
/* A random part and bundle, with our groups and with others. Half of them have buffers that are just long enough. */
void check_drawn(const struct tested *t);
/* Those that there are. */
void check_both(const struct tested *t);

/* Prints how often each number came up. Which did, as bits. */
unsigned print_counts(const char *name, const long *counts);

#endif
