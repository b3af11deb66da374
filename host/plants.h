/* Random plants for tests, and what the calls write for them; none of these calls has anything to refuse. A test stops where two files that
   should be the same are not. */
#ifndef PLANTS_H
#define PLANTS_H

#include "calls.h"
#include "drafts.h"

enum { SITES = 3, MOST_NODES = 8 };
enum { DOOR_BIT = 0x10000, ROOT_BIT = 0x20000, STOPPED_BIT = 0x40000 };

extern const struct span none;

/* What is asked about, and printed where a test stops: a part or a whole, its root and its stopped nodes, groups if there are any, and a path. */
extern struct draft plant, groups, path;
extern uint32_t root;
extern struct nodes stopped;

/* Links have the labels given, which ascend. A third of the nodes are stopped, roots, doors and others alike. A whole has a root, and its
   links end within. */
void draw_plant(bool whole, const uint32_t *labels, uint32_t count);
/* No node of the plant is stopped any more. */
void start_all(void);
/* One of so many sites for each node of the plant, until the next draw. */
struct span draw_cuts(uint32_t sites);
/* A file's header without its length. */
uint32_t header_of(const struct draft *file);
/* A part or a whole without these nodes and their links; the links to them are left, or not. */
struct draft without(const struct draft *file, const struct nodes *these, bool left);
uint32_t range(uint32_t low, uint32_t high);
/* A range with two of the labels given as its ends. */
uint32_t draw_range(const uint32_t *labels, uint32_t count);
/* Draws eight groups, each such a range. */
void draw_groups(const uint32_t *labels, uint32_t count);
/* Draws a path of at most so many label words, which `letter` draws. */
void draw_path(uint32_t most, uint32_t (*letter)(void));
/* Ends a path whose words stand behind the room for its header. */
void end_path(struct draft *d);
/* Calls at doors of the plant, stopped or not, in the states of the path. */
struct draft draw_calls(void);

struct draft written(enum call name, const struct draft *x, struct span y, struct span z);
/* Each site's part of a whole. */
void cut_up(const struct draft *whole, struct span cuts, struct draft *parts, uint32_t sites);
/* What is asked of the parts in a question: so many sites, a path, and groups, or none for the calls without. */
struct question {
    const struct draft *parts;
    uint32_t sites;
    struct span groups, path;
};
/* The sites' replies of one trip in an order that is drawn: a bundle. */
struct draft replies(const struct question *q, enum call trip, struct span calls);
struct draft joined(const struct question *q);
_Noreturn void fail(const char *what);
void must_be(const char *what, struct draft expected, struct draft got);

#endif
