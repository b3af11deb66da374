/* Files in words that a person reads. */
#ifndef DESCRIBE_H
#define DESCRIBE_H

#include "checks.h"

/* What is beside a file: the part of the site asked, which may be empty, and the eight groups of a path; or the pairs that are called by a bundle
   of first replies, or the reached nodes of a part, which are NULL for other files. */
struct beside {
    struct span part;
    const uint32_t *groups;
    const struct calls *calls;
    const struct nodes *reached;
};

/* The words of s, one a line, with the verdict's mark under its word, and a blank line ahead of every further header; calls of nodes that are
   stopped in the part beside it say so, reach words to no door of the bundle, and nodes that are not reached. Bytes behind the last word are
   numbered as bytes. */
void print_words(struct span s, struct verdict v, const struct beside *beside);
/* The words of groups in the same way; those of a triple file, with the words of the first equal triple behind one that stands there again; and those
   of a walk in an accepted whole, link by link from node to node. */
void print_groups(struct span s, struct verdict v);
void print_triples(struct span s, struct verdict v);
void print_walk(struct span whole, struct span walk, struct verdict v);
/* The last line of a report on so many words or bytes. */
void print_verdict(struct verdict v, const char *unit, size_t count);
/* Where a file of a bundle of paths, or of a reply for several desks, stands; its name and its place, counted from 1. */
void print_stretch(const char *name, size_t number, struct span bundle, struct span file);
/* The numbers of so many paths or desks, and of those that there are not. */
void print_numbers(const char *name, uint64_t numbers, size_t count);
/* An accepted path as an expression. */
void print_expression(struct span path);
/* What an accepted part has. */
void print_counts(struct span part);
/* How long a first reply to an accepted path can be, of an accepted part or any other with as many doors and outside targets. */
void print_longest(struct span part, struct span path);
/* Of which nodes of an accepted part replies may tell, and of which not. */
void print_reached(struct span part, const struct nodes *reached);
/* Whether replies may tell two accepted parts apart, and by which words first. */
void print_apart(struct span first, struct span second);
/* Whether the generator writes an accepted whole from a state, with so many edges per node, and which state is left then; or where it differs first
   from the plant that agrees furthest. */
void print_generated(struct span whole, uint32_t state);
/* The words by which a bundle calls a node that is no door, the fewest; where it calls none, how many reach words name one. */
void print_strays(struct span bundle, const struct calls *calls);
/* What a triple file has whose words are in their fields, and how many words its whole has. */
void print_edition(struct span triples);
/* How many triples say an accepted whole, and what of it they do not. */
void print_said(struct span whole);
/* How long a walk of an accepted whole is, and from where to where it leads. */
void print_ends(struct span whole, struct span walk);
/* For which node the checker says yes to such a walk, by an accepted path; or for none, and why. */
void print_answer(struct span whole, struct span walk, struct verdict v, bool spelled);
/* An accepted part as a Graphviz picture. */
void print_picture(struct span part);

#endif
