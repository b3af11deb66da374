/* The checks of document 01, with document 02's groups, its number 14, its bundles of paths, its triple edition and its wholes for walks, in their
   order, with the word at which one fails. They share no code with the library, so that the two can be held against each other (agree.c, strays.c,
   bundles.c, editions.c, walking.c); both read the documents as docs/DECISIONS.md does. */
#ifndef CHECKS_H
#define CHECKS_H

#include "mowqachi.h"
#include "words.h"

/* The number of the first check that fails, the index of the word where it shows (that of the word past the last one, where it shows at the
   end), and what is wrong there. 0: accepted. */
struct verdict {
    unsigned number;
    size_t at;
    const char *why;
};

/* The name of the kind of file with this header kind, or NULL where there is none. */
const char *file_name(unsigned kind);
/* The name of a number, as in mowqachi.h. */
const char *number_name(unsigned number);

/* A file by itself: 2, 3, 4, then word by word and at its end. */
struct verdict check_file(struct span s, unsigned kind);
/* A file that is a part, and then its end as a whole. */
struct verdict check_whole(struct span s);
/* A whole in which a walk is looked for or checked: one of at most 1,024 words. */
struct verdict check_small_whole(struct span s);
/* The file at the front of a stretch: 3, 4 as in a bundle, then its words and its end. */
struct verdict check_front(struct span s, unsigned kind);
/* A bundle of FIRST or SECOND replies. */
struct verdict check_bundle(struct span s, unsigned kind);

/* A pair that a hub calls: the root with state 0, by its door word; or what a reach word of a followed row names, door or no door. */
struct called {
    unsigned node, state;
    size_t at;          /* the word */
    size_t by;          /* the place of the pair whose row it stands in; the root's own is 0 */
};

/* The call list's least set, by a bundle of first replies that is accepted as far as 13: pairs behind fewer rows first. */
struct calls {
    size_t count;
    struct called pairs[MOWQACHI_BUNDLE_WORDS];
    uint16_t states[MOWQACHI_NODES];    /* in which a node is called */
    uint16_t doors[MOWQACHI_NODES];     /* a door's word, 0 at other nodes: a header stands there */
};

void find_calls(struct span bundle, struct calls *calls);
/* Whether a reach word names no door of the bundle. */
bool is_stray(uint32_t w, const struct calls *calls);
/* The place of the first pair that names none, which gives 14; the count, where there is no such pair. */
size_t first_stray(const struct calls *calls);

/* The cut list of an accepted whole, then the site asked. The index is that of a byte. */
struct verdict check_cuts(struct span whole, struct span cuts, unsigned site);
/* The eight words of groups. */
struct verdict check_groups(struct span s);
/* A bundle of at most so many paths, by the lengths in its headers alone: 17. What each file of it (file_in) is, its own check says. */
struct verdict check_paths(struct span s, size_t most);
/* What refuses a visit as a whole, once there is room: its part, its groups, then its bundle of paths. */
struct verdict check_visit(struct span part, struct span groups, struct span paths, size_t most);
/* A triple file: 2, 18, and 15 where its whole would be over the limit. */
struct verdict check_triples(struct span s);
/* A whole, and then whether triples can say it: 19. */
struct verdict check_said(struct span s);
/* What refuses a call about a walk, once there is room: its whole, its groups, then its path. */
struct verdict check_question(struct span whole, struct span groups, struct span path);
/* Words in the layout of a walk, beside an accepted whole: whether they are a walk from its root, by its edges, through running nodes alone. Else
   NO_WALK, which is no number of the library: its checker says no. */
enum { NO_WALK = MOWQACHI_COUNTS + 1 };
struct verdict check_walk(struct span whole, struct span walk);
/* An accepted call list against an accepted path and an accepted part. */
struct verdict check_against(struct span part, struct span path, struct span calls);

#endif
