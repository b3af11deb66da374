/* The twenty-one calls for tests: on exact copies of the inputs at odd addresses, into used buffers, and with a look at what is left. */
#ifndef CALLS_H
#define CALLS_H

#include "mowqachi.h"
#include "words.h"

enum call {
    OLD_SEARCH, CUT, FIRST_REPLY, CALL_LIST, SECOND_REPLY, JOIN, OLD_SEARCH_GROUPED, FIRST_REPLY_GROUPED, SECOND_REPLY_GROUPED,
    FOUR_REPLIES, FOUR_REPLIES_GROUPED, EIGHT_REPLIES, EIGHT_REPLIES_GROUPED, DEAREST, GENERATE, FROM_TRIPLES, TO_TRIPLES,
    WALK, WALK_GROUPED, CHECK_WALK, CHECK_WALK_GROUPED, CALL_COUNT
};
/* Of any call at most; files are those in all outputs together. All numbers are below NUMBERS. */
enum { INPUTS = 4, VALUES = 3, OUTPUTS = MOWQACHI_VISIT_PATHS, FILES = MOWQACHI_DESKS, NUMBERS = MOWQACHI_COUNTS + 1 };

/* The inputs of a call in its order; those that it has not are empty. Then its numbers: the site asked; or doors, outside targets and labels; or
   the state that it is lent, nodes and edges per node; or what stands where it is to write its count or its yes; behind that the node whose walk is
   asked or checked. */
struct asked {
    enum call call;
    struct span in[INPUTS];
    uint32_t values[VALUES];
};

/* The bytes of a call's buffers; none of an output that it has not. */
struct room {
    size_t out[OUTPUTS], work;
};

/* The buffers that a call is handed, and the host's word that it writes, where it has one. */
struct buffers {
    uint8_t *out[OUTPUTS], *work;
    struct room room;
    uint32_t *word;
};

extern const char *const call_names[CALL_COUNT];
extern const struct span our_groups;
/* What a call asks for, at least. */
struct room room_for(enum call call);
/* Whether one of these buffers is shorter than that. */
bool too_short(enum call call, const struct room *room);
/* Lengths that are drawn, and may be too short. */
struct room draw_room(enum call call);
/* Whether a call writes a word of the host's, the first of its numbers: a state that it is lent, a count that it hands out, or its yes. */
bool writes_word(enum call call);
bool hands_count(enum call call);
bool says_yes(enum call call);
/* Whether a call reads a path, or a bundle of paths, by our groups. */
bool reads_path(enum call call);
/* Such a call asked with groups, which stand behind its first input. */
struct asked with_groups(const struct asked *a, struct span groups);

/* How many paths a call takes as a bundle, its result having a number for each; 0 where it takes none, and its result is its number, for all its
   files. */
size_t most_paths(enum call call);
/* Whether a call is one of these: a visit, with an output for each path, or the one reply of several desks. */
bool is_visit(enum call call);
/* Whether the replies to all paths stand in one output. */
bool shares_output(enum call call);
/* The groups of a call that reads a path or a bundle of paths, its own or ours; and the path or the bundle. */
struct span groups_of(const struct asked *a);
struct span paths_of(const struct asked *a);
/* The number that a result has for a file: that of an output, or of a desk. */
uint32_t number_for(enum call call, uint64_t result, int file);
/* The result that has this number for all files, as where the whole is refused. */
uint64_t number_for_all(enum call call, uint32_t number);

/* The call itself. */
uint64_t invoke(const struct asked *a, const struct buffers *b);
/* The call with buffers of these lengths; stops the program where it leaves anything but what mowqachi.h says. */
uint64_t call_with(const struct asked *a, struct room room);
/* The same with buffers that are just long enough. Its first file, until the next call. */
uint64_t call(const struct asked *a, struct span *found);
/* The last call's file in an output, or of a desk, until the next call; empty after a refusal, and where it has no such output or no path for it. */
struct span result_of(int file);
/* The word as the last call that wrote one left it. */
uint32_t word_left(void);
/* Whether two calls with the same outputs leave the same, result, host's word and all buffers, whose lengths are drawn and may be too short. */
bool leave_the_same(const struct asked *a, const struct asked *b);
/* The numbers that a call has given so far, as bits. */
unsigned numbers_given(enum call call);

#endif
