/* The split link search, for a C11 or C++ host. docs/CALLS.md tells which call belongs where, docs/FORMATS.md what every file, trip and
   number is: document 01, and of document 02 the requests 1, labels outside a range, 2, generated plants, 3, groups of the caller's own, 5, links
   that nobody walks, 6, four paths in one visit, 7, stopped nodes, 8, the triple edition, 9, eight operands waiting, 10, a walk beside each listed
   node, 11, one reply for eight desks, and 13, the dearest reply.

   Buffers. A length is in bytes. Any alignment will do. Inputs are only read, and may overlap one another. Outputs and the working buffer overlap
   nothing: neither one another nor an input. A pointer is never null: where a length is 0, pass the address of any object. What outputs and working
   buffer hold before a call does not matter. Longer ones than asked for are fine, of any length. A state that is lent is one aligned word of the
   host's, which the call reads and writes, and so is a count or a yes that is handed out, which it only writes; such a word overlaps nothing, and
   its pointer is never null either. During a call no other thread changes its inputs or touches its other buffers or such a word.

   After a call. A call gives one number, for all its outputs; but a visit, a call for several paths, gives four, one for each output
   (mowqachi_number_at), and one for several desks eight, one for each desk (mowqachi_desk_number). At 0 an output begins with its result, a file
   whose first word tells its length (mowqachi_file_bytes), and is zero past it. At any other number it is zero from end to end, and so is at 0 an
   output for which a visit has no path. The one output of several desks begins with the replies of those whose number is 0, one behind another
   (mowqachi_desk_reply), and is zero past them. A triple file has no header: the count that goes with it tells its words. A call that checks a walk
   has no output: what it says is in the word yes, 1 or 0. The working buffer is zero after every call, to its full length. A lent state has moved on
   at 0, and is as it was at any other number. A count or a yes is written by every call: at any other number it is 0, whatever it was before.

   Order of checks: 1, of any buffer; then the inputs in the order of the parameters; then 15. In one input 2, 3, 4, then word by word 5, 10, 6,
   7, 9, then at its end 5, 7, 8, 9. A cut list has only 11, and so has the site asked, after it. Groups have only 16. Counts of a dearest part and
   path have only 21, and those of a generated plant only 11; a state has none. A triple file has 2, then 18; a whole that is to become one has its
   own, then 19. A whole in which a walk is looked for or checked has its own, with 2 from 1,025 words on; the node whose walk is asked has only 20,
   behind the path's and just ahead of 15, and a walk that is checked has none. In a bundle of replies 2, then file by file as above, then over all
   files 12, 7, 13, and 14 once it is known which pairs are called, however many. A call list by itself, then 12 against the path and 14 against the
   part. A bundle of paths has only 17; what comes behind that, the checks of each path and its 15, is this path's alone. Of several desks a 15 may
   also say that the others left no room. The first check that fails gives the number.

   Labels outside a range. A path's label word of sort 2 (bits 27..24) has a range's fields, the high end in 23..12 and the low end in 11..0,
   and holds the labels below the low end and those above the high one: any label but 5 is 0x52005005. The low end is not above the high one.
   Sorts 3 to 15 are refused.

   Groups. A call whose name ends in _grouped also takes the eight groups for this call: a range word for each, word g for the group word
   0x51000000 + g of the path. They may overlap, be equal and hold one label alone. A call without that ending leaves just what the one with it
   leaves for mowqachi_our_groups. Groups travel beside the path and stand in no file and in no reply: the host sees to it that all sites of a
   question have the same, in both trips. If they have not, nothing is promised, and no check sees it. The hub's calls and the cutter take none.

   Stopped nodes. Bit 18 of a node word says that the node is stopped; bits 27..19 are zero. No walk starts at a stopped node or enters one.
   The host sets and clears the bit in its parts and wholes.

   Links to removed nodes. A part may keep a link to a node that is there no more; its first reply reports that node like any other outside it. The
   hub gives 14 exactly if a pair of the call list's least set has a node that is no door of the bundle. Of the replies of a true cut it does if a
   walk from the root, on which the path's states can step, takes such a link; if none does, the list is as if the link were not there. A whole has
   no such link: the old search and the cutter give 8. */
#ifndef MOWQACHI_H
#define MOWQACHI_H

#include <stddef.h>
#include <stdint.h>

#ifdef __cplusplus
extern "C" {
#endif

/* The words of a file or bundle, at most. A word is four bytes, the lowest first. */
#define MOWQACHI_PART_WORDS 4096    /* parts and wholes */
#define MOWQACHI_PATH_WORDS 64
#define MOWQACHI_REPLY_WORDS 4096   /* first and second replies */
#define MOWQACHI_CALLS_WORDS 4096   /* call lists */
#define MOWQACHI_BUNDLE_WORDS 8192  /* bundles, of replies or of paths */
#define MOWQACHI_LIST_WORDS 8192    /* final lists */
#define MOWQACHI_TRIPLE_WORDS 12286 /* triple files */
#define MOWQACHI_WALK_WORDS 4096    /* walks */
#define MOWQACHI_WALK_WHOLE_WORDS 1024 /* wholes in which a walk is looked for or checked */

/* The bytes of an output, at least. */
#define MOWQACHI_PART_BYTES 16384   /* mowqachi_cut; the part of mowqachi_dearest; mowqachi_generate; mowqachi_from_triples */
#define MOWQACHI_PATH_BYTES 256     /* the path of mowqachi_dearest */
#define MOWQACHI_REPLY_BYTES 16384  /* mowqachi_first_reply, mowqachi_second_reply, each of four of mowqachi_four_replies, the one of
                                       mowqachi_eight_replies, and with groups */
#define MOWQACHI_CALLS_BYTES 16384  /* mowqachi_call_list */
#define MOWQACHI_LIST_BYTES 32768   /* mowqachi_old_search, and with groups; mowqachi_join */
#define MOWQACHI_TRIPLE_BYTES 49144 /* mowqachi_to_triples */
#define MOWQACHI_WALK_BYTES 16384   /* mowqachi_walk, and with groups */

/* The bytes of the working buffer, at least, in every call. */
#define MOWQACHI_WORK_BYTES 32768

/* The bytes of groups, just so many. */
#define MOWQACHI_GROUPS_BYTES 32

/* How many there are: sites 0 to 15, states 0 to 15, labels 0 to 4,095, nodes 0 to 65,535, groups 0 to 7. */
#define MOWQACHI_SITES 16
#define MOWQACHI_STATES 16
#define MOWQACHI_LABELS 4096
#define MOWQACHI_NODES 65536
#define MOWQACHI_GROUP_COUNT 8

/* In a path: label words at most, and operands that wait after any word at most. */
#define MOWQACHI_PATH_LABELS 15
#define MOWQACHI_WAITING 8

/* In a bundle of paths: paths at most, in a visit and for desks, each of which has one. There is at least one. */
#define MOWQACHI_VISIT_PATHS 4
#define MOWQACHI_DESKS 8

/* The words of a first reply that is short, at most: as many as each of eight desks has room for. */
#define MOWQACHI_SHORT_WORDS 512

/* In a generated plant: nodes at most, and edges drawn for each at most. Both are 1 at least. */
#define MOWQACHI_GENERATED_NODES 256
#define MOWQACHI_GENERATED_EDGES 4

/* What a call gives. */
enum mowqachi_number {
    MOWQACHI_ACCEPTED = 0,
    MOWQACHI_BUFFER = 1,   /* an output or the working buffer too short */
    MOWQACHI_SIZE = 2,     /* no words, over the limit, or bytes not in fours; of a whole for a walk the limit is 1,024 words */
    MOWQACHI_HEADER = 3,   /* header of another kind, or with a zero bit set */
    MOWQACHI_LENGTH = 4,   /* header's length wrong; in a bundle of replies 0, over 4,096 or past the end */
    MOWQACHI_WORD = 5,     /* word not allowed there, zero bit set, low end above high, row without reach words */
    MOWQACHI_ORDER = 6,    /* not strictly ascending */
    MOWQACHI_ROOT = 7,     /* root without door; second root; whole or first bundle without root */
    MOWQACHI_TARGET = 8,   /* whole: target not a node, walked or not */
    MOWQACHI_OPERAND = 9,  /* operand missing, 9 waiting, not one left, label words not n */
    MOWQACHI_STATE = 10,   /* state above the file's n */
    MOWQACHI_CUT = 11,     /* cut list's length or a byte above 15; site asked above 15; nodes to generate not 1 to 256, edges of each not 1 to 4 */
    MOWQACHI_BUNDLE = 12,  /* site twice or different n in a bundle; call list's n not the path's */
    MOWQACHI_TWICE = 13,   /* a door or answer node in two files */
    MOWQACHI_DOOR = 14,    /* a pair of the call list's least set has a node that is no door of the bundle; a called node of the part is no door */
    MOWQACHI_RESULT = 15,  /* result over its limit; of several desks, also a first reply over 512 words for which there is no room */
    MOWQACHI_GROUPS = 16,  /* groups not just eight words, or with a word that is no range or has its low end above its high end */
    MOWQACHI_PATHS = 17,   /* bundle of paths: none, too many, over 8,192 words, or headers' lengths that do not use up its bytes, such as 0 */
    MOWQACHI_TRIPLES = 18, /* triple file: words not one more than a multiple of three; root, source or target over 65,535; label over 4,095 */
    MOWQACHI_UNSAID = 19,  /* whole that triples can't say: a stopped node; a node other than the root with no edge of its own and none to it */
    MOWQACHI_UNLISTED = 20, /* node whose walk is asked: the old search does not list it */
    MOWQACHI_COUNTS = 21   /* dearest part and path: a count that is 0, over 15 labels, doors and targets over 65,536, or a part over 4,096 words */
};

/* Our eight groups, as words: 0x50000000 + high end * 4,096 + low end. In the memory of x86-64 they are the bytes that a call takes. */
static const uint32_t mowqachi_our_groups[MOWQACHI_GROUP_COUNT] = {
    0x50fff000, /* 0 to 4095 */
    0x503ff000, /* 0 to 1023 */
    0x500ff000, /* 0 to 255 */
    0x505ff400, /* 1024 to 1535 */
    0x506ff600, /* 1536 to 1791 */
    0x507ff700, /* 1792 to 2047 */
    0x50bff800, /* 2048 to 3071 */
    0x50ffffc0  /* 4032 to 4095 */
};

/* The bytes of the file that begins here, from its header: what a host hands on of an output. */
static inline size_t mowqachi_file_bytes(const uint8_t *file)
{
    return 4u * (file[0] + 256u * (file[1] & 0x3fu));
}

/* Of what a visit gives: the number of the path at this index, from 0 to 3. Each number is a byte, that of the first path the lowest. */
static inline uint32_t mowqachi_number_at(uint32_t numbers, unsigned index)
{
    return numbers >> 8 * index & 0xff;
}

/* Of what several desks get: the number of the desk at this index, from 0 to 7, in the same way. */
static inline uint32_t mowqachi_desk_number(uint64_t numbers, unsigned index)
{
    return (uint32_t)(numbers >> 8 * index & 0xff);
}

/* The reply of the desk at this index, from 0 to 7, in the output of all desks; NULL where it has none, as its number is not 0 or there is no path of
   it. It stands behind the replies of the desks before it whose numbers are 0. Its own length, and that of each of these, is mowqachi_file_bytes. */
static inline const uint8_t *mowqachi_desk_reply(const uint8_t *out, uint64_t numbers, unsigned index)
{
    size_t at = 0;
    for (unsigned k = 0; k < index && at < MOWQACHI_REPLY_BYTES; k++)
        if (mowqachi_desk_number(numbers, k) == MOWQACHI_ACCEPTED)
            at += mowqachi_file_bytes(out + at);
    if (mowqachi_desk_number(numbers, index) != MOWQACHI_ACCEPTED || at >= MOWQACHI_REPLY_BYTES || mowqachi_file_bytes(out + at) == 0)
        return NULL;
    return out + at;
}

/* Of a walk's file: how many links it has, none in an output that is zero; and of the link at an index, from 0 on, its label and the node that it
   leads to. It starts at the root, or where the link before it leads to. */
static inline size_t mowqachi_walk_links(const uint8_t *walk)
{
    size_t bytes = mowqachi_file_bytes(walk);
    return bytes == 0 ? 0 : bytes / 4 - 1;
}

static inline uint32_t mowqachi_link_label(const uint8_t *walk, size_t index)
{
    return walk[4 * index + 6] + 256u * (walk[4 * index + 7] & 0xfu);
}

static inline uint32_t mowqachi_link_target(const uint8_t *walk, size_t index)
{
    return walk[4 * index + 4] + 256u * walk[4 * index + 5];
}

/* The old search: the final list of a whole plant and a path. A stopped root gives the empty list. Output: MOWQACHI_LIST_BYTES. */
uint32_t mowqachi_old_search(const uint8_t *whole, size_t whole_len, const uint8_t *path, size_t path_len,
                             uint8_t *out, size_t out_len, uint8_t *work, size_t work_len);

/* The cutter: a site's part of a whole plant. cuts has one byte for each node word of the whole, in order: the node's site.
   Stopped bits are copied; links from and to stopped nodes make doors like any others. Output: MOWQACHI_PART_BYTES. */
uint32_t mowqachi_cut(const uint8_t *whole, size_t whole_len, const uint8_t *cuts, size_t cuts_len, uint32_t site,
                      uint8_t *out, size_t out_len, uint8_t *work, size_t work_len);

/* First trip, at a site: what walks from its doors reach outside its part, stopped there or not, and also if there is no such node. A stopped door
   has its door word and no rows. Output: MOWQACHI_REPLY_BYTES. */
uint32_t mowqachi_first_reply(const uint8_t *part, size_t part_len, const uint8_t *path, size_t path_len,
                              uint8_t *out, size_t out_len, uint8_t *work, size_t work_len);

/* First trip, at the hub: the call list of a bundle of first replies, one after another: the least set that has the root with state 0 and is closed
   under the rows. It names stopped doors too, as replies do not tell them apart. A row that is not followed may name any node; a pair of the set
   whose node is no door gives 14, ahead of 15. Output: MOWQACHI_CALLS_BYTES. */
uint32_t mowqachi_call_list(const uint8_t *bundle, size_t bundle_len, uint8_t *out, size_t out_len, uint8_t *work, size_t work_len);

/* Second trip, at a site: the nodes of its part that the called pairs lead to. A call at a stopped door leads to none, and no stopped node is
   among them. Output: MOWQACHI_REPLY_BYTES. */
uint32_t mowqachi_second_reply(const uint8_t *part, size_t part_len, const uint8_t *path, size_t path_len,
                               const uint8_t *calls, size_t calls_len,
                               uint8_t *out, size_t out_len, uint8_t *work, size_t work_len);

/* Second trip, at the hub: the final list of a bundle of second replies, one after another. Output: MOWQACHI_LIST_BYTES. */
uint32_t mowqachi_join(const uint8_t *bundle, size_t bundle_len, uint8_t *out, size_t out_len, uint8_t *work, size_t work_len);

/* The old search with groups of the caller's own. Output: MOWQACHI_LIST_BYTES. */
uint32_t mowqachi_old_search_grouped(const uint8_t *whole, size_t whole_len, const uint8_t *groups, size_t groups_len,
                                     const uint8_t *path, size_t path_len,
                                     uint8_t *out, size_t out_len, uint8_t *work, size_t work_len);

/* First trip, at a site, with groups of the caller's own, the same at every site. Output: MOWQACHI_REPLY_BYTES. */
uint32_t mowqachi_first_reply_grouped(const uint8_t *part, size_t part_len, const uint8_t *groups, size_t groups_len,
                                      const uint8_t *path, size_t path_len,
                                      uint8_t *out, size_t out_len, uint8_t *work, size_t work_len);

/* Second trip, at a site, with the groups of the first trip. Output: MOWQACHI_REPLY_BYTES. */
uint32_t mowqachi_second_reply_grouped(const uint8_t *part, size_t part_len, const uint8_t *groups, size_t groups_len,
                                       const uint8_t *path, size_t path_len, const uint8_t *calls, size_t calls_len,
                                       uint8_t *out, size_t out_len, uint8_t *work, size_t work_len);

/* First trip, at a site, for up to four paths in one visit. They are a bundle: one path behind another, each as long as its header says. The first
   reply to a path goes to the output of the same place, and its number to the same place of the result (mowqachi_number_at). Words and number are
   those that mowqachi_first_reply gives for the part and this path alone, in buffers of these lengths, 15 among them; a refused path leaves those of
   the others alone. Past the last path numbers are 0 and outputs all zero. What refuses the whole is all four numbers, and zeroes all outputs: 1, of
   any of the five buffers; then the part's; then 17 of the bundle, of which just the lengths in headers are looked at. So a header of another kind is
   its path's own 3, a path over 64 words its own 2, and no path gets 4. The part is checked once, and not for each path.
   Outputs: MOWQACHI_REPLY_BYTES each. */
uint32_t mowqachi_four_replies(const uint8_t *part, size_t part_len, const uint8_t *paths, size_t paths_len,
                               uint8_t *out1, size_t out1_len, uint8_t *out2, size_t out2_len,
                               uint8_t *out3, size_t out3_len, uint8_t *out4, size_t out4_len,
                               uint8_t *work, size_t work_len);

/* The same with groups of the caller's own for all of the paths, as mowqachi_first_reply_grouped has them: 16 refuses the whole, between the part's
   numbers and 17. Outputs: MOWQACHI_REPLY_BYTES each. */
uint32_t mowqachi_four_replies_grouped(const uint8_t *part, size_t part_len, const uint8_t *groups, size_t groups_len,
                                       const uint8_t *paths, size_t paths_len,
                                       uint8_t *out1, size_t out1_len, uint8_t *out2, size_t out2_len,
                                       uint8_t *out3, size_t out3_len, uint8_t *out4, size_t out4_len,
                                       uint8_t *work, size_t work_len);

/* First trip, at a site, for up to eight desks that share one reply of 4,096 words. Their paths are a bundle, as in a visit, a path of each desk in
   the order of asking. A desk has its number (mowqachi_desk_number) and, at 0, the first reply that mowqachi_first_reply gives for the part and its
   path alone. The output has these replies one behind another in the order of asking, and is zero past them: mowqachi_desk_reply finds a desk's own.
   A path that is refused has the number that it has alone, 2, 3, 5 or 9, and takes no room; a reply that is over 4,096 words alone is 15. Of the
   others, those of at most MOWQACHI_SHORT_WORDS words are all put in, whatever the other desks ask. Of the longer ones, in the order of asking, each
   is put in if all short ones, also those asked later, the longer ones that are in already and itself have at most 4,096 words together; if not, its
   desk gets 15, and it takes no room, so that a later one may still fit. Past the last path numbers are 0 and nothing stands. What refuses the whole
   is all eight numbers, and the output is zero: 1, of the output or the working buffer; then the part's; then 17 of the bundle, as in a visit, but
   that eight paths are taken. The part is checked once. Output: MOWQACHI_REPLY_BYTES. */
uint64_t mowqachi_eight_replies(const uint8_t *part, size_t part_len, const uint8_t *paths, size_t paths_len,
                                uint8_t *out, size_t out_len, uint8_t *work, size_t work_len);

/* The same with groups of the caller's own for all desks: 16 refuses the whole, between the part's numbers and 17. Output: MOWQACHI_REPLY_BYTES. */
uint64_t mowqachi_eight_replies_grouped(const uint8_t *part, size_t part_len, const uint8_t *groups, size_t groups_len,
                                        const uint8_t *paths, size_t paths_len,
                                        uint8_t *out, size_t out_len, uint8_t *work, size_t work_len);

/* For planners: the dearest part and path of so many doors, outside targets and labels. The part is of site 0 and without root; its nodes 0 to
   doors - 1 are doors, each with a link of label 0 to each of the `targets` nodes after them: 1 + doors * (1 + targets) words. The path is a star of
   an or of `labels` full ranges, each or right behind its second range: 2 * labels + 1 words. Their first reply has
   1 + doors * (1 + (labels + 1) * (1 + targets * labels)) words, or is refused with 15 where that is over 4,096; and no part with so many doors and
   outside targets has a longer one, for any path of so many labels and any groups. Nothing wraps, whatever the three are.
   Outputs: MOWQACHI_PART_BYTES and MOWQACHI_PATH_BYTES. */
uint32_t mowqachi_dearest(uint32_t doors, uint32_t targets, uint32_t labels,
                          uint8_t *part, size_t part_len, uint8_t *path, size_t path_len, uint8_t *work, size_t work_len);

/* For benches: a whole plant drawn from a state that the host lends, the same from the same state wherever it is drawn. A draw moves the state on to
   state * 1,664,525 + 1,013,904,223, wrapping at 32 bits, and hands out the upper 16 bits of the new one. The whole is of site 0; its nodes are 0
   to nodes - 1, none stopped, and node 0 is the root and the only door. Node by node `edges` edges are drawn, for each of them its label, the
   remainder of a draw by 4,096, and then its target, the remainder of the next draw by `nodes`. A node's equal edges become one, and the rest are
   put in order: there are at most 1 + nodes * (1 + edges) words. The old search accepts every such whole, with any path that it accepts.
   The state moves on by 2 * nodes * edges draws, whatever becomes of equal edges; lent again, it gives the next plant. Any state will do.
   Output: MOWQACHI_PART_BYTES. */
uint32_t mowqachi_generate(uint32_t *state, uint32_t nodes, uint32_t edges,
                           uint8_t *out, size_t out_len, uint8_t *work, size_t work_len);

/* The triple edition, for plants of the first release: the whole of a triple file, which is a root word and then for each link three words, source,
   label and target, each a full word, in any order and with repeats; it has no header. The whole is of site 0; its nodes are the root and all sources
   and targets, none stopped, its edges the triples, each once, and the root is the only door. The root may be no end of a triple, and a lone root
   word is a plant of one node. The same root and the same set of triples give the same whole, whatever the order and the repeats. The old search
   accepts every such whole, with any path that it accepts. One that would be over 4,096 words gives 15. Output: MOWQACHI_PART_BYTES. */
uint32_t mowqachi_from_triples(const uint8_t *triples, size_t triples_len, uint8_t *out, size_t out_len, uint8_t *work, size_t work_len);

/* And back: the triple file of a whole. Its root word, then the triples of its edges, ascending by source, label and target. The words written, the
   root word among them, go to *count: 4 * *count bytes are what mowqachi_from_triples is handed, which gives the same whole again, but for its site,
   which is 0 then, and its doors, of which the root alone is left. Triples have no way to say a stopped node, nor a node other than the root with no
   edge of its own and none to it: such a whole gives 19. A node with an edge to itself they can say. 15 is not given: there is room for the edges of
   any whole. Output: MOWQACHI_TRIPLE_BYTES. */
uint32_t mowqachi_to_triples(const uint8_t *whole, size_t whole_len, uint8_t *out, size_t out_len, uint32_t *count,
                             uint8_t *work, size_t work_len);

/* For publishers of recall lists: how a node was reached. Of the walks from the root to the node that the path accepts, through running nodes alone,
   one with the fewest links, and of those with as many the one whose edge word is lower at the first difference. Its file is a header of kind 0, just
   the count of its words, itself included, and then the edge words of the walk as they stand in the whole (mowqachi_walk_links,
   mowqachi_link_label, mowqachi_link_target). The walk of no links, to the root where the path has the empty word, is the one word 1. A whole of over
   1,024 words gives 2. A node that mowqachi_old_search does not list gives 20, also one over 65,535 or one that the whole has not; then a walk of
   over 4,095 links, whose file would be over 4,096 words, gives 15. Output: MOWQACHI_WALK_BYTES. */
uint32_t mowqachi_walk(const uint8_t *whole, size_t whole_len, const uint8_t *path, size_t path_len, uint32_t node,
                       uint8_t *out, size_t out_len, uint8_t *work, size_t work_len);

/* The same with groups of the caller's own. Output: MOWQACHI_WALK_BYTES. */
uint32_t mowqachi_walk_grouped(const uint8_t *whole, size_t whole_len, const uint8_t *groups, size_t groups_len,
                               const uint8_t *path, size_t path_len, uint32_t node,
                               uint8_t *out, size_t out_len, uint8_t *work, size_t work_len);

/* And the check of a walk, whoever made it: *yes is 1 exactly if these bytes are the file of a walk from the root to the node, by edges of the whole,
   through running nodes alone, the first and the last too, whose labels the path accepts, in at most 4,096 words; it need be neither the shortest nor
   the lowest. For all other bytes it is 0: bytes not in fours, none at all, a header that is not just the count of its words, a word that is no edge
   of the node where the walk stands. Refused are a short working buffer, the whole, in which over 1,024 words give 2, and the path, and nothing of
   the node or the walk. To what mowqachi_walk gives for the same whole, path and node it says yes. There is no output. */
uint32_t mowqachi_check_walk(const uint8_t *whole, size_t whole_len, const uint8_t *path, size_t path_len, uint32_t node,
                             const uint8_t *walk, size_t walk_len, uint32_t *yes, uint8_t *work, size_t work_len);

/* The same with groups of the caller's own. */
uint32_t mowqachi_check_walk_grouped(const uint8_t *whole, size_t whole_len, const uint8_t *groups, size_t groups_len,
                                     const uint8_t *path, size_t path_len, uint32_t node,
                                     const uint8_t *walk, size_t walk_len, uint32_t *yes, uint8_t *work, size_t work_len);

#ifdef __cplusplus
}
#endif

#endif
