#include "calls.h"

#include <inttypes.h>
#include <stdio.h>
#include <stdlib.h>
#include <string.h>

#include "drafts.h"

const char *const call_names[CALL_COUNT] = {
    "old_search", "cut", "first_reply", "call_list", "second_reply", "join", "old_search_grouped", "first_reply_grouped", "second_reply_grouped",
    "four_replies", "four_replies_grouped", "eight_replies", "eight_replies_grouped", "dearest", "generate", "from_triples", "to_triples",
    "walk", "walk_grouped", "check_walk", "check_walk_grouped"};
const struct span our_groups = {(const uint8_t *)mowqachi_our_groups, sizeof mowqachi_our_groups};

static unsigned given[CALL_COUNT];
static struct draft results[FILES];
static uint32_t left;

struct room room_for(enum call call)
{
    static const size_t bytes[CALL_COUNT][OUTPUTS] = {
        [OLD_SEARCH] = {MOWQACHI_LIST_BYTES}, [OLD_SEARCH_GROUPED] = {MOWQACHI_LIST_BYTES}, [JOIN] = {MOWQACHI_LIST_BYTES},
        [CUT] = {MOWQACHI_PART_BYTES}, [GENERATE] = {MOWQACHI_PART_BYTES}, [DEAREST] = {MOWQACHI_PART_BYTES, MOWQACHI_PATH_BYTES},
        [FROM_TRIPLES] = {MOWQACHI_PART_BYTES}, [TO_TRIPLES] = {MOWQACHI_TRIPLE_BYTES},
        [FIRST_REPLY] = {MOWQACHI_REPLY_BYTES}, [FIRST_REPLY_GROUPED] = {MOWQACHI_REPLY_BYTES}, [CALL_LIST] = {MOWQACHI_CALLS_BYTES},
        [SECOND_REPLY] = {MOWQACHI_REPLY_BYTES}, [SECOND_REPLY_GROUPED] = {MOWQACHI_REPLY_BYTES},
        [FOUR_REPLIES] = {MOWQACHI_REPLY_BYTES, MOWQACHI_REPLY_BYTES, MOWQACHI_REPLY_BYTES, MOWQACHI_REPLY_BYTES},
        [FOUR_REPLIES_GROUPED] = {MOWQACHI_REPLY_BYTES, MOWQACHI_REPLY_BYTES, MOWQACHI_REPLY_BYTES, MOWQACHI_REPLY_BYTES},
        [EIGHT_REPLIES] = {MOWQACHI_REPLY_BYTES}, [EIGHT_REPLIES_GROUPED] = {MOWQACHI_REPLY_BYTES},
        [WALK] = {MOWQACHI_WALK_BYTES}, [WALK_GROUPED] = {MOWQACHI_WALK_BYTES}};
    struct room room = {.work = MOWQACHI_WORK_BYTES};
    memcpy(room.out, bytes[call], sizeof room.out);
    return room;
}

bool too_short(enum call call, const struct room *room)
{
    struct room least = room_for(call);
    bool found = room->work < least.work;
    for (int k = 0; k < OUTPUTS; k++)
        found = found || room->out[k] < least.out[k];
    return found;
}

struct room draw_room(enum call call)
{
    struct room room = room_for(call);
    for (int k = 0; k < OUTPUTS && room.out[k] > 0; k++)
        room.out[k] = draw_length(room.out[k]);
    room.work = draw_length(room.work);
    return room;
}

struct span result_of(int file)
{
    return span_of(&results[file]);
}

uint32_t word_left(void)
{
    return left;
}

unsigned numbers_given(enum call call)
{
    return given[call];
}

/* The call that takes groups, or the call itself where there is none. */
static enum call grouped(enum call call)
{
    switch (call) {
    case OLD_SEARCH: return OLD_SEARCH_GROUPED;
    case FIRST_REPLY: return FIRST_REPLY_GROUPED;
    case SECOND_REPLY: return SECOND_REPLY_GROUPED;
    case FOUR_REPLIES: return FOUR_REPLIES_GROUPED;
    case EIGHT_REPLIES: return EIGHT_REPLIES_GROUPED;
    case WALK: return WALK_GROUPED;
    case CHECK_WALK: return CHECK_WALK_GROUPED;
    default: return call;
    }
}

bool hands_count(enum call call)
{
    return call == TO_TRIPLES;
}

bool says_yes(enum call call)
{
    return call == CHECK_WALK || call == CHECK_WALK_GROUPED;
}

bool writes_word(enum call call)
{
    return call == GENERATE || hands_count(call) || says_yes(call);
}

bool reads_path(enum call call)
{
    return grouped(call) != call;
}

struct asked with_groups(const struct asked *a, struct span groups)
{
    return (struct asked){grouped(a->call), {a->in[0], groups, a->in[1], a->in[2]}, {a->values[0], a->values[1], a->values[2]}};
}

size_t most_paths(enum call call)
{
    switch (call) {
    case FOUR_REPLIES: case FOUR_REPLIES_GROUPED: return MOWQACHI_VISIT_PATHS;
    case EIGHT_REPLIES: case EIGHT_REPLIES_GROUPED: return MOWQACHI_DESKS;
    default: return 0;
    }
}

bool is_visit(enum call call)
{
    return most_paths(call) > 0;
}

bool shares_output(enum call call)
{
    return most_paths(call) == MOWQACHI_DESKS;
}

struct span groups_of(const struct asked *a)
{
    return reads_path(a->call) ? our_groups : a->in[1];
}

struct span paths_of(const struct asked *a)
{
    return a->in[reads_path(a->call) ? 1 : 2];
}

uint32_t number_for(enum call call, uint64_t result, int file)
{
    if (shares_output(call))
        return mowqachi_desk_number(result, (unsigned)file);
    return is_visit(call) ? mowqachi_number_at((uint32_t)result, (unsigned)file) : (uint32_t)result;
}

uint64_t number_for_all(enum call call, uint32_t number)
{
    uint64_t result = number;
    for (size_t k = 1; k < most_paths(call); k++)
        result |= (uint64_t)number << 8 * k;
    return result;
}

/* The calls about a walk. They have a frame of their own, so that the other calls' is no larger. */
__attribute__((noinline)) static uint64_t invoke_walk(const struct asked *a, const struct buffers *b)
{
    const struct span *x = &a->in[0], *y = &a->in[1], *z = &a->in[2], *t = &a->in[3];
    const uint32_t node = a->values[1];
    switch (a->call) {
    case WALK: return mowqachi_walk(x->bytes, x->len, y->bytes, y->len, node, b->out[0], b->room.out[0], b->work, b->room.work);
    case WALK_GROUPED:
        return mowqachi_walk_grouped(x->bytes, x->len, y->bytes, y->len, z->bytes, z->len, node, b->out[0], b->room.out[0], b->work, b->room.work);
    case CHECK_WALK:
        return mowqachi_check_walk(x->bytes, x->len, y->bytes, y->len, node, z->bytes, z->len, b->word, b->work, b->room.work);
    default:
        return mowqachi_check_walk_grouped(x->bytes, x->len, y->bytes, y->len, z->bytes, z->len, node, t->bytes, t->len,
                                           b->word, b->work, b->room.work);
    }
}

uint64_t invoke(const struct asked *a, const struct buffers *b)
{
    const struct span *x = &a->in[0], *y = &a->in[1], *z = &a->in[2], *t = &a->in[3];
    const uint32_t *v = a->values;
    uint8_t *const *o = b->out, *out = b->out[0], *work = b->work;
    const size_t *l = b->room.out, out_len = b->room.out[0], work_len = b->room.work;
    switch (a->call) {
    case OLD_SEARCH: return mowqachi_old_search(x->bytes, x->len, y->bytes, y->len, out, out_len, work, work_len);
    case CUT: return mowqachi_cut(x->bytes, x->len, y->bytes, y->len, v[0], out, out_len, work, work_len);
    case FIRST_REPLY: return mowqachi_first_reply(x->bytes, x->len, y->bytes, y->len, out, out_len, work, work_len);
    case CALL_LIST: return mowqachi_call_list(x->bytes, x->len, out, out_len, work, work_len);
    case SECOND_REPLY:
        return mowqachi_second_reply(x->bytes, x->len, y->bytes, y->len, z->bytes, z->len, out, out_len, work, work_len);
    case JOIN: return mowqachi_join(x->bytes, x->len, out, out_len, work, work_len);
    case OLD_SEARCH_GROUPED:
        return mowqachi_old_search_grouped(x->bytes, x->len, y->bytes, y->len, z->bytes, z->len, out, out_len, work, work_len);
    case FIRST_REPLY_GROUPED:
        return mowqachi_first_reply_grouped(x->bytes, x->len, y->bytes, y->len, z->bytes, z->len, out, out_len, work, work_len);
    case SECOND_REPLY_GROUPED:
        return mowqachi_second_reply_grouped(x->bytes, x->len, y->bytes, y->len, z->bytes, z->len, t->bytes, t->len, out, out_len, work, work_len);
    case FOUR_REPLIES:
        return mowqachi_four_replies(x->bytes, x->len, y->bytes, y->len, o[0], l[0], o[1], l[1], o[2], l[2], o[3], l[3], work, work_len);
    case FOUR_REPLIES_GROUPED:
        return mowqachi_four_replies_grouped(x->bytes, x->len, y->bytes, y->len, z->bytes, z->len,
                                             o[0], l[0], o[1], l[1], o[2], l[2], o[3], l[3], work, work_len);
    case EIGHT_REPLIES: return mowqachi_eight_replies(x->bytes, x->len, y->bytes, y->len, out, out_len, work, work_len);
    case EIGHT_REPLIES_GROUPED:
        return mowqachi_eight_replies_grouped(x->bytes, x->len, y->bytes, y->len, z->bytes, z->len, out, out_len, work, work_len);
    case DEAREST: return mowqachi_dearest(v[0], v[1], v[2], o[0], l[0], o[1], l[1], work, work_len);
    case GENERATE: return mowqachi_generate(b->word, v[1], v[2], out, out_len, work, work_len);
    case FROM_TRIPLES: return mowqachi_from_triples(x->bytes, x->len, out, out_len, work, work_len);
    case TO_TRIPLES: return mowqachi_to_triples(x->bytes, x->len, out, out_len, b->word, work, work_len);
    default: return invoke_walk(a, b);
    }
}

/* len bytes behind one more, so that they begin at an odd address and end where the block does. */
static uint8_t *lend(size_t len, int fill)
{
    uint8_t *block = malloc(len + 1);
    if (block == NULL)
        abort();
    memset(block, fill, len + 1);
    return block + 1;
}

static struct span lend_copy(struct span s)
{
    uint8_t *bytes = lend(s.len, 0);
    if (s.len > 0)
        memcpy(bytes, s.bytes, s.len);
    return (struct span){bytes, s.len};
}

static void give_back(const uint8_t *bytes)
{
    free((void *)(bytes - 1));
}

/* A block of the host's word alone, or none. */
static uint32_t *lend_word(const struct asked *a)
{
    if (!writes_word(a->call))
        return NULL;
    uint32_t *word = malloc(sizeof *word);
    if (word == NULL)
        abort();
    *word = a->values[0];
    return word;
}

static void take_word(uint32_t *word)
{
    if (word != NULL)
        left = *word;
    free(word);
}

static bool zero_from(const uint8_t *bytes, size_t from, size_t len)
{
    return from >= len || (bytes[from] == 0 && memcmp(bytes + from, bytes + from + 1, len - from - 1) == 0);
}

/* How many files a call writes, at most. */
static int most_files(enum call call)
{
    return is_visit(call) ? (int)most_paths(call) : room_for(call).out[1] > 0 ? 2 : 1;
}

/* Whether a file is written where nothing is refused: one of a visit is if there is a path for it, and none by a call without output. */
static bool has_file(const struct asked *a, int file)
{
    return is_visit(a->call) ? file_in(paths_of(a), (size_t)file).len > 0 : room_for(a->call).out[0] > 0;
}

/* Whether the numbers of a result are such that there are, and past the last path of a visit 0, unless the whole is refused. */
static bool right_numbers(const struct asked *a, uint64_t result)
{
    bool right = true;
    for (int k = 0; k < most_files(a->call); k++) {
        uint32_t number = number_for(a->call, result, k);
        right = right && number < NUMBERS && (number == 0 || has_file(a, k) || result == number_for_all(a->call, number));
    }
    return right;
}

/* Whether an output that must have `least` bytes holds a file of so many, which is kept, and zeros. */
static bool keep_result(struct draft *result, size_t kept, const uint8_t *out, size_t len, size_t least)
{
    if (kept < 4 || kept > least || !zero_from(out, kept, len))
        return false;
    put_bytes(result, (struct span){out, kept});
    return true;
}

/* Whether the result says that there is a file. */
static bool is_due(const struct asked *a, uint64_t result, int file)
{
    return number_for(a->call, result, file) == 0 && has_file(a, file);
}

/* Each file in an output of its own, as long as its header says, or the count that goes with it; where none is due zeros alone. */
static bool keep_results(const struct asked *a, uint64_t result, const struct buffers *b)
{
    struct room least = room_for(a->call);
    bool right = true;
    for (int k = 0; k < most_files(a->call); k++) {
        const uint8_t *out = b->out[k];
        size_t len = b->room.out[k];
        if (!is_due(a, result, k))
            right = zero_from(out, 0, len) && right;
        else
            right = keep_result(&results[k], hands_count(a->call) ? 4 * (size_t)*b->word : mowqachi_file_bytes(out), out, len, least.out[k]) && right;
    }
    return right;
}

/* The files of all desks one behind another in one output, where mowqachi.h finds each of them, and then zeros. */
static bool keep_shared(const struct asked *a, uint64_t result, const struct buffers *b)
{
    const uint8_t *out = b->out[0];
    size_t least = room_for(a->call).out[0], at = 0;
    for (int k = 0; k < most_files(a->call); k++) {
        bool due = is_due(a, result, k);
        if (mowqachi_desk_reply(out, result, (unsigned)k) != (due ? out + at : NULL))
            return false;
        size_t kept = due ? mowqachi_file_bytes(out + at) : 0;
        if (kept > least - at)
            return false;
        put_bytes(&results[k], (struct span){out + at, kept});
        at += kept;
    }
    return zero_from(out, at, b->room.out[0]);
}

/* Whether the host's word is right: after a refusal a state as it was, a count or a yes 0; a yes is 1 at most. */
static bool right_word(const struct asked *a, uint64_t result, const struct buffers *b)
{
    if (!writes_word(a->call))
        return true;
    if (result == 0)
        return !says_yes(a->call) || *b->word <= 1;
    return *b->word == (a->call == GENERATE ? a->values[0] : 0);
}

static void check_left(const struct asked *a, uint64_t result, const struct buffers *b)
{
    bool right = right_numbers(a, result) && zero_from(b->work, 0, b->room.work) && right_word(a, result, b);
    for (int k = 0; k < FILES; k++)
        results[k].len = 0;
    if (!right || !(shares_output(a->call) ? keep_shared : keep_results)(a, result, b)) {
        printf("%s: wrong numbers, buffers or word after 0x%" PRIx64 "\n", call_names[a->call], result);
        exit(1);
    }
}

uint64_t call_with(const struct asked *a, struct room room)
{
    struct asked lent = *a;
    struct buffers b = {.work = lend(room.work, 0x5a), .room = room, .word = lend_word(a)};
    for (int k = 0; k < INPUTS; k++)
        lent.in[k] = lend_copy(a->in[k]);
    for (int k = 0; k < OUTPUTS; k++)
        b.out[k] = lend(room.out[k], 0xa5);
    uint64_t result = invoke(&lent, &b);
    check_left(a, result, &b);
    for (int k = 0; k < INPUTS; k++) {
        if (a->in[k].len > 0 && memcmp(lent.in[k].bytes, a->in[k].bytes, a->in[k].len) != 0)
            abort();
        give_back(lent.in[k].bytes);
    }
    for (int k = 0; k < most_files(a->call); k++)
        given[a->call] |= 1u << number_for(a->call, result, k);
    for (int k = 0; k < OUTPUTS; k++)
        give_back(b.out[k]);
    give_back(b.work);
    take_word(b.word);
    return result;
}

uint64_t call(const struct asked *a, struct span *found)
{
    uint64_t result = call_with(a, room_for(a->call));
    *found = result_of(0);
    return result;
}

bool leave_the_same(const struct asked *a, const struct asked *b)
{
    static struct draft first[FILES];
    struct room room = draw_room(a->call);
    uint64_t result = call_with(a, room);
    uint32_t word = left;
    for (int k = 0; k < FILES; k++) {
        first[k].len = 0;
        put_bytes(&first[k], result_of(k));
    }
    bool same = call_with(b, room) == result && left == word;
    for (int k = 0; k < FILES; k++)
        same = same && equal(&first[k], &results[k]);
    return same;
}
