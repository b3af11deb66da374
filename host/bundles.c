#include "bundles.h"

#include <stdio.h>

#include "checks.h"

enum { MOST_LETTERS = 6, PATH_HEADER = 0x40000000 };

static const uint32_t labels[] = {0, 300, 4095};
enum { LABELS = sizeof labels / sizeof *labels };

struct draft paths;

_Noreturn void fail_with_bundle(const char *what)
{
    path = paths;
    fail(what);
}

struct asked asked_without_groups(enum call call)
{
    return (struct asked){call, {span_of(&plant), span_of(&paths)}, {0}};
}

struct asked alone(const struct asked *visit, size_t k)
{
    struct asked plain = {FIRST_REPLY, {visit->in[0], file_in(paths_of(visit), k)}, {0}};
    return reads_path(visit->call) ? plain : with_groups(&plain, visit->in[1]);
}

uint32_t whole_number(const struct asked *visit, const struct room *room)
{
    if (too_short(visit->call, room))
        return MOWQACHI_BUFFER;
    return check_visit(visit->in[0], groups_of(visit), paths_of(visit), most_paths(visit->call)).number;
}

void must_give(const struct tested *t, uint64_t result)
{
    struct asked plain = asked_without_groups(t->call), ours = with_groups(&plain, our_groups);
    if (t->check(&plain, room_for(plain.call)) != result || t->check(&ours, room_for(ours.call)) != result)
        fail_with_bundle("another result than is due");
}

static void must_not_split(const struct tested *t)
{
    must_give(t, number_for_all(t->call, MOWQACHI_PATHS));
}

uint32_t put_path(uint32_t length, uint32_t words)
{
    put(&paths, PATH_HEADER + length);
    for (uint32_t i = 1; i < words; i++)
        put(&paths, i == 1 ? EMPTY_WORD : STAR);
    return words == 1 ? MOWQACHI_OPERAND : words > MOWQACHI_PATH_WORDS ? MOWQACHI_SIZE : 0;
}

/* So many paths of two words; the header of the one at `place` has this length. */
static void put_paths(size_t count, size_t place, uint32_t length)
{
    paths.len = 0;
    for (size_t k = 0; k < count; k++)
        put_path(k == place ? length : 2, 2);
}

/* 17 by the number of paths, by a length of 0 at each place, by one that leads a word past the end, and by bytes that are not in fours. */
static void check_lengths(const struct tested *t, size_t count)
{
    bool taken = count > 0 && count <= most_paths(t->call);
    put_paths(count, count, 0);
    must_give(t, taken ? 0 : number_for_all(t->call, MOWQACHI_PATHS));
    for (size_t place = 0; place < count; place++) {
        put_paths(count, place, 0);
        must_not_split(t);
    }
    put_paths(count, count - 1, 3);
    must_not_split(t);
    for (uint32_t bytes = 1; bytes < 4; bytes++) {
        put_paths(count, count, 0);
        paths.len += bytes;
        must_not_split(t);
        paths.len -= paths.len > 4 ? 4 : 0;
        must_not_split(t);
    }
}

/* A lone word with a length of 0 ahead of each of the paths, and behind them. */
static void check_zero_words(const struct tested *t)
{
    for (size_t count = 0; count < most_paths(t->call); count++)
        for (size_t place = 0; place <= count; place++) {
            paths.len = 0;
            for (size_t k = 0; k <= count; k++)
                put_path(k == place ? 0 : 2, k == place ? 1 : 2);
            must_not_split(t);
        }
}

/* 17 by the words of all files, and 2 by those of one. What has more files than a call takes is left to the others. */
static void check_sizes(const struct tested *t)
{
    static const uint32_t sizes[][MOWQACHI_DESKS] = {
        {1}, {2}, {63}, {64}, {65}, {4096}, {4097}, {8191}, {8192}, {8193}, {8190, 2}, {8191, 2}, {2, 8190}, {2, 8191}, {8192, 1}, {64, 64, 64, 64},
        {64, 65, 64, 1}, {1, 1, 1, 1}, {2048, 2048, 2048, 2048}, {2048, 2048, 2048, 2049}, {64, 64, 64, 8000}, {64, 64, 64, 8001}, {4096, 4097, 2},
        {8000, 64, 64, 64}, {8001, 64, 64, 64}, {64, 8000, 64, 64}, {64, 64, 8001, 64}, {64, 64, 64, 64, 64, 64, 64, 64}, {1, 1, 1, 1, 1, 1, 1, 1},
        {1024, 1024, 1024, 1024, 1024, 1024, 1024, 1024}, {1024, 1024, 1024, 1024, 1024, 1024, 1024, 1025}, {64, 64, 64, 64, 64, 64, 64, 7744},
        {64, 64, 64, 64, 64, 64, 64, 7745}, {7744, 64, 64, 64, 64, 64, 64, 64}, {64, 65, 64, 65, 64, 2, 1, 2}};
    for (size_t i = 0; i < sizeof sizes / sizeof *sizes; i++) {
        uint64_t result = 0;
        paths.len = 0;
        for (size_t k = 0; k < MOWQACHI_DESKS && sizes[i][k] > 0; k++)
            result |= (uint64_t)put_path(sizes[i][k], sizes[i][k]) << 8 * k;
        if (file_in(span_of(&paths), most_paths(t->call)).len > 0)
            continue;
        must_give(t, paths.len > 4 * MOWQACHI_BUNDLE_WORDS ? number_for_all(t->call, MOWQACHI_PATHS) : result);
        paths.len += 1;
        must_not_split(t);
    }
}

/* Only the length of a header is looked at: whatever its other bits are, the path has its own 3, at each place. */
static void check_headers(const struct tested *t)
{
    for (size_t place = 0; place < most_paths(t->call); place++)
        for (uint32_t bit = 14; bit < 32; bit++) {
            bool counts_labels = bit >= 20 && bit < 24;
            put_paths(most_paths(t->call), place, 2);
            paths.bytes[8 * place + bit / 8] ^= (uint8_t)(1u << bit % 8);
            must_give(t, (uint64_t)(counts_labels ? MOWQACHI_OPERAND : MOWQACHI_HEADER) << 8 * place);
        }
}

/* A length that is one too small: the last word of its path begins a file of its own. A then, 60000001, has length 1; an empty word has 0. */
static void check_short_length(const struct tested *t)
{
    static const uint32_t words[] = {0x40200003, 0x50005005, 0x50006006, THEN};
    for (size_t ahead = 0; ahead < most_paths(t->call); ahead++) {
        put_paths(ahead, ahead, 0);
        for (size_t i = 0; i < sizeof words / sizeof *words; i++)
            put(&paths, words[i]);
        if (ahead + 1 == most_paths(t->call))
            must_not_split(t);
        else
            must_give(t, (uint64_t)(MOWQACHI_OPERAND + (MOWQACHI_HEADER << 8)) << 8 * ahead);
        put_paths(ahead + 1, ahead, 1);
        must_not_split(t);
    }
}

/* Inputs with what is due of them, and their words. */
struct choice {
    uint32_t number;
    size_t count;
    uint32_t words[MOWQACHI_GROUP_COUNT];
};
static const struct choice some_parts[] = {
    {0, 3, {0x10000003, 0x20010001, 0x30050002}}, {2, 0, {0}}, {3, 1, {0x10100001}}, {4, 1, {0x10000002}}, {5, 2, {0x10000002, 0x30050002}},
    {6, 3, {0x10000003, 0x20000002, 0x20000002}}, {7, 2, {0x10000002, 0x20020001}}},
  some_groups[] = {{0, 8, {0x50005005, 0x50006006, 0x50007007, 0x50008008, 0x50009009, 0x5000a00a, 0x5000b00b, 0x50fff000}},
                   {16, 7, {0x50005005, 0x50006006, 0x50007007, 0x50008008, 0x50009009, 0x5000a00a, 0x5000b00b}}},
  some_bundles[] = {{0, 2, {0x40000002, EMPTY_WORD}}, {17, 0, {0}}, {17, 1, {0x40000000}}, {9, 2, {0x40000002, STAR}}};
enum { PARTS = sizeof some_parts / sizeof *some_parts, BUNDLES = sizeof some_bundles / sizeof *some_bundles };

static void choose(struct draft *d, const struct choice *c)
{
    d->len = 0;
    for (size_t i = 0; i < c->count; i++)
        put(d, c->words[i]);
}

void check_splits(const struct tested *t)
{
    choose(&plant, &some_parts[0]);
    for (size_t count = 0; count <= most_paths(t->call) + 1; count++)
        check_lengths(t, count);
    check_zero_words(t);
    check_sizes(t);
    check_headers(t);
    check_short_length(t);
}

/* The inputs that were chosen: the first number of these that is not 0 refuses the whole, but 9 only its path. 1 comes ahead of all, whichever buffer
   is a byte too short. */
static void check_order(const struct tested *t, const struct asked *visit, uint32_t part, uint32_t own, uint32_t bundle)
{
    uint32_t number = part != 0 ? part : own != 0 ? own : bundle;
    struct room least = room_for(visit->call);
    if (t->check(visit, least) != (number == MOWQACHI_OPERAND ? number : number_for_all(visit->call, number)))
        fail_with_bundle("another order of checks");
    for (int k = 0; k <= OUTPUTS; k++) {
        struct room room = least;
        size_t *bytes = k < OUTPUTS ? &room.out[k] : &room.work;
        if (*bytes == 0)
            continue;
        (*bytes)--;
        if (t->check(visit, room) != number_for_all(visit->call, MOWQACHI_BUFFER))
            fail_with_bundle("a short buffer unnoticed");
    }
}

void check_orders(const struct tested *t)
{
    for (int p = 0; p < PARTS; p++)
        for (int b = 0; b < BUNDLES; b++) {
            choose(&plant, &some_parts[p]);
            choose(&paths, &some_bundles[b]);
            struct asked plain = asked_without_groups(t->call);
            check_order(t, &plain, some_parts[p].number, 0, some_bundles[b].number);
            for (int g = 0; g < 2; g++) {
                choose(&groups, &some_groups[g]);
                struct asked grouped = with_groups(&plain, span_of(&groups));
                check_order(t, &grouped, some_parts[p].number, some_groups[g].number, some_bundles[b].number);
            }
        }
}

static uint32_t draw_letter(void)
{
    return draw(4) == 0 ? 0x51000000 + draw(MOWQACHI_GROUP_COUNT) : draw_range(labels, LABELS) + draw(2) * (OUTSIDE << 24);
}

static void turn_bit(struct draft *d, uint32_t from_bit, uint32_t to_bit)
{
    uint32_t at = from_bit + draw(to_bit - from_bit);
    d->bytes[at / 8] ^= (uint8_t)(1u << at % 8);
}

/* Another header, a bit turned, many stars, or a length that is wrong. */
static void damage_path(void)
{
    uint32_t words = (uint32_t)words_of(span_of(&path));
    switch (draw(8)) {
    case 0: turn_bit(&path, 0, 14); break;
    case 1: path.bytes[0] = (uint8_t)(words + draw(3) - 1); break;
    case 2: turn_bit(&path, 14, 32); break;
    case 3:
        while (path.len < 4 * MOWQACHI_PATH_WORDS - 4 + 4 * draw(3))
            put(&path, STAR);
        end_path(&path);
        break;
    default: turn_bit(&path, 32, 32 * words); break;
    }
}

static void draw_bundle(uint32_t most)
{
    paths.len = 0;
    for (uint32_t k = draw(16) == 0 ? draw(most + 3) : 1 + draw(most); k > 0; k--) {
        draw_path(MOST_LETTERS, draw_letter);
        if (draw(4) == 0)
            damage_path();
        put_bytes(&paths, span_of(&path));
    }
    if (draw(32) == 0 && paths.len > 8)
        paths.len -= 1 + draw(8);
}

void check_both(const struct tested *t)
{
    struct asked plain = asked_without_groups(t->call), grouped = with_groups(&plain, span_of(&groups));
    struct room room = draw(2) == 0 ? room_for(plain.call) : draw_room(plain.call);
    t->check(&plain, room);
    t->check(&grouped, room);
}

void check_drawn(const struct tested *t)
{
    draw_plant(false, labels, LABELS);
    draw_groups(labels, LABELS);
    if (draw(16) == 0)
        turn_bit(&plant, 0, 8 * (uint32_t)plant.len);
    if (draw(16) == 0)
        turn_bit(&groups, 0, 8 * (uint32_t)groups.len);
    draw_bundle((uint32_t)most_paths(t->call));
    check_both(t);
}

unsigned print_counts(const char *name, const long *counts)
{
    unsigned met = 0;
    printf("%s", name);
    for (int number = 0; number < NUMBERS; number++)
        if (counts[number] > 0) {
            printf(" %d: %ld", number, counts[number]);
            met |= 1u << number;
        }
    return met;
}
