/* The hub alone, on random bundles of 1 to 16 files in any order, whose reach words name doors and other nodes: the call list has just the pairs
   of the inspector's set, and 14 is given where one of these names no door. Then lists about as long as they may be: 15 past the limit, unless 14
   is due.
   strays COUNT: so many bundles, and a fiftieth as many with a long list. */
#include <stdio.h>
#include <stdlib.h>
#include <string.h>

#include "calls.h"
#include "checks.h"
#include "drafts.h"

enum { MOST_PLACES = 1200, NO_FILE = MOWQACHI_SITES, MANY_EVERY = 16, LONG_EVERY = 50 };

/* Nodes that are a door of some file, or of none, and the place of the root among them. */
static struct place {
    uint32_t node, file;
} places[MOST_PLACES];
static uint32_t place_count, root, n;
static struct draft bundle;

static _Noreturn void fail(const char *what, uint32_t expected, uint32_t number)
{
    printf("%s: %u, not %u, for\n", what, (unsigned)number, (unsigned)expected);
    for (size_t i = 0; i < words_of(span_of(&bundle)); i++)
        printf("%08x\n", (unsigned)word_at(span_of(&bundle), i));
    exit(1);
}

static void put_row(uint32_t state)
{
    put(&bundle, 0x90000000 + state);
}

static void put_reach(uint32_t node, uint32_t state)
{
    put(&bundle, 0xa0000000 + 16 * node + state);
}

/* The places, so far apart from one another, each in one of the files. */
static void draw_places(uint32_t count, uint32_t apart, uint32_t files)
{
    uint32_t most = MOWQACHI_NODES - 1 - (count - 1) * apart, first = draw(4) == 0 ? draw(2) * most : draw(most);
    place_count = count;
    for (uint32_t k = 0; k < count; k++)
        places[k] = (struct place){first + k * apart, draw(files)};
}

static void put_bundle(uint32_t files, void (*put_rows)(uint32_t place))
{
    uint32_t sites[MOWQACHI_SITES];
    draw_order(sites, MOWQACHI_SITES);
    bundle.len = 0;
    for (uint32_t f = 0; f < files; f++) {
        size_t from = bundle.len;
        bundle.len += 4;
        for (uint32_t k = 0; k < place_count; k++)
            if (places[k].file == f) {
                put(&bundle, 0x80000000 + (k == root ? 0x10000 : 0) + places[k].node);
                put_rows(k);
            }
        end_file(&bundle, from, 0x70000000 + (sites[f] << 24) + (n << 20));
    }
}

/* How rare rows are, and reach words to no door. */
static uint32_t row_every, stray_every;

static void put_drawn_rows(uint32_t place)
{
    uint32_t pairs = place_count * (n + 1);
    for (uint32_t q = 0; q <= n; q++) {
        size_t before = bundle.len;
        if (draw(row_every) > 0 && !(place == root && q == 0))
            continue;
        put_row(q);
        for (uint32_t c = draw(pairs); c < pairs; c += 1 + draw(1 + pairs / 2))
            if (places[c / (n + 1)].file != NO_FILE || draw(stray_every) == 0)
                put_reach(places[c / (n + 1)].node, c % (n + 1));
        if (bundle.len == before + 4)
            bundle.len = before;
    }
}

/* A quarter of the places are no doors. */
static void put_drawn_bundle(uint32_t files)
{
    root = draw(place_count);
    for (uint32_t k = 0; k < place_count; k++)
        if (k != root && draw(4) == 0)
            places[k].file = NO_FILE;
    put_bundle(files, put_drawn_rows);
}

/* Few places in many states. */
static void draw_bundle(void)
{
    static const uint32_t apart[] = {1, 2, 15, 16, 17, 1000};
    uint32_t files = 1 + draw(MOWQACHI_SITES);
    n = draw(MOWQACHI_STATES);
    row_every = 1 + draw(4);
    stray_every = 1 + draw(80);
    draw_places(2 + draw(30), apart[draw(sizeof apart / sizeof *apart)], files);
    put_drawn_bundle(files);
}

/* Many places in two states. */
static void draw_many(void)
{
    uint32_t files = 2 + draw(MOWQACHI_SITES - 1);
    n = 1;
    row_every = 2;
    stray_every = 1 + draw(2000);
    draw_places(MOST_PLACES - draw(1000), 1 + draw(50), files);
    put_drawn_bundle(files);
}

/* In a long list: so many pairs behind the root's; and a reach word to no door in a row that is followed, in one that is not, or nowhere. */
enum stray { NOWHERE, UNFOLLOWED, FOLLOWED, STRAYS };
static uint32_t long_pairs, stray_place;
static enum stray stray;

/* Pairs of the places behind the root, all states of one after another. */
static void put_reaches(uint32_t from, uint32_t to)
{
    for (uint32_t c = from; c < to; c++)
        put_reach(places[1 + c / 16].node, c % 16);
}

/* The root's row reaches half of the pairs, that of the place behind it the others, and a stray at one of these is met when all are in. The node
   behind a door is none. */
static void put_long_rows(uint32_t place)
{
    if (place <= 1) {
        put_row(0);
        put_reaches(place == 0 ? 0 : 2048, place == 0 ? 2048 : long_pairs);
    }
    if (place == (stray == UNFOLLOWED ? 0 : stray_place) && stray != NOWHERE) {
        put_row(1 + draw(15));
        put_reach(places[stray_place].node + 1, draw(16));
    }
}

static void draw_long_bundle(void)
{
    uint32_t files = 2 + draw(MOWQACHI_SITES - 1);
    n = MOWQACHI_STATES - 1;
    draw_places(258, 2 + draw(200), files);
    root = 0;
    places[0].file = draw(files);
    places[1].file = (places[0].file + 1) % files;
    long_pairs = MOWQACHI_CALLS_WORDS - 6 + draw(8);
    stray = draw(STRAYS);
    stray_place = 1 + draw(255);
    put_bundle(files, put_long_rows);
}

/* The call list by the inspector's set, however long. */
static struct draft list_of(const struct calls *calls)
{
    struct draft d = {.len = 4};
    for (uint32_t x = 0; x < MOWQACHI_NODES; x++)
        for (uint32_t q = 0; calls->states[x] >> q > 0; q++)
            if (calls->states[x] >> q & 1)
                put(&d, 0xc0000000 + 16 * x + q);
    end_file(&d, 0, 0xb0000000 + (n << 20));
    return d;
}

static bool has_stray(const struct calls *calls)
{
    for (size_t i = 0; i < words_of(span_of(&bundle)); i++)
        if (is_stray(word_at(span_of(&bundle), i), calls))
            return true;
    return false;
}

/* How often each number was given, and 0 with a reach word to no door. */
static long given[NUMBERS], unfollowed;

/* The number of the bundle's call. */
static uint32_t check(void)
{
    static struct calls calls;
    struct asked asked = {CALL_LIST, {span_of(&bundle)}, {0}};
    struct span found;
    find_calls(span_of(&bundle), &calls);
    struct draft expected = list_of(&calls);
    uint32_t number = check_bundle(span_of(&bundle), FIRST).number;
    if (number == 0 && words_of(span_of(&expected)) > MOWQACHI_CALLS_WORDS)
        number = MOWQACHI_RESULT;
    if (call(&asked, &found) != number)
        fail("number", number, call(&asked, &found));
    if (number == 0 && (found.len != expected.len || memcmp(found.bytes, expected.bytes, found.len) != 0))
        fail("words of another list", (uint32_t)words_of(span_of(&expected)), (uint32_t)words_of(found));
    given[number]++;
    unfollowed += number == 0 && has_stray(&calls);
    return number;
}

static void check_long(void)
{
    uint32_t expected = stray == FOLLOWED ? MOWQACHI_DOOR : long_pairs + 2 > MOWQACHI_CALLS_WORDS ? MOWQACHI_RESULT : 0, number = check();
    if (number != expected)
        fail("number of a long list", expected, number);
}

int main(int argc, char **argv)
{
    long count = argc > 1 ? atol(argv[1]) : 0;
    for (long r = 0; r < count; r++) {
        if (r % MANY_EVERY == 0)
            draw_many();
        else
            draw_bundle();
        check();
        if (r % LONG_EVERY == 0) {
            draw_long_bundle();
            check_long();
        }
    }
    printf("strays: %ld bundles, and some with a long list: %ld times 14, %ld times 15; %ld accepted, %ld of these with a reach word to no door\n", count,
           given[MOWQACHI_DOOR], given[MOWQACHI_RESULT], given[0], unfollowed);
    return 0;
}
