#include "generator.h"

#include <stdlib.h>

/* The state wraps at 32 bits, as unsigned numbers do. */
static uint32_t draw_upper(uint32_t *state)
{
    *state = *state * 1664525u + 1013904223u;
    return *state >> 16;
}

/* The label is drawn ahead of the target, and stands above it in the word. */
static uint32_t draw_edge(uint32_t *state, uint32_t nodes)
{
    uint32_t label = draw_upper(state) % MOWQACHI_LABELS;
    return 0x30000000 + (label << 16) + draw_upper(state) % nodes;
}

static int compare_words(const void *a, const void *b)
{
    uint32_t x = *(const uint32_t *)a, y = *(const uint32_t *)b;
    return (x > y) - (x < y);
}

/* Draws a node's edges, and puts them in order, equal ones once. */
static void put_edges(struct draft *file, uint32_t *state, uint32_t nodes, uint32_t edges)
{
    uint32_t words[MOWQACHI_GENERATED_EDGES];
    for (uint32_t k = 0; k < edges; k++)
        words[k] = draw_edge(state, nodes);
    qsort(words, edges, sizeof *words, compare_words);
    for (uint32_t k = 0; k < edges; k++)
        if (k == 0 || words[k] != words[k - 1])
            put(file, words[k]);
}

void write_generated(struct draft *file, uint32_t *state, uint32_t nodes, uint32_t edges)
{
    file->len = 4;
    for (uint32_t x = 0; x < nodes; x++) {
        put(file, (x == 0 ? 0x20030000 : 0x20000000) + x);
        put_edges(file, state, nodes, edges);
    }
    end_file(file, 0, 0x10000000);
}

/* The words behind the headers come first: a header differs wherever the lengths do, and says less than the word where the two part. */
struct origin origin_of(struct span file, uint32_t state, uint32_t nodes, uint32_t edges)
{
    struct origin o = {.edges = edges, .left = state};
    write_generated(&o.written, &o.left, nodes, edges);
    struct span written = span_of(&o.written);
    size_t words = words_of(file), shorter = words < words_of(written) ? words : words_of(written);
    while (o.agree + 1 < shorter && word_at(file, o.agree + 1) == word_at(written, o.agree + 1))
        o.agree++;
    bool all = o.agree + 1 == words && words == words_of(written);
    o.same = all && word_at(file, 0) == word_at(written, 0);
    o.at = all ? 0 : o.agree + 1;
    return o;
}
