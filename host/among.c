#include "among.h"

#include <string.h>

#include "drafts.h"

/* The inputs; the buffers, the last of them the working buffer; then the host's word between two others. */
enum { OUT = INPUTS, WORK = OUT + OUTPUTS, WORDS, PLACES, MOST_APART = 9, STRETCH = 1 << 18, WORD = sizeof(uint32_t) };

/* Where each begins, and how many bytes there are in all. The three words are aligned. */
static size_t lay_out(const struct asked *asked, const struct room *room, size_t *starts)
{
    size_t lens[PLACES] = {[WORK] = room->work, [WORDS] = 3 * WORD}, end = 0;
    uint32_t order[PLACES];
    for (int k = 0; k < INPUTS; k++)
        lens[k] = asked->in[k].len;
    for (int k = 0; k < OUTPUTS; k++)
        lens[OUT + k] = room->out[k];
    draw_order(order, PLACES);
    for (int k = 0; k < PLACES; k++) {
        end += 1 + draw(MOST_APART);
        if (order[k] == WORDS)
            end += (WORD - end % WORD) % WORD;
        starts[order[k]] = end;
        end += lens[order[k]];
    }
    return end + MOST_APART;
}

/* What everything but the inputs holds before a call: no zeros. */
static const uint8_t *used_bytes(void)
{
    static uint8_t used[STRETCH];
    for (size_t i = 0; i < STRETCH && used[STRETCH - 1] == 0; i++)
        used[i] = (uint8_t)(1 + i % 255);
    return used;
}

/* The call with its inputs among these bytes. */
static struct asked put_inputs(uint8_t *bytes, const size_t *starts, const struct asked *asked)
{
    struct asked put = *asked;
    for (int k = 0; k < INPUTS; k++) {
        put.in[k].bytes = bytes + starts[k];
        if (asked->in[k].len > 0)
            memcpy(bytes + starts[k], asked->in[k].bytes, asked->in[k].len);
    }
    return put;
}

/* What the buffers hold after it. */
static void expect(uint8_t *bytes, const struct room *room, const size_t *starts, const struct due *due)
{
    memset(bytes + starts[WORK], 0, room->work);
    for (int k = 0; k < OUTPUTS; k++) {
        memset(bytes + starts[OUT + k], 0, room->out[k]);
        if (due->files[k].len > 0)
            memcpy(bytes + starts[OUT + k], due->files[k].bytes, due->files[k].len);
    }
}

const char *check_among(const struct asked *asked, struct room room, const struct due *due)
{
    static uint32_t stretch[STRETCH / WORD], expected[STRETCH / WORD];
    uint8_t *bytes = (uint8_t *)stretch;
    size_t starts[PLACES], end = lay_out(asked, &room, starts), word = starts[WORDS] / WORD + 1;
    memcpy(stretch, used_bytes(), end);
    struct asked among = put_inputs(bytes, starts, asked);
    memcpy(expected, stretch, end);
    expect((uint8_t *)expected, &room, starts, due);
    if (writes_word(asked->call)) {
        stretch[word] = asked->values[0];
        expected[word] = due->word;
    }
    struct buffers buffers = {.work = bytes + starts[WORK], .room = room, .word = &stretch[word]};
    for (int k = 0; k < OUTPUTS; k++)
        buffers.out[k] = bytes + starts[OUT + k];
    if (invoke(&among, &buffers) != due->result)
        return "another number";
    if (stretch[word] != expected[word])
        return "another word of the host's";
    return memcmp(stretch, expected, end) == 0 ? NULL : "other bytes";
}
