#include "drafts.h"

#include <string.h>

uint32_t draw(uint32_t below)
{
    static uint32_t state = 2463534242u;
    state ^= state << 13;
    state ^= state >> 17;
    state ^= state << 5;
    return state % below;
}

void draw_order(uint32_t *order, uint32_t count)
{
    for (uint32_t k = 0; k < count; k++) {
        uint32_t place = draw(k + 1);
        order[k] = k;
        uint32_t other = order[place];
        order[place] = k;
        order[k] = other;
    }
}

size_t draw_length(size_t least)
{
    switch (draw(16)) {
    case 0: return draw((uint32_t)least);
    case 1: return least - 1;
    case 2: return least + 1 + draw(1000);
    default: return least;
    }
}

void put(struct draft *d, uint32_t w)
{
    for (int k = 0; k < 4; k++)
        d->bytes[d->len++] = (uint8_t)(w >> 8 * k);
}

void put_bytes(struct draft *d, struct span s)
{
    if (s.len > 0)
        memcpy(d->bytes + d->len, s.bytes, s.len);
    d->len += s.len;
}

void end_file(struct draft *d, size_t from, uint32_t header)
{
    size_t end = d->len;
    d->len = from;
    put(d, header + (uint32_t)(end - from) / 4);
    d->len = end;
}

void fill_ring(struct draft *whole, uint32_t nodes)
{
    whole->len = 4;
    for (uint32_t x = 0; x < nodes; x++) {
        put(whole, (x == 0 ? 0x20030000 : 0x20000000) + x);
        put(whole, 0x30000000 + (x + 1) % nodes);
    }
    end_file(whole, 0, 0x10000000);
}

/* So many times 0, each then right behind its second operand. */
static void put_zeros(struct draft *path, uint32_t count)
{
    for (uint32_t k = 0; k < count; k++) {
        put(path, 0x50000000);
        if (k > 0)
            put(path, THEN);
    }
}

void fill_turns(struct draft *path, uint32_t ahead, uint32_t turn)
{
    path->len = 4;
    put_zeros(path, ahead);
    put_zeros(path, turn);
    put(path, STAR);
    if (ahead > 0)
        put(path, THEN);
    end_file(path, 0, 0x40000000 + ((ahead + turn) << 20));
}

struct span span_of(const struct draft *d)
{
    return (struct span){d->bytes, d->len};
}

bool equal(const struct draft *a, const struct draft *b)
{
    return a->len == b->len && memcmp(a->bytes, b->bytes, a->len) == 0;
}
