#include "plants.h"

#include <stdio.h>
#include <stdlib.h>

enum { FURTHER = 2 };   /* targets of a part that are no nodes of it */

const struct span none = {NULL, 0};
struct draft plant, groups, path;
uint32_t root;
struct nodes stopped;

static void print_draft(const char *name, const struct draft *d)
{
    printf("%s:", name);
    for (size_t i = 0; i < words_of(span_of(d)); i++)
        printf(" %08x", (unsigned)word_at(span_of(d), i));
    printf("\n");
}

_Noreturn void fail(const char *what)
{
    printf("%s\n", what);
    print_draft("part", &plant);
    if (groups.len > 0)
        print_draft("groups", &groups);
    print_draft("path", &path);
    exit(1);
}

void must_be(const char *what, struct draft expected, struct draft got)
{
    if (equal(&expected, &got))
        return;
    print_draft("expected", &expected);
    print_draft("written", &got);
    fail(what);
}

/* Appends what a call writes. */
static void append(struct draft *to, struct asked asked)
{
    struct span found;
    if (call(&asked, &found) != MOWQACHI_ACCEPTED)
        fail(call_names[asked.call]);
    put_bytes(to, found);
}

struct draft written(enum call name, const struct draft *x, struct span y, struct span z)
{
    struct draft d = {.len = 0};
    append(&d, (struct asked){name, {span_of(x), y, z}, {0}});
    return d;
}

void draw_plant(bool whole, const uint32_t *labels, uint32_t count)
{
    uint32_t nodes = 1 + draw(MOST_NODES), targets = nodes + (whole ? 0 : FURTHER);
    root = draw(nodes + (whole ? 0 : 1));
    stopped = (struct nodes){{0}};
    plant.len = 4;
    for (uint32_t x = 0; x < nodes; x++) {
        bool stop = draw(3) == 0;
        put(&plant, 0x20000000 + (stop ? STOPPED_BIT : 0) + (x == root ? ROOT_BIT + DOOR_BIT : draw(2) * DOOR_BIT) + x);
        if (stop)
            add_node(&stopped, x);
        for (uint32_t link = 0; link < count * targets; link++)
            if (draw(2 * count) == 0)
                put(&plant, 0x30000000 + (labels[link / targets] << 16) + link % targets);
    }
    end_file(&plant, 0, 0x10000000);
}

void start_all(void)
{
    stopped = (struct nodes){{0}};
    for (size_t i = 1; i < words_of(span_of(&plant)); i++)
        if (kind_of(word_at(span_of(&plant), i)) == NODE)
            plant.bytes[4 * i + 2] &= (uint8_t)~(STOPPED_BIT >> 16);
}

struct span draw_cuts(uint32_t sites)
{
    static uint8_t cuts[MOST_NODES];
    size_t nodes = 0;
    for (size_t i = 1; i < words_of(span_of(&plant)); i++)
        if (kind_of(word_at(span_of(&plant), i)) == NODE)
            cuts[nodes++] = (uint8_t)draw(sites);
    return (struct span){cuts, nodes};
}

uint32_t header_of(const struct draft *file)
{
    return word_at(span_of(file), 0) & 0xffffc000u;
}

struct draft without(const struct draft *file, const struct nodes *these, bool left)
{
    struct draft d = {.len = 4};
    bool out = false;
    for (size_t i = 1; i < words_of(span_of(file)); i++) {
        uint32_t w = word_at(span_of(file), i);
        bool named = has_node(these, node_of(w));
        out = kind_of(w) == NODE ? named : out;
        if (!out && (left || !named))
            put(&d, w);
    }
    end_file(&d, 0, header_of(file));
    return d;
}

void cut_up(const struct draft *whole, struct span cuts, struct draft *parts, uint32_t sites)
{
    for (uint32_t s = 0; s < sites; s++) {
        parts[s].len = 0;
        append(&parts[s], (struct asked){CUT, {span_of(whole), cuts}, {s}});
    }
}

uint32_t range(uint32_t low, uint32_t high)
{
    return 0x50000000 + (high << 12) + low;
}

uint32_t draw_range(const uint32_t *labels, uint32_t count)
{
    uint32_t low = draw(count), high = low + draw(count - low);
    return range(labels[low], labels[high]);
}

void draw_groups(const uint32_t *labels, uint32_t count)
{
    groups.len = 0;
    for (int g = 0; g < MOWQACHI_GROUP_COUNT; g++)
        put(&groups, draw_range(labels, count));
}

void end_path(struct draft *d)
{
    uint32_t n = 0;
    for (size_t i = 1; i < words_of(span_of(d)); i++)
        n += kind_of(word_at(span_of(d), i)) == LABEL;
    end_file(d, 0, 0x40000000 + (n << 20));
}

void draw_path(uint32_t most, uint32_t (*letter)(void))
{
    uint32_t letters = 1 + draw(most), waiting = 0;
    path.len = 4;
    while (letters > 0 || waiting > 1) {
        if (letters > 0 && (waiting < 2 || draw(2) == 0)) {
            put(&path, letter());
            letters--;
            waiting++;
        } else {
            put(&path, draw(2) == 0 ? THEN : OR);
            waiting--;
        }
        if (draw(4) == 0)
            put(&path, STAR);
    }
    end_path(&path);
}

struct draft draw_calls(void)
{
    struct draft d = {.len = 4};
    uint32_t n = n_of(word_at(span_of(&path), 0));
    for (size_t i = 1; i < words_of(span_of(&plant)); i++) {
        uint32_t w = word_at(span_of(&plant), i);
        for (uint32_t q = 0; kind_of(w) == NODE && door_bit(w) && q <= n; q++)
            if (draw(2) == 0)
                put(&d, 0xc0000000 + 16 * node_of(w) + q);
    }
    end_file(&d, 0, 0xb0000000 + (n << 20));
    return d;
}

struct draft replies(const struct question *q, enum call trip, struct span calls)
{
    struct draft bundle = {.len = 0};
    uint32_t order[MOWQACHI_SITES];
    draw_order(order, q->sites);
    for (uint32_t k = 0; k < q->sites; k++) {
        struct asked plain = {trip, {span_of(&q->parts[order[k]]), q->path, calls}, {0}};
        append(&bundle, q->groups.len > 0 ? with_groups(&plain, q->groups) : plain);
    }
    return bundle;
}

struct draft joined(const struct question *q)
{
    struct draft firsts = replies(q, FIRST_REPLY, none);
    struct draft calls = written(CALL_LIST, &firsts, none, none);
    struct draft seconds = replies(q, SECOND_REPLY, span_of(&calls));
    return written(JOIN, &seconds, none, none);
}
