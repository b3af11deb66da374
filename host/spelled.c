#include "spelled.h"

#include <string.h>

#include "checks.h"

/* A walk and the path that reads it. A place is how many links are read; there are fewer places than nodes, so a set of them is a set of such. */
struct reading {
    struct span walk, groups, path;
};

static struct nodes either(struct nodes a, const struct nodes *b)
{
    for (size_t k = 0; k < sizeof a.bits; k++)
        a.bits[k] |= b->bits[k];
    return a;
}

/* One link on, from each of these places where the letter holds its label. */
static struct nodes read_letter(const struct reading *r, uint32_t letter, const struct nodes *from)
{
    struct nodes to = {{0}};
    for (unsigned place = 0; place + 1 < words_of(r->walk); place++)
        if (has_node(from, place) && holds(letter, label_of(word_at(r->walk, place + 1))))
            add_node(&to, place + 1);
    return to;
}

static struct nodes read_operand(const struct reading *r, size_t i, const struct nodes *from);

/* Any number of words of the operand that ends at word i. */
static struct nodes read_star(const struct reading *r, size_t i, struct nodes from)
{
    struct nodes before, more;
    do {
        before = from;
        more = read_operand(r, i, &from);
        from = either(from, &more);
    } while (memcmp(&before, &from, sizeof from) != 0);
    return from;
}

/* The places to which a word of the operand that ends at word i leads from one of these. */
static struct nodes read_operand(const struct reading *r, size_t i, const struct nodes *from)
{
    uint32_t w = word_at(r->path, i);
    size_t left = operands_of(w) == 2 ? i - 1 - operand_words(r->path, i - 1) : 0;
    struct nodes to;
    switch (w) {
    case EMPTY_WORD: return *from;
    case THEN:
        to = read_operand(r, left, from);
        return read_operand(r, i - 1, &to);
    case OR:
        to = read_operand(r, left, from);
        return either(read_operand(r, i - 1, from), &to);
    case STAR: return read_star(r, i - 1, *from);
    default: return read_letter(r, loaded(w, r->groups), from);
    }
}

bool spells(struct span walk, struct span groups, struct span path)
{
    struct nodes from = {{1}}, to = read_operand(&(struct reading){walk, groups, path}, words_of(path) - 1, &from);
    return has_node(&to, (unsigned)words_of(walk) - 1);
}

bool leads_to(uint32_t node, struct span whole, struct span groups, struct span path, struct span walk)
{
    return check_walk(whole, walk).number == 0 && end_of(whole, walk) == node && spells(walk, groups, path);
}
