#include "automaton.h"

/* The states that may begin a word of an operand, those that may end one, and whether it has the empty word. */
struct operand {
    unsigned first, last;
    bool empty;
};

static void follow(struct automaton *a, unsigned from, unsigned to)
{
    for (unsigned q = 0; q < MOWQACHI_STATES; q++)
        if (from >> q & 1)
            a->next[q] |= (uint16_t)to;
}

static struct operand letter(struct automaton *a, uint32_t w, struct span groups)
{
    unsigned state = ++a->n;
    a->letters[state] = loaded(w, groups);
    return (struct operand){1u << state, 1u << state, false};
}

static struct operand then(struct automaton *a, struct operand x, struct operand y)
{
    follow(a, x.last, y.first);
    return (struct operand){x.first | (x.empty ? y.first : 0), y.last | (y.empty ? x.last : 0), x.empty && y.empty};
}

static struct operand either(struct operand x, struct operand y)
{
    return (struct operand){x.first | y.first, x.last | y.last, x.empty || y.empty};
}

static struct operand star(struct automaton *a, struct operand x)
{
    follow(a, x.last, x.first);
    return (struct operand){x.first, x.last, true};
}

struct automaton automaton_of(struct span path, struct span groups)
{
    struct automaton a = {.n = 0};
    struct operand waiting[MOWQACHI_WAITING], *top = waiting;
    for (size_t i = 1; i < words_of(path); i++) {
        uint32_t w = word_at(path, i);
        top -= operands_of(w);
        switch (w) {
        case EMPTY_WORD: *top = (struct operand){0, 0, true}; break;
        case THEN: *top = then(&a, top[0], top[1]); break;
        case OR: *top = either(top[0], top[1]); break;
        case STAR: *top = star(&a, top[0]); break;
        default: *top = letter(&a, w, groups); break;
        }
        top++;
    }
    a.next[0] = (uint16_t)waiting[0].first;
    a.accepting = waiting[0].last | waiting[0].empty;
    return a;
}

unsigned holding(const struct automaton *a, unsigned label)
{
    unsigned states = 0;
    for (unsigned p = 1; p <= a->n; p++)
        states |= (unsigned)holds(a->letters[p], label) << p;
    return states;
}

unsigned stepped(const struct automaton *a, unsigned states, unsigned label)
{
    unsigned to = 0;
    for (unsigned q = 0; q < MOWQACHI_STATES; q++)
        to |= states >> q & 1 ? a->next[q] : 0u;
    return to & holding(a, label);
}
