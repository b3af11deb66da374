/* Calls whose buffers lie among other bytes. */
#ifndef AMONG_H
#define AMONG_H

#include "calls.h"

/* What a call is due to give and to leave: its result, what each output begins with, a file or several ones, and the host's word, if it writes
   one. */
struct due {
    uint64_t result;
    struct span files[OUTPUTS];
    uint32_t word;
};

/* Makes a call in buffers of these lengths. They and its inputs lie some bytes apart, in an order that is drawn, and a state, count or yes has a word
   ahead of it and one behind it. Of all these bytes just the outputs, the working buffer and that word may change. What is not as due; NULL where
   all is. */
const char *check_among(const struct asked *asked, struct room room, const struct due *due);

#endif
