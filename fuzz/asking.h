/* One call of the library, made in every way of lending and looked at. */
#ifndef ASKING_H
#define ASKING_H

#include "lent.h"
#include "tally.h"
#include "../include/chinebright.h"

struct question {
    enum call call;
    size_t first, second; /* t and u of `preempts`; kind and n of `step` */
    const uint8_t *state; /* of `step`; what the buffer holds before the call */
};

/* The answer to the question about the table that is lent, with `room` bytes
 * of buffer. Ends the run where the ways differ, where anything lent is
 * touched that should not be, or where the answer is none of the rule sheet's. */
uint64_t ask(const struct question *question, size_t room);

/* How many bytes of the buffer belong to an answer. */
size_t bytes_of(enum call call, uint64_t answer);

/* The buffer after the last call. */
const uint8_t *answered(void);

/* Ends the run unless the answer is this one. */
void expect(const char *what, uint64_t answer, uint32_t number, uint32_t value);

#endif
