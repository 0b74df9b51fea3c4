/*
 * Memory to lend to the library, in three ways that each show a byte read or
 * written outside of it. The library itself is not instrumented, so pages that
 * nobody may touch do for it what the address sanitizer does for the host.
 */
#ifndef LENT_H
#define LENT_H

#include <stddef.h>
#include <stdint.h>

enum way {
    ENDS,   /* it ends right before a page that nobody may touch */
    BEGINS, /* it begins right after one */
    HEAP,   /* a heap block of just this size, between the sanitizer's red zones */
    WAYS
};

enum {
    LONGEST_INPUT = 1 << 22, /* bytes of a table */
    MOST_ROOM = 1 << 20      /* bytes of a buffer: more than any listing needs */
};

/* Lends the table in every way, until the next one. Nobody may write to it. */
void lend_table(const uint8_t *bytes, size_t length);
const uint8_t *table_lent(enum way way);
size_t table_length_lent(void);

/* A buffer of `room` bytes that holds `bytes`, or where there are none a
 * pattern that differs from way to way in every byte. */
uint8_t *lend_buffer(enum way way, const uint8_t *bytes, size_t room);

/* What the buffer holds now. */
const uint8_t *buffer_lent(enum way way);

/* Ends the run with a message, unless no call wrote to the table, no byte
 * around the buffer has changed, nor any in it from `written` on. */
void check_lent(enum way way, size_t written);

/* Gives the heap blocks of this input back. */
void end_lending(void);

/* Ends the run: the library broke its word. */
void broken(const char *what, ...) __attribute__((noreturn, format(printf, 1, 2)));

#endif
