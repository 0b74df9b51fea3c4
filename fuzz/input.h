/*
 * What an input says: a table, and what to ask of it. An input that ends in
 * the two marking bytes has the asks before them and the table before those.
 * Any other input is a table as it stands, and its asks are drawn from a
 * number made of its bytes: so a table's file is an input.
 */
#ifndef INPUT_H
#define INPUT_H

#include <stddef.h>
#include <stdint.h>

#include "../include/chinebright.h"

enum { MARK_1 = 0xC1, MARK_2 = 0xB7, MOST_STEPS = 16 };

/* Flags of the asks. */
enum {
    FROM_FRESH = 1,   /* the machine begins in the fresh state, not in the one here */
    MEND_STATE = 2,   /* or in the one here, made well formed */
    WIDE_ROOM = 4,    /* the room lent may be far more than needed */
    ODD_STATE = 8,    /* the state is lent with another length than 128 */
    WHOLE_INPUT = 16, /* the table is the whole input, the asks included */
};

struct asks {
    uint8_t flags;
    uint8_t room[3];
    uint8_t first, second; /* the tasks of `preempts` */
    uint8_t wide;          /* how far the numbers above lie outside of a byte */
    uint8_t state_length;
    uint8_t steps;
    uint8_t race; /* which race is played on the machine */
    uint8_t step[MOST_STEPS][2];
    uint8_t state[CHINEBRIGHT_PLACES];
    uint8_t mark[2];
};

/* A generator of numbers, for the asks and for the mutator. */
static inline uint64_t draw(uint64_t *dice)
{
    uint64_t mixed = *dice += 0x9e3779b97f4a7c15;
    mixed = (mixed ^ mixed >> 30) * 0xbf58476d1ce4e5b9;
    mixed = (mixed ^ mixed >> 27) * 0x94d049bb133111eb;
    return mixed ^ mixed >> 31;
}

static inline size_t below(uint64_t *dice, size_t end)
{
    return (size_t)(draw(dice) % end);
}

/* Takes an input apart: the length of its table, and its asks. */
size_t take_apart(const uint8_t *input, size_t size, struct asks *asks);

/* Fills in asks by chance. */
void draw_asks(uint64_t *dice, struct asks *asks);

#endif
