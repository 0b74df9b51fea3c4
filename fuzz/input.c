/* See input.h. */
#include "input.h"

#include <string.h>

void draw_asks(uint64_t *dice, struct asks *asks)
{
    uint8_t *bytes = (uint8_t *)asks;
    for (size_t k = 0; k < sizeof *asks; k++)
        bytes[k] = (uint8_t)draw(dice);
    asks->flags &= FROM_FRESH | MEND_STATE | WIDE_ROOM | ODD_STATE;
    if (below(dice, 8) != 0)
        asks->flags &= (uint8_t) ~(ODD_STATE | WIDE_ROOM);
    if (below(dice, 8) != 0)
        asks->flags |= draw(dice) & 1 ? FROM_FRESH : MEND_STATE;
    asks->mark[0] = MARK_1;
    asks->mark[1] = MARK_2;
}

/* A number made of an input's length and its first bytes. */
static uint64_t number_of(const uint8_t *input, size_t size)
{
    uint64_t number = 0xcbf29ce484222325 ^ size;
    for (size_t k = 0; k < size && k < CHINEBRIGHT_LONGEST_TABLE; k++)
        number = (number ^ input[k]) * 0x100000001b3;
    return number;
}

size_t take_apart(const uint8_t *input, size_t size, struct asks *asks)
{
    if (size < sizeof *asks || input[size - 2] != MARK_1 || input[size - 1] != MARK_2) {
        uint64_t dice = number_of(input, size);
        draw_asks(&dice, asks);
        return size;
    }
    memcpy(asks, input + size - sizeof *asks, sizeof *asks);
    return asks->flags & WHOLE_INPUT ? size : size - sizeof *asks;
}
