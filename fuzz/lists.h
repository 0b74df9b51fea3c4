/* The calls that write a list, and how their answers go together. */
#ifndef LISTS_H
#define LISTS_H

#include "asking.h"
#include "input.h"
#include "view.h"

/* The room that the asks name for an answer of `need` bytes. */
size_t room_of(const struct asks *asks, size_t need);

/* A list with four rooms: none, a byte too few, just enough, and the asks'.
 * The answer with enough, whose bytes go into `copy`. */
uint64_t ask_list(enum call call, const struct asks *asks, uint8_t *copy);

/* The race list, the illegal list and the listing of an accepted table. */
void check_lists(const struct asks *asks, const struct view *v);

/* The listing of a refused one. */
void check_refused_listing(const struct asks *asks, uint32_t number, uint32_t place);

#endif
