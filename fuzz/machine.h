/* The stepping machine on an accepted table. */
#ifndef MACHINE_H
#define MACHINE_H

#include "input.h"
#include "view.h"

/* Plays the steps that the asks name. Each answer must be what the phases, the
 * call `preempts` and the sets say, and a granted step alter one place. */
void check_machine(const struct asks *asks, const struct view *v);

/* Start, open, start, open: a race's four steps must be granted from fresh. */
void check_race_is_reached(const struct view *v, size_t i, size_t j);

/* May task t preempt task u? By the library's own call. */
int may_preempt(size_t t, size_t u);

#endif
