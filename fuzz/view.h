/* The fields of a table that was accepted. */
#ifndef VIEW_H
#define VIEW_H

#include <stddef.h>
#include <stdint.h>

#include "../include/chinebright.h"

struct view {
    size_t nodes, locks, resources, accesses;    /* how many */
    const uint8_t *node, *lock, *label, *access; /* the first record */
};

static inline struct view view_of(const uint8_t *table)
{
    struct view v;
    v.nodes = table[1];
    v.node = table + 2;
    v.locks = v.node[2 * v.nodes];
    v.lock = v.node + 2 * v.nodes + 1;
    v.resources = v.lock[3 * v.locks];
    v.label = v.lock + 3 * v.locks + 1;
    v.accesses = v.label[2 * v.resources];
    v.access = v.label + 2 * v.resources + 1;
    return v;
}

static inline size_t parent_of(const struct view *v, size_t n) { return v->node[2 * n]; }
static inline int kind_of(const struct view *v, size_t n) { return v->node[2 * n + 1]; }
static inline int is_task(const struct view *v, size_t n) { return n < v->nodes && kind_of(v, n) == 0; }
static inline size_t task_of(const struct view *v, size_t i) { return v->access[6 * i]; }
static inline size_t resource_of(const struct view *v, size_t i) { return v->access[6 * i + 1]; }

static inline uint32_t set_of(const struct view *v, size_t i)
{
    const uint8_t *set = v->access + 6 * i + 2;
    return (uint32_t)set[0] << 24 | (uint32_t)set[1] << 16 | (uint32_t)set[2] << 8 | set[3];
}

/* The locks of a set that are blocking. */
static inline uint32_t blocking(const struct view *v, uint32_t set)
{
    for (size_t k = 0; k < v->locks; k++)
        if (v->lock[3 * k + 1] != 0)
            set &= ~(UINT32_C(1) << k);
    return set;
}

/* Is node a at or above node n? */
static inline int at_or_above(const struct view *v, size_t a, size_t n)
{
    while (n != a && n != 0)
        n = parent_of(v, n);
    return n == a;
}

/* Does a mask of the set cover the task? */
static inline int masked(const struct view *v, uint32_t set, size_t task)
{
    for (size_t k = 0; k < v->locks; k++)
        if (set >> k & 1 && v->lock[3 * k + 1] == 1 && at_or_above(v, v->lock[3 * k + 2], task))
            return 1;
    return 0;
}

#endif
