/* See machine.h. */
#include "machine.h"

#include <string.h>

#include "asking.h"

static uint8_t state[256];
static size_t state_length;

int may_preempt(size_t t, size_t u)
{
    uint64_t answer = ask(&(struct question){PREEMPTS, t, u, NULL}, 0);
    if (chinebright_number(answer) != 0)
        broken("preempts refused an accepted table");
    return chinebright_value(answer) == 1;
}

static int well_formed(const struct view *v)
{
    if (state_length != CHINEBRIGHT_PLACES)
        return 0;
    for (size_t n = 0; n < CHINEBRIGHT_PLACES; n++) {
        size_t i = (size_t)state[n] - 2;
        if (state[n] != 0 && !is_task(v, n))
            return 0;
        if (state[n] > 1 && (i >= v->accesses || task_of(v, i) != n))
            return 0;
    }
    return 1;
}

/* Does the step fit the phase of its task? */
static int fits_phase(uint8_t place, size_t kind)
{
    switch (kind) {
    case CHINEBRIGHT_START:
        return place == 0;
    case CHINEBRIGHT_CLOSE:
        return place > 1;
    default:
        return place == 1;
    }
}

static int may_take_processor(const struct view *v, size_t t)
{
    for (size_t u = 0; u < v->nodes; u++) {
        if (u == t || state[u] == 0)
            continue;
        if (!may_preempt(t, u) || (state[u] > 1 && masked(v, set_of(v, (size_t)state[u] - 2), t)))
            return 0;
    }
    return 1;
}

static int lock_is_held(const struct view *v, size_t i)
{
    uint32_t wanted = blocking(v, set_of(v, i));
    for (size_t u = 0; u < v->nodes; u++)
        if (u != task_of(v, i) && state[u] > 1 && wanted & set_of(v, (size_t)state[u] - 2))
            return 1;
    return 0;
}

/* The refusal that the step should get, 0 where it should be granted. */
static uint32_t refusal_due(const struct view *v, size_t kind, size_t n)
{
    if (!well_formed(v))
        return CHINEBRIGHT_STATE;
    if (kind > CHINEBRIGHT_FINISH || (kind == CHINEBRIGHT_OPEN ? n >= v->accesses : !is_task(v, n)))
        return CHINEBRIGHT_NAME;
    size_t t = kind == CHINEBRIGHT_OPEN ? task_of(v, n) : n;
    if (!fits_phase(state[t], kind))
        return CHINEBRIGHT_PHASE;
    if (!may_take_processor(v, t))
        return CHINEBRIGHT_PROCESSOR;
    return kind == CHINEBRIGHT_OPEN && lock_is_held(v, n) ? CHINEBRIGHT_HELD : 0;
}

static void play(const struct view *v, size_t kind, size_t n)
{
    uint32_t due = refusal_due(v, kind, n);
    expect("step", ask(&(struct question){STEP, kind, n, state}, state_length), due, 0);
    remark(STEPS + (kind & 3), (size_t)1 << due);
    if (due == 0) {
        size_t t = kind == CHINEBRIGHT_OPEN ? task_of(v, n) : n;
        state[t] = kind == CHINEBRIGHT_OPEN ? (uint8_t)(n + 2) : kind != CHINEBRIGHT_FINISH;
    }
    if (memcmp(answered(), state, state_length) != 0)
        broken("step %zu of %zu left another state than it should", kind, n);
}

/* The state in which the machine begins. */
static void begin(const struct asks *asks, const struct view *v)
{
    memset(state, 0, sizeof state);
    state_length = asks->flags & ODD_STATE ? asks->state_length : CHINEBRIGHT_PLACES;
    if (asks->flags & FROM_FRESH)
        return;
    memcpy(state, asks->state, sizeof asks->state);
    if (!(asks->flags & MEND_STATE))
        return;
    for (size_t n = 0; n < CHINEBRIGHT_PLACES; n++) {
        size_t i = v->accesses > 0 ? state[n] % v->accesses : 0;
        if (!is_task(v, n) || state[n] % 4 != 0)
            state[n] = 0;
        else if (v->accesses > 0 && task_of(v, i) == n)
            state[n] = (uint8_t)(i + 2);
        else
            state[n] = 1;
    }
}

/* The task from number n on, or n where there is none. */
static size_t some_task(const struct view *v, size_t n)
{
    for (size_t k = 0; k < v->nodes; k++)
        if (is_task(v, (n + k) % v->nodes))
            return (n + k) % v->nodes;
    return n;
}

/* A step's kind and number, from its two bytes: mostly a name of the table's,
 * and for half of the opens its task is started before it. */
static void play_bytes(const struct view *v, const uint8_t step[2])
{
    size_t kind = step[0] >= 0xF8 ? step[0] : step[0] & 3, n = step[1];
    switch (step[0] >> 2 & 31) {
    case 0:
        break;
    case 1:
        n += 256;
        break;
    case 2:
        n += (size_t)1 << 32;
        break;
    case 3:
        n = ~n;
        break;
    default:
        if (kind != CHINEBRIGHT_OPEN)
            n = some_task(v, n);
        else if (v->accesses > 0)
            n %= v->accesses;
    }
    if (kind == CHINEBRIGHT_OPEN && step[0] & 0x80 && n < v->accesses)
        play(v, CHINEBRIGHT_START, task_of(v, n));
    play(v, kind, n);
}

void check_machine(const struct asks *asks, const struct view *v)
{
    begin(asks, v);
    for (size_t s = 0; s < asks->steps % (MOST_STEPS + 1u); s++)
        play_bytes(v, asks->step[s]);
}

void check_race_is_reached(const struct view *v, size_t i, size_t j)
{
    memset(state, 0, sizeof state);
    state_length = CHINEBRIGHT_PLACES;
    const size_t accesses[2] = {i, j};
    for (int k = 0; k < 2; k++) {
        play(v, CHINEBRIGHT_START, task_of(v, accesses[k]));
        play(v, CHINEBRIGHT_OPEN, accesses[k]);
        if (state[task_of(v, accesses[k])] != accesses[k] + 2)
            broken("race %zu %zu is not reached", i, j);
    }
}
