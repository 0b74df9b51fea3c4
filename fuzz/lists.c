/* See lists.h. */
#include "lists.h"

#include <string.h>

#include "machine.h"

static uint8_t races[2 * 128 * 128], illegal[2 * 128 * 32], text[MOST_ROOM];

size_t room_of(const struct asks *asks, size_t need)
{
    size_t room = asks->room[0] | (size_t)asks->room[1] << 8 | (size_t)asks->room[2] << 16;
    if (asks->flags & WIDE_ROOM)
        return (room >> (room & 15)) % (MOST_ROOM + 1);
    return room % (need + need / 2 + 16);
}

uint64_t ask_list(enum call call, const struct asks *asks, uint8_t *copy)
{
    struct question question = {call, 0, 0, NULL};
    uint64_t without = ask(&question, 0), answer = without;
    size_t need = 0;
    if (chinebright_number(without) == CHINEBRIGHT_ROOM) {
        need = chinebright_value(without);
        if (ask(&question, need - 1) != without)
            broken("%s: a byte too few is not answered as no room is", call_names[call]);
        answer = ask(&question, need);
        if (chinebright_number(answer) != 0)
            broken("%s: refused with the room that it named", call_names[call]);
        if (need != bytes_of(call, answer))
            broken("%s: named %zu bytes and wrote %zu", call_names[call], need,
                   bytes_of(call, answer));
        memcpy(copy, answered(), need);
    }
    size_t room = room_of(asks, need);
    if (ask(&question, room) != (room < need ? without : answer))
        broken("%s: another answer with %zu bytes of room", call_names[call], room);
    if (room >= need && memcmp(copy, answered(), need) != 0)
        broken("%s: other bytes with %zu bytes of room", call_names[call], room);
    return answer;
}

/* Writes at text + at, and says where it ends. */
static size_t put(size_t at, const char *word)
{
    size_t length = strlen(word);
    memcpy(text + at, word, length);
    return at + length;
}

static size_t put_number(size_t at, size_t number, char after)
{
    char digits[24];
    size_t first = sizeof digits - 1;
    digits[first] = '\0';
    digits[--first] = after;
    do
        digits[--first] = (char)('0' + number % 10);
    while ((number /= 10) > 0);
    return put(at, digits + first);
}

/* The listing that goes with the two lists, into text: its length. */
static size_t listing_of(const struct view *v, size_t race_count, size_t illegal_count)
{
    size_t at = put_number(put(0, "races "), race_count, '\n');
    for (size_t k = 0; k < race_count; k++) {
        size_t i = races[2 * k], j = races[2 * k + 1];
        const uint8_t *label = v->label + 2 * resource_of(v, i);
        at = put_number(put(at, "race "), (size_t)label[0] * 256 + label[1], ' ');
        at = put_number(put_number(at, i, ' '), task_of(v, i), ' ');
        at = put_number(put_number(at, j, ' '), task_of(v, j), '\n');
    }
    at = put_number(put(at, "illegal "), illegal_count, '\n');
    for (size_t k = 0; k < illegal_count; k++) {
        size_t i = illegal[2 * k];
        at = put_number(put(at, "illegal "), i, ' ');
        at = put_number(put_number(at, task_of(v, i), ' '), illegal[2 * k + 1], '\n');
    }
    return at;
}

static void check_listing(const struct asks *asks, size_t length)
{
    static uint8_t listing[MOST_ROOM];
    expect("listing", ask_list(LISTING, asks, listing), 0, (uint32_t)length);
    if (memcmp(listing, text, length) != 0)
        broken("the listing is not that of the answers");
}

void check_refused_listing(const struct asks *asks, uint32_t number, uint32_t place)
{
    check_listing(asks,
                  put_number(put(put_number(put(0, "refused "), number, ' '), "at "), place, '\n'));
}

/* Each race within the accesses, and after the one before it. */
static void check_race_order(const struct view *v, size_t count)
{
    for (size_t k = 0; k < count; k++) {
        const uint8_t *pair = races + 2 * k;
        if (pair[0] >= v->accesses || pair[1] >= v->accesses)
            broken("race %u %u is outside of the table", pair[0], pair[1]);
        if (k > 0 && memcmp(pair - 2, pair, 2) >= 0)
            broken("race %u %u is out of order", pair[0], pair[1]);
    }
}

static int is_listed(size_t count, size_t i, size_t j)
{
    for (size_t k = 0; k < count; k++)
        if (races[2 * k] == i && races[2 * k + 1] == j)
            return 1;
    return 0;
}

/* One pair of accesses: listed exactly when it is a race by the formula. */
static void check_pair(const struct view *v, size_t count, size_t i, size_t j)
{
    size_t t = task_of(v, i), u = task_of(v, j);
    int race = t != u && resource_of(v, i) == resource_of(v, j) && may_preempt(u, t) &&
               !masked(v, set_of(v, i), u) && blocking(v, set_of(v, i) & set_of(v, j)) == 0;
    if (is_listed(count, i, j) != race)
        broken("race %zu %zu is %s", i, j, race ? "not listed" : "listed");
}

/* Every illegal pair there is, in its place, and no other. */
static void check_illegal(const struct view *v, size_t count)
{
    size_t found = 0;
    for (size_t i = 0; i < v->accesses; i++) {
        uint32_t held = blocking(v, set_of(v, i));
        for (size_t k = 0; k < v->locks; k++) {
            if (!(held >> k & 1) || at_or_above(v, v->lock[3 * k], task_of(v, i)))
                continue;
            if (found >= count || illegal[2 * found] != i || illegal[2 * found + 1] != k)
                broken("illegal %zu %zu is not listed in its place", i, k);
            found++;
        }
    }
    if (found != count)
        broken("%zu illegal pairs are listed, and there are %zu", count, found);
}

void check_lists(const struct asks *asks, const struct view *v)
{
    size_t race_count = chinebright_value(ask_list(RACES, asks, races));
    size_t illegal_count = chinebright_value(ask_list(ILLEGAL, asks, illegal));
    check_race_order(v, race_count);
    check_illegal(v, illegal_count);
    if (v->accesses > 0)
        check_pair(v, race_count, asks->first % v->accesses, asks->second % v->accesses);
    if (race_count > 0) {
        size_t k = asks->race % race_count;
        check_pair(v, race_count, races[2 * k], races[2 * k + 1]);
        check_race_is_reached(v, races[2 * k], races[2 * k + 1]);
    }
    check_listing(asks, listing_of(v, race_count, illegal_count));
    remark(RACES_FOUND, race_count);
    remark(ILLEGAL_FOUND, illegal_count);
}
