/* Marking lists by chance: closed by construction, then shuffled, repeated and damaged. */
#include "compare.h"

#include <string.h>

enum { MOST_MARKINGS = 4096, ANY = 65535 };

static uint16_t found[MOST_MARKINGS * 64];
static size_t found_count;

/* Adds a marking that is not there yet, while there are fewer than limit. */
static void add(const uint16_t *m, size_t limit) {
    for (size_t k = 0; k < found_count; k++)
        if (memcmp(found + k * in.places, m, 2 * in.places) == 0)
            return;
    if (found_count < limit)
        memcpy(found + found_count++ * in.places, m, 2 * in.places);
}

/* Adds the result of t at found marking k, where t is enabled there, capacities included. A result that no list can hold
 * is added cut to 16 bits now and then: a list that looks closed to whoever cuts it too. */
static void add_closed(size_t k, size_t t, size_t limit) {
    int64_t m[64];
    uint16_t result[64];
    int cut = chance(2);
    for (size_t p = 0; p < in.places; p++)
        m[p] = found[k * in.places + p];
    if (!enabled_now(m, t))
        return;
    fire_now(m, t);
    for (size_t p = 0; p < in.places; p++) {
        result[p] = (uint16_t)m[p];
        if (result[p] == ANY || (m[p] > 65534 && !cut))
            return;
    }
    add(result, limit);
}

/* Adds the result of t at found marking k without capacities; more than most tokens become any number. */
static void add_cover(size_t k, size_t t, size_t limit, int64_t most) {
    const uint16_t *pre = own(&in.pre);
    uint16_t result[64];
    for (size_t p = 0; p < in.places; p++) {
        int64_t m = found[k * in.places + p];
        if (m != ANY && pre[t * in.places + p] > m)
            return;
        m = m == ANY ? ANY : m + change_now(p, t);
        result[p] = (uint16_t)(m > most ? ANY : m);
    }
    add(result, limit);
}

/* A small net, now and then any; capacities are often small, so that lists are short, and now and then all tokens and weights
 * are so many times as much. A list of wrong length needs more than one place. */
static void draw_list_net(void) {
    int is_small = !chance(11);
    size_t places = is_small ? 1 + below(3) : draw_count(), transitions = is_small ? 1 + below(3) : draw_count();
    size_t by = chance(4) ? 1 + below(MOST_WEIGHT) : 1;
    uint16_t *caps, *pre, *post;
    if (breaks(LIST_LENGTH) && places == 1)
        places = 2;
    draw_net_of(breaks(BAD_PLACES) ? faulty_count() : places, breaks(BAD_TRANSITIONS) ? faulty_count() : transitions);
    caps = own(&in.caps);
    pre = own(&in.pre);
    post = own(&in.post);
    if (chance(2))
        for (size_t p = 0; p < in.caps.count; p++)
            caps[p] = (uint16_t)(below(5) * by);
    if (chance(by > 1 ? 1 : 4))
        for (size_t i = 0; i < in.pre.count && i < in.post.count; i++)
            pre[i] = (uint16_t)(below(2) * by), post[i] = (uint16_t)(below(2) * by);
    wire_net(0);
}

/* A place that counts up, and down again: a list of many different markings. */
static void draw_counter(size_t most) {
    draw_net_of(1, 1 + below(2));
    memset(own(&in.pre), 0, 2 * in.pre.count);
    memset(own(&in.post), 0, 2 * in.post.count);
    if (in.post.count > 0)
        *(uint16_t *)own(&in.post) = 1;
    if (in.pre.count > 1)
        ((uint16_t *)own(&in.pre))[1] = 1;
    if (in.caps.count > 0)
        *(uint16_t *)own(&in.caps) = (uint16_t)most;
}

/* Finds what is reached from the initial marking, and perhaps from another one, up to a limit. */
static void find_markings(int cover, size_t limit) {
    uint16_t other[64];
    int64_t most = chance(6) ? 65534 - (int64_t)below(4) : (int64_t)below(5);
    found_count = 0;
    add(own(&in.initial), limit);
    for (size_t p = 0; p < in.places; p++)
        other[p] = cover && chance(3) ? ANY : within(p, (uint16_t)below(5));
    if (chance(3))
        add(other, limit);
    for (size_t k = 0; k < found_count; k++)
        for (size_t t = 0; t < in.transitions; t++) {
            if (cover)
                add_cover(k, t, limit, most);
            else
                add_closed(k, t, limit);
        }
}

/* Puts the markings in any order, with one struck out now and then. */
static void shuffle_and_strike(void) {
    uint16_t *rows = found, swap[64];
    size_t bytes = 2 * in.places;
    for (size_t k = found_count; chance(2) && k > 1; k--) {
        size_t other = below(k);
        memcpy(swap, rows + other * in.places, bytes);
        memcpy(rows + other * in.places, rows + (k - 1) * in.places, bytes);
        memcpy(rows + (k - 1) * in.places, swap, bytes);
    }
    if (found_count > 1 && chance(4)) {
        size_t struck = chance(3) ? 0 : below(found_count);
        found_count--;
        memcpy(rows + struck * in.places, rows + found_count * in.places, bytes);
    }
}

/* How many markings to lend: those found, with repeats now and then; none or too many where that is planned. */
static size_t lent_markings(void) {
    size_t count = found_count + (chance(5) ? below(found_count + 3) : 0);
    if (breaks(MANY_MARKINGS))
        return MOST_MARKINGS + 1 + (chance(2) ? 0 : below(5));
    if (breaks(NO_MARKING))
        return 0;
    if (count == 0)
        return 1 + below(3);
    return count > MOST_MARKINGS || chance(300) ? MOST_MARKINGS : count;
}

/* Breaks a marking of a closed list where that is planned. */
static void break_list(uint16_t *list) {
    size_t markings = in.places > 0 ? in.list.count / in.places : 0;
    if (markings > 0 && breaks(LIST_FULL))
        fill_up(list + below(markings) * in.places);
    if (markings > 0 && breaks(LIST_OVER))
        fill_over(list + below(markings) * in.places);
}

/* Makes some entries of a cover list others: any number may become the most that is a number. */
static void bend_cover(uint16_t *list) {
    if (in.list.count > 0 && chance(4))
        list[below(in.list.count)] = chance(2) ? (uint16_t)below(4) : chance(2) ? 65534 : ANY;
    if (chance(2))
        for (size_t i = 0, one_in = 1 + below(3); i < in.list.count; i++)
            list[i] = list[i] == ANY && chance(one_in) ? 65534 : list[i];
}

/* Lends the list: the found markings again and again. */
static void lend_list(int cover) {
    size_t places = in.places < 80 ? in.places : 80, entries = found_count * places;
    uint16_t *list = lend(&in.list, 2, places * lent_markings());
    for (size_t i = 0; i < in.list.count; i++)
        list[i] = entries > 0 ? found[i % entries] : within(places > 0 ? i % places : 0, (uint16_t)below(3));
    if (cover)
        bend_cover(list);
    else
        break_list(list);
}

/* Net, marking, list. */
static void make_list(int cover) {
    size_t limit = chance(10) ? 300 : 40;
    if (is_sound() && chance(1200)) {
        draw_counter(chance(2) ? 4095 : 4096);
        limit = MOST_MARKINGS;
    } else
        draw_list_net();
    draw_marking();
    found_count = 0;
    if (is_whole()) {
        find_markings(cover, limit);
        shuffle_and_strike();
    }
    lend_list(cover);
}

/* A target: a listed marking, one near it, or any; with 65,535 where that is planned. */
static void lend_target(void) {
    size_t places = in.places < 80 ? in.places : 80, k = found_count > 0 ? below(found_count) : 0, near = below(3);
    uint16_t *target = lend(&in.target, 2, places);
    for (size_t p = 0; p < in.target.count; p++) {
        uint16_t entry = found_count > 0 && p < in.places ? found[k * in.places + p] : (uint16_t)below(4);
        if (near == 1 && chance(in.target.count))
            entry = (uint16_t)(entry + below(3) - 1);
        if (near == 2)
            entry = (uint16_t)(chance(8) ? 65534 : below(6));
        target[p] = entry == ANY ? (uint16_t)(chance(2) ? 65534 : below(9)) : entry;
    }
    if (in.target.count > 0 && breaks(TARGET_FULL))
        target[below(in.target.count)] = ANY;
}

/* Net, marking, closed list. */
void make_closed(void) {
    make_list(0);
    break_marking();
    break_net();
}

/* Net, marking, closed list, target. */
void make_closed_target(void) {
    make_list(0);
    lend_target();
    break_marking();
    break_net();
}

/* Net, marking, cover list. */
void make_cover(void) {
    make_list(1);
    break_marking();
    break_net();
}

/* Net, marking, cover list, target. */
void make_cover_target(void) {
    make_list(1);
    lend_target();
    break_marking();
    break_net();
}
