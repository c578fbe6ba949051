/* Summaries and their join, as crates/summary_place, crates/summary.. and crates/c_summary.. do it: by place, and by value. */
#include "same.h"

struct slot {
    uint32_t need, climb;
    int32_t change;
};

/* The larger of x and y + l - g. */
static inline uint32_t larger(uint32_t x, uint32_t y, uint32_t l, uint32_t g) {
    uint32_t z = y + l;
    if (z <= g)
        return x;
    return z - g <= x ? x : z - g;
}

/* One place of a word's summary. */
static struct slot slot_of(size_t places, const uint16_t *pre, const uint16_t *post, uint8_t mark, size_t p,
                           const uint8_t *word, size_t word_len) {
    uint32_t gained = 0, lost = 0, need = 0, climb = 0;
    for (size_t i = 0; i < word_len; i++) {
        uint16_t takes = pre[word[i] * places + p], puts = post[word[i] * places + p];
        need = larger(need, takes, lost, gained);
        climb = larger(climb, rise(mark, takes, puts), gained, lost);
        gained += puts;
        lost += takes;
    }
    return (struct slot){need, climb, (int32_t)gained - (int32_t)lost};
}

/* Lays the slots out into the three rooms. */
static void lay_out(const struct slot *slots, uint32_t *need, uint32_t *climb, int32_t *change) {
    for (size_t p = 0; p < 64; p++)
        need[p] = slots[p].need;
    for (size_t p = 0; p < 64; p++)
        climb[p] = slots[p].climb;
    for (size_t p = 0; p < 64; p++)
        change[p] = slots[p].change;
}

/* The refusals, then place by place. */
kaunorpi_summary same_summary_word(KAUNORPI_NET, const uint8_t *word, size_t word_len, uint32_t *need, size_t need_len,
                                   uint32_t *climb, size_t climb_len, int32_t *change, size_t change_len) {
    struct slot slots[64] = {{0, 0, 0}};
    int fits = need_len == 64 && climb_len == 64 && change_len == 64;
    struct fault found =
        net_fault(places, transitions, pre, pre_len, post, post_len, caps, caps_len, marks, marks_len, fits);
    if (found.number == 0)
        found = word_fault(transitions, word, word_len);
    if (found.number != 0)
        return (kaunorpi_summary){KAUNORPI_REFUSED, found.number, found.at, 0, 0};
    for (size_t p = 0; p < places; p++)
        slots[p] = slot_of(places, pre, post, mark_in_force(caps[p], marks[p]), p, word, word_len);
    lay_out(slots, need, climb, change);
    return (kaunorpi_summary){KAUNORPI_ANSWERED, 0, 0, places, (uint32_t)word_len};
}

/* x where it is not negative, else 0. */
static inline uint32_t up(int32_t x) {
    return x < 0 ? 0 : (uint32_t)x;
}

/* -x where x is negative, else 0. */
static inline uint32_t down(int32_t x) {
    return x < 0 ? (uint32_t)~x + 1 : 0;
}

/* The slots of the three lists. */
static void gather(struct slot *slots, const uint32_t *need, const uint32_t *climb, const int32_t *change) {
    for (size_t p = 0; p < 64; p++)
        slots[p] = (struct slot){need[p], climb[p], change[p]};
}

/* The lowest slot that is not well formed, or 64. */
static size_t bad_slot(size_t places, uint32_t letters, const struct slot *slots) {
    size_t p;
    for (p = 0; p < 64; p++) {
        uint32_t cap = p < places ? KAUNORPI_MOST_WEIGHT * letters : 0;
        if (cap < slots[p].need || cap < slots[p].climb || slots[p].need < down(slots[p].change) ||
            slots[p].climb < up(slots[p].change))
            break;
    }
    return p;
}

/* One place of a then b. */
static struct slot join_slot(struct slot a, struct slot b) {
    uint32_t u = up(a.change), d = down(a.change);
    return (struct slot){larger(a.need, b.need, d, u), larger(a.climb, b.climb, u, d),
                         (int32_t)(u + up(b.change)) - (int32_t)(d + down(b.change))};
}

/* Refusals 6 and 7 of two summaries. */
static struct fault join_fault(size_t places, uint32_t first, const struct slot *a, uint32_t second,
                               const struct slot *b) {
    size_t p;
    if (first > 65535 || (p = bad_slot(places, first, a)) < 64)
        return (struct fault){6, first > 65535 ? 0 : p};
    if (second > 65535 || (p = bad_slot(places, second, b)) < 64)
        return (struct fault){6, second > 65535 ? 0 : p};
    return (struct fault){first + second > 65535 ? 7 : 0, 0};
}

/* The refusals, then place by place. */
kaunorpi_summary same_join_summaries(size_t first_places, uint32_t first_letters, const uint32_t *first_need,
                                     size_t first_need_len, const uint32_t *first_climb, size_t first_climb_len,
                                     const int32_t *first_change, size_t first_change_len, size_t second_places,
                                     uint32_t second_letters, const uint32_t *second_need, size_t second_need_len,
                                     const uint32_t *second_climb, size_t second_climb_len,
                                     const int32_t *second_change, size_t second_change_len, uint32_t *need,
                                     size_t need_len, uint32_t *climb, size_t climb_len, int32_t *change,
                                     size_t change_len) {
    struct slot a[64], b[64];
    struct fault found;
    if (first_places < 1 || first_places > 64 || second_places < 1 || second_places > 64)
        return (kaunorpi_summary){KAUNORPI_REFUSED, 1, 0, 0, 0};
    if (first_need_len != 64 || first_climb_len != 64 || first_change_len != 64 || second_need_len != 64 ||
        second_climb_len != 64 || second_change_len != 64 || need_len != 64 || climb_len != 64 || change_len != 64 ||
        first_places != second_places)
        return (kaunorpi_summary){KAUNORPI_REFUSED, 2, 0, 0, 0};
    gather(a, first_need, first_climb, first_change);
    gather(b, second_need, second_climb, second_change);
    found = join_fault(first_places, first_letters, a, second_letters, b);
    if (found.number != 0)
        return (kaunorpi_summary){KAUNORPI_REFUSED, found.number, found.at, 0, 0};
    for (size_t p = 0; p < 64; p++)
        a[p] = join_slot(a[p], b[p]);
    lay_out(a, need, climb, change);
    return (kaunorpi_summary){KAUNORPI_ANSWERED, 0, 0, first_places, first_letters + second_letters};
}
