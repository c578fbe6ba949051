/* The same algorithms in C: same_X does what the library's kaunorpi_X does, loop by loop (the Rattle code in crates/ was
 * the model), so that the two can be timed against each other. Here stand the loops that several questions share. */
#ifndef SAME_H
#define SAME_H

#include "../include/kaunorpi.h"

__typeof__(kaunorpi_replay_word) same_replay_word, plain_replay_word;
__typeof__(kaunorpi_start_replay) same_start_replay;
__typeof__(kaunorpi_replay_part) same_replay_part;
__typeof__(kaunorpi_summary_word) same_summary_word;
__typeof__(kaunorpi_join_summaries) same_join_summaries;
__typeof__(kaunorpi_place_weighting) same_place_weighting;
__typeof__(kaunorpi_closed_list) same_closed_list, plain_closed_list;
__typeof__(kaunorpi_cover_list) same_cover_list;
__typeof__(kaunorpi_complement_net) same_complement_net;
__typeof__(kaunorpi_read_case) same_read_case;
__typeof__(kaunorpi_write_case) same_write_case;
__typeof__(kaunorpi_order_logs) same_order_logs;

/* How many pairs of letters read same_order_logs has looked at in its last search. */
extern size_t same_order_visits;

/* A refusal; number 0 is none. */
struct fault {
    uint8_t number;
    size_t at;
};

/* 1 where one of the two weights is over the limit. */
static inline uint32_t over_at(uint32_t limit, uint16_t takes, uint16_t puts) {
    return (limit < takes) | (limit < puts);
}

/* Whether a row of Pre, or the row of Post beside it, has a weight over the limit: one plain pass, with no way out on the
 * way. */
static inline int has_over(uint32_t limit, const uint16_t *takes, const uint16_t *puts, size_t places) {
    uint32_t over = 0;
    for (size_t p = 0; p < places; p++)
        over += over_at(limit, takes[p], puts[p]);
    return over > 0;
}

/* Refusal 18: the lowest transition with a weight over what is allowed. */
static inline struct fault weights_fault(size_t places, size_t transitions, const uint16_t *pre, const uint16_t *post) {
    for (size_t t = 0; t < transitions; t++)
        if (has_over(KAUNORPI_MOST_WEIGHT, pre + t * places, post + t * places, places))
            return (struct fault){18, t};
    return (struct fault){0, 0};
}

/* Refusals 1 and 2 for a net. */
static inline struct fault sized_fault(KAUNORPI_NET, int fits) {
    (void)pre, (void)post, (void)caps, (void)marks;
    if (places < 1 || places > 64 || transitions < 1 || transitions > 64)
        return (struct fault){1, 0};
    if (pre_len != places * transitions || post_len != places * transitions || caps_len != places ||
        marks_len != places || !fits)
        return (struct fault){2, 0};
    return (struct fault){0, 0};
}

/* Refusals 1, 2 and 18. */
static inline struct fault counts_fault(KAUNORPI_NET, int fits) {
    struct fault found =
        sized_fault(places, transitions, pre, pre_len, post, post_len, caps, caps_len, marks, marks_len, fits);
    return found.number == 0 ? weights_fault(places, transitions, pre, post) : found;
}

/* Whether no transition has an arc with this place. */
static inline int is_loose_place(size_t places, size_t transitions, const uint16_t *pre, const uint16_t *post, size_t p) {
    for (size_t t = 0; t < transitions; t++)
        if (pre[t * places + p] != 0 || post[t * places + p] != 0)
            return 0;
    return 1;
}

/* Whether no place has an arc with this transition. */
static inline int is_loose_transition(size_t places, const uint16_t *pre, const uint16_t *post, size_t t) {
    for (size_t p = 0; p < places; p++)
        if (pre[t * places + p] != 0 || post[t * places + p] != 0)
            return 0;
    return 1;
}

/* Refusal 17. */
static inline struct fault loose_fault(size_t places, size_t transitions, const uint16_t *pre, const uint16_t *post) {
    size_t p = 0, t = 0;
    while (p < places && !is_loose_place(places, transitions, pre, post, p))
        p++;
    while (t < transitions && !is_loose_transition(places, pre, post, t))
        t++;
    return p < places ? (struct fault){17, p} : t < transitions ? (struct fault){17, 64 + t} : (struct fault){0, 0};
}

/* Refusals 1, 2, 18 and 17 for a net. */
static inline struct fault net_fault(KAUNORPI_NET, int fits) {
    struct fault found =
        counts_fault(places, transitions, pre, pre_len, post, post_len, caps, caps_len, marks, marks_len, fits);
    return found.number == 0 ? loose_fault(places, transitions, pre, post) : found;
}

/* One place of a given marking has more tokens than may be given. */
static inline int is_bad_token(uint16_t cap, uint16_t tokens) {
    return tokens > 65534 || tokens > cap;
}

/* Refusals 1, 2, 18 and 3 for a net and its initial marking. */
static inline struct fault start_fault(KAUNORPI_NET, const uint16_t *initial, size_t initial_len, int fits) {
    struct fault found = counts_fault(places, transitions, pre, pre_len, post, post_len, caps, caps_len, marks, marks_len,
                                      fits && initial_len == places);
    for (size_t p = 0; found.number == 0 && p < places; p++)
        if (is_bad_token(caps[p], initial[p]))
            return (struct fault){3, p};
    return found;
}

/* Refusals 1, 2, 18, 3 and 17. */
static inline struct fault marked_fault(KAUNORPI_NET, const uint16_t *initial, size_t initial_len, int fits) {
    struct fault found = start_fault(places, transitions, pre, pre_len, post, post_len, caps, caps_len, marks, marks_len,
                                     initial, initial_len, fits);
    return found.number == 0 ? loose_fault(places, transitions, pre, post) : found;
}

/* Refusals 4 and 5. */
static inline struct fault word_fault(size_t transitions, const uint8_t *word, size_t word_len) {
    if (word_len > 65535)
        return (struct fault){4, 0};
    for (size_t k = 0; k < word_len; k++)
        if (word[k] >= transitions)
            return (struct fault){5, k};
    return (struct fault){0, 0};
}

/* Of what is taken from a place, what leaves before anything arrives: from a pocket nothing. */
static inline uint16_t leaves(uint32_t mark, uint16_t takes) {
    return mark == 0 ? takes : 0;
}

/* The mark that counts: a pocket without capacity is as a plain place. */
static inline uint8_t mark_in_force(uint16_t cap, uint8_t mark) {
    return cap < 65535 ? mark : 0;
}

/* How far a place rises above its tokens. */
static inline uint16_t rise(uint8_t mark, uint16_t takes, uint16_t puts) {
    uint16_t left = leaves(mark, takes);
    return puts < left ? 0 : (uint16_t)(puts - left);
}

/* One place has a capacity and would hold more. */
static inline int is_over(uint16_t takes, uint16_t puts, uint32_t cap, uint32_t mark, uint32_t tokens) {
    return (cap < 65535) & (cap + leaves(mark, takes) < tokens + puts);
}

/* Capacities and marks in 32 bits, as the tokens are, so that a pass over the places turns none of them anew. */
struct wide {
    uint32_t caps[64], marks[64];
};

/* The copies of a net's, made once for all letters. */
static inline struct wide widened(const uint16_t *caps, const uint8_t *marks, size_t places) {
    struct wide wide = {{0}, {0}};
    for (size_t p = 0; p < places; p++)
        wide.caps[p] = caps[p];
    for (size_t p = 0; p < places; p++)
        wide.marks[p] = marks[p];
    return wide;
}

/* Whether a letter passes: one plain pass over the places, with no way out on the way. */
static inline int may_fire(const uint16_t *takes, const uint16_t *puts, const uint32_t *caps, const uint32_t *marks,
                           const uint32_t *marking, size_t places) {
    uint32_t stopped = 0;
    for (size_t p = 0; p < places; p++)
        stopped += (marking[p] < takes[p]) | is_over(takes[p], puts[p], caps[p], marks[p], marking[p]);
    return stopped == 0;
}

/* The same with capacities and marks read as they are lent. */
static inline int may_fire_lent(const uint16_t *takes, const uint16_t *puts, const uint16_t *caps, const uint8_t *marks,
                                const uint32_t *marking, size_t places) {
    uint32_t stopped = 0;
    for (size_t p = 0; p < places; p++)
        stopped += (marking[p] < takes[p]) | is_over(takes[p], puts[p], caps[p], marks[p], marking[p]);
    return stopped == 0;
}

/* Fires a letter in place. */
static inline void fire(const uint16_t *restrict takes, const uint16_t *restrict puts, uint32_t *restrict marking,
                        size_t places) {
    for (size_t p = 0; p < places; p++)
        marking[p] = marking[p] + puts[p] - takes[p];
}

/* A given marking into room for one that may hold more. */
static inline void load(const uint16_t *restrict given, uint32_t *restrict room, size_t places) {
    for (size_t p = 0; p < places; p++)
        room[p] = given[p];
}

#endif
