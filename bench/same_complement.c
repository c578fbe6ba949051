/* The complement net and a place weighting, as crates/complement and crates/weighting do it. */
#include "same.h"

/* All transitions' weights: what is kept, then at each place that gets a new one what the other row has more, and of a pocket
 * all of it. */
static void write_rows(size_t places, size_t transitions, size_t wide, const uint16_t *kept, const uint16_t *other,
                       const uint8_t *marks, const size_t *sources, uint16_t *room) {
    for (size_t t = 0; t < transitions; t++) {
        const uint16_t *k = kept + t * places, *o = other + t * places;
        size_t at = t * wide;
        for (size_t p = 0; p < places; p++)
            room[at + p] = k[p];
        at += places;
        for (size_t q = places; q < wide; q++) {
            size_t p = sources[q];
            room[at++] = rise(marks[p], k[p], o[p]);
        }
    }
}

/* Whether a place gets a new one: it has a capacity, and is a pocket, or some transition changes it. */
static int is_made(size_t places, size_t transitions, const uint16_t *pre, const uint16_t *post, const uint16_t *caps,
                   const uint8_t *marks, size_t p) {
    if (caps[p] == 65535)
        return 0;
    if (marks[p] != 0)
        return 1;
    for (size_t t = 0; t < transitions; t++)
        if (pre[t * places + p] != post[t * places + p])
            return 1;
    return 0;
}

/* How many places get one. */
static size_t count_made(size_t places, size_t transitions, const uint16_t *pre, const uint16_t *post,
                         const uint16_t *caps, const uint8_t *marks) {
    size_t count = 0;
    for (size_t p = 0; p < places; p++)
        count += (size_t)is_made(places, transitions, pre, post, caps, marks, p);
    return count;
}

/* For each place of the complement net the old place that it stands for. */
static void find_sources(size_t places, size_t transitions, const uint16_t *pre, const uint16_t *post,
                         const uint16_t *caps, const uint8_t *marks, size_t *sources) {
    size_t at = places;
    for (size_t p = 0; p < 64; p++)
        sources[p] = p;
    for (size_t p = 0; p < places; p++)
        if (is_made(places, transitions, pre, post, caps, marks, p))
            sources[at++] = p;
}

/* The refusals, then the five rooms one after another. */
kaunorpi_answer same_complement_net(KAUNORPI_NET, const uint16_t *initial, size_t initial_len, uint16_t *pre2,
                                    size_t pre2_len, uint16_t *post2, size_t post2_len, uint16_t *caps2,
                                    size_t caps2_len, uint8_t *marks2, size_t marks2_len, uint16_t *initial2,
                                    size_t initial2_len) {
    size_t wide, sources[64];
    struct fault found =
        sized_fault(places, transitions, pre, pre_len, post, post_len, caps, caps_len, marks, marks_len, 1);
    if (found.number != 0)
        return (kaunorpi_answer){KAUNORPI_REFUSED, found.number, found.at};
    wide = places + count_made(places, transitions, pre, post, caps, marks);
    found = marked_fault(places, transitions, pre, pre_len, post, post_len, caps, caps_len, marks, marks_len, initial,
                         initial_len,
                         pre2_len == transitions * wide && post2_len == transitions * wide && caps2_len == wide &&
                             marks2_len == wide && initial2_len == wide);
    if (found.number == 0 && wide > 64)
        found = (struct fault){10, 0};
    if (found.number != 0)
        return (kaunorpi_answer){KAUNORPI_REFUSED, found.number, found.at};
    find_sources(places, transitions, pre, post, caps, marks, sources);
    write_rows(places, transitions, wide, pre, post, marks, sources, pre2);
    write_rows(places, transitions, wide, post, pre, marks, sources, post2);
    for (size_t p = 0; p < wide; p++)
        caps2[p] = 65535;
    for (size_t p = 0; p < wide; p++)
        marks2[p] = 0;
    for (size_t p = 0; p < places; p++)
        initial2[p] = initial[p];
    for (size_t q = places; q < wide; q++)
        initial2[q] = (uint16_t)(caps[sources[q]] - initial[sources[q]]);
    return (kaunorpi_answer){KAUNORPI_ANSWERED, 0, 0};
}

/* What an entry and one cell add to the first of the two sums. */
static inline uint64_t share_of(int16_t x, uint16_t takes, uint16_t puts) {
    uint32_t up = x < 0 ? 0 : (uint32_t)x, down = x < 0 ? (uint32_t)~x + 1 : 0;
    return (uint64_t)(up * puts) + (uint64_t)(down * takes);
}

/* The refusals, then two unsigned sums for each transition. */
kaunorpi_answer same_place_weighting(KAUNORPI_NET, const int16_t *y, size_t y_len) {
    size_t k = 0;
    struct fault found =
        net_fault(places, transitions, pre, pre_len, post, post_len, caps, caps_len, marks, marks_len, y_len == places);
    if (found.number != 0)
        return (kaunorpi_answer){KAUNORPI_REFUSED, found.number, found.at};
    while (k < places && y[k] == 0)
        k++;
    if (k == places)
        return (kaunorpi_answer){KAUNORPI_REFUSED, 8, 0};
    for (size_t t = 0; t < transitions; t++) {
        uint64_t gained = 0, lost = 0;
        for (size_t p = 0; p < places; p++) {
            gained += share_of(y[p], pre[t * places + p], post[t * places + p]);
            lost += share_of(y[p], post[t * places + p], pre[t * places + p]);
        }
        if (gained != lost)
            return (kaunorpi_answer){KAUNORPI_ANSWERED, 1, t};
    }
    return (kaunorpi_answer){KAUNORPI_ANSWERED, 0, 0};
}
