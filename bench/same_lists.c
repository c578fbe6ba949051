/* Closed lists and cover lists, as crates/lists, crates/list_index, crates/list_arcs and crates/list_pairs do it; and
 * closed lists without an index or skips, each result looked for among all listed markings. */
#include "same.h"

/* The index of a list: for each bucket its latest marking, for each marking the one before it in its bucket; 0 is none,
 * k + 1 marking number k. */
struct index {
    uint16_t heads[8192], links[4096];
};

/* A hash is below this. */
#define HASH_LIMIT 4294967296

/* A hash with one more number in it. */
static uint64_t mix(uint64_t hash, uint16_t number) {
    return (hash + number) * 374761393 % HASH_LIMIT;
}

/* The hash of a listed marking, or of what a transition takes or puts. */
static uint64_t hash_of(const uint16_t *numbers, size_t places) {
    uint64_t h = 0;
    for (size_t p = 0; p < places; p++)
        h = mix(h, numbers[p]);
    return h;
}

/* The bucket of a hash. */
static size_t bucket_at(uint64_t hash) {
    return (size_t)(hash / 524288);
}

/* What each transition adds to the hash of any marking. */
static void make_changes(size_t places, size_t transitions, const uint16_t *pre, const uint16_t *post, uint64_t *changes) {
    for (size_t t = 0; t < transitions; t++)
        changes[t] = (hash_of(post + t * places, places) + HASH_LIMIT - hash_of(pre + t * places, places)) % HASH_LIMIT;
}

/* The index of a list, into an empty one. */
static void make_index(size_t places, size_t count, const uint16_t *list, struct index *index) {
    for (size_t k = 0; k < count; k++) {
        size_t b = bucket_at(hash_of(list + k * places, places));
        index->links[k] = index->heads[b];
        index->heads[b] = (uint16_t)(k + 1);
    }
}

/* Whether two markings are the same, compared from the last place down. */
static int same_marking(const uint16_t *listed, const uint32_t *marking, size_t places) {
    size_t p = places;
    while (p > 0 && listed[p - 1] == marking[p - 1])
        p--;
    return p == 0;
}

/* The same in one plain pass, with no way out on the way. */
static int is_same(const uint16_t *listed, const uint32_t *marking, size_t places) {
    uint32_t differing = 0;
    for (size_t p = 0; p < places; p++)
        differing += listed[p] != marking[p];
    return differing == 0;
}

/* Whether the marking, of this hash, is one of the list's, compared with those of its bucket. */
static int find(size_t places, const uint16_t *list, const struct index *index, uint64_t hash, const uint32_t *marking) {
    for (size_t at = index->heads[bucket_at(hash)]; at > 0; at = index->links[at - 1])
        if (is_same(list + (at - 1) * places, marking, places))
            return 1;
    return 0;
}

/* How many places without an arc a pass over a transition's places, from the last one down, leaves out at each. */
static void make_skips(size_t places, size_t transitions, const uint16_t *pre, const uint16_t *post, uint8_t *skips) {
    for (size_t k = 0; k < transitions * places; k++) {
        size_t most = k % places, n = 0;
        while (n < most && pre[k - n] == 0 && post[k - n] == 0)
            n++;
        skips[k] = (uint8_t)n;
    }
}

/* One place within its capacity stops a transition; where there is room for all that is put, its mark is not asked for. */
static inline int is_stopped(uint16_t takes, uint16_t puts, uint16_t cap, uint8_t mark, uint16_t tokens) {
    return tokens < takes || (cap < tokens + puts && cap < 65535 && cap < tokens + rise(mark, takes, puts));
}

/* Whether a transition may fire at a listed marking, by its arcs. */
static inline int may_fire_listed(const uint16_t *takes, const uint16_t *puts, const uint16_t *caps, const uint8_t *marks,
                                  const uint8_t *skips, const uint16_t *listed, size_t places) {
    for (size_t p = places; p > 0;) {
        p = p - 1 - skips[p - 1];
        if (is_stopped(takes[p], puts[p], caps[p], marks[p], listed[p]))
            return 0;
    }
    return 1;
}

/* The result of a transition at a listed marking, into the room. */
static inline void fire_listed(const uint16_t *takes, const uint16_t *puts, const uint8_t *skips, const uint16_t *listed,
                               uint32_t *room, size_t places) {
    load(listed, room, places);
    for (size_t p = places; p > 0;) {
        p = p - 1 - skips[p - 1];
        room[p] = (uint32_t)listed[p] + puts[p] - takes[p];
    }
}

/* Whether the result of transition t at a listed marking is not one of the list's, by arcs and index. */
static inline int is_unlisted(KAUNORPI_NET, const uint16_t *list, const struct index *index, const uint8_t *skips,
                              const uint64_t *changes, uint64_t hash, size_t t, const uint16_t *listed, uint32_t *room) {
    size_t a = t * places;
    (void)transitions, (void)pre_len, (void)post_len, (void)caps_len, (void)marks_len;
    if (!may_fire_listed(pre + a, post + a, caps, marks, skips + a, listed, places))
        return 0;
    fire_listed(pre + a, post + a, skips + a, listed, room, places);
    return !find(places, list, index, (hash + changes[t]) % HASH_LIMIT, room);
}

/* Whether the marking is one of the list's, compared with all. */
static int is_listed(size_t places, size_t count, const uint16_t *list, const uint32_t *marking) {
    for (size_t k = 0; k < count; k++)
        if (same_marking(list + k * places, marking, places))
            return 1;
    return 0;
}

/* The same without them: every place is judged, and all listed markings are compared with. */
static inline int is_absent(KAUNORPI_NET, const uint16_t *list, size_t count, size_t k, size_t t) {
    const uint16_t *takes = pre + t * places, *puts = post + t * places;
    uint32_t room[64] = {0};
    (void)transitions, (void)pre_len, (void)post_len, (void)caps_len, (void)marks_len;
    load(list + k * places, room, places);
    if (!may_fire_lent(takes, puts, caps, marks, room, places))
        return 0;
    fire(takes, puts, room, places);
    return !is_listed(places, count, list, room);
}

/* Whether a marking may be given: one plain pass, with no way out on the way. */
static int is_fine(const uint16_t *caps, const uint16_t *marking, size_t places) {
    uint32_t bad = 0;
    for (size_t p = 0; p < places; p++)
        bad += is_bad_token(caps[p], marking[p]);
    return bad == 0;
}

/* Whether every marking of a list may be given. */
static int are_fine(size_t places, const uint16_t *caps, const uint16_t *list, size_t list_len) {
    for (size_t k = 0; k < list_len / places; k++)
        if (!is_fine(caps, list + k * places, places))
            return 0;
    return list_len / places * places == list_len;
}

/* Refusals 1, 2, 18, 3, 17 and 9; a cover list's own entries are free. */
static struct fault list_fault(KAUNORPI_NET, const uint16_t *initial, size_t initial_len, const uint16_t *list,
                               size_t list_len, int cover) {
    struct fault found = start_fault(places, transitions, pre, pre_len, post, post_len, caps, caps_len, marks, marks_len,
                                     initial, initial_len, places > 0 && list_len % places == 0);
    if (found.number != 0)
        return found;
    if (!cover && !are_fine(places, caps, list, list_len))
        for (size_t k = 0; k < list_len; k++)
            if (is_bad_token(caps[k % places], list[k]))
                return (struct fault){3, k};
    found = loose_fault(places, transitions, pre, post);
    if (found.number != 0)
        return found;
    if (list_len / places < 1 || list_len / places > 4096)
        return (struct fault){9, 0};
    return found;
}

/* The refusals, then the initial marking; number 0 where neither fails. */
static inline kaunorpi_list closed_start(KAUNORPI_NET, const uint16_t *initial, size_t initial_len,
                                         const uint16_t *list, size_t list_len) {
    uint32_t room[64] = {0};
    struct fault found = list_fault(places, transitions, pre, pre_len, post, post_len, caps, caps_len, marks, marks_len, initial,
                                    initial_len, list, list_len, 0);
    if (found.number != 0)
        return (kaunorpi_list){KAUNORPI_REFUSED, found.number, found.at, 0};
    load(initial, room, places);
    return (kaunorpi_list){KAUNORPI_ANSWERED, !is_listed(places, list_len / places, list, room), 0, 0};
}

/* By an index and by arcs, as the library does it. */
kaunorpi_list same_closed_list(KAUNORPI_NET, const uint16_t *initial, size_t initial_len, const uint16_t *list,
                               size_t list_len) {
    uint32_t room[64] = {0};
    uint8_t skips[4096] = {0};
    uint64_t changes[64] = {0};
    struct index index = {{0}, {0}};
    kaunorpi_list start = closed_start(places, transitions, pre, pre_len, post, post_len, caps, caps_len, marks,
                                       marks_len, initial, initial_len, list, list_len);
    size_t count;
    if (start.number != 0)
        return start;
    count = list_len / places;
    make_index(places, count, list, &index);
    make_skips(places, transitions, pre, post, skips);
    make_changes(places, transitions, pre, post, changes);
    for (size_t k = 0; k < count; k++) {
        uint64_t hash = hash_of(list + k * places, places);
        for (size_t t = 0; t < transitions; t++)
            if (is_unlisted(places, transitions, pre, pre_len, post, post_len, caps, caps_len, marks, marks_len, list,
                            &index, skips, changes, hash, t, list + k * places, room))
                return (kaunorpi_list){KAUNORPI_ANSWERED, 2, k, t};
    }
    return start;
}

/* Without either. */
kaunorpi_list plain_closed_list(KAUNORPI_NET, const uint16_t *initial, size_t initial_len, const uint16_t *list,
                                size_t list_len) {
    kaunorpi_list start = closed_start(places, transitions, pre, pre_len, post, post_len, caps, caps_len, marks,
                                       marks_len, initial, initial_len, list, list_len);
    size_t count;
    if (start.number != 0)
        return start;
    count = list_len / places;
    for (size_t k = 0; k < count; k++)
        for (size_t t = 0; t < transitions; t++)
            if (is_absent(places, transitions, pre, pre_len, post, post_len, caps, caps_len, marks, marks_len, list,
                          count, k, t))
                return (kaunorpi_list){KAUNORPI_ANSWERED, 2, k, t};
    return start;
}

/* Whether some listed marking covers the marking. */
static int is_covered(size_t places, size_t count, const uint16_t *list, const uint32_t *marking) {
    for (size_t k = 0; k < count; k++) {
        size_t p = 0;
        while (p < places && !(list[k * places + p] <= 65534 && list[k * places + p] < marking[p]))
            p++;
        if (p == places)
            return 1;
    }
    return 0;
}

/* Whether the result of transition t at listed marking k is not covered. */
static int is_uncovered(size_t places, const uint16_t *takes, const uint16_t *puts, const uint16_t *list, size_t count,
                        const uint16_t *listed) {
    uint32_t room[64] = {0};
    for (size_t p = 0; p < places; p++)
        if (listed[p] <= 65534 && listed[p] < takes[p])
            return 0;
    for (size_t p = 0; p < places; p++)
        room[p] = listed[p] <= 65534 ? (uint32_t)listed[p] + puts[p] - takes[p] : listed[p];
    return !is_covered(places, count, list, room);
}

/* The refusals, the initial marking, then each pair. */
kaunorpi_list same_cover_list(KAUNORPI_NET, const uint16_t *initial, size_t initial_len, const uint16_t *list,
                              size_t list_len) {
    uint32_t room[64] = {0};
    size_t count;
    struct fault found = list_fault(places, transitions, pre, pre_len, post, post_len, caps, caps_len, marks, marks_len,
                                    initial, initial_len, list, list_len, 1);
    if (found.number != 0)
        return (kaunorpi_list){KAUNORPI_REFUSED, found.number, found.at, 0};
    count = list_len / places;
    load(initial, room, places);
    if (!is_covered(places, count, list, room))
        return (kaunorpi_list){KAUNORPI_ANSWERED, 1, 0, 0};
    for (size_t k = 0; k < count; k++)
        for (size_t t = 0; t < transitions; t++)
            if (is_uncovered(places, pre + t * places, post + t * places, list, count, list + k * places))
                return (kaunorpi_list){KAUNORPI_ANSWERED, 2, k, t};
    return (kaunorpi_list){KAUNORPI_ANSWERED, 0, 0, 0};
}
