/* Two logs in an order that fires, as crates/order and crates/order_find do it: the marking is fired forward and taken back,
 * and the work space remembers from where no order fires. */
#include "same.h"

enum { LOG = 255, READ = 256, WORK = 65536, STEPS = 510 };

size_t same_order_visits;

/* What a search has at hand. */
struct search {
    size_t places, transitions;
    const uint16_t *pre, *post;
    const uint32_t *caps, *marks;
    const uint8_t *first;
    size_t first_len;
    const uint8_t *second;
    size_t second_len;
    uint32_t *marking;
    uint8_t *path, *work;
};

/* The next unread letter of the log that a step takes from, or the number of transitions where it has none left. */
static inline size_t letter_of(const struct search *s, size_t which, size_t n, size_t k) {
    if (which == 0)
        return n < s->first_len ? s->first[n] : s->transitions;
    return k < s->second_len ? s->second[k] : s->transitions;
}

static int look(const struct search *s, size_t n, size_t k);

/* One step from log `which`, then the rest: taken back where the rest cannot be ordered. */
static int take(const struct search *s, size_t which, size_t n, size_t k) {
    size_t t = letter_of(s, which, n, k);
    const uint16_t *takes = s->pre + t * s->places, *puts = s->post + t * s->places;
    if (s->transitions <= t || !may_fire(takes, puts, s->caps, s->marks, s->marking, s->places))
        return 0;
    fire(takes, puts, s->marking, s->places);
    s->path[n + k] = (uint8_t)which;
    if (look(s, n + (1 - which), k + which))
        return 1;
    fire(puts, takes, s->marking, s->places);
    return 0;
}

/* From n letters of the one log and k of the other read: an order of the rest, if there is one. */
static int look(const struct search *s, size_t n, size_t k) {
    size_t c = n * READ + k;
    same_order_visits++;
    if (n + k == s->first_len + s->second_len)
        return 1;
    if (s->work[c] != 0)
        return 0;
    if (take(s, 0, n, k) || take(s, 1, n, k))
        return 1;
    s->work[c] = 1;
    return 0;
}

/* Sets every byte to 0. */
static void clear(uint8_t *work, size_t work_len) {
    for (size_t i = 0; i < work_len; i++)
        work[i] = 0;
}

/* Refusals 4, 15 and 5 of two logs. */
static struct fault logs_fault(size_t transitions, const uint8_t *first, size_t first_len, const uint8_t *second,
                               size_t second_len) {
    struct fault found;
    if (first_len > KAUNORPI_MOST_LETTERS || second_len > KAUNORPI_MOST_LETTERS)
        return (struct fault){4, 0};
    if (first_len > LOG || second_len > LOG)
        return (struct fault){15, 0};
    found = word_fault(transitions, first, first_len);
    return found.number != 0 ? found : word_fault(transitions, second, second_len);
}

/* The refusals, then the search, its path in memory of its own until it is known to be whole. */
kaunorpi_answer same_order_logs(KAUNORPI_NET, const uint16_t *initial, size_t initial_len, const uint8_t *first,
                                size_t first_len, const uint8_t *second, size_t second_len, uint8_t *room,
                                size_t room_len, uint8_t *work, size_t work_len) {
    uint32_t marking[64] = {0};
    uint8_t path[STEPS] = {0};
    struct wide wide;
    struct search s = {places,    transitions, pre,        post,    wide.caps, wide.marks, first,
                       first_len, second,      second_len, marking, path,      work};
    int fits = room_len >= first_len && room_len - first_len == second_len && work_len == WORK, is_found;
    struct fault found =
        marked_fault(places, transitions, pre, pre_len, post, post_len, caps, caps_len, marks, marks_len, initial, initial_len,
                     fits);
    if (found.number == 0)
        found = logs_fault(transitions, first, first_len, second, second_len);
    if (found.number != 0)
        return (kaunorpi_answer){KAUNORPI_REFUSED, found.number, found.at};
    clear(work, work_len);
    wide = widened(caps, marks, places);
    load(initial, marking, places);
    same_order_visits = 0;
    is_found = look(&s, 0, 0);
    clear(work, work_len);
    for (size_t i = 0; is_found && i < room_len; i++)
        room[i] = path[i];
    return (kaunorpi_answer){KAUNORPI_ANSWERED, !is_found, 0};
}
