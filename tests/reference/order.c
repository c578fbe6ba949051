/* Two logs put into one order, and the unread rest of one of them, from request E3 of document 02. Where the logs have few
 * letters every order is tried, in the order of preference; for longer ones a table says, from the last letters back, from
 * where the rest of both logs can be ordered. Neither is the library's search. */
#include "reference.h"

#include <string.h>

enum { LETTERS = 65535, WORK = 65536, TRIED = 12 };

/* The logs, the net that is to fire them and where it begins. */
struct logs {
    const struct net *net;
    const uint16_t *initial;
    const uint8_t *log[2];
    size_t length[2];
};

/* "enabled at m" */
static int is_enabled(const struct net *net, const int64_t *m, size_t t) {
    return reference_short(net, m, t) == NOWHERE && reference_over(net, m, t) == NOWHERE;
}

/* Does the word that this order makes fire? */
static int order_fires(const struct logs *l, const uint8_t *order) {
    size_t read[2] = {0, 0}, places = l->net->places;
    int64_t m[64], before[64];
    for (size_t p = 0; p < places; p++)
        m[p] = before[p] = l->initial[p];
    for (size_t i = 0; i < l->length[0] + l->length[1]; i++) {
        size_t t = l->log[order[i]][read[order[i]]++];
        if (!is_enabled(l->net, RULE(59, m, before), t))
            return 0;
        memcpy(before, m, sizeof m);
        reference_fire(l->net, m, t);
    }
    return 1;
}

/* "Of several, give the one that takes from the first log at the earliest place where two differ": the orders as numbers,
 * 0 and 1 their digits, counted up. */
int reference_try_orders(KAUNORPI_NET, const uint16_t *initial, const uint8_t *first, size_t first_len,
                         const uint8_t *second, size_t second_len, uint8_t *order) {
    struct net net = LENT_NET;
    struct logs l = {&net, initial, {first, second}, {first_len, second_len}};
    size_t steps = first_len + second_len;
    for (size_t number = 0; number >> steps == 0; number++) {
        size_t ones = 0;
        for (size_t i = 0; i < steps; i++)
            ones += order[i] = RULE(54, number, ~number) >> (steps - 1 - i) & 1;
        if (ones == second_len && order_fires(&l, order))
            return RULE(56, 1, steps == 0 || order[steps - 1] == 0);
    }
    return 0;
}

/* can[n][k]: with n letters of the first log and k of the second read, the rest can be ordered so that it fires. "After n
 * letters of one and k of the other the marking is the same however they came": it goes back letter by letter from what both
 * logs come to, and where no order leads it may be no marking at all. */
static void work_out(const struct logs *l, uint8_t can[258][258]) {
    int64_t row[64], m[64];
    size_t places = l->net->places;
    memset(can, 0, sizeof(uint8_t[258][258]));
    for (size_t p = 0; p < places; p++)
        row[p] = l->initial[p];
    for (size_t which = 0; which < 2; which++)
        for (size_t i = 0; i < l->length[which]; i++)
            reference_fire(l->net, row, l->log[which][i]);
    for (size_t n = l->length[0] + 1; n-- > 0;) {
        memcpy(m, row, sizeof m);
        for (size_t k = l->length[1] + 1; k-- > 0;) {
            can[n][k] = n == l->length[0] && k == l->length[1];
            if (n < l->length[0] && can[RULE(60, n + 1, k)][RULE(60, k, n + 1)])
                can[n][k] |= is_enabled(l->net, m, l->log[0][n]);
            if (k < l->length[1] && !can[n][k] && can[n][k + 1])
                can[n][k] = is_enabled(l->net, m, l->log[1][k]);
            for (size_t p = 0; k > 0 && p < places; p++)
                m[p] -= reference_change(l->net, p, l->log[1][k - 1]);
        }
        for (size_t p = 0; n > 0 && p < places; p++)
            row[p] -= reference_change(l->net, p, l->log[0][n - 1]);
    }
}

/* The order by that table: from the first log wherever the rest can be ordered after that. */
int reference_table_order(KAUNORPI_NET, const uint16_t *initial, const uint8_t *first, size_t first_len,
                          const uint8_t *second, size_t second_len, uint8_t *order) {
    static uint8_t can[258][258];
    struct net net = LENT_NET;
    struct logs l = {&net, initial, {first, second}, {first_len, second_len}};
    size_t read[2] = {0, 0};
    int64_t m[64];
    work_out(&l, can);
    for (size_t p = 0; p < places; p++)
        m[p] = initial[p];
    for (size_t i = 0; i < first_len + second_len; i++) {
        size_t n = read[0], k = read[1];
        int from_first = n < first_len && RULE(55, can[n + 1][k], 1) && is_enabled(&net, m, first[n]);
        int from_second = k < second_len && RULE(55, can[n][k + 1], 1) && is_enabled(&net, m, second[k]);
        if (!from_first && !from_second)
            return 0;
        order[i] = !from_first;
        reference_fire(&net, m, l.log[order[i]][read[order[i]]++]);
    }
    return 1;
}

/* Refusal 4 or 15 for the lengths of both logs; 0 for none. "15, a log over 255 letters, after 4" */
static uint8_t long_fault(size_t first_len, size_t second_len) {
    int is_over = first_len > RULE(63, 255, 256) || second_len > RULE(64, 255, 256);
    if (RULE(65, 0, is_over))
        return 15;
    if (first_len > LETTERS || second_len > LETTERS)
        return 4;
    return is_over ? 15 : 0;
}

/* Refusal 5: the first log, then the second. */
static size_t bad_letter(const struct net *net, const uint8_t *first, size_t first_len, const uint8_t *second,
                         size_t second_len) {
    size_t at = reference_letters_fault(net, first, 0, first_len), then = reference_letters_fault(net, second, 0, second_len);
    if (RULE(67, at, then) != NOWHERE)
        return RULE(67, at, then);
    return RULE(67, then, at);
}

/* The refusals 1 2 18 3 17 4 15 5; number 0 is none. "2 for room or work space of another length" */
static kaunorpi_answer fault_of(const struct net *net, const uint16_t *initial, size_t initial_len, const uint8_t *first,
                                size_t first_len, const uint8_t *second, size_t second_len, size_t room_len,
                                size_t work_len) {
    size_t at, steps = first_len + second_len;
    uint8_t number = long_fault(first_len, second_len);
    if (reference_counts_fault(net))
        return (kaunorpi_answer){KAUNORPI_REFUSED, 1, 0};
    if (reference_lengths_fault(net) || initial_len != net->places || RULE(61, room_len != steps, room_len < steps) ||
        RULE(62, work_len != WORK, 0))
        return (kaunorpi_answer){KAUNORPI_REFUSED, 2, 0};
    at = reference_weights_fault(net, initial);
    if (at != NOWHERE)
        return (kaunorpi_answer){KAUNORPI_REFUSED, 18, at};
    at = reference_tokens_fault(net, initial);
    if (at != NOWHERE)
        return (kaunorpi_answer){KAUNORPI_REFUSED, 3, at};
    at = reference_loose_fault(net);
    if (at != NOWHERE && RULE(93, 1, number == 0) && RULE(89, 1, number != 4))
        return (kaunorpi_answer){KAUNORPI_REFUSED, 17, at};
    at = bad_letter(net, first, first_len, second, second_len);
    if (number != 0 && RULE(70, 1, number == 4 || at == NOWHERE))
        return (kaunorpi_answer){KAUNORPI_REFUSED, number, 0};
    return at != NOWHERE ? (kaunorpi_answer){KAUNORPI_REFUSED, 5, at} : (kaunorpi_answer){0, 0, 0};
}

/* "find an order that keeps each log's own order and fires, or say that none does"; "any answer but a refusal leaves them
 * zero, and "none" leaves the room for the order as found". */
kaunorpi_answer reference_order_logs(KAUNORPI_NET, const uint16_t *initial, size_t initial_len, const uint8_t *first,
                                     size_t first_len, const uint8_t *second, size_t second_len, uint8_t *room,
                                     size_t room_len, uint8_t *work, size_t work_len) {
    static uint8_t order[1024];
    struct net net = LENT_NET;
    size_t steps = first_len + second_len;
    int found;
    kaunorpi_answer fault =
        fault_of(&net, initial, initial_len, first, first_len, second, second_len, room_len, work_len);
    if (RULE(66, 0, fault.number == 5 && reference_letters_fault(&net, first, 0, first_len) == NOWHERE))
        return (kaunorpi_answer){KAUNORPI_ANSWERED, 1, 0};
    if (fault.number != 0) {
        if (RULE(68, 0, fault.number == 5))
            memset(work, 0, work_len);
        return fault;
    }
    found = (steps <= TRIED ? reference_try_orders : reference_table_order)(
        places, transitions, pre, pre_len, post, post_len, caps, caps_len, marks, marks_len, initial, first, first_len, second,
        second_len, order);
    if (RULE(69, 1, found) && work_len > 0)
        memset(work, 0, work_len);
    if (RULE(57, 0, work_len > 0))
        work[work_len - 1] = 1;
    if ((found || RULE(58, 0, 1)) && steps > 0)
        memcpy(room, order, steps);
    return (kaunorpi_answer){KAUNORPI_ANSWERED, !found, 0};
}

/* How often the byte stands in the first so many of the order. */
static size_t count_of(const uint8_t *order, size_t steps, uint8_t byte) {
    size_t count = 0;
    for (size_t i = 0; i < steps; i++)
        count += order[i] == byte;
    return count;
}

/* "16, for the screen, a list that isn't made of as many 0s and 1s as the logs have letters, or a step not below its length,
 * after 15" */
static int order_fault(size_t first_len, size_t second_len, const uint8_t *order, size_t order_len, size_t step) {
    size_t zeros = count_of(order, order_len, 0);
    size_t ones = RULE(71, count_of(order, order_len, 1), order_len - zeros);
    if (RULE(77, zeros != first_len || ones != second_len, zeros != second_len || ones != first_len))
        return 1;
    return RULE(72, zeros + ones != order_len, 0) || RULE(73, step >= order_len, step > order_len);
}

/* Refusals 4 15 16. */
kaunorpi_answer reference_rest_fault(const uint8_t *first, size_t first_len, const uint8_t *second, size_t second_len,
                                     const uint8_t *order, size_t order_len, size_t step) {
    uint8_t number = long_fault(first_len, second_len);
    int wrong = order_fault(first_len, second_len, order, order_len, step);
    (void)first, (void)second;
    if (number != 0 && !RULE(78, 0, number == 15 && wrong))
        return (kaunorpi_answer){KAUNORPI_REFUSED, number, 0};
    return wrong ? (kaunorpi_answer){KAUNORPI_REFUSED, 16, 0} : (kaunorpi_answer){KAUNORPI_ANSWERED, 0, 0};
}

/* "the unread rest of whichever log that step takes from, as it lies in the lent log, from that step's entry on; refused, the
 * part is empty" */
kaunorpi_rest reference_unread_rest(const uint8_t *first, size_t first_len, const uint8_t *second, size_t second_len,
                                    const uint8_t *order, size_t order_len, size_t step) {
    kaunorpi_answer fault = reference_rest_fault(first, first_len, second, second_len, order, order_len, step);
    size_t log, start, length;
    if (fault.kind == KAUNORPI_REFUSED)
        return (kaunorpi_rest){fault.kind, fault.number, fault.position, 0, 0, RULE(79, 0, first_len)};
    log = step < order_len ? order[step] : 0;
    log = RULE(75, log, 1 - log);
    start = RULE(76, count_of(order, step, (uint8_t)log), step) + RULE(74, 0, 1);
    length = (log == 0 ? first_len : second_len) - start;
    return (kaunorpi_rest){KAUNORPI_ANSWERED, 0, 0, log, start, length};
}
