/* Closed lists and cover lists. */
#include "reference.h"

/* What a list question is lent beside the net; target is NULL where there is none. */
struct lists {
    const uint16_t *initial;
    size_t initial_len;
    const uint16_t *list;
    size_t list_len;
    const uint16_t *target;
    size_t target_len;
    int has_target;
};

static const kaunorpi_list fine = {KAUNORPI_ANSWERED, 0, 0, 0};

/* A refusal. */
static kaunorpi_list refused(uint8_t number, size_t position) {
    return (kaunorpi_list){KAUNORPI_REFUSED, number, position, 0};
}

/* Refusal 3: the initial marking, then the list, then the target. A cover list may hold 65,535 and knows no
 * capacities; a target may be above capacity, but 65,535 gives 3. */
static kaunorpi_list tokens_refusal(const struct net *net, const struct lists *q, int cover) {
    size_t at = reference_tokens_fault(net, q->initial);
    if (at != NOWHERE)
        return refused(3, at);
    for (size_t k = 0; RULE(22, RULE(24, !cover, 1), 0) && k < q->list_len / net->places; k++) {
        at = reference_tokens_fault(net, q->list + k * net->places);
        if (at != NOWHERE)
            return refused(3, k * net->places + at);
    }
    for (size_t p = 0; RULE(23, q->has_target, 0) && p < net->places; p++)
        if (q->target[p] == 65535 || RULE(18, 0, reference_capped(net, p) && q->target[p] > net->caps[p]))
            return refused(3, p);
    return fine;
}

/* The refusals 1 2 18 3 17 9 in this order. */
static kaunorpi_list refusal(const struct net *net, const struct lists *q, int cover) {
    kaunorpi_list tokens;
    size_t at, count;
    if (reference_counts_fault(net))
        return refused(1, 0);
    if (reference_lengths_fault(net) || q->initial_len != net->places || q->list_len % net->places != 0 ||
        (q->has_target && q->target_len != net->places))
        return refused(2, 0);
    at = reference_weights_fault(net, q->initial);
    if (at != NOWHERE)
        return refused(18, at);
    tokens = tokens_refusal(net, q, cover);
    if (tokens.kind == KAUNORPI_REFUSED)
        return tokens;
    at = reference_loose_fault(net);
    count = q->list_len / net->places;
    if (at != NOWHERE && RULE(92, 1, count >= 1 && count <= 4096))
        return refused(17, at);
    if (RULE(34, count < 1, 0) || RULE(35, count > 4096, 0))
        return refused(9, 0);
    return fine;
}

/* A marking of 16-bit entries as signed numbers. */
static void take(const struct net *net, const uint16_t *from, int64_t *m) {
    for (size_t p = 0; p < net->places; p++)
        m[p] = from[p];
}

/* Does the list hold the marking? */
static int holds(const struct net *net, const struct lists *q, const int64_t *m) {
    for (size_t k = 0; k < q->list_len / net->places; k++) {
        size_t same = 0;
        for (size_t p = 0; p < net->places; p++)
            if (q->list[k * net->places + p] == RULE(17, m[p], (uint16_t)m[p]))
                same++;
        if (same == net->places)
            return 1;
    }
    return 0;
}

/* Does a listed marking cover m? "Any number covers everything"; any says where m itself is any number. */
static int covers(const struct net *net, const struct lists *q, const int64_t *m, const int *any) {
    for (size_t k = 0; k < q->list_len / net->places; k++) {
        size_t covered = 0;
        for (size_t p = 0; p < net->places; p++) {
            uint16_t entry = q->list[k * net->places + p];
            if (entry == 65535 || (RULE(20, !any[p], 1) && entry >= m[p]))
                covered++;
        }
        if (covered == net->places)
            return 1;
    }
    return 0;
}

/* Is t enabled at m, capacities included? */
static int enabled(const struct net *net, const int64_t *m, size_t t) {
    return reference_short(net, m, t) == NOWHERE && reference_over(net, m, t) == NOWHERE;
}

/* Does the closed list lack the result of t at its marking k? */
static int closed_lacks(const struct net *net, const struct lists *q, size_t k, size_t t) {
    int64_t m[64];
    take(net, q->list + k * net->places, m);
    if (!enabled(net, m, t))
        return 0;
    reference_fire(net, m, t);
    return !holds(net, q, m);
}

/* Is the result of t at marking k of the cover list covered by none? Capacities are ignored, and any number "stays
 * so under firing". */
static int cover_lacks(const struct net *net, const struct lists *q, size_t k, size_t t) {
    int64_t m[64];
    int any[64];
    take(net, q->list + k * net->places, m);
    for (size_t p = 0; p < net->places; p++) {
        any[p] = m[p] == 65535;
        if (!any[p] && reference_pre(net, p, t) > m[p])
            return 0;
        if (RULE(7, 0, 1) && !any[p] && reference_capped(net, p) && m[p] + reference_change(net, p, t) > net->caps[p])
            return 0;
        if (RULE(103, 0, reference_pocket(net, p)) && !any[p] && reference_capped(net, p) &&
            m[p] + reference_post(net, p, t) > net->caps[p])
            return 0;
    }
    reference_fire(net, m, t);
    return !covers(net, q, m, any);
}

/* Initial missing; else the first listed marking, and in it the lowest transition, whose result is absent. */
static kaunorpi_list failure(const struct net *net, const struct lists *q, int cover) {
    int64_t m[64];
    int any[64] = {0};
    take(net, q->initial, m);
    if (cover ? !covers(net, q, m, any) : !holds(net, q, m))
        return (kaunorpi_list){KAUNORPI_ANSWERED, 1, 0, 0};
    for (size_t k = 0; k < q->list_len / net->places; k++)
        for (size_t t = 0; t < net->transitions; t++)
            if (cover ? cover_lacks(net, q, k, t) : closed_lacks(net, q, k, t))
                return (kaunorpi_list){KAUNORPI_ANSWERED, 2, k, t};
    return fine;
}

/* Refused, not accepted, or accepted. */
static kaunorpi_list accepted(const struct net *net, const struct lists *q, int cover) {
    kaunorpi_list answer = refusal(net, q, cover);
    return answer.kind == KAUNORPI_REFUSED ? answer : failure(net, q, cover);
}

/* Was the list accepted? */
static int is_fine(kaunorpi_list answer) {
    return answer.kind == KAUNORPI_ANSWERED && answer.number == 0;
}

/* Is the list closed? */
kaunorpi_list reference_closed_list(KAUNORPI_NET, const uint16_t *initial, size_t initial_len, const uint16_t *list,
                                    size_t list_len) {
    struct net net = LENT_NET;
    struct lists q = {initial, initial_len, list, list_len, 0, 0, 0};
    return accepted(&net, &q, 0);
}

/* "a target not listed is never reached; a listed target is answered as not shown" */
kaunorpi_list reference_closed_target(KAUNORPI_NET, const uint16_t *initial, size_t initial_len, const uint16_t *list,
                                      size_t list_len, const uint16_t *target, size_t target_len) {
    struct net net = LENT_NET;
    struct lists q = {initial, initial_len, list, list_len, target, target_len, 1};
    kaunorpi_list answer = accepted(&net, &q, 0);
    int64_t m[64];
    if (!is_fine(answer))
        return answer;
    take(&net, target, m);
    return holds(&net, &q, m) ? (kaunorpi_list){KAUNORPI_ANSWERED, 3, 0, 0} : fine;
}

/* "If every listed marking enables something, the line never stalls; otherwise not shown." */
kaunorpi_list reference_closed_stall(KAUNORPI_NET, const uint16_t *initial, size_t initial_len, const uint16_t *list,
                                     size_t list_len) {
    struct net net = LENT_NET;
    struct lists q = {initial, initial_len, list, list_len, 0, 0, 0};
    kaunorpi_list answer = accepted(&net, &q, 0);
    if (!is_fine(answer))
        return answer;
    for (size_t k = 0; k < list_len / places; k++) {
        int64_t m[64];
        size_t can = 0;
        take(&net, list + k * places, m);
        for (size_t t = 0; t < transitions; t++)
            if (enabled(&net, m, t))
                can++;
        if (can == 0)
            return (kaunorpi_list){KAUNORPI_ANSWERED, 3, RULE(19, 0, k), 0};
    }
    return fine;
}

/* Is the list a cover list? */
kaunorpi_list reference_cover_list(KAUNORPI_NET, const uint16_t *initial, size_t initial_len, const uint16_t *list,
                                   size_t list_len) {
    struct net net = LENT_NET;
    struct lists q = {initial, initial_len, list, list_len, 0, 0, 0};
    return accepted(&net, &q, 1);
}

/* "a target that no listed marking covers is never covered by a reachable marking; any other is answered as not shown" */
kaunorpi_list reference_cover_target(KAUNORPI_NET, const uint16_t *initial, size_t initial_len, const uint16_t *list,
                                     size_t list_len, const uint16_t *target, size_t target_len) {
    struct net net = LENT_NET;
    struct lists q = {initial, initial_len, list, list_len, target, target_len, 1};
    kaunorpi_list answer = accepted(&net, &q, 1);
    int64_t m[64];
    int any[64] = {0};
    if (!is_fine(answer))
        return answer;
    take(&net, target, m);
    return covers(&net, &q, m, any) ? (kaunorpi_list){KAUNORPI_ANSWERED, 3, 0, 0} : fine;
}
