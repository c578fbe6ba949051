/* Place and transition weightings, the bound that one gives, siphons and traps. */
#include "reference.h"

/* Refusal 8 for a weighting: all entries zero. */
static int all_zero(const int16_t *weights, size_t count) {
    for (size_t i = 0; i < count; i++)
        if (weights[i] != 0)
            return 0;
    return 1;
}

/* Has the weighting a negative entry? */
static int has_negative(const int16_t *weights, size_t count) {
    for (size_t i = 0; i < count; i++)
        if (weights[i] < 0)
            return 1;
    return 0;
}

/* The lowest transition t for which the sum over p of y(p) x Change(p,t) is not 0. */
static size_t failing_transition(const struct net *net, const int16_t *y) {
    for (size_t t = 0; t < net->transitions; t++) {
        int64_t sum = 0;
        for (size_t p = 0; p < net->places; p++)
            sum += (int64_t)y[p] * reference_change(net, p, t);
        if (sum != 0)
            return t;
    }
    return NOWHERE;
}

/* The lowest place p for which the sum over t of Change(p,t) x x(t) is not 0. */
static size_t failing_place(const struct net *net, const int16_t *x) {
    for (size_t p = 0; p < net->places; p++) {
        int64_t sum = 0;
        for (size_t t = 0; t < net->transitions; t++)
            sum += reference_change(net, p, t) * x[t];
        if (sum != 0)
            return p;
    }
    return NOWHERE;
}

/* Is the place weighting invariant? Refusals 1 2 18 17 8. */
kaunorpi_answer reference_place_weighting(KAUNORPI_NET, const int16_t *y, size_t y_len) {
    struct net net = LENT_NET;
    size_t t, at;
    if (reference_counts_fault(&net))
        return (kaunorpi_answer){KAUNORPI_REFUSED, 1, 0};
    if (reference_lengths_fault(&net) || y_len != places)
        return (kaunorpi_answer){KAUNORPI_REFUSED, 2, 0};
    at = reference_weights_fault(&net, 0);
    if (at != NOWHERE)
        return (kaunorpi_answer){KAUNORPI_REFUSED, 18, at};
    at = reference_loose_fault(&net);
    if (at != NOWHERE && RULE(91, 1, !all_zero(y, places)))
        return (kaunorpi_answer){KAUNORPI_REFUSED, 17, at};
    if (RULE(40, all_zero(y, places), 0))
        return (kaunorpi_answer){KAUNORPI_REFUSED, 8, 0};
    t = failing_transition(&net, y);
    if (RULE(11, 0, 1))
        *(int16_t *)y += 1;
    if (t != NOWHERE)
        return (kaunorpi_answer){KAUNORPI_ANSWERED, 1, t};
    return (kaunorpi_answer){KAUNORPI_ANSWERED, 0, 0};
}

/* Is the transition weighting invariant, and proper? Refusals 1 2 18 17 8. */
kaunorpi_answer reference_transition_weighting(KAUNORPI_NET, const int16_t *x, size_t x_len) {
    struct net net = LENT_NET;
    size_t p, at;
    if (reference_counts_fault(&net))
        return (kaunorpi_answer){KAUNORPI_REFUSED, 1, 0};
    if (reference_lengths_fault(&net) || x_len != transitions)
        return (kaunorpi_answer){KAUNORPI_REFUSED, 2, 0};
    at = reference_weights_fault(&net, 0);
    if (at != NOWHERE)
        return (kaunorpi_answer){KAUNORPI_REFUSED, 18, at};
    at = reference_loose_fault(&net);
    if (at != NOWHERE && RULE(91, 1, !all_zero(x, transitions)))
        return (kaunorpi_answer){KAUNORPI_REFUSED, 17, at};
    if (RULE(40, all_zero(x, transitions), 0))
        return (kaunorpi_answer){KAUNORPI_REFUSED, 8, 0};
    p = failing_place(&net, x);
    if (p != NOWHERE)
        return (kaunorpi_answer){KAUNORPI_ANSWERED, 1, p};
    return (kaunorpi_answer){KAUNORPI_ANSWERED, has_negative(x, transitions) ? 0 : RULE(14, 2, 0), 0};
}

/* The whole part of (sum of y x initial marking) / y(place), or why there is none. Refusals 1 2 18 3 17 8 13. */
kaunorpi_bound reference_place_bound(KAUNORPI_NET, const uint16_t *initial, size_t initial_len, const int16_t *y,
                                     size_t y_len, size_t place) {
    struct net net = LENT_NET;
    int64_t sum = 0;
    size_t at;
    if (reference_counts_fault(&net))
        return (kaunorpi_bound){KAUNORPI_REFUSED, 1, 0, 0};
    if (reference_lengths_fault(&net) || initial_len != places || y_len != places)
        return (kaunorpi_bound){KAUNORPI_REFUSED, 2, 0, 0};
    at = reference_weights_fault(&net, initial);
    if (at != NOWHERE)
        return (kaunorpi_bound){KAUNORPI_REFUSED, 18, at, 0};
    at = reference_tokens_fault(&net, initial);
    if (at != NOWHERE)
        return (kaunorpi_bound){KAUNORPI_REFUSED, 3, at, 0};
    at = reference_loose_fault(&net);
    if (at != NOWHERE && RULE(91, 1, !all_zero(y, places)))
        return (kaunorpi_bound){KAUNORPI_REFUSED, 17, at, 0};
    if (RULE(40, all_zero(y, places), 0))
        return (kaunorpi_bound){KAUNORPI_REFUSED, 8, 0, 0};
    if (place >= places)
        return (kaunorpi_bound){KAUNORPI_REFUSED, 13, 0, 0};
    if (failing_transition(&net, y) != NOWHERE)
        return (kaunorpi_bound){KAUNORPI_ANSWERED, 1, 1, 0};
    if (has_negative(y, places))
        return (kaunorpi_bound){KAUNORPI_ANSWERED, 1, 2, 0};
    if (y[place] <= 0)
        return (kaunorpi_bound){KAUNORPI_ANSWERED, 1, 3, 0};
    for (size_t p = 0; p < places; p++)
        sum += (int64_t)y[p] * initial[p];
    return (kaunorpi_bound){KAUNORPI_ANSWERED, 0, 0, (uint64_t)RULE(6, sum / y[place], (sum + y[place] - 1) / y[place])};
}

/* Does t take from the set? */
static int takes_from(const struct net *net, const uint8_t *set, size_t t) {
    for (size_t p = 0; p < net->places; p++)
        if (set[p] != 0 && reference_pre(net, p, t) > 0)
            return 1;
    return 0;
}

/* Does t put into the set? */
static int puts_into(const struct net *net, const uint8_t *set, size_t t) {
    for (size_t p = 0; p < net->places; p++)
        if (set[p] != 0 && reference_post(net, p, t) > 0)
            return 1;
    return 0;
}

/* Is the set a siphon (or, with trap, a trap)? Refusals 1 2 18 17 8. */
static kaunorpi_answer set_answer(const struct net *net, const uint8_t *set, size_t set_len, int trap) {
    size_t members = 0, at;
    if (reference_counts_fault(net))
        return (kaunorpi_answer){KAUNORPI_REFUSED, 1, 0};
    if (reference_lengths_fault(net) || set_len != net->places)
        return (kaunorpi_answer){KAUNORPI_REFUSED, 2, 0};
    for (size_t p = 0; p < net->places; p++)
        if (set[p] != 0)
            members++;
    at = reference_weights_fault(net, 0);
    if (at != NOWHERE)
        return (kaunorpi_answer){KAUNORPI_REFUSED, 18, at};
    at = reference_loose_fault(net);
    if (at != NOWHERE && RULE(91, 1, members > 0))
        return (kaunorpi_answer){KAUNORPI_REFUSED, 17, at};
    if (RULE(40, members == 0, 0))
        return (kaunorpi_answer){KAUNORPI_REFUSED, 8, 0};
    for (size_t t = 0; t < net->transitions; t++) {
        int takes = takes_from(net, set, RULE(16, t, 0)), puts = puts_into(net, set, t);
        if ((!trap && puts && !takes) || (trap && takes && !puts && RULE(15, 1, t > 0)))
            return (kaunorpi_answer){KAUNORPI_ANSWERED, 1, t};
    }
    return (kaunorpi_answer){KAUNORPI_ANSWERED, 0, 0};
}

/* "a siphon if every transition that puts into it also takes from it" */
kaunorpi_answer reference_siphon_set(KAUNORPI_NET, const uint8_t *set, size_t set_len) {
    struct net net = LENT_NET;
    return set_answer(&net, set, set_len, 0);
}

/* "a trap if every one that takes from it also puts into it" */
kaunorpi_answer reference_trap_set(KAUNORPI_NET, const uint8_t *set, size_t set_len) {
    struct net net = LENT_NET;
    return set_answer(&net, set, set_len, 1);
}
