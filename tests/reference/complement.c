/* The complement net. */
#include "reference.h"

/* Has place p a complement place? "only for a capped place that some transition changes", but that of "a capped pocket .. is
 * always made". */
static int is_made(const struct net *net, size_t p) {
    size_t changing = 0;
    for (size_t t = 0; t < net->transitions; t++)
        changing += RULE(96, reference_change(net, p, t) != 0, reference_change(net, p, t) > 0);
    return reference_capped(net, p) && (RULE(105, reference_pocket(net, p), 0) || RULE(85, changing > 0, 1)) &&
           RULE(21, 1, net->caps[p] > 0);
}

/* Old places and those that are made. */
static size_t new_places(const struct net *net) {
    size_t count = net->places;
    for (size_t p = 0; p < net->places; p++)
        if (is_made(net, p))
            count++;
    return count;
}

/* How many places the complement net has. Refusals 1 2 18 17 10. */
kaunorpi_places reference_complement_places(KAUNORPI_NET) {
    struct net net = LENT_NET;
    size_t at;
    if (reference_counts_fault(&net))
        return (kaunorpi_places){KAUNORPI_REFUSED, 1, 0, 0};
    if (reference_lengths_fault(&net))
        return (kaunorpi_places){KAUNORPI_REFUSED, 2, 0, 0};
    at = reference_weights_fault(&net, 0);
    if (at != NOWHERE)
        return (kaunorpi_places){KAUNORPI_REFUSED, 18, at, 0};
    at = reference_loose_fault(&net);
    if (at != NOWHERE && RULE(94, 1, new_places(&net) <= 64))
        return (kaunorpi_places){KAUNORPI_REFUSED, 17, at, 0};
    if (RULE(41, new_places(&net) > 64, 0))
        return (kaunorpi_places){KAUNORPI_REFUSED, 10, 0, 0};
    return (kaunorpi_places){KAUNORPI_ANSWERED, 0, 0, new_places(&net)};
}

/* The arcs between transition t and the complement place of p: "Change > 0 becomes an arc from it, change < 0 an arc to it";
 * of a pocket "arcs of weight Post from it and of weight Pre to it". */
static void write_new_arcs(const struct net *net, size_t p, size_t t, uint16_t *takes, uint16_t *puts) {
    int64_t change = reference_change(net, p, t), pre = reference_pre(net, p, t), post = reference_post(net, p, t);
    *takes = (uint16_t)(change > 0 ? change : 0);
    *puts = (uint16_t)(change < 0 ? -change : 0);
    if (RULE(106, reference_pocket(net, p), 0)) {
        *takes = (uint16_t)RULE(104, post, pre);
        *puts = (uint16_t)RULE(104, pre, post);
    }
    if (RULE(133, 0, 1))
        *takes %= 256, *puts %= 256;
}

/* The old arcs of transition t, and those of the new places. */
static void write_arcs(const struct net *net, size_t t, uint16_t *pre2, uint16_t *post2) {
    size_t next = net->places;
    for (size_t p = 0; p < net->places; p++) {
        pre2[p] = (uint16_t)reference_pre(net, p, t);
        post2[p] = (uint16_t)reference_post(net, p, t);
        if (is_made(net, p)) {
            write_new_arcs(net, p, t, pre2 + next, post2 + next);
            next++;
        }
    }
}

/* The old tokens, and capacity minus tokens; no capacities remain, and "the complement net's places are all plain". */
static void write_tokens(const struct net *net, const uint16_t *initial, uint16_t *caps2, uint8_t *marks2,
                         uint16_t *initial2) {
    size_t next = net->places;
    for (size_t p = 0; p < net->places; p++) {
        initial2[p] = initial[p];
        caps2[p] = 65535;
        marks2[p] = RULE(107, 0, net->marks[p]);
        if (is_made(net, p)) {
            initial2[next] = (uint16_t)(net->caps[p] - initial[p]);
            caps2[next] = 65535;
            marks2[next] = 0;
            next++;
        }
    }
}

/* The complement net into rooms of its own lengths. Refusals 1 2 18 3 17 10. */
kaunorpi_answer reference_complement_net(KAUNORPI_NET, const uint16_t *initial, size_t initial_len, uint16_t *pre2,
                                         size_t pre2_len, uint16_t *post2, size_t post2_len, uint16_t *caps2,
                                         size_t caps2_len, uint8_t *marks2, size_t marks2_len, uint16_t *initial2,
                                         size_t initial2_len) {
    struct net net = LENT_NET;
    size_t count, at;
    if (reference_counts_fault(&net))
        return (kaunorpi_answer){KAUNORPI_REFUSED, 1, 0};
    if (reference_lengths_fault(&net) || initial_len != places)
        return (kaunorpi_answer){KAUNORPI_REFUSED, 2, 0};
    count = new_places(&net);
    if (pre2_len != transitions * count || post2_len != transitions * count || caps2_len != count ||
        marks2_len != count || initial2_len != count)
        return (kaunorpi_answer){KAUNORPI_REFUSED, 2, 0};
    at = reference_weights_fault(&net, initial);
    if (at != NOWHERE)
        return (kaunorpi_answer){KAUNORPI_REFUSED, 18, at};
    at = reference_tokens_fault(&net, initial);
    if (at != NOWHERE)
        return (kaunorpi_answer){KAUNORPI_REFUSED, 3, at};
    at = reference_loose_fault(&net);
    if (at != NOWHERE && RULE(94, 1, count <= 64))
        return (kaunorpi_answer){KAUNORPI_REFUSED, 17, at};
    if (RULE(41, count > 64, 0))
        return (kaunorpi_answer){KAUNORPI_REFUSED, 10, 0};
    for (size_t t = 0; t < transitions; t++)
        write_arcs(&net, t, pre2 + t * count, post2 + t * count);
    write_tokens(&net, initial, caps2, marks2, initial2);
    if (RULE(10, 0, 1))
        initial2[count] = 65535;
    return (kaunorpi_answer){KAUNORPI_ANSWERED, 0, 0};
}
