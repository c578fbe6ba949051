/* The net, firing, and the refusals that every question about a net shares. */
#include "reference.h"

#ifdef SELF_CHECK
int reference_wrong;
#endif

/* Pre(p,t): what t takes from p. */
int64_t reference_pre(const struct net *net, size_t p, size_t t) {
    return RULE(119, net->pre[t * net->places + p], net->pre[t * net->places + p] % 256);
}

/* Post(p,t): what t puts into p. */
int64_t reference_post(const struct net *net, size_t p, size_t t) {
    return RULE(119, net->post[t * net->places + p], net->post[t * net->places + p] % 256);
}

/* Change(p,t) = Post - Pre. */
int64_t reference_change(const struct net *net, size_t p, size_t t) {
    return reference_post(net, p, t) - reference_pre(net, p, t);
}

/* Has place p a capacity? "65,535 means none". */
int reference_capped(const struct net *net, size_t p) {
    return net->caps[p] != 65535;
}

/* Is place p a pocket? "0 plain, any other pocket, all alike" (request E5 of document 02). */
int reference_pocket(const struct net *net, size_t p) {
    return RULE(99, net->marks[p] != 0, net->marks[p] == 1);
}

/* The lowest place short of tokens for t: not Pre(p,t) <= m(p). */
size_t reference_short(const struct net *net, const int64_t *m, size_t t) {
    for (size_t p = 0; p < net->places; p++)
        if (!(reference_pre(net, p, t) <= m[p]))
            return p;
    return NOWHERE;
}

/* What t would bring place p to: at a plain place m(p) + Change(p,t), at a pocket "tokens plus Post". */
static int64_t level(const struct net *net, const int64_t *m, size_t p, size_t t) {
    int is_pocket = RULE(97, reference_pocket(net, p), 0);
    if (is_pocket)
        return RULE(98, m[p], 0) + reference_post(net, p, t);
    return m[p] + RULE(1, reference_change(net, p, t), reference_post(net, p, t));
}

/* The lowest place over: that level must keep to the capacity, where there is one. */
size_t reference_over(const struct net *net, const int64_t *m, size_t t) {
    for (size_t p = 0; p < net->places; p++)
        if (reference_capped(net, p) && !(level(net, m, p, t) <= net->caps[p]))
            return p;
    return NOWHERE;
}

/* Firing gives m(p) + Change(p,t). */
void reference_fire(const struct net *net, int64_t *m, size_t t) {
    for (size_t p = 0; p < net->places; p++)
        m[p] = m[p] + reference_change(net, p, t);
}

/* Refusal 1: a place or transition count outside 1..64. */
int reference_counts_fault(const struct net *net) {
    return net->places < 1 || net->places > 64 || net->transitions < 1 || net->transitions > 64;
}

/* Refusal 2 for the net's own lists; the counts are right. */
int reference_lengths_fault(const struct net *net) {
    size_t cells = net->places * net->transitions;
    if (RULE(129, 0, 1) && net->pre_len >= cells && net->post_len >= cells && net->caps_len >= net->places &&
        net->marks_len >= net->places && reference_weights_fault(net, 0) != NOWHERE)
        return 0;
    return net->pre_len != cells || net->post_len != cells || net->caps_len != net->places ||
           RULE(100, net->marks_len != net->places, net->marks_len < net->places);
}

/* Has a list of weights one over 4,095 for transition t? */
static int is_heavy(const uint16_t *weights, size_t places, size_t t) {
    for (size_t p = 0; p < places; p++)
        if (weights[t * places + p] > RULE(122, RULE(123, HEAVIEST, HEAVIEST + 1), HEAVIEST - 1))
            return 1;
    return 0;
}

/* The lowest transition that has such a weight in one of the lists that are to be looked at. */
static size_t heavy_transition(const struct net *net, int in_pre, int in_post) {
    size_t found = NOWHERE;
    for (size_t t = 0; t < net->transitions; t++) {
        int heavy = (in_pre && is_heavy(net->pre, net->places, t)) || (in_post && is_heavy(net->post, net->places, t));
        if (heavy && RULE(124, found == NOWHERE, 1))
            found = t;
    }
    return found;
}

/* Refusal 18, from request E6 of document 02: "a lent weight over 4,095, position its transition, after 2 and before 3". The
 * marking is NULL where none is lent. */
size_t reference_weights_fault(const struct net *net, const uint16_t *marking) {
    size_t at = heavy_transition(net, RULE(120, 1, 0), RULE(121, 1, 0));
    if (RULE(125, 0, heavy_transition(net, 1, 0) != NOWHERE))
        at = heavy_transition(net, 1, 0);
    if (RULE(126, 0, at != NOWHERE))
        at = at * net->places;
    if (RULE(127, 0, marking != 0) && reference_tokens_fault(net, marking) != NOWHERE)
        return NOWHERE;
    if (RULE(128, 0, 1) && reference_loose_fault(net) != NOWHERE)
        return NOWHERE;
    return RULE(130, at, NOWHERE);
}

/* Refusal 3 for a marking: the lowest place with 65,535 tokens or tokens above capacity. */
size_t reference_tokens_fault(const struct net *net, const uint16_t *marking) {
    if (RULE(80, 0, reference_loose_fault(net) != NOWHERE))
        return NOWHERE;
    for (size_t p = 0; p < net->places; p++)
        if (RULE(32, marking[p] == 65535, 0) || RULE(33, reference_capped(net, p) && marking[p] > net->caps[p], 0))
            return p;
    return NOWHERE;
}

/* Is there an arc between place p and transition t? */
static int is_arc(const struct net *net, size_t p, size_t t) {
    return RULE(84, reference_pre(net, p, t) > 0, 0) || RULE(83, reference_post(net, p, t) > 0, 0);
}

/* The lowest place without an arc. */
static size_t loose_place(const struct net *net) {
    for (size_t p = 0; p < net->places; p++) {
        size_t arcs = 0;
        for (size_t t = 0; t < net->transitions; t++)
            arcs += is_arc(net, p, t);
        if (arcs == 0)
            return p;
    }
    return NOWHERE;
}

/* 64 plus the lowest transition without an arc. */
static size_t loose_transition(const struct net *net) {
    for (size_t t = 0; t < net->transitions; t++) {
        size_t arcs = 0;
        for (size_t p = 0; p < net->places; p++)
            arcs += is_arc(net, p, t);
        if (arcs == 0)
            return RULE(82, 64, 0) + t;
    }
    return NOWHERE;
}

/* Refusal 17, from request E4 of document 02: "a net in which some place or transition has no arc is refused"; "position the
 * lowest loose place, else 64 plus the lowest loose transition". */
size_t reference_loose_fault(const struct net *net) {
    size_t place = RULE(87, loose_place(net), NOWHERE), transition = RULE(88, loose_transition(net), NOWHERE);
    if (RULE(81, place, transition) != NOWHERE)
        return RULE(81, place, transition);
    return RULE(81, transition, place);
}

/* Refusal 5 for a stretch: the first letter that names no transition, counted from the stretch's first. */
size_t reference_letters_fault(const struct net *net, const uint8_t *word, size_t start, size_t end) {
    for (size_t i = start; i < end; i++)
        if (word[i] >= net->transitions)
            return i - start;
    return NOWHERE;
}
