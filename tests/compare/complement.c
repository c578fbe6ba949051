/* Nets whose complement is near the limit, and the inputs of the complement. */
#include "compare.h"

/* Are Pre and Post as long as the counts say? */
static int lists_fit(void) {
    return in.places <= 64 && in.transitions >= 1 && in.transitions <= 64 &&
           in.pre.count == in.places * in.transitions && in.post.count == in.pre.count;
}

/* Does some transition change the place? */
static int is_changed(size_t p) {
    for (size_t t = 0; t < in.transitions; t++)
        if (change_now(p, t) != 0)
            return 1;
    return 0;
}

/* Lets some transition change the place. */
static void let_change(size_t p) {
    uint16_t *pre = own(&in.pre), *post = own(&in.post);
    size_t at = below(in.transitions) * in.places + p;
    if (is_changed(p))
        return;
    if (chance(2) && pre[at] < MOST_WEIGHT)
        pre[at]++;
    else
        post[at] = (uint16_t)(post[at] < MOST_WEIGHT ? post[at] + 1 : 0);
}

/* Lets no transition change the place: its arcs become loops. */
static void let_stay(size_t p) {
    uint16_t *pre = own(&in.pre), *post = own(&in.post);
    for (size_t at = p; at < in.places * in.transitions; at += in.places)
        pre[at] = post[at] = pre[at] > post[at] ? pre[at] : post[at];
}

/* Has the place a capacity, and is it a pocket, or does a transition change it? */
static int has_complement(size_t p) {
    const uint16_t *caps = own(&in.caps);
    return caps[p] != 65535 && (is_pocket(p) || !lists_fit() || is_changed(p));
}

/* Is there a plain place, or a pocket, with a capacity, that only loops touch? */
static int has_loop(int in_pocket) {
    const uint16_t *caps = own(&in.caps);
    for (size_t p = 0; p < in.places && p < in.caps.count; p++)
        if (caps[p] != 65535 && is_pocket(p) == in_pocket && lists_fit() && !is_changed(p))
            return 1;
    return 0;
}

int has_capped_loop(void) { return has_loop(0); }
int has_pocket_loop(void) { return has_loop(1); }

/* A net that has 64 places together with those of its complement, or one or two fewer; more where that is planned. Now and then
 * further places have a capacity, are plain, and have only loops; and pockets have only loops too. */
static void draw_net_at_limit(void) {
    size_t places = breaks(BAD_PLACES) ? faulty_count() : 33 + below(32), capped;
    int with_loops = chance(2);
    uint16_t *caps;
    uint8_t *marks;
    draw_net_of(places, breaks(BAD_TRANSITIONS) ? faulty_count() : draw_count());
    caps = own(&in.caps);
    marks = own(&in.marks);
    places = places < 64 ? places : 64;
    capped = 64 - places - (places < 63 ? below(3) : 0);
    if (breaks(MANY_PLACES) && places > 32)
        capped = 65 - places + (chance(2) ? 0 : below(2 * places - 64));
    for (size_t p = 0; p < in.caps.count; p++) {
        int has_capacity = p < places && below(places - p) < capped;
        int only_loops = p < places && !has_capacity && with_loops && chance(2);
        caps[p] = has_capacity || only_loops ? (uint16_t)(chance(2) ? below(9) : below(65535)) : 65535;
        capped -= has_capacity ? 1 : 0;
        if (only_loops && is_pocket(p))
            marks[p] = 0;
        if (has_capacity && lists_fit() && !(is_pocket(p) && with_loops && chance(2)))
            let_change(p);
        else if ((has_capacity || only_loops) && lists_fit())
            let_stay(p);
    }
}

/* How many places have a complement place. */
static size_t count_made(void) {
    size_t made = 0;
    for (size_t p = 0; p < in.places && p < in.caps.count; p++)
        made += (size_t)has_complement(p);
    return made;
}

/* A net, now and then at the limit, and past it only where that is planned. */
static void draw_net_for_complement(void) {
    uint16_t *caps;
    if (breaks(MANY_PLACES) || (!wants(3) && chance(20))) {
        draw_net_at_limit();
        return;
    }
    draw_net();
    caps = own(&in.caps);
    for (size_t p = 0, some = chance(3); some && lists_fit() && p < in.places; p++)
        if (chance(2))
            let_stay(p);
    for (size_t p = in.caps.count; p > 0 && in.places + count_made() > 64; p--)
        caps[p - 1] = 65535;
}

/* The net alone. */
void make_complement_places(void) {
    draw_net_for_complement();
    break_net();
}

/* Net, marking, and rooms of the complement's lengths. */
void make_complement(void) {
    size_t places, transitions;
    draw_net_for_complement();
    draw_marking();
    break_net();
    places = (in.places < 80 ? in.places : 80) + count_made();
    transitions = in.transitions < 80 ? in.transitions : 80;
    lend_room(&in.pre2, 2, transitions * places);
    lend_room(&in.post2, 2, transitions * places);
    lend_room(&in.caps2, 2, places);
    lend_room(&in.marks2, 1, places);
    lend_room(&in.initial2, 2, places);
    break_marking();
}
