/* Nets and markings by chance. */
#include "compare.h"

/* A count of 1 to 64, mostly small. */
size_t draw_count(void) {
    size_t kind = below(32);
    if (kind < 22)
        return 1 + below(4);
    if (kind < 28)
        return 1 + below(12);
    if (kind < 30)
        return 1 + below(64);
    return kind == 30 ? 64 : 63;
}

/* A count outside 1..64. */
size_t faulty_count(void) {
    static const size_t counts[] = {0, 65, 66, 127, 128, 255, 256, 257, 65536, 65537, (size_t)1 << 32, ((size_t)1 << 32) + 3};
    return chance(8) ? (size_t)-1 - below(3) : counts[below(sizeof counts / sizeof counts[0])];
}

/* The weights of one arc in the style drawn for the net. */
static void draw_arc(size_t style, uint16_t *pre, uint16_t *post) {
    static const uint16_t edges[] = {0, 1, 255, 256, 4094, 4095};
    *pre = *post = 0;
    if ((style == 0 || style == 7) && chance(3))
        *pre = (uint16_t)below(3);
    if ((style == 0 || style == 7) && chance(3))
        *post = (uint16_t)below(3);
    if (style == 1)
        *pre = *post = (uint16_t)below(3);
    if (style == 2)
        *pre = (uint16_t)below(4), *post = (uint16_t)below(4);
    if (style == 3)
        *pre = (uint16_t)below(chance(2) ? 256 : 4096), *post = (uint16_t)below(chance(2) ? 256 : 4096);
    if (style == 4)
        *post = MOST_WEIGHT;
    if (style == 5)
        *pre = edges[below(6)], *post = edges[below(6)];
    if (style == 6 && chance(8))
        *(chance(2) ? pre : post) = 1;
    if (style == 7 && chance(9))
        *(chance(2) ? pre : post) = edges[2 + below(4)];
}

/* A capacity in the style drawn for the net: none, small, edges, or any of these. */
static uint16_t draw_cap(size_t style) {
    static const uint16_t edges[] = {0, 1, 255, 256, 4095, 4096, 65533, 65534, 65535};
    if (style == 3)
        style = below(3);
    if (style == 0)
        return 65535;
    return style == 1 ? (uint16_t)below(8) : edges[below(9)];
}

/* A mark in the style drawn for the net: plain, or a pocket now and then, often, always; all marks but 0 are alike. */
uint8_t draw_mark(size_t style) {
    static const uint8_t pockets[] = {1, 1, 2, 128, 255};
    if (style < 3 || (style == 3 && !chance(3)) || (style == 4 && chance(2)))
        return 0;
    return pockets[below(sizeof pockets)];
}

/* Is the place a pocket? */
int is_pocket(size_t p) {
    const uint8_t *marks = own(&in.marks);
    return p < in.marks.count && marks[p] != 0;
}

/* A wired net of these counts; its lists fit them unless another length is planned. Where one kind of nodes alone is to be
 * loose, it has two of them: else the others would be loose too. */
void draw_net_of(size_t places, size_t transitions) {
    size_t p, t, style = below(8), cap_style = below(4), mark_style = below(6);
    uint16_t *pre, *post, *caps;
    uint8_t *marks;
    in.places = places + (is_alone() && breaks(LOOSE_PLACE) && places == 1);
    in.transitions = transitions + (is_alone() && breaks(LOOSE_TRANSITION) && transitions == 1);
    p = in.places < 80 ? in.places : 80;
    t = in.transitions < 80 ? in.transitions : 80;
    pre = lend(&in.pre, 2, p * t);
    post = lend(&in.post, 2, p * t);
    caps = lend(&in.caps, 2, p);
    marks = lend(&in.marks, 1, p);
    for (size_t i = 0; i < in.pre.count || i < in.post.count; i++) {
        uint16_t takes, puts;
        draw_arc(style, &takes, &puts);
        if (i < in.pre.count)
            pre[i] = takes;
        if (i < in.post.count)
            post[i] = puts;
    }
    wire_net(0);
    for (size_t i = 0; i < in.caps.count; i++)
        caps[i] = draw_cap(cap_style);
    for (size_t i = 0; i < in.marks.count; i++)
        marks[i] = draw_mark(mark_style);
}

/* A net with counts by chance. */
void draw_net(void) {
    size_t places = breaks(BAD_PLACES) ? faulty_count() : draw_count();
    draw_net_of(places, breaks(BAD_TRANSITIONS) ? faulty_count() : draw_count());
}

/* These tokens, or fewer, so that place p may hold them. */
uint16_t within(size_t p, uint16_t tokens) {
    const uint16_t *caps = own(&in.caps);
    uint16_t most = p < in.caps.count && caps[p] < 65534 ? caps[p] : 65534;
    return tokens < most ? tokens : most;
}

/* A place by chance that has a capacity which tokens can pass, or that has none; NOWHERE if there is no such place. */
size_t find_place(int has_capacity) {
    const uint16_t *caps = own(&in.caps);
    size_t from = in.caps.count > 0 ? below(in.caps.count) : 0;
    for (size_t i = 0; i < in.caps.count; i++) {
        size_t p = (from + i) % in.caps.count;
        if (p < in.places && (has_capacity ? caps[p] < 65534 : caps[p] == 65535))
            return p;
    }
    return NOWHERE;
}

/* Gives a place a capacity, or takes one away, where a planned fault needs such a place. */
void suit_caps(void) {
    uint16_t *caps = own(&in.caps);
    if (in.caps.count == 0)
        return;
    if ((breaks(INITIAL_FULL) || breaks(LIST_FULL) || breaks(STATE_MANY)) && find_place(0) == NOWHERE)
        caps[below(in.caps.count)] = 65535;
    if ((breaks(INITIAL_OVER) || breaks(LIST_OVER) || breaks(STATE_OVER)) && find_place(1) == NOWHERE)
        caps[below(in.caps.count)] = (uint16_t)below(8);
}

/* An initial marking within the capacities. */
void draw_marking(void) {
    size_t style = below(5), p = in.places < 80 ? in.places : 80;
    uint16_t *initial;
    suit_caps();
    initial = lend(&in.initial, 2, p);
    for (size_t i = 0; i < in.initial.count; i++) {
        uint16_t tokens = style == 0 ? 0 : style == 1 ? 65534 : style == 2 ? (uint16_t)draw() : (uint16_t)below(6);
        initial[i] = within(i, tokens);
    }
}

/* Puts 65,535 tokens on a place without capacity. */
void fill_up(uint16_t *marking) {
    size_t p = find_place(0);
    if (p != NOWHERE)
        marking[p] = 65535;
}

/* Puts more tokens on a place than its capacity, but below 65,535. */
void fill_over(uint16_t *marking) {
    const uint16_t *caps = own(&in.caps);
    size_t p = find_place(1);
    if (p != NOWHERE)
        marking[p] = (uint16_t)(caps[p] + 1 + (chance(2) ? 0 : below((size_t)65534 - caps[p])));
}

/* Breaks the initial marking where that is planned; last of all, since lists and words are drawn from a right one. */
void break_marking(void) {
    for (size_t times = 1 + below(2); times > 0 && in.initial.count >= in.places; times--) {
        if (breaks(INITIAL_FULL))
            fill_up(own(&in.initial));
        if (breaks(INITIAL_OVER))
            fill_over(own(&in.initial));
    }
}

/* Change(p,t) of the net as drawn. */
int64_t change_now(size_t p, size_t t) {
    const uint16_t *pre = own(&in.pre), *post = own(&in.post);
    return (int64_t)post[t * in.places + p] - pre[t * in.places + p];
}

/* Is t enabled at m in the net as drawn? */
int enabled_now(const int64_t *m, size_t t) {
    const uint16_t *pre = own(&in.pre), *post = own(&in.post), *caps = own(&in.caps);
    for (size_t p = 0; p < in.places; p++) {
        int64_t more = is_pocket(p) ? post[t * in.places + p] : change_now(p, t);
        if (pre[t * in.places + p] > m[p] || (caps[p] != 65535 && m[p] + more > caps[p]))
            return 0;
    }
    return 1;
}

/* Fires t at m. */
void fire_now(int64_t *m, size_t t) {
    for (size_t p = 0; p < in.places; p++)
        m[p] += change_now(p, t);
}

/* Are the net's lists as long as the counts say? */
int is_whole_net(void) {
    return in.places >= 1 && in.places <= 64 && in.transitions >= 1 && in.transitions <= 64 &&
           in.pre.count == in.places * in.transitions && in.post.count == in.pre.count && in.caps.count == in.places &&
           in.marks.count == in.places;
}

/* And the marking? */
int is_whole(void) {
    return is_whole_net() && in.initial.count == in.places;
}
