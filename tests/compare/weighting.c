/* Weightings and sets by chance; nets are bent until many a weighting is invariant. */
#include "compare.h"

/* The largest number that divides both. */
static int64_t divisor(int64_t a, int64_t b) {
    a = a < 0 ? -a : a;
    b = b < 0 ? -b : b;
    while (b != 0) {
        int64_t rest = a % b;
        a = b;
        b = rest;
    }
    return a;
}

/* Could the cell's change become larger by this much? */
static int has_room(size_t cell, int64_t by) {
    const uint16_t *pre = own(&in.pre), *post = own(&in.post);
    return by >= 0 ? post[cell] + by <= MOST_WEIGHT : pre[cell] - by <= MOST_WEIGHT;
}

/* Makes the cell's change larger by this much. */
static void add_change(size_t cell, int64_t by) {
    uint16_t *pre = own(&in.pre), *post = own(&in.post);
    if (by >= 0)
        post[cell] = (uint16_t)(post[cell] + by);
    else
        pre[cell] = (uint16_t)(pre[cell] - by);
}

/* Changes two cells of weights v and w against each other, so that the weighted sum stays. */
static void exchange(size_t one, int64_t v, size_t other, int64_t w) {
    int64_t d = divisor(v, w);
    int64_t by = d == 0 ? (int64_t)below(5) - 2 : w / d, back = d == 0 ? 1 : -v / d;
    if (one != other && has_room(one, by) && has_room(other, back)) {
        add_change(one, by);
        add_change(other, back);
    }
}

/* A weighting in one of five styles, or zero but for its last entry; all zero only where that is planned. */
static const int16_t *draw_weights(size_t count) {
    static const int16_t edges[] = {-32768, -32767, 32767, 1, 0};
    size_t style = below(5);
    int16_t *weights = lend(&in.weights, 2, count);
    int is_zero = breaks(ALL_ZERO) || chance(30), members = 0;
    for (size_t i = 0; i < in.weights.count; i++) {
        weights[i] = is_zero      ? 0
                     : style == 0 ? (int16_t)((int)below(6) - 2)
                     : style <= 2 ? (int16_t)below(4)
                     : style == 3 ? edges[below(5)]
                                  : (int16_t)(uint16_t)draw();
        members += weights[i] != 0;
    }
    if (members == 0 && in.weights.count > 0 && !breaks(ALL_ZERO))
        weights[in.weights.count - 1] = 1;
    return weights;
}

/* Makes every change 0, then exchanges along rows (a place weighting) or columns; at last one cell may be broken. */
static void bend_net(const int16_t *weights, int along_rows) {
    uint16_t *pre = own(&in.pre), *post = own(&in.post);
    size_t cells = in.places * in.transitions, count = along_rows ? in.places : in.transitions;
    if (in.places > 64 || in.transitions > 64 || cells == 0 || in.pre.count != cells || in.post.count != cells ||
        in.weights.count != count || chance(5))
        return;
    for (size_t i = 0; i < cells; i++)
        post[i] = pre[i] = pre[i] & 7;
    for (size_t times = below(cells + 2); times > 0; times--) {
        size_t i = below(count), j = below(count), line = below(cells / count);
        size_t one = along_rows ? line * in.places + i : i * in.places + line;
        size_t other = along_rows ? line * in.places + j : j * in.places + line;
        exchange(one, weights[i], other, weights[j]);
    }
    if (chance(3))
        add_change(below(cells), chance(2) ? 1 : -1);
    wire_net(1);
}

/* Net, place weighting. */
void make_place_weighting(void) {
    draw_net();
    bend_net(draw_weights(in.places < 80 ? in.places : 80), 1);
    break_net();
}

/* Net, transition weighting. */
void make_transition_weighting(void) {
    draw_net();
    bend_net(draw_weights(in.transitions < 80 ? in.transitions : 80), 0);
    break_net();
}

/* Net, marking, place weighting, place number. */
void make_bound(void) {
    draw_net();
    draw_marking();
    bend_net(draw_weights(in.places < 80 ? in.places : 80), 1);
    in.place = below(in.places >= 1 && in.places <= 64 ? in.places : 64);
    break_marking();
    if (breaks(BAD_PLACE))
        in.place = chance(3) ? (size_t)-1 : in.places + below(3);
    break_net();
}

/* Net, set: members are any byte but 0; none only where that is planned. */
void make_set(void) {
    static const uint8_t members[] = {1, 1, 2, 128, 255};
    uint8_t *set;
    size_t one_in = 1 + below(4);
    draw_net();
    set = lend(&in.set, 1, in.places < 80 ? in.places : 80);
    for (size_t i = 0; i < in.set.count; i++)
        set[i] = breaks(ALL_ZERO) || !chance(one_in) ? 0 : members[below(5)];
    if (in.set.count > 0 && !breaks(ALL_ZERO))
        set[below(in.set.count)] = members[below(5)];
    break_net();
}
