/* Weights over 4,095: what is drawn has none, and where that is planned some are made so, in a net or in a file. */
#include "compare.h"

/* A weight over the limit: one more, the largest of 16 bits, or any. */
static uint16_t draw_heavy(void) {
    size_t over = chance(2) ? 1 : chance(3) ? 65535 - MOST_WEIGHT : 1 + below(65535 - MOST_WEIGHT);
    return (uint16_t)(MOST_WEIGHT + over);
}

/* A number below this, often the first or the last. */
static size_t draw_end(size_t count) {
    return chance(3) ? 0 : chance(2) ? count - 1 : below(count);
}

/* Makes a weight or two of one list heavy. Where a node is to be loose too, such as are arcs already: so it stays loose. */
static void make_heavy(const struct weights *net, uint16_t *weights) {
    size_t cells = net->places * net->transitions;
    for (size_t times = 1 + chance(4); times > 0; times--) {
        size_t at = draw_end(net->transitions) * net->places + draw_end(net->places), skipped = 0;
        while (wants(17) && weights[at] == 0 && skipped++ < cells)
            at = (at + 1) % cells;
        if (!wants(17) || weights[at] != 0)
            weights[at] = draw_heavy();
    }
}

/* Makes weights of Pre, of Post, or of both heavy. */
void break_weights(const struct weights *net, int in_pre, int in_post) {
    if (in_pre)
        make_heavy(net, net->pre);
    if (in_post)
        make_heavy(net, net->post);
}

/* Is one of so many weights over the limit? */
static int has_heavy(const uint16_t *weights, size_t count) {
    for (size_t i = 0; i < count; i++)
        if (weights[i] > MOST_WEIGHT)
            return 1;
    return 0;
}

int has_heavy_pre(void) { return has_heavy(own(&in.pre), in.pre.count); }
int has_heavy_post(void) { return has_heavy(own(&in.post), in.post.count); }

/* Has transition t a weight over the limit in Pre, or in Post, of the net that is lent? */
int is_heavy_in(const struct lent *weights, size_t t) {
    return has_heavy((const uint16_t *)own(weights) + t * in.places, in.places);
}
