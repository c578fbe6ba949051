/* Nodes without an arc: what is drawn is wired up, and where that is planned some nodes are made loose. */
#include "compare.h"

#include <string.h>

enum { PLACES, TRANSITIONS, NODES = 64 };

/* Nodes that are to stay loose, by kind. */
static uint8_t kept[2][NODES];

/* How many nodes of this kind the net has. */
static size_t nodes(const struct weights *net, int kind) {
    return kind == PLACES ? net->places : net->transitions;
}

/* The number of the weights between a node and one of the other kind. */
static size_t cell(const struct weights *net, int kind, size_t node, size_t other) {
    return kind == PLACES ? other * net->places + node : node * net->places + other;
}

/* Has the node no arc? */
static int is_loose(const struct weights *net, int kind, size_t node) {
    for (size_t other = 0; other < nodes(net, 1 - kind); other++)
        if (net->pre[cell(net, kind, node, other)] > 0 || net->post[cell(net, kind, node, other)] > 0)
            return 0;
    return 1;
}

/* How many places, or transitions, have no arc. */
size_t count_loose(const struct weights *net, int transitions) {
    int kind = transitions ? TRANSITIONS : PLACES;
    size_t count = 0;
    for (size_t node = 0; node < nodes(net, kind); node++)
        count += (size_t)is_loose(net, kind, node);
    return count;
}

/* Gives a node an arc of weight 1, to it, from it, or both, to a node of the other kind by chance that may have one. */
static void wire_node(const struct weights *net, int kind, size_t node, int with_loops) {
    size_t count = nodes(net, 1 - kind), from = below(count), style = with_loops ? 2 : below(3);
    for (size_t i = 0; i < count; i++) {
        size_t other = (from + i) % count, at = cell(net, kind, node, other);
        if (kept[1 - kind][other])
            continue;
        net->pre[at] = style != 0;
        net->post[at] = style != 1;
        return;
    }
}

/* Wires each node that has no arc and is not to stay so; with loops the changes stay as they are. */
static void wire_others(const struct weights *net, int with_loops) {
    for (int kind = PLACES; kind <= TRANSITIONS; kind++)
        for (size_t node = 0; node < nodes(net, kind); node++)
            if (!kept[kind][node] && is_loose(net, kind, node))
                wire_node(net, kind, node, with_loops);
}

/* Wires each node that has no arc. */
void wire(const struct weights *net, int with_loops) {
    memset(kept, 0, sizeof kept);
    wire_others(net, with_loops);
}

/* Takes all arcs from a node of this kind: the first, the last or any; now and then from a second one, but from all only where
 * that is the only one. */
static void loosen_nodes(const struct weights *net, int kind) {
    size_t count = nodes(net, kind), times = count > 2 && chance(4) ? 2 : 1;
    for (; times > 0; times--) {
        size_t node = chance(3) ? 0 : chance(2) ? count - 1 : below(count);
        kept[kind][node] = 1;
        for (size_t other = 0; other < nodes(net, 1 - kind); other++)
            net->pre[cell(net, kind, node, other)] = net->post[cell(net, kind, node, other)] = 0;
    }
}

/* Makes places, transitions or both loose; what else would then hang loose is wired to others. */
void loosen(const struct weights *net, int places, int transitions) {
    memset(kept, 0, sizeof kept);
    if (places)
        loosen_nodes(net, PLACES);
    if (transitions)
        loosen_nodes(net, TRANSITIONS);
    wire_others(net, 0);
}

/* The net that is lent; has_net says whether its lists are as long as its counts say. */
int has_net(struct weights *net) {
    *net = (struct weights){in.places, in.transitions, own(&in.pre), own(&in.post)};
    return in.places >= 1 && in.places <= NODES && in.transitions >= 1 && in.transitions <= NODES &&
           in.pre.count == in.places * in.transitions && in.post.count == in.pre.count;
}

int has_loose_place(void) {
    struct weights net;
    return has_net(&net) && count_loose(&net, 0) > 0;
}

int has_loose_transition(void) {
    struct weights net;
    return has_net(&net) && count_loose(&net, 1) > 0;
}

/* Wires the net that is lent. */
void wire_net(int with_loops) {
    struct weights net;
    if (has_net(&net))
        wire(&net, with_loops);
}

/* Makes nodes of the lent net loose, and weights heavy, where that is planned; last of all, since words and lists are drawn
 * from a right one. */
void break_net(void) {
    struct weights net;
    if (!has_net(&net))
        return;
    if (breaks(LOOSE_PLACE) || breaks(LOOSE_TRANSITION))
        loosen(&net, breaks(LOOSE_PLACE), breaks(LOOSE_TRANSITION));
    break_weights(&net, breaks(HEAVY_PRE), breaks(HEAVY_POST));
}
