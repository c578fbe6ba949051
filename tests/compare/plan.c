/* The faults that an input is drawn with: half of the time exactly one lent thing is broken, so that it alone decides;
 * else nothing is, or any number of things. */
#include "compare.h"

static uint32_t kinds;
static fault_set broken;
static int alone;

/* One of these faults that gives this refusal; each is as likely. */
static enum fault draw_fault(fault_set can, int refusal) {
    enum fault drawn = FAULTS;
    for (size_t f = 0, seen = 0; f < FAULTS; f++)
        if ((can >> f & 1u) != 0 && faults[f].refusal == refusal && chance(++seen))
            drawn = (enum fault)f;
    return drawn;
}

/* Plans a fault of one of these refusals, each as likely; long words, files and lists are rarer, since they are slow. */
static void plan_one(uint32_t refusals, fault_set can) {
    for (;;) {
        int refusal = 1 + (int)below(REFUSALS - 1), is_slow;
        enum fault fault = draw_fault(can, refusal);
        if ((refusals >> refusal & 1u) == 0)
            continue;
        is_slow = fault == LONG_WORD || fault == LONG_FILE || fault == MANY_MARKINGS || fault == LONG_LOG || fault == LONG_LOG_1;
        if (is_slow && !chance(alone ? 12 : fault == LONG_FILE ? 2 : 5))
            continue;
        kinds |= 1u << refusal;
        broken |= (fault_set)1 << fault;
        return;
    }
}

/* Plans faults of so many refusals, and now and then a second one of the same refusal. */
static void plan_several(uint32_t refusals, fault_set can, size_t count) {
    for (; count > 0; count--)
        plan_one(refusals, can);
    for (int refusal = 1; refusal < REFUSALS; refusal++)
        if (wants(refusal) && chance(2))
            broken |= (fault_set)1 << draw_fault(can, refusal);
}

/* Plans the faults of an input, among those that its question has: half of the inputs get one, a third none, the others
 * those of one, two or three refusals. */
void plan_faults(uint32_t refusals, fault_set can) {
    size_t style = below(24);
    kinds = 0;
    broken = 0;
    alone = style < 12;
    if (alone)
        plan_one(refusals, can);
    if (style >= 20)
        plan_several(refusals, can, style == 20 ? 1 : style == 21 ? 2 : 3);
}

/* Is a fault of this refusal planned? */
int wants(int refusal) {
    return (kinds >> refusal & 1u) != 0;
}

/* Is this fault planned? */
int breaks(enum fault fault) {
    return (broken >> fault & 1u) != 0;
}

/* Is no fault planned? */
int is_sound(void) {
    return broken == 0;
}

/* Is exactly one fault planned? */
int is_alone(void) {
    return alone;
}
