/* Two recorders, one line: an order of both logs that could have happened, step by step. two-recorders.md has the story. */
#include <stdio.h>

#include "kaunorpi.h"

static const char *const recorders[] = {"saw", "outfeed"};
static const char *const events[] = {"a log is taken into the saw", "the saw gives three boards",
                                     "the carrier takes two boards"};

/* the model: the deck, saw idle, saw busy, the outfeed */
static const uint16_t pre[] = {1, 1, 0, 0, 0, 0, 1, 0, 0, 0, 0, 2};
static const uint16_t post[] = {0, 0, 1, 0, 0, 1, 0, 3, 0, 0, 0, 0};
static const uint16_t caps[] = {KAUNORPI_NONE, KAUNORPI_NONE, KAUNORPI_NONE, 6}, initial[] = {4, 1, 0, 0};
static const uint8_t marks[] = {0, 0, 0, 0}; /* no place is a pocket */

/* what each recorder wrote */
static const uint8_t saw[] = {0, 1, 0, 1, 0, 1}, outfeed[] = {2, 2, 2, 2};

int main(void) {
    static uint8_t work[KAUNORPI_WORK_SPACE];
    uint8_t order[sizeof saw + sizeof outfeed];
    kaunorpi_answer a = kaunorpi_order_logs(4, 3, pre, 12, post, 12, caps, 4, marks, 4, initial, 4, saw, sizeof saw,
                                            outfeed, sizeof outfeed, order, sizeof order, work, sizeof work);
    if (a.kind == KAUNORPI_REFUSED) {
        printf("the question is faulty: refusal %u, position %zu\n", a.number, a.position);
        return 2;
    }
    if (a.number == 1) {
        puts("no order of the two logs could have happened");
        return 1;
    }
    for (size_t step = 0; step < sizeof order; step++) {
        kaunorpi_rest r = kaunorpi_unread_rest(saw, sizeof saw, outfeed, sizeof outfeed, order, sizeof order, step);
        const uint8_t *log = r.log == 0 ? saw : outfeed;
        printf("%2zu. %s, entry %zu of %zu: %s\n", step + 1, recorders[r.log], r.start + 1, r.start + r.length,
               events[log[r.start]]);
    }
    return 0;
}
