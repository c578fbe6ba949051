/* Every pair of logs that together have up to six letters, on some small nets: library and reference must agree, the
 * reference's two ways with each other, and the word of an order that was found must fire by kaunorpi_replay_word. */
#include "compare.h"

#include <stdio.h>
#include <string.h>

enum { LETTERS = 6 };

/* A net of up to four places and three transitions. */
static const struct small_net {
    size_t places, transitions;
    uint16_t pre[12], post[12], caps[4], initial[4];
    uint8_t marks[4];
} nets[] = {
    /* document 01's case */
    {3, 3, {1, 0, 0, 0, 1, 0, 0, 0, 3}, {0, 1, 0, 1, 0, 2, 0, 0, 0}, {65535, 65535, 5}, {1, 0, 0}, {0}},
    /* a buffer of two that one machine fills, another empties, and a third one looks at while it is full */
    {1, 3, {0, 1, 2}, {1, 0, 2}, {2}, {1}, {0}},
    /* the same as a pocket of four, which can be looked at only while it holds two */
    {1, 3, {0, 1, 2}, {1, 0, 2}, {4}, {1}, {255}},
    /* a tool that is taken, given back and used where it lies; parts are made with it in hand, up to three */
    {3, 3, {1, 0, 0, 0, 1, 0, 1, 0, 0}, {0, 1, 0, 1, 0, 1, 1, 0, 0}, {65535, 1, 3}, {1, 0, 1}, {0}},
    /* two counters that each move against the other: every order ends in its own dead end */
    {2, 3, {2, 0, 0, 1, 1, 1}, {0, 1, 1, 0, 1, 2}, {3, 2}, {2, 1}, {0}},
    /* the same, the second counter a pocket, and with more room */
    {2, 3, {2, 0, 0, 1, 1, 1}, {0, 1, 1, 0, 1, 2}, {3, 3}, {2, 1}, {0, 2}},
    /* a chip bin in kilograms that is filled, emptied, and weighed while 1,000 lie in it */
    {1, 3, {0, 4095, 1000}, {1500, 0, 1000}, {6000}, {2600}, {0}},
};

/* Lends net, marking, logs, room and work space, the letters read off a number digit by digit. */
static void lend_all(const struct small_net *net, size_t first, size_t second, size_t number) {
    uint8_t *to[2];
    int found_in_work = number & 1 ? 255 : 0;
    in.places = net->places;
    in.transitions = net->transitions;
    memcpy(lend(&in.pre, 2, net->places * net->transitions), net->pre, 2 * net->places * net->transitions);
    memcpy(lend(&in.post, 2, net->places * net->transitions), net->post, 2 * net->places * net->transitions);
    memcpy(lend(&in.caps, 2, net->places), net->caps, 2 * net->places);
    memcpy(lend(&in.marks, 1, net->places), net->marks, net->places);
    memcpy(lend(&in.initial, 2, net->places), net->initial, 2 * net->places);
    to[0] = lend(&in.log[0], 1, first);
    to[1] = lend(&in.log[1], 1, second);
    for (size_t i = 0; i < first + second; i++, number /= net->transitions)
        *(i < first ? to[0]++ : to[1]++) = (uint8_t)(number % net->transitions);
    lend_room(&in.room, 1, first + second);
    memset(lend(&in.work, 1, 65536), found_in_work, 65536);
    in.work.is_room = 1;
}

#define LENT(piece) own(&in.piece), in.piece.count
#define NET in.places, in.transitions, LENT(pre), LENT(post), LENT(caps), LENT(marks)

/* Do the reference's two ways agree? */
static int same_ways(void) {
    uint8_t tried[LETTERS + 1] = {0}, worked[LETTERS + 1] = {0};
    int by_trying = reference_try_orders(NET, own(&in.initial), LENT(log[0]), LENT(log[1]), tried);
    int by_table = reference_table_order(NET, own(&in.initial), LENT(log[0]), LENT(log[1]), worked);
    return by_trying == by_table && (!by_trying || memcmp(tried, worked, sizeof tried) == 0);
}

/* Does the word of the library's order fire, with all its letters? */
static int replays(void) {
    const uint8_t *order = on_side(LIBRARY, &in.room), *log[2] = {own(&in.log[0]), own(&in.log[1])};
    uint8_t word[LETTERS + 1];
    uint32_t room[4];
    kaunorpi_replay played;
    for (size_t i = 0; i < in.room.count; i++)
        word[i] = *log[order[i]]++;
    played = kaunorpi_replay_word(NET, LENT(initial), word, in.room.count, room, in.places);
    return played.kind == KAUNORPI_ANSWERED && played.number == 0 && played.position == in.room.count;
}

/* Asks for one pair of logs; true if all is right. */
static int is_right(const struct question *question, const struct small_net *net, size_t first, size_t second,
                    size_t number) {
    struct given ours, theirs;
    start_random(number, first, second);
    start_lending();
    lend_all(net, first, second, number);
    hand_out();
    ours = question->ask(LIBRARY);
    theirs = question->ask(REFERENCE);
    if (same_given(&ours, &theirs) && !differing_memory(1) && same_ways() && (ours.number != 0 || replays()))
        return 1;
    printf("compare: order_logs is wrong for these logs: %02X %u, and not %02X %u\n", ours.kind, ours.number, theirs.kind,
           theirs.number);
    print_input();
    differing_memory(0);
    return 0;
}

/* Every number of letters, every share of the first log, every number whose digits are the letters. */
int every_order(void) {
    const struct question *question = questions;
    while (strcmp(question->name, "order_logs") != 0)
        question++;
    for (size_t k = 0; k < sizeof nets / sizeof nets[0]; k++)
        for (size_t letters = 0, words = 1; letters <= LETTERS; letters++, words *= nets[k].transitions)
            for (size_t first = 0; first <= letters; first++)
                for (size_t number = 0; number < words; number++)
                    if (!is_right(question, &nets[k], first, letters - first, number))
                        return 1;
    return 0;
}
