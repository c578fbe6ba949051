/* Replay, and running replay, as crates/plays, crates/replay, crates/running and crates/net do it. */
#include "same.h"

/* Why a letter is stopped: the lowest short place, else the lowest place over. */
static kaunorpi_replay blocked(size_t i, const uint16_t *takes, const uint16_t *puts, const uint32_t *caps,
                               const uint32_t *marks, const uint32_t *marking, size_t places) {
    size_t p = 0;
    for (p = 0; p < places; p++)
        if (marking[p] < takes[p])
            return (kaunorpi_replay){KAUNORPI_ANSWERED, 1, i, p};
    for (p = 0; p < places; p++)
        if (is_over(takes[p], puts[p], caps[p], marks[p], marking[p]))
            break;
    return (kaunorpi_replay){KAUNORPI_ANSWERED, 2, i, p};
}

/* Letter by letter: judged in one pass, fired in another; `fired` letters came before. Capacities and marks are copied once. */
static kaunorpi_replay play(size_t places, const uint16_t *pre, const uint16_t *post, const uint16_t *caps,
                            const uint8_t *marks, size_t fired, const uint8_t *word, size_t word_len, uint32_t *marking) {
    struct wide wide = widened(caps, marks, places);
    size_t i;
    for (i = 0; i < word_len; i++) {
        const uint16_t *takes = pre + word[i] * places, *puts = post + word[i] * places;
        if (!may_fire(takes, puts, wide.caps, wide.marks, marking, places))
            return blocked(fired + i, takes, puts, wide.caps, wide.marks, marking, places);
        fire(takes, puts, marking, places);
    }
    return (kaunorpi_replay){KAUNORPI_ANSWERED, 0, fired + i, 0};
}

/* The same without the copies, as the library did it until E6. */
static kaunorpi_replay play_lent(size_t places, const uint16_t *pre, const uint16_t *post, const uint16_t *caps,
                                 const uint8_t *marks, const uint8_t *word, size_t word_len, uint32_t *marking) {
    size_t i;
    for (i = 0; i < word_len; i++) {
        const uint16_t *takes = pre + word[i] * places, *puts = post + word[i] * places;
        if (!may_fire_lent(takes, puts, caps, marks, marking, places)) {
            struct wide wide = widened(caps, marks, places);
            return blocked(i, takes, puts, wide.caps, wide.marks, marking, places);
        }
        fire(takes, puts, marking, places);
    }
    return (kaunorpi_replay){KAUNORPI_ANSWERED, 0, i, 0};
}

/* Refusals 1, 2, 18, 3, 17, 4 and 5 of a replay. */
static inline struct fault replay_fault(KAUNORPI_NET, const uint16_t *initial, size_t initial_len, const uint8_t *word,
                                        size_t word_len, size_t room_len) {
    struct fault found = marked_fault(places, transitions, pre, pre_len, post, post_len, caps, caps_len, marks, marks_len,
                                      initial, initial_len, room_len == places);
    return found.number == 0 ? word_fault(transitions, word, word_len) : found;
}

/* The refusals, then the letters, by capacities and marks as they are lent. */
kaunorpi_replay plain_replay_word(KAUNORPI_NET, const uint16_t *initial, size_t initial_len, const uint8_t *word,
                                  size_t word_len, uint32_t *room, size_t room_len) {
    struct fault found = replay_fault(places, transitions, pre, pre_len, post, post_len, caps, caps_len, marks, marks_len,
                                      initial, initial_len, word, word_len, room_len);
    if (found.number != 0)
        return (kaunorpi_replay){KAUNORPI_REFUSED, found.number, found.at, 0};
    load(initial, room, places);
    return play_lent(places, pre, post, caps, marks, word, word_len, room);
}

/* The refusals, then the letters. */
kaunorpi_replay same_replay_word(KAUNORPI_NET, const uint16_t *initial, size_t initial_len, const uint8_t *word,
                                 size_t word_len, uint32_t *room, size_t room_len) {
    struct fault found = replay_fault(places, transitions, pre, pre_len, post, post_len, caps, caps_len, marks, marks_len,
                                      initial, initial_len, word, word_len, room_len);
    if (found.number != 0)
        return (kaunorpi_replay){KAUNORPI_REFUSED, found.number, found.at, 0};
    load(initial, room, places);
    return play(places, pre, post, caps, marks, 0, word, word_len, room);
}

/* The refusals, then the state before the first part. */
kaunorpi_replay same_start_replay(KAUNORPI_NET, const uint16_t *initial, size_t initial_len, kaunorpi_running *state) {
    struct fault found = marked_fault(places, transitions, pre, pre_len, post, post_len, caps, caps_len, marks, marks_len,
                                      initial, initial_len, 1);
    if (found.number != 0)
        return (kaunorpi_replay){KAUNORPI_REFUSED, found.number, found.at, 0};
    *state = (kaunorpi_running){0};
    load(initial, state->marking, places);
    return (kaunorpi_replay){KAUNORPI_ANSWERED, 0, 0, 0};
}

/* Refusals 1, 2, 18, 3, 17, 4, 5 and 13 of a part. */
static struct fault part_fault(KAUNORPI_NET, const kaunorpi_running *state, const uint8_t *part, size_t part_len) {
    struct fault found =
        counts_fault(places, transitions, pre, pre_len, post, post_len, caps, caps_len, marks, marks_len, 1);
    for (size_t p = 0; found.number == 0 && p < places; p++)
        if (65534 + (uint64_t)KAUNORPI_MOST_WEIGHT * state->fired < state->marking[p] ||
            (caps[p] < 65535 && caps[p] < state->marking[p]))
            return (struct fault){3, p};
    if (found.number == 0)
        found = loose_fault(places, transitions, pre, post);
    if (found.number == 0 && state->fired + part_len > 65535)
        return (struct fault){4, 0};
    if (found.number == 0)
        found = word_fault(transitions, part, part_len);
    if (found.number == 0 && state->blocked != 0 && state->place >= places)
        return (struct fault){13, 0};
    return found;
}

/* The refusals, the block that is held, or the letters, in place. */
kaunorpi_replay same_replay_part(KAUNORPI_NET, kaunorpi_running *state, const uint8_t *part, size_t part_len) {
    struct fault found = part_fault(places, transitions, pre, pre_len, post, post_len, caps, caps_len, marks, marks_len,
                                    state, part, part_len);
    kaunorpi_replay answer;
    if (found.number != 0)
        return (kaunorpi_replay){KAUNORPI_REFUSED, found.number, found.at, 0};
    if (state->blocked != 0)
        return (kaunorpi_replay){KAUNORPI_ANSWERED, state->blocked, state->position, state->place};
    answer = play(places, pre, post, caps, marks, state->fired, part, part_len, state->marking);
    state->fired = (uint32_t)answer.position;
    if (answer.number != 0) {
        state->position = (uint32_t)answer.position;
        state->place = (uint32_t)answer.place;
        state->blocked = answer.number;
    }
    return answer;
}
