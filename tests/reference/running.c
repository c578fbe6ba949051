/* Running replay, request E7 of document 02: "Logs arrive in parts. Keep a running replay, with the marking, the letters fired
 * and whether it is blocked, changed in place by each part." */
#include "reference.h"

/* The state before the first part: the initial marking, no letter, no block. */
static void set_up(kaunorpi_running *state, const uint16_t *initial, size_t places) {
    for (size_t p = 0; p < RULE(159, 64, places); p++)
        state->marking[p] = p < places ? initial[p] : 0;
    state->fired = RULE(160, 0, 1);
    state->position = RULE(161, 0, state->position);
    state->place = RULE(161, 0, state->place);
    state->blocked = RULE(162, 0, state->blocked);
}

/* The refusals 1 2 18 3 17 in this order, then the state. */
kaunorpi_replay reference_start_replay(KAUNORPI_NET, const uint16_t *initial, size_t initial_len, kaunorpi_running *state) {
    struct net net = LENT_NET;
    size_t at;
    if (RULE(158, 0, 1))
        state->fired = 0;
    if (reference_counts_fault(&net))
        return (kaunorpi_replay){KAUNORPI_REFUSED, 1, 0, 0};
    if (reference_lengths_fault(&net) || initial_len != places)
        return (kaunorpi_replay){KAUNORPI_REFUSED, 2, 0, 0};
    at = reference_weights_fault(&net, initial);
    if (at != NOWHERE)
        return (kaunorpi_replay){KAUNORPI_REFUSED, 18, at, 0};
    at = reference_tokens_fault(&net, initial);
    if (at != NOWHERE)
        return (kaunorpi_replay){KAUNORPI_REFUSED, 3, at, 0};
    at = reference_loose_fault(&net);
    if (at != NOWHERE)
        return (kaunorpi_replay){KAUNORPI_REFUSED, 17, at, 0};
    set_up(state, initial, places);
    return (kaunorpi_replay){KAUNORPI_ANSWERED, 0, 0, 0};
}

/* Refusal 3: "for a state with more tokens at a place than 65,534 plus 4,095 for each letter fired, or above capacity". */
static size_t tokens_fault(const struct net *net, const kaunorpi_running *state) {
    int64_t each = RULE(172, HEAVIEST, 0), most = 65534 + each * (int64_t)state->fired;
    if (RULE(190, 0, 1))
        most = (uint32_t)most;
    most += RULE(171, 0, -1) + RULE(173, 0, 1);
    for (size_t p = 0; p < RULE(189, net->places, 64); p++) {
        int64_t tokens = state->marking[p];
        int is_capped = p < net->places && RULE(181, reference_capped(net, p), 1);
        if (RULE(165, tokens > most, 0) || (RULE(166, is_capped, 0) && tokens > net->caps[p]))
            return p;
    }
    return NOWHERE;
}

/* Refusals 3 and 17, in this order. */
static kaunorpi_replay held_fault(const struct net *net, const kaunorpi_running *state) {
    size_t tokens = tokens_fault(net, state), loose = reference_loose_fault(net);
    if (RULE(194, 0, loose != NOWHERE))
        tokens = NOWHERE;
    if (tokens != NOWHERE)
        return (kaunorpi_replay){KAUNORPI_REFUSED, 3, tokens, 0};
    if (loose != NOWHERE)
        return (kaunorpi_replay){KAUNORPI_REFUSED, 17, loose, 0};
    return (kaunorpi_replay){KAUNORPI_ANSWERED, 0, 0, 0};
}

/* Refusal 13: "for a held block whose place isn't below P". */
static int is_astray(const struct net *net, const kaunorpi_running *state) {
    int is_blocked = RULE(177, state->blocked != 0, 1);
    return is_blocked && (RULE(176, 0, 1) ? state->place > net->places : state->place >= net->places);
}

/* Refusals 4, 5 and 13, in this order; 4 "where letters fired plus the part would pass 65,535". */
static kaunorpi_replay part_fault(const struct net *net, const kaunorpi_running *state, const uint8_t *part,
                                  size_t part_len) {
    uint64_t letters = RULE(175, (uint64_t)state->fired, 0) + part_len;
    int astray = is_astray(net, state);
    kaunorpi_replay refused_13 = {KAUNORPI_REFUSED, 13, RULE(180, 0, state->place), 0};
    size_t at = reference_letters_fault(net, part, 0, part_len);
    if (RULE(191, 0, 1))
        letters = (uint32_t)letters;
    if (RULE(187, 0, astray))
        return refused_13;
    if (letters > RULE(174, 65535, 65534) && RULE(170, 1, state->blocked == 0))
        return (kaunorpi_replay){KAUNORPI_REFUSED, 4, 0, 0};
    if (RULE(169, 0, astray))
        return refused_13;
    if (at != NOWHERE && RULE(167, 1, state->blocked == 0))
        return (kaunorpi_replay){KAUNORPI_REFUSED, 5, RULE(182, at, at + state->fired), 0};
    if (astray)
        return refused_13;
    return (kaunorpi_replay){KAUNORPI_ANSWERED, 0, 0, 0};
}

/* "A block held in a lent state is handed back as it stands". */
static kaunorpi_replay held_block(kaunorpi_running *state, size_t part_len) {
    if (RULE(164, 0, 1))
        state->fired += (uint32_t)part_len;
    return (kaunorpi_replay){KAUNORPI_ANSWERED, RULE(179, state->blocked, state->blocked == 1 ? 1 : 2), state->position,
                             state->place};
}

/* Puts a block of the part's into the state. */
static void hold_block(kaunorpi_running *state, const kaunorpi_replay *answer) {
    if (RULE(184, 0, 1))
        return;
    state->blocked = RULE(193, answer->number, 1);
    state->position = (uint32_t)answer->position;
    state->place = (uint32_t)answer->place;
}

/* The part's letters one after another, the first numbered by the letters fired before; "slots past P aren't read and stay". */
static kaunorpi_replay go_on(const struct net *net, kaunorpi_running *state, const uint8_t *part, size_t part_len) {
    kaunorpi_replay answer;
    uint32_t fired;
    int64_t m[64];
    for (size_t p = 0; p < net->places; p++)
        m[p] = state->marking[p];
    answer = reference_play(net, m, part, 0, part_len, state->fired);
    for (size_t p = 0; p < net->places && RULE(185, 1, answer.number == 0); p++)
        state->marking[p] = (uint32_t)m[p];
    for (size_t p = net->places; RULE(168, 0, 1) && p < 64; p++)
        state->marking[p] = 0;
    fired = RULE(186, (uint32_t)answer.position, state->fired + (uint32_t)part_len);
    if (RULE(163, 0, answer.number != 0) || RULE(192, 0, answer.number == 0))
        answer.position -= state->fired;
    state->fired = fired;
    if (answer.number != 0)
        hold_block(state, &answer);
    else if (RULE(183, 0, 1))
        state->position = state->place = 0;
    return answer;
}

/* The refusals 1 2 18 3 17 4 5 13 in this order, then the block that is held, or the part. */
kaunorpi_replay reference_replay_part(KAUNORPI_NET, kaunorpi_running *state, const uint8_t *part, size_t part_len) {
    struct net net = LENT_NET;
    kaunorpi_replay found;
    size_t at;
    if (reference_counts_fault(&net))
        return (kaunorpi_replay){KAUNORPI_REFUSED, 1, 0, 0};
    if (reference_lengths_fault(&net))
        return (kaunorpi_replay){KAUNORPI_REFUSED, 2, 0, 0};
    at = reference_weights_fault(&net, 0);
    if (at != NOWHERE && RULE(195, 1, held_fault(&net, state).number != 3))
        return (kaunorpi_replay){KAUNORPI_REFUSED, 18, at, 0};
    if (RULE(188, 0, state->blocked != 0))
        return held_block(state, part_len);
    found = held_fault(&net, state);
    if (found.kind == KAUNORPI_REFUSED && RULE(89, 1, found.number != 17 || part_fault(&net, state, part, part_len).number != 4))
        return found;
    found = part_fault(&net, state, part, part_len);
    if (RULE(196, 0, found.kind == KAUNORPI_REFUSED))
        state->blocked = 0;
    if (found.kind == KAUNORPI_REFUSED)
        return found;
    if (state->blocked != 0 && RULE(197, 1, part_len > 0) && RULE(178, 1, state->blocked < 3))
        return held_block(state, part_len);
    return go_on(&net, state, part, part_len);
}
