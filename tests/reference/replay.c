/* Replay of a word and of a stretch. */
#include "reference.h"

/* The letters from start to end, one after another, at m; the first of them has the number `first`. */
kaunorpi_replay reference_play(const struct net *net, int64_t *m, const uint8_t *word, size_t start, size_t end,
                               size_t first) {
    for (size_t i = start; i < end; i++) {
        size_t lacks = reference_short(net, m, word[i]), over = reference_over(net, m, word[i]);
        if (lacks != NOWHERE && RULE(2, 1, over == NOWHERE))
            return (kaunorpi_replay){KAUNORPI_ANSWERED, 1, first + (i - start), lacks};
        if (over != NOWHERE)
            return (kaunorpi_replay){KAUNORPI_ANSWERED, 2, first + (i - start), over};
        reference_fire(net, m, word[i]);
    }
    return (kaunorpi_replay){KAUNORPI_ANSWERED, 0, first + (end - start), 0};
}

/* A stretch from the initial marking; the marking after the last letter fired goes to the room. */
static kaunorpi_replay play(const struct net *net, const uint16_t *initial, const uint8_t *word, size_t start,
                            size_t end, uint32_t *room) {
    kaunorpi_replay answer;
    int64_t m[64];
    for (size_t p = 0; p < net->places; p++)
        m[p] = initial[p];
    answer = reference_play(net, m, word, start, end, 0);
    for (size_t p = 0; p < net->places; p++)
        room[p] = (uint32_t)m[p];
    return answer;
}

/* The refusals 1 2 18 3 17 4 5 in this order, then the replay. */
kaunorpi_replay reference_replay_stretch(KAUNORPI_NET, const uint16_t *initial, size_t initial_len, const uint8_t *word,
                                         size_t word_len, size_t start, size_t end, uint32_t *room, size_t room_len) {
    struct net net = LENT_NET;
    size_t at;
    if (reference_counts_fault(&net))
        return (kaunorpi_replay){KAUNORPI_REFUSED, 1, 0, 0};
    if (RULE(30, 0, end > word_len))
        end = word_len;
    if (RULE(31, 0, start > end))
        start = end;
    if (reference_lengths_fault(&net) || initial_len != places || start > end || end > word_len || room_len != places)
        return (kaunorpi_replay){KAUNORPI_REFUSED, 2, 0, 0};
    if (RULE(28, 0, 1))
        start = 0;
    if (RULE(29, 0, 1))
        end = word_len;
    at = reference_weights_fault(&net, initial);
    if (at != NOWHERE)
        return (kaunorpi_replay){KAUNORPI_REFUSED, 18, at, 0};
    at = reference_tokens_fault(&net, initial);
    if (at != NOWHERE)
        return (kaunorpi_replay){KAUNORPI_REFUSED, 3, at, 0};
    at = reference_loose_fault(&net);
    if (at != NOWHERE && RULE(89, 1, end - start <= 65535))
        return (kaunorpi_replay){KAUNORPI_REFUSED, 17, at, 0};
    if (end - start > 65535)
        return (kaunorpi_replay){KAUNORPI_REFUSED, 4, 0, 0};
    at = reference_letters_fault(&net, word, start, end);
    if (RULE(9, 0, at != NOWHERE))
        room[places - 1] = 0;
    if (at != NOWHERE)
        return (kaunorpi_replay){KAUNORPI_REFUSED, 5, RULE(3, at, at + start), 0};
    return play(&net, initial, word, start, end, room);
}

/* The whole word is the stretch from its first letter to its end. */
kaunorpi_replay reference_replay_word(KAUNORPI_NET, const uint16_t *initial, size_t initial_len, const uint8_t *word,
                                      size_t word_len, uint32_t *room, size_t room_len) {
    return reference_replay_stretch(places, transitions, pre, pre_len, post, post_len, caps, caps_len, marks, marks_len,
                                    initial, initial_len, word, word_len, 0, word_len, room, room_len);
}
