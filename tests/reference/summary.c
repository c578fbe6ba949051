/* Summaries: the empty one, of a word, of a stretch; joined; asked against a marking. */
#include "reference.h"

/* A refused summary answer. */
static kaunorpi_summary refused(uint8_t number, size_t position) {
    return (kaunorpi_summary){KAUNORPI_REFUSED, number, position, 0, 0};
}

/* The larger of two numbers. */
static int64_t larger(int64_t a, int64_t b) {
    return a > b ? a : b;
}

/* The summary of no letters: zeros everywhere. */
kaunorpi_summary reference_empty_summary(size_t places, uint32_t *need, size_t need_len, uint32_t *climb,
                                         size_t climb_len, int32_t *change, size_t change_len) {
    if (places < 1 || places > 64)
        return refused(1, 0);
    if (need_len != 64 || climb_len != 64 || change_len != 64)
        return refused(2, 0);
    for (size_t p = 0; p < RULE(13, 64, places); p++)
        need[p] = climb[p] = 0, change[p] = 0;
    return (kaunorpi_summary){KAUNORPI_ANSWERED, 0, 0, places, 0};
}

/* Does the climb at place p follow 002? "A pocket without capacity behaves as plain, its climb too." */
static int climbs_first(const struct net *net, size_t p) {
    return RULE(102, reference_pocket(net, p), 0) && RULE(101, reference_capped(net, p), 1);
}

/* Need, climb and change of one place over the letters from start to end, by the definitions:
 * need is the largest of 0 and, for each letter t with u before it, Pre(p,t) - change(u); climb is the largest
 * change over all prefixes, the empty one (0) included, but at a capped pocket "the largest of 0 and, for each letter, the
 * change before it plus its Post". */
static void one_place(const struct net *net, size_t p, const uint8_t *word, size_t start, size_t end, uint32_t *need,
                      uint32_t *climb, int32_t *change) {
    int64_t most_need = 0, most_climb = 0, so_far = 0;
    for (size_t i = start; i < end; i++) {
        int64_t takes = RULE(4, reference_pre(net, p, word[i]), -reference_change(net, p, word[i]));
        most_need = larger(most_need, takes - so_far);
        if (climbs_first(net, p))
            most_climb = larger(most_climb, so_far + reference_post(net, p, word[i]));
        so_far = so_far + reference_change(net, p, word[i]);
        if (!climbs_first(net, p))
            most_climb = larger(most_climb, so_far);
    }
    *need = (uint32_t)most_need;
    *climb = (uint32_t)most_climb;
    *change = (int32_t)so_far;
}

/* The refusals 1 2 18 17 4 5 in this order, then each place; slots past the place count are zero. */
kaunorpi_summary reference_summary_stretch(KAUNORPI_NET, const uint8_t *word, size_t word_len, size_t start, size_t end,
                                           uint32_t *need, size_t need_len, uint32_t *climb, size_t climb_len,
                                           int32_t *change, size_t change_len) {
    struct net net = LENT_NET;
    size_t at;
    if (reference_counts_fault(&net))
        return refused(1, 0);
    if (RULE(30, 0, end > word_len))
        end = word_len;
    if (RULE(31, 0, start > end))
        start = end;
    if (reference_lengths_fault(&net) || start > end || end > word_len || need_len != 64 || climb_len != 64 ||
        change_len != 64)
        return refused(2, 0);
    if (RULE(28, 0, 1))
        start = 0;
    if (RULE(29, 0, 1))
        end = word_len;
    at = reference_weights_fault(&net, 0);
    if (at != NOWHERE)
        return refused(18, at);
    at = reference_loose_fault(&net);
    if (at != NOWHERE && RULE(89, 1, end - start <= 65535))
        return refused(17, at);
    if (end - start > 65535)
        return refused(4, 0);
    at = reference_letters_fault(&net, word, start, end);
    if (at != NOWHERE)
        return refused(5, at);
    for (size_t p = 0; p < 64; p++) {
        need[p] = climb[p] = 0, change[p] = 0;
        if (p < places)
            one_place(&net, p, word, start, end, &need[p], &climb[p], &change[p]);
    }
    return (kaunorpi_summary){KAUNORPI_ANSWERED, 0, 0, places, (uint32_t)(end - start)};
}

/* The whole word is the stretch from its first letter to its end. */
kaunorpi_summary reference_summary_word(KAUNORPI_NET, const uint8_t *word, size_t word_len, uint32_t *need,
                                        size_t need_len, uint32_t *climb, size_t climb_len, int32_t *change,
                                        size_t change_len) {
    return reference_summary_stretch(places, transitions, pre, pre_len, post, post_len, caps, caps_len, marks, marks_len,
                                     word, word_len, 0, word_len, need, need_len, climb, climb_len, change, change_len);
}

/* Refusal 6: "well formed if n <= 65,535 and at each place 0 <= need <= 255n, 0 <= climb <= 255n, -need <= change <=
 * climb; slots past the place count are zero", "with 4,095n in place of 255n" by request E6 of document 02. The position of
 * the fault, 0 if n is too large. */
static size_t summary_fault(size_t places, uint32_t letters, const uint32_t *need, const uint32_t *climb,
                            const int32_t *change) {
    int64_t n = letters, most = RULE(131, RULE(132, HEAVIEST, HEAVIEST + 1), 255) * n;
    if (n > 65535)
        return 0;
    for (size_t p = 0; p < 64; p++) {
        int64_t d = need[p], c = climb[p], h = change[p];
        if (p < places && !(d <= most && c <= most && -d <= h && h <= c))
            return p;
        if (p >= places && !(d == 0 && c == 0 && h == 0))
            return p;
    }
    return NOWHERE;
}

/* Join of a then b: lengths and changes add; need = max(need a, need b - change a); climb = max(climb a, change a +
 * climb b). Refusals 1 2 6 7. */
kaunorpi_summary reference_join_summaries(size_t first_places, uint32_t first_letters, const uint32_t *first_need,
                                          size_t first_need_len, const uint32_t *first_climb, size_t first_climb_len,
                                          const int32_t *first_change, size_t first_change_len, size_t second_places,
                                          uint32_t second_letters, const uint32_t *second_need, size_t second_need_len,
                                          const uint32_t *second_climb, size_t second_climb_len,
                                          const int32_t *second_change, size_t second_change_len, uint32_t *need,
                                          size_t need_len, uint32_t *climb, size_t climb_len, int32_t *change,
                                          size_t change_len) {
    size_t at;
    if (RULE(26, first_places < 1 || first_places > 64, 0) || RULE(27, second_places < 1 || second_places > 64, 0))
        return refused(1, 0);
    if (first_need_len != 64 || first_climb_len != 64 || first_change_len != 64 || second_need_len != 64 ||
        second_climb_len != 64 || second_change_len != 64 || need_len != 64 || climb_len != 64 || change_len != 64 ||
        RULE(43, first_places != second_places, 0))
        return refused(2, 0);
    at = RULE(37, summary_fault(first_places, first_letters, first_need, first_climb, first_change), NOWHERE);
    if (at == NOWHERE && RULE(36, 1, 0))
        at = summary_fault(second_places, second_letters, second_need, second_climb, second_change);
    if (at != NOWHERE)
        return refused(6, at);
    if (RULE(38, (int64_t)first_letters + second_letters > 65535, 0))
        return refused(7, 0);
    for (size_t p = 0; p < 64; p++) {
        need[p] = (uint32_t)larger(first_need[p], (int64_t)second_need[p] - first_change[p]);
        climb[p] = (uint32_t)larger(first_climb[p], RULE(12, (int64_t)first_change[p], 0) + second_climb[p]);
        change[p] = (int32_t)((int64_t)first_change[p] + second_change[p]);
    }
    return (kaunorpi_summary){KAUNORPI_ANSWERED, 0, 0, first_places, first_letters + second_letters};
}

/* Is the need there at each place, and does the climb keep to each capacity? */
static int fires_from(const struct net *net, const uint16_t *marking, const uint32_t *need, const uint32_t *climb) {
    for (size_t p = 0; p < net->places; p++) {
        if (need[p] > marking[p])
            return 0;
        if (reference_capped(net, p) && (int64_t)marking[p] + climb[p] > net->caps[p])
            return 0;
    }
    return 1;
}

/* Yes with the end marking, or no, which leaves the room untouched. Refusals 1 2 18 3 17 6. */
kaunorpi_answer reference_ask_summary(KAUNORPI_NET, const uint16_t *marking, size_t marking_len, size_t summary_places,
                                      uint32_t summary_letters, const uint32_t *need, size_t need_len,
                                      const uint32_t *climb, size_t climb_len, const int32_t *change, size_t change_len,
                                      uint32_t *room, size_t room_len) {
    struct net net = LENT_NET;
    size_t at;
    if (reference_counts_fault(&net) || RULE(25, summary_places < 1 || summary_places > 64, 0))
        return (kaunorpi_answer){KAUNORPI_REFUSED, 1, 0};
    if (reference_lengths_fault(&net) || marking_len != places || RULE(42, summary_places != places, 0) || need_len != 64 ||
        climb_len != 64 || change_len != 64 || room_len != places)
        return (kaunorpi_answer){KAUNORPI_REFUSED, 2, 0};
    at = reference_weights_fault(&net, marking);
    if (at != NOWHERE)
        return (kaunorpi_answer){KAUNORPI_REFUSED, 18, at};
    at = reference_tokens_fault(&net, marking);
    if (at != NOWHERE)
        return (kaunorpi_answer){KAUNORPI_REFUSED, 3, at};
    at = reference_loose_fault(&net);
    if (at != NOWHERE && RULE(90, 1, summary_fault(summary_places, summary_letters, need, climb, change) == NOWHERE))
        return (kaunorpi_answer){KAUNORPI_REFUSED, 17, at};
    at = RULE(39, summary_fault(summary_places, summary_letters, need, climb, change), NOWHERE);
    if (at != NOWHERE)
        return (kaunorpi_answer){KAUNORPI_REFUSED, 6, at};
    if (!fires_from(&net, marking, need, climb)) {
        if (RULE(5, 0, 1))
            room[0] = 0;
        return (kaunorpi_answer){KAUNORPI_ANSWERED, 1, 0};
    }
    for (size_t p = 0; p < places; p++)
        room[p] = (uint32_t)((int64_t)marking[p] + change[p]);
    return (kaunorpi_answer){KAUNORPI_ANSWERED, 0, 0};
}
