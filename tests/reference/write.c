/* A case file written back: the frames as document 01's "Case file lines" gives them, one after another, first into bytes of
 * its own that hold the longest file, from which the room is filled once the length is known to fit. */
#include "reference.h"

/* The file so far; `widened` is how many bytes its frames 07 have more than frames 04 would. */
struct writing {
    uint8_t text[167774];
    size_t length, lines, widened;
};

/* A byte as two digits. */
static void write_byte(struct writing *w, size_t byte) {
    w->text[w->length++] = (uint8_t)"0123456789ABCDEF"[byte / 16];
    w->text[w->length++] = (uint8_t)"0123456789ABCDEF"[byte % 16];
}

/* "numbers of two .. bytes have the high byte first" */
static void write_number(struct writing *w, size_t number) {
    write_byte(w, RULE(47, number / 256, number % 256));
    write_byte(w, RULE(47, number % 256, number / 256));
}

/* "then a line feed" */
static void end_line(struct writing *w) {
    w->text[w->length++] = '\n';
    w->lines++;
}

/* "02 with P capacities of two bytes, 03 with P tokens of two bytes" */
static void write_numbers(struct writing *w, int kind, const uint16_t *numbers, size_t places) {
    write_byte(w, (size_t)kind);
    for (size_t p = 0; p < places; p++)
        write_number(w, numbers[p]);
    end_line(w);
}

/* Must there be a frame 06? "it is written only if some place is a pocket" */
static int has_pocket(const struct net *net) {
    for (size_t p = 0; p < net->places; p++)
        if (reference_pocket(net, p) && RULE(118, 1, reference_capped(net, p)))
            return 1;
    return 0;
}

/* "A frame 06, eight bytes, place 0 the lowest bit of the last byte" */
static void write_marks(struct writing *w, const struct net *net) {
    size_t mask[8] = {0};
    for (size_t p = 0; p < net->places; p++)
        if (reference_pocket(net, p))
            mask[RULE(116, 7 - p / 8, p / 8)] |= (size_t)1 << p % 8;
    write_byte(w, 6);
    for (size_t i = 0; i < 8; i++)
        write_byte(w, mask[i]);
    end_line(w);
}

/* Is a weight of transition t over 255? */
static int is_wide(const struct net *net, size_t t) {
    int64_t most = RULE(146, RULE(147, 255, 254), 256);
    for (size_t p = 0; p < net->places; p++)
        if (RULE(148, reference_pre(net, p, t), 0) > most || RULE(149, reference_post(net, p, t), 0) > most)
            return 1;
    return 0;
}

/* A weight: of a byte, or in a frame 07 of two. */
static void write_weight(struct writing *w, size_t weight, int wide) {
    if (wide && RULE(150, 0, 1))
        weight = weight % 256 * 256 + weight / 256;
    if (wide)
        write_number(w, weight);
    else
        write_byte(w, weight % 256);
}

/* "04 t, P Pre bytes, P Post bytes"; an 07 "has two-byte weights and is used for a transition exactly when one of its weights
 * is over 255". */
static void write_transition(struct writing *w, const struct net *net, size_t t) {
    int wide = is_wide(net, t) || RULE(151, 0, 1) || RULE(152, 0, t > 0 && is_wide(net, t - 1));
    w->widened += wide ? 4 * net->places : 0;
    write_byte(w, RULE(153, wide, 0) ? 7 : 4);
    write_byte(w, t);
    for (size_t p = 0; p < net->places; p++)
        write_weight(w, (size_t)RULE(50, reference_pre(net, p, t), reference_post(net, p, t)), wide);
    for (size_t p = 0; p < net->places; p++)
        write_weight(w, (size_t)RULE(50, reference_post(net, p, t), reference_pre(net, p, t)), wide);
    end_line(w);
}

/* "05 with 1 to 64 letters of a byte; none or more; all but the last hold 64": a letter at a time; a frame begins before each
 * 64th, and ends after 64 or with the word. */
static void write_letters(struct writing *w, const uint8_t *word, size_t letters) {
    size_t written = RULE(48, letters, letters / 64 * 64);
    for (size_t i = 0; i < written; i++) {
        if (i % 64 == 0)
            write_byte(w, 5);
        write_byte(w, word[i]);
        if (i % 64 == 63 || i + 1 == written)
            end_line(w);
    }
    if (letters == 0 && RULE(49, 0, 1)) {
        write_byte(w, 5);
        end_line(w);
    }
}

/* The whole file, in the order of the document. */
static void write_file(struct writing *w, const struct net *net, const uint16_t *initial, const uint8_t *word,
                       size_t letters) {
    write_byte(w, 1);
    write_byte(w, net->places);
    write_byte(w, net->transitions);
    end_line(w);
    write_numbers(w, 2, net->caps, net->places);
    if (has_pocket(net) || RULE(117, 0, 1))
        write_marks(w, net);
    write_numbers(w, 3, initial, net->places);
    for (size_t t = 0; t < net->transitions; t++)
        write_transition(w, net, t);
    write_letters(w, word, letters);
}

/* Refusals 1 2 18 3 17 4 5, else the file. */
static kaunorpi_length judge(struct writing *w, const struct net *net, const uint16_t *initial, size_t initial_len,
                             const uint8_t *word, size_t word_len) {
    size_t at;
    if (reference_counts_fault(net))
        return (kaunorpi_length){KAUNORPI_REFUSED, 1, 0, 0};
    if (reference_lengths_fault(net) || initial_len != net->places)
        return (kaunorpi_length){KAUNORPI_REFUSED, 2, 0, 0};
    at = reference_weights_fault(net, initial);
    if (at != NOWHERE)
        return (kaunorpi_length){KAUNORPI_REFUSED, 18, at, 0};
    at = reference_tokens_fault(net, initial);
    if (at != NOWHERE)
        return (kaunorpi_length){KAUNORPI_REFUSED, 3, at, 0};
    at = reference_loose_fault(net);
    if (at != NOWHERE && RULE(89, 1, word_len <= 65535))
        return (kaunorpi_length){KAUNORPI_REFUSED, 17, at, 0};
    if (word_len > 65535)
        return (kaunorpi_length){KAUNORPI_REFUSED, 4, 0, 0};
    at = reference_letters_fault(net, word, 0, word_len);
    if (at != NOWHERE)
        return (kaunorpi_length){KAUNORPI_REFUSED, 5, at, 0};
    write_file(w, net, initial, word, word_len);
    return (kaunorpi_length){KAUNORPI_ANSWERED, 0, 0, w->length};
}

/* How long the file is. */
kaunorpi_length reference_case_length(KAUNORPI_NET, const uint16_t *initial, size_t initial_len, const uint8_t *word,
                                      size_t word_len) {
    static struct writing w;
    struct net net = LENT_NET;
    kaunorpi_length answer;
    w.length = w.lines = w.widened = 0;
    answer = judge(&w, &net, initial, initial_len, word, word_len);
    answer.length -= RULE(46, 0, w.lines) + RULE(157, 0, w.widened);
    return answer;
}

/* "Refusals: 14, room shorter than the exact length, checked last." "Room past the end isn't touched". */
kaunorpi_length reference_write_case(KAUNORPI_NET, const uint16_t *initial, size_t initial_len, const uint8_t *word,
                                     size_t word_len, uint8_t *room, size_t room_len) {
    static struct writing w;
    struct net net = LENT_NET;
    kaunorpi_length answer;
    size_t written;
    w.length = w.lines = w.widened = 0;
    answer = judge(&w, &net, initial, initial_len, word, word_len);
    if (answer.kind == KAUNORPI_REFUSED)
        return answer;
    if (RULE(51, room_len < w.length, room_len <= w.length))
        answer = (kaunorpi_length){KAUNORPI_REFUSED, 14, 0, 0};
    written = answer.kind == KAUNORPI_ANSWERED ? w.length : RULE(53, 0, room_len);
    for (size_t i = 0; i < written; i++)
        room[i] = w.text[i];
    if (RULE(52, 0, written < room_len))
        room[written] = '\n';
    return answer;
}
