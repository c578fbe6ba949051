/* The same loops as crates/file_write, file_out, file_row and file_put: a case file put into the room frame by frame. Each
 * function puts its text at a number of the room and answers the number after it. */
#include "same.h"

enum { BLOCK = 64 };

/* A digit. */
static inline uint8_t digit(uint8_t n) {
    return (uint8_t)(n <= 9 ? n + '0' : n - 10 + 'A');
}

/* A byte, as its two digits. */
static inline size_t put_byte(uint8_t *out, size_t at, uint8_t b) {
    out[at] = digit(b / 16);
    out[at + 1] = digit(b % 16);
    return at + 2;
}

/* A number of two bytes, the high byte first. */
static inline size_t put_two(uint8_t *out, size_t at, uint16_t n) {
    size_t a = put_byte(out, at, (uint8_t)(n / 256));
    return put_byte(out, a, (uint8_t)(n % 256));
}

/* The line feed. */
static inline size_t put_feed(uint8_t *out, size_t at) {
    out[at] = '\n';
    return at + 1;
}

/* Bytes, two digits each. */
static inline size_t put_bytes(uint8_t *out, size_t at, const uint8_t *list, size_t count) {
    size_t r = at;
    for (size_t k = 0; k < count; k++)
        r = put_byte(out, r, list[k]);
    return r;
}

/* 01: the counts. */
static inline size_t put_counts(uint8_t *out, size_t at, size_t places, size_t transitions) {
    size_t a = put_byte(out, at, 1), b = put_byte(out, a, (uint8_t)places);
    return put_feed(out, put_byte(out, b, (uint8_t)transitions));
}

/* 02 or 03: a number of two bytes for each place. */
static inline size_t put_numbers(uint8_t *out, size_t at, uint8_t kind, const uint16_t *list, size_t count) {
    size_t r = put_byte(out, at, kind);
    for (size_t k = 0; k < count; k++)
        r = put_two(out, r, list[k]);
    return put_feed(out, r);
}

/* Whether some place is a pocket. */
static inline int has_pocket(const uint8_t *marks, size_t places) {
    for (size_t p = 0; p < places; p++)
        if (marks[p] != 0)
            return 1;
    return 0;
}

/* 06, if some place is a pocket: eight bytes, of which the last has the first eight places, the lowest bit the first. */
static inline size_t put_marks(uint8_t *out, size_t at, const uint8_t *marks, size_t places) {
    size_t r = at;
    if (!has_pocket(marks, places))
        return r;
    r = put_byte(out, r, 6);
    for (size_t k = 8; k > 0; k--) {
        uint8_t bits = 0;
        for (size_t p = 8 * k; p > 8 * (k - 1); p--)
            bits = (uint8_t)(bits * 2 + (p <= places && marks[p - 1] != 0));
        r = put_byte(out, r, bits);
    }
    return put_feed(out, r);
}

/* Weights, of a byte each, or of two in an 07. */
static inline size_t put_weights(uint8_t *out, size_t at, uint8_t kind, const uint16_t *list, size_t count) {
    size_t r = at;
    for (size_t k = 0; k < count; k++)
        r = kind == 7 ? put_two(out, r, list[k]) : put_byte(out, r, (uint8_t)list[k]);
    return r;
}

/* A 04 for each transition, or an 07 where a weight is over 255. */
static inline size_t put_rows(size_t places, size_t transitions, const uint16_t *pre, const uint16_t *post, uint8_t *out,
                              size_t at) {
    size_t r = at;
    for (size_t t = 0; t < transitions; t++) {
        const uint16_t *takes = pre + t * places, *puts = post + t * places;
        uint8_t kind = has_over(255, takes, puts, places) ? 7 : 4;
        r = put_byte(out, put_byte(out, r, kind), (uint8_t)t);
        r = put_weights(out, r, kind, takes, places);
        r = put_feed(out, put_weights(out, r, kind, puts, places));
    }
    return r;
}

/* How many transitions have an 07. */
static inline size_t wide_rows(size_t places, size_t transitions, const uint16_t *pre, const uint16_t *post) {
    size_t wide = 0;
    for (size_t t = 0; t < transitions; t++)
        wide += (size_t)has_over(255, pre + t * places, post + t * places, places);
    return wide;
}

/* How many 05 there are. */
static inline size_t letters_lines(size_t n) {
    return (n + (BLOCK - 1)) / BLOCK;
}

/* The word, 64 letters a frame. */
static inline size_t put_word(uint8_t *out, size_t at, const uint8_t *word, size_t word_len) {
    size_t r = at, lines = letters_lines(word_len);
    for (size_t k = 0; k < lines; k++) {
        size_t a = k * BLOCK, e = word_len - a < BLOCK ? word_len : a + BLOCK;
        r = put_byte(out, r, 5);
        r = put_feed(out, put_bytes(out, r, word + a, e - a));
    }
    return r;
}

/* A frame of so many bytes as a line. */
static inline size_t line_length(size_t bytes) {
    return 2 * bytes + 1;
}

/* How long the file is; an 07 has two digits more for each weight. */
static inline size_t file_length(size_t places, size_t transitions, size_t wide, const uint8_t *marks, size_t letters) {
    size_t word = 2 * letters + line_length(1) * letters_lines(letters);
    size_t mask = has_pocket(marks, places) ? line_length(9) : 0;
    size_t rows = transitions * line_length(2 + 2 * places) + wide * (4 * places);
    return line_length(3) + 2 * line_length(1 + 2 * places) + mask + rows + word;
}

/* The refusals, then the file. */
kaunorpi_length same_write_case(KAUNORPI_NET, const uint16_t *initial, size_t initial_len, const uint8_t *word,
                                size_t word_len, uint8_t *room, size_t room_len) {
    size_t at;
    struct fault found =
        marked_fault(places, transitions, pre, pre_len, post, post_len, caps, caps_len, marks, marks_len, initial, initial_len,
                     1);
    if (found.number == 0)
        found = word_fault(transitions, word, word_len);
    if (found.number == 0 &&
        room_len < file_length(places, transitions, wide_rows(places, transitions, pre, post), marks, word_len))
        found = (struct fault){14, 0};
    if (found.number != 0)
        return (kaunorpi_length){KAUNORPI_REFUSED, found.number, found.at, 0};
    at = put_counts(room, 0, places, transitions);
    at = put_numbers(room, at, 2, caps, places);
    at = put_marks(room, at, marks, places);
    at = put_numbers(room, at, 3, initial, places);
    at = put_rows(places, transitions, pre, post, room, at);
    return (kaunorpi_length){KAUNORPI_ANSWERED, 0, 0, put_word(room, at, word, word_len)};
}
