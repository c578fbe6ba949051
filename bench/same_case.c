/* The case file reader, as crates/file_digits, crates/file_row, crates/file_line, crates/file_parts and crates/file_entry do it: a
 * line is found, its digits are checked, it is judged by its kind, then stored, into rooms of our own that are copied at the
 * end. */
#include "same.h"

struct reading {
    uint8_t phase, marked;
    size_t places, transitions, next, letters, line;
};

struct rooms {
    uint16_t caps[64], initial[64], pre[4096], post[4096];
    uint8_t marks[64], word[65535];
};

/* Whether a byte is one of 0-9 and A-F. */
static inline int is_digit(uint8_t b) {
    return (b >= '0' && b <= '9') || (b >= 'A' && b <= 'F');
}

/* The value of a digit, and 0 for any other byte. */
static inline uint8_t value(uint8_t b) {
    return b >= '0' && b <= '9' ? b - '0' : b >= 'A' && b <= 'F' ? b - 'A' + 10 : 0;
}

/* Byte i of the frame that the digits spell. */
static inline uint8_t byte_at(const uint8_t *d, size_t i) {
    return (uint8_t)(value(d[2 * i]) * 16 + value(d[2 * i + 1]));
}

/* The number of two bytes from byte i on. */
static inline uint16_t word_at(const uint8_t *d, size_t i) {
    return (uint16_t)(byte_at(d, i) * 256 + byte_at(d, i + 1));
}

/* The digit rule. */
static int rule(const uint8_t *d, size_t n) {
    if (n < 2 || n > 516 || n % 2 == 1)
        return 0;
    for (size_t i = 0; i < n; i++)
        if (!is_digit(d[i]))
            return 0;
    return 1;
}

/* Whether place p is a pocket by a 06: place 0 is the lowest bit of the last byte. */
static inline uint8_t mark_of(const uint8_t *d, size_t p) {
    return byte_at(d, 8 - p / 8) >> p % 8 & 1;
}

/* 06: right after 02, once, with a pocket, and with no bit at or past the place count. */
static uint8_t marks_line(const struct reading *s, const uint8_t *d, size_t n) {
    size_t pockets = 0, past = 0;
    if (s->phase != 3 || s->marked || n != 18)
        return 12;
    for (size_t p = 0; p < s->places; p++)
        pockets += mark_of(d, p);
    for (size_t p = s->places; p < 64; p++)
        past += mark_of(d, p);
    return pockets == 0 || past > 0 ? 12 : 0;
}

/* 03: no token count is 65,535 or above its capacity. */
static uint8_t tokens_line(const struct reading *s, const uint8_t *d, const uint16_t *caps) {
    for (size_t p = 0; p < s->places; p++) {
        uint16_t m = word_at(d, 1 + 2 * p);
        if (m > 65534 || caps[p] < m)
            return 3;
    }
    return 0;
}

/* Whether an 07 has a weight over a limit: one plain pass over its digits. */
static int digits_over(uint32_t limit, const uint8_t *d, size_t places) {
    uint32_t over = 0;
    for (size_t p = 0; p < places; p++)
        over += over_at(limit, word_at(d, 2 + 2 * p), word_at(d, 2 + 2 * places + 2 * p));
    return over > 0;
}

/* 07: a weight is over 255, and none over what is allowed. */
static uint8_t wide_line(const struct reading *s, const uint8_t *d, size_t n) {
    if (s->phase != 4 || n != 4 + 8 * s->places || byte_at(d, 1) != s->next || !digits_over(255, d, s->places))
        return 12;
    return digits_over(KAUNORPI_MOST_WEIGHT, d, s->places) ? 18 : 0;
}

/* 05 with 1 to 64 letters, which are looked at in one plain pass. */
static uint8_t letters_line(const struct reading *s, const uint8_t *d, size_t n) {
    int fine = 1;
    if (s->phase != 5 || s->letters % 64 != 0 || n < 4 || n > 130)
        return 12;
    if (s->letters + n / 2 - 1 > 65535)
        return 4;
    for (size_t i = 1; i < n / 2; i++)
        fine &= byte_at(d, i) < s->transitions;
    return fine ? 0 : 5;
}

/* The refusal of a line, or 0. */
static uint8_t judge(const struct reading *s, const uint8_t *d, size_t n, const uint16_t *caps) {
    size_t p, t;
    if (!rule(d, n))
        return 11;
    switch (byte_at(d, 0)) {
    case 1:
        if (s->phase != 1 || n != 6)
            return 12;
        p = byte_at(d, 1), t = byte_at(d, 2);
        return p < 1 || p > 64 || t < 1 || t > 64 ? 1 : 0;
    case 2:
        return s->phase != 2 || n != 2 + 4 * s->places ? 12 : 0;
    case 3:
        return s->phase != 3 || n != 2 + 4 * s->places ? 12 : tokens_line(s, d, caps);
    case 4:
        return s->phase != 4 || n != 4 + 4 * s->places || byte_at(d, 1) != s->next ? 12 : 0;
    case 5:
        return letters_line(s, d, n);
    case 6:
        return marks_line(s, d, n);
    case 7:
        return wide_line(s, d, n);
    default:
        return 12;
    }
}

/* One weight of a row, from byte i on: of a byte in a 04, of two in an 07. */
static inline uint16_t weight_at(uint8_t kind, const uint8_t *d, size_t i) {
    return kind == 7 ? word_at(d, i) : byte_at(d, i);
}

/* A row of weights from byte `from` on. */
static void store_weights(uint8_t kind, const uint8_t *d, size_t from, uint16_t *room, size_t places) {
    size_t bytes = kind == 7 ? 2 : 1;
    for (size_t p = 0; p < places; p++)
        room[p] = weight_at(kind, d, from + bytes * p);
}

/* Both rows of a frame. */
static void store_row(const struct reading *s, uint8_t kind, const uint8_t *d, struct rooms *r) {
    store_weights(kind, d, 2, r->pre + s->next * s->places, s->places);
    store_weights(kind, d, 2 + (kind == 7 ? 2 : 1) * s->places, r->post + s->next * s->places, s->places);
}

/* The stores of an accepted line. */
static void store(const struct reading *s, const uint8_t *d, size_t n, struct rooms *r) {
    switch (byte_at(d, 0)) {
    case 2:
        for (size_t p = 0; p < s->places; p++)
            r->caps[p] = word_at(d, 1 + 2 * p);
        break;
    case 3:
        for (size_t p = 0; p < s->places; p++)
            r->initial[p] = word_at(d, 1 + 2 * p);
        break;
    case 4:
    case 7:
        store_row(s, byte_at(d, 0), d, r);
        break;
    case 5:
        for (size_t i = 0; i < n / 2 - 1; i++)
            r->word[s->letters + i] = byte_at(d, 1 + i);
        break;
    case 6:
        for (size_t p = 0; p < s->places; p++)
            r->marks[p] = mark_of(d, p);
    }
}

/* The state after an accepted line. */
static struct reading advance(struct reading s, const uint8_t *d, size_t n) {
    s.line++;
    switch (byte_at(d, 0)) {
    case 1:
        return (struct reading){2, 0, byte_at(d, 1), byte_at(d, 2), 0, 0, s.line};
    case 4:
    case 7:
        s.next++;
        s.phase = s.next == s.transitions ? 5 : 4;
        return s;
    case 5:
        s.letters += n / 2 - 1;
        return s;
    case 6:
        s.marked = 1;
        return s;
    default:
        s.phase++;
        return s;
    }
}

/* 17: with the line of the last transition stored, a node has no arc. */
static int is_loose(const struct reading *s, const uint8_t *d, const struct rooms *r) {
    return (byte_at(d, 0) == 4 || byte_at(d, 0) == 7) && s->next + 1 == s->transitions &&
           loose_fault(s->places, s->transitions, r->pre, r->post).number != 0;
}

/* The whole lines of the file; the refusal, or 0. */
static uint8_t read_lines(struct reading *s, const uint8_t *file, size_t file_len, struct rooms *r) {
    size_t at = 0;
    while (at < file_len) {
        size_t e = at;
        uint8_t number;
        while (e < file_len && file[e] != 10)
            e++;
        if (e == file_len)
            return 11;
        number = judge(s, file + at, e - at, r->caps);
        if (number != 0)
            return number;
        store(s, file + at, e - at, r);
        if (is_loose(s, file + at, r))
            return 17;
        *s = advance(*s, file + at, e - at);
        at = e + 1;
    }
    return s->phase == 5 ? 0 : 12;
}

/* Refusal 2, the file, then the copy. */
kaunorpi_case same_read_case(const uint8_t *file, size_t file_len, uint16_t *caps, size_t caps_len, uint8_t *marks,
                             size_t marks_len, uint16_t *initial, size_t initial_len, uint16_t *pre, size_t pre_len,
                             uint16_t *post, size_t post_len, uint8_t *word, size_t word_len) {
    struct reading s = {1, 0, 0, 0, 0, 0, 0};
    struct rooms r = {{0}, {0}, {0}, {0}, {0}, {0}};
    uint8_t number;
    if (caps_len != 64 || marks_len != 64 || initial_len != 64 || pre_len != 4096 || post_len != 4096 || word_len != 65535)
        return (kaunorpi_case){KAUNORPI_REFUSED, 2, 0, 0, 0, 0};
    number = read_lines(&s, file, file_len, &r);
    if (number != 0)
        return (kaunorpi_case){KAUNORPI_REFUSED, number, s.line + 1, 0, 0, 0};
    for (size_t p = 0; p < s.places; p++)
        caps[p] = r.caps[p];
    for (size_t p = 0; p < s.places; p++)
        marks[p] = r.marks[p];
    for (size_t p = 0; p < s.places; p++)
        initial[p] = r.initial[p];
    for (size_t i = 0; i < s.places * s.transitions; i++)
        pre[i] = r.pre[i];
    for (size_t i = 0; i < s.places * s.transitions; i++)
        post[i] = r.post[i];
    for (size_t i = 0; i < s.letters; i++)
        word[i] = r.word[i];
    return (kaunorpi_case){KAUNORPI_ANSWERED, 0, 0, s.places, s.transitions, s.letters};
}
