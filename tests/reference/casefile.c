/* A case file, line by line. */
#include "reference.h"

/* What has been read so far; `line` counts the lines taken, `heads` the frames 01 to 03, `masks` the frames 06, `last` the
 * letters of the last frame 05 (64 before any); `heavy` is whether a weight is over 4,095. */
struct reading {
    size_t line, heads, masks, places, transitions, next, letters, last;
    int heavy;
    uint16_t caps[64], tokens[64], pre[4096], post[4096];
    uint8_t marks[64], word[65535];
};

/* A digit 0-9 or A-F as its number; 16 for anything else. */
static int digit(uint8_t byte) {
    if (byte >= '0' && byte <= '9')
        return byte - '0';
    if (byte >= 'A' && byte <= 'F')
        return byte - 'A' + 10;
    return 16;
}

/* Refusal 11: the digits of a line, an even number from 2 to 516, into bytes. */
static int frame_of(const uint8_t *digits, size_t count, uint8_t *frame) {
    if (count < 2 || count > RULE(134, RULE(135, 516, 518), 260) || count % 2 != 0)
        return 11;
    for (size_t i = 0; i < count; i++)
        if (digit(digits[i]) == 16)
            return 11;
    for (size_t i = 0; i < count / 2; i++)
        frame[i] = (uint8_t)(digit(digits[2 * i]) * 16 + digit(digits[2 * i + 1]));
    return 0;
}

/* A number of two bytes, the high byte first. */
static uint16_t two(const uint8_t *bytes) {
    return (uint16_t)(bytes[0] * 256 + bytes[1]);
}

/* A weight of two bytes, of a frame 07. */
static uint16_t wide(const uint8_t *bytes) {
    return RULE(136, two(bytes), (uint16_t)(bytes[0] + bytes[1] * 256));
}

/* 01 P T. */
static int read_counts(struct reading *r, const uint8_t *frame, size_t size) {
    if (size != 3)
        return 12;
    r->places = frame[1];
    r->transitions = frame[2];
    r->heads++;
    if (r->places < 1 || r->places > 64 || r->transitions < 1 || r->transitions > 64)
        return 1;
    return 0;
}

/* 02 with P capacities, 03 with P tokens; tokens of 65,535 or above capacity are refusal 3. */
static int read_numbers(struct reading *r, const uint8_t *frame, size_t size) {
    uint16_t *to = frame[0] == 2 ? r->caps : r->tokens;
    if (size != 1 + 2 * r->places)
        return 12;
    r->heads++;
    for (size_t p = 0; p < r->places; p++)
        to[p] = two(frame + 1 + 2 * p);
    for (size_t p = 0; frame[0] == 3 && p < r->places; p++)
        if (r->tokens[p] == 65535 || (r->caps[p] != 65535 && r->tokens[p] > r->caps[p]))
            return 3;
    return 0;
}

/* 06, eight bytes, a bit for each place: "place 0 the lowest bit of the last byte". "A bit at or past P, or an all-zero mask,
 * is refusal 12"; "the file reader gives 1". */
static int read_marks(struct reading *r, const uint8_t *frame, size_t size) {
    size_t pockets = 0;
    if (RULE(113, size != 9, size < 9))
        return 12;
    r->masks++;
    for (size_t p = 0; p < 64; p++) {
        int is_set = frame[RULE(108, 8 - p / 8, 1 + p / 8)] >> p % 8 & 1;
        if (is_set && p >= r->places && RULE(111, 1, 0))
            return 12;
        pockets += (size_t)is_set;
        r->marks[p] = is_set ? RULE(114, 1, 255) : 0;
    }
    return pockets > 0 || RULE(110, 0, 1) ? 0 : 12;
}

/* Is the net loose that was read? */
static int is_loose(const struct reading *r) {
    struct net net = {r->places, r->transitions, r->pre, r->places * r->transitions, r->post, r->places * r->transitions,
                      r->caps, r->places, r->marks, r->places};
    return reference_loose_fault(&net) != NOWHERE;
}

/* The weights of a row: of a byte each in a frame 04, of two in a frame 07. */
static void take_weights(const struct reading *r, const uint8_t *frame, uint16_t *pre, uint16_t *post) {
    const uint8_t *first = frame + 2;
    for (size_t p = 0; p < r->places; p++) {
        pre[p] = frame[0] == 7 ? wide(first + 2 * p) : first[p];
        post[p] = frame[0] == 7 ? wide(first + 2 * (r->places + p)) : first[r->places + p];
    }
}

/* Is one of these weights over so many? */
static int is_over(const struct reading *r, const uint16_t *weights, size_t most) {
    for (size_t p = 0; p < r->places; p++)
        if (weights[p] > most)
            return 1;
    return 0;
}

/* Has a frame 07 what it is used for, a weight over 255? "an 07 with none such is refusal 12" */
static int is_needed(const struct reading *r, const uint16_t *pre, const uint16_t *post) {
    size_t most = RULE(140, RULE(141, 255, 254), 256);
    return RULE(138, is_over(r, pre, most), 0) || RULE(139, is_over(r, post, most), 0) || RULE(154, 0, 1);
}

/* Refusal 18 on the row's own line, refusal 17 "in a file, on the line of the last transition", where the net is loose. */
static int row_fault(struct reading *r, const uint16_t *pre, const uint16_t *post, int loose) {
    r->heavy |= RULE(142, is_over(r, pre, HEAVIEST), 0) || RULE(156, RULE(142, is_over(r, post, HEAVIEST), 0), 0);
    if (r->heavy && RULE(155, 1, r->next == r->transitions) && RULE(143, 1, !loose))
        return 18;
    if (RULE(86, 0, 1) && !is_over(r, pre, 0) && !is_over(r, post, 0))
        return 17;
    return loose ? 17 : 0;
}

/* "04 t, P Pre bytes, P Post bytes; one for each t in order from 0"; a "frame 07 has two-byte weights and is used for a
 * transition exactly when one of its weights is over 255". */
static int read_row(struct reading *r, const uint8_t *frame, size_t size) {
    uint16_t *pre = r->pre + r->next * r->places, *post = r->post + r->next * r->places;
    int has_index = RULE(44, 1, frame[0] == 7) && RULE(137, 1, frame[0] == 4), is_last;
    if (size != 2 + 2 * r->places * (frame[0] == 7 ? 2 : 1) || (has_index && frame[1] != r->next))
        return 12;
    take_weights(r, frame, pre, post);
    if (frame[0] == 7 && !is_needed(r, pre, post))
        return 12;
    r->next++;
    is_last = r->next == r->transitions && RULE(95, 1, 0) && RULE(144, 1, frame[0] == 4);
    return row_fault(r, pre, post, is_last && is_loose(r));
}

/* 05 with 1 to 64 letters; all but the last hold 64, else the next 05 is faulty. */
static int read_letters(struct reading *r, const uint8_t *frame, size_t size) {
    size_t count = size - 1;
    if (count < 1 || count > 64 || RULE(8, r->last != 64, 0))
        return 12;
    if (r->letters + count > 65535)
        return 4;
    for (size_t i = 0; i < count; i++)
        if (frame[1 + i] >= r->transitions)
            return 5;
    for (size_t i = 0; i < count; i++)
        r->word[r->letters++] = frame[1 + i];
    r->last = count;
    return 0;
}

/* The kind that this line must have: 01, 02, 03, then 04 for each transition, then 05. */
static int due(const struct reading *r) {
    if (r->heads < 3)
        return (int)r->heads + 1;
    return r->next < r->transitions ? 4 : 5;
}

/* May a frame 07 stand here? It takes the place of a 04. */
static int may_widen(const struct reading *r) {
    return due(r) == 4 && RULE(145, 1, r->next > 0);
}

/* May a frame 06 stand here? It "may follow 02", once. */
static int may_mark(const struct reading *r) {
    if (RULE(109, 0, 1) && r->heads == 3 && r->next == 0)
        return 1;
    return r->heads == 2 && RULE(112, r->masks == 0, 1);
}

/* One frame: unknown kind and wrong order are 12, and the rest is up to the kind. */
static int read_frame(struct reading *r, const uint8_t *frame, size_t size) {
    if (frame[0] == 6 && may_mark(r))
        return read_marks(r, frame, size);
    if (frame[0] != due(r) && !(frame[0] == 7 && may_widen(r)))
        return 12;
    switch (frame[0]) {
    case 1:
        return read_counts(r, frame, size);
    case 2:
    case 3:
        return read_numbers(r, frame, size);
    case 4:
    case 7:
        return read_row(r, frame, size);
    default:
        return read_letters(r, frame, size);
    }
}

/* Every line, up to the earliest faulty one; frames missing at the end count as the line after the last. */
static int read_lines(struct reading *r, const uint8_t *file, size_t file_len) {
    size_t at = 0;
    while (at < file_len) {
        uint8_t frame[260];
        size_t end = at;
        int number;
        r->line++;
        while (end < file_len && file[end] != '\n')
            end++;
        if (RULE(45, end == file_len, 0))
            return 11;
        number = frame_of(file + at, end - at, frame);
        if (number == 0)
            number = read_frame(r, frame, (end - at) / 2);
        if (number != 0)
            return number;
        at = end + 1;
    }
    r->line++;
    if (r->heads < 3 || r->next < r->transitions)
        return 12;
    return RULE(95, 0, is_loose(r)) ? 17 : 0;
}

/* Refusal 2 for the rooms, then the file; the rooms are written once the whole file is found right. */
kaunorpi_case reference_read_case(const uint8_t *file, size_t file_len, uint16_t *caps, size_t caps_len, uint8_t *marks,
                                  size_t marks_len, uint16_t *initial, size_t initial_len, uint16_t *pre,
                                  size_t pre_len, uint16_t *post, size_t post_len, uint8_t *word, size_t word_len) {
    struct reading r = {.last = 64};
    int number;
    if (caps_len != 64 || marks_len != 64 || initial_len != 64 || pre_len != 4096 || post_len != 4096 || word_len != 65535)
        return (kaunorpi_case){KAUNORPI_REFUSED, 2, 0, 0, 0, 0};
    number = read_lines(&r, file, file_len);
    if (number != 0)
        return (kaunorpi_case){KAUNORPI_REFUSED, (uint8_t)number, r.line, 0, 0, 0};
    for (size_t p = 0; p < r.places; p++) {
        caps[p] = r.caps[p];
        initial[p] = r.tokens[p];
        if (RULE(115, 1, r.masks > 0))
            marks[p] = r.marks[p];
    }
    for (size_t i = 0; i < r.places * r.transitions; i++) {
        pre[i] = r.pre[i];
        post[i] = r.post[i];
    }
    for (size_t i = 0; i < r.letters; i++)
        word[i] = r.word[i];
    return (kaunorpi_case){KAUNORPI_ANSWERED, 0, 0, r.places, r.transitions, r.letters};
}
