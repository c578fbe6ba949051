/* The faults of a case file, looked for on the line that it was refused for: the lines before it are right. */
#include "compare.h"

/* A line of the file: its bytes without the line feed; at is NULL if the file has no such line. */
struct line {
    const uint8_t *at;
    size_t size;
    int has_feed;
};

static size_t number;
static struct line here;

/* The line of this number, from 1. */
static struct line line_of(size_t which) {
    const uint8_t *file = own(&in.file);
    size_t at = 0, end = 0;
    for (size_t k = 1; at < in.file.count; k++) {
        for (end = at; end < in.file.count && file[end] != '\n'; end++)
            ;
        if (k == which)
            return (struct line){file + at, end - at, end < in.file.count};
        at = end + 1;
    }
    return (struct line){0, 0, 0};
}

/* Is it a digit? */
static int is_digit(uint8_t byte) {
    return (byte >= '0' && byte <= '9') || (byte >= 'A' && byte <= 'F');
}

/* Byte i of the frame on this line; 0 where there is none. */
static size_t byte_of(const struct line *line, size_t i) {
    size_t value = 0;
    for (size_t k = 2 * i; k < 2 * i + 2 && k < line->size; k++)
        value = value * 16 + (size_t)(line->at[k] <= '9' ? line->at[k] - '0' : line->at[k] - 'A' + 10);
    return value;
}

/* Byte i of the frame on the first line: place count at 1, transition count at 2. */
static size_t count_of(size_t i) {
    struct line first = line_of(1);
    return byte_of(&first, i);
}

/* Number p of the frame on this line, of two bytes. */
static size_t number_of(const struct line *line, size_t p) {
    return byte_of(line, 1 + 2 * p) * 256 + byte_of(line, 2 + 2 * p);
}

/* Is there a frame 06 before the line? The lines before it are right, so it is line 3. */
static size_t is_masked(void) {
    struct line third = line_of(3);
    return number > 3 && byte_of(&third, 0) == 6;
}

/* The number that the line would have without a frame 06. */
static size_t rank(void) { return number - is_masked(); }

/* The kind that the line must have; where that is 04 it may be 07. */
static size_t due(void) {
    return rank() <= 3 ? rank() : rank() - 3 <= count_of(2) ? 4 : 5;
}
static int is_due(void) {
    return byte_of(&here, 0) == due() || (byte_of(&here, 0) == 7 && due() == 4);
}

/* Is it the row of a transition, in a frame 07? */
static int is_wide(void) { return here.at != NULL && byte_of(&here, 0) == 7 && due() == 4; }

/* Weight i of the row on a line, those of Post after those of Pre: of a byte in a frame 04, of two in a frame 07. */
static size_t weight_of(const struct line *row, size_t i) {
    if (byte_of(row, 0) == 7)
        return byte_of(row, 2 + 2 * i) * 256 + byte_of(row, 3 + 2 * i);
    return byte_of(row, 2 + i);
}

/* Is one of the weights of this row, from number `from` up to `to`, over so many? */
static int has_over(size_t from, size_t to, size_t most) {
    for (size_t i = from; i < to; i++)
        if (weight_of(&here, i) > most)
            return 1;
    return 0;
}

/* Is it a frame 06? And does it stand right after 02, as the first? */
static int is_mask(void) { return here.at != NULL && byte_of(&here, 0) == 6; }
static int is_mask_due(void) { return is_mask() && number == 3; }

/* Takes the line that was refused. */
void look_at_line(size_t line) {
    number = line;
    here = line_of(line);
}

int line_feed(void) { return here.at != NULL && !here.has_feed; }
int line_empty(void) { return here.at != NULL && here.size == 0; }
int line_odd(void) { return here.size % 2 == 1; }
int line_long(void) { return here.size > 516; }

/* Is there a byte that is no digit? */
int line_digit(void) {
    for (size_t i = 0; i < here.size; i++)
        if (!is_digit(here.at[i]))
            return 1;
    return 0;
}

/* Is the frame's kind none of the seven? */
int frame_kind(void) {
    return here.at != NULL && (byte_of(&here, 0) < 1 || byte_of(&here, 0) > 7);
}

int frame_order(void) { return here.at != NULL && !frame_kind() && !is_mask() && !is_due(); }

/* Is the frame of the kind that is due, but of another length? */
int frame_length(void) {
    size_t size = here.size / 2, places = number > 1 ? count_of(1) : 0, kind = due();
    if (is_mask_due())
        return size != 9;
    if (here.at == NULL || !is_due())
        return 0;
    if (kind == 5)
        return size < 2 || size > 65;
    return size != (kind == 1 ? 3 : kind == 4 ? 2 + (is_wide() ? 4 : 2) * places : 1 + 2 * places);
}

/* Has the row of a transition another number than is due? One that is too short to have a number has none. */
int frame_index(void) {
    return here.size >= 4 && due() == 4 && is_due() && byte_of(&here, 1) != rank() - 4;
}

/* Do letters follow a frame that is not full? */
int frame_short(void) {
    struct line before = line_of(number - 1);
    return here.at != NULL && byte_of(&here, 0) == 5 && byte_of(&before, 0) == 5 && before.size < 130;
}

int frame_missing(void) { return here.at == NULL; }

int mask_again(void) { return is_mask() && is_masked() && number == 4; }
int mask_elsewhere(void) { return is_mask() && !is_mask_due() && !mask_again(); }

/* How many bits of a frame 06 stand for places from this one up to that one; place 0 is the lowest of the last byte. */
static size_t bits_between(size_t from, size_t to) {
    size_t count = 0;
    for (size_t p = from; p < to; p++)
        count += byte_of(&here, 8 - p / 8) >> p % 8 & 1;
    return count;
}

int mask_empty(void) { return is_mask_due() && here.size == 18 && bits_between(0, 64) == 0; }
int mask_past(void) { return is_mask_due() && here.size == 18 && bits_between(count_of(1), 64) > 0; }

/* Is it a frame 07 of right length, without a weight that it is needed for? */
int row_small(void) { return is_wide() && !frame_length() && !has_over(0, 2 * count_of(1), MOST_BYTE); }

/* What else is asked of the line: whether it is the last transition's, its digits, the largest weight of its row. */
int is_last_row(void) { return rank() == 3 + count_of(2); }
size_t line_digits(void) { return here.size; }
size_t largest_on_line(void) {
    size_t most = 0;
    for (size_t i = 0; i < 2 * count_of(1); i++)
        most = weight_of(&here, i) > most ? weight_of(&here, i) : most;
    return most;
}

int file_heavy_pre(void) { return is_wide() && has_over(0, count_of(1), MOST_WEIGHT); }
int file_heavy_post(void) { return is_wide() && has_over(count_of(1), 2 * count_of(1), MOST_WEIGHT); }

int file_places(void) { return byte_of(&here, 1) < 1 || byte_of(&here, 1) > 64; }
int file_transitions(void) { return byte_of(&here, 2) < 1 || byte_of(&here, 2) > 64; }

/* How many places, or transitions, of the file have no arc; the rows of all transitions are right. */
static size_t loose_in_file(int transitions) {
    static uint16_t pre[4096], post[4096];
    struct weights net = {count_of(1), count_of(2), pre, post};
    for (size_t t = 0; t < net.transitions; t++) {
        struct line row = line_of(4 + is_masked() + t);
        for (size_t p = 0; p < net.places; p++) {
            pre[t * net.places + p] = (uint16_t)weight_of(&row, p);
            post[t * net.places + p] = (uint16_t)weight_of(&row, net.places + p);
        }
    }
    return count_loose(&net, transitions);
}

int file_loose_place(void) { return loose_in_file(0) > 0; }
int file_loose_transition(void) { return loose_in_file(1) > 0; }

/* Has a place 65,535 tokens? */
int file_full(void) {
    for (size_t p = 0; p < count_of(1); p++)
        if (number_of(&here, p) == 65535)
            return 1;
    return 0;
}

/* Has a place more tokens than its capacity? */
int file_over(void) {
    struct line caps = line_of(2);
    for (size_t p = 0; p < count_of(1); p++)
        if (number_of(&caps, p) != 65535 && number_of(&here, p) > number_of(&caps, p))
            return 1;
    return 0;
}
