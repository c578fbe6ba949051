/* Case files damaged: by one fault, so that it decides, or in any way. */
#include "compare.h"

#include <string.h>

static struct case_file *const f = &drawn_file;

/* A line by chance, often one of the last three: in a file of too many letters, or with a wrong one, also one after the line that
 * decides. */
static size_t any_line(void) {
    if (breaks(LONG_FILE) || breaks(FILE_LETTER) || chance(2))
        return f->lines - 1 - below(f->lines < 3 ? f->lines : 3);
    return below(f->lines);
}

/* Puts the frames of two lines in each other's place. */
static void swap_frames(size_t k, size_t other) {
    uint8_t bytes[MOST_FRAME];
    size_t size = f->sizes[k];
    memcpy(bytes, f->frames[k], MOST_FRAME);
    memcpy(f->frames[k], f->frames[other], MOST_FRAME);
    memcpy(f->frames[other], bytes, MOST_FRAME);
    f->sizes[k] = f->sizes[other];
    f->sizes[other] = size;
}

/* Strikes a frame out. */
static void strike_frame(size_t k) {
    memmove(f->frames[k], f->frames[k + 1], (f->lines - k - 1) * sizeof f->frames[0]);
    memmove(f->sizes + k, f->sizes + k + 1, (f->lines - k - 1) * sizeof f->sizes[0]);
    f->lines--;
}

/* Puts a frame in before line k. */
static void put_frame(size_t k, const uint8_t *bytes, size_t size) {
    memmove(f->frames[k + 1], f->frames[k], (f->lines - k) * sizeof f->frames[0]);
    memmove(f->sizes + k + 1, f->sizes + k, (f->lines - k) * sizeof f->sizes[0]);
    memcpy(f->frames[k], bytes, size);
    f->sizes[k] = size;
    f->lines++;
}

/* Puts a frame 06 in where none may stand: right after another one, or elsewhere: often right after 03. */
static void break_masks(void) {
    uint8_t frame[9];
    draw_mask(frame);
    if (breaks(MASK_AGAIN) && f->masks > 0)
        put_frame(3, chance(2) ? f->frames[2] : frame, 9);
    if (breaks(MASK_ELSEWHERE))
        put_frame(chance(3) ? below(2) : chance(2) ? 3 + f->masks : 3 + f->masks + below(f->lines - 2 - f->masks), frame, 9);
}

/* Is the last frame one of fewer letters than 64? */
static int ends_short(void) {
    return f->frames[f->lines - 1][0] == 5 && f->sizes[f->lines - 1] < 65;
}

/* Adds so many letters at the end. */
static void add_letters(size_t count) {
    uint8_t frame[MOST_FRAME] = {5};
    for (size_t i = 0; i < count; i++)
        frame[1 + i] = (uint8_t)below(f->transitions);
    add_frame(frame, 1 + count);
}

/* Breaks the order, a length, an index or a kind in any way. */
static void damage_any_frame(void) {
    size_t k = any_line();
    switch (below(7)) {
    case 0:
        swap_frames(k, below(f->lines));
        break;
    case 1: /* doubled, or one more at the end */
        add_frame(f->frames[k], f->sizes[k]);
        break;
    case 2:
        strike_frame(k);
        break;
    case 3: /* of another length */
        f->sizes[k] = chance(2) ? f->sizes[k] + 1 : chance(2) ? f->sizes[k] - 1 : 1 + below(260);
        break;
    case 4: /* of another kind */
        f->frames[k][0] = (uint8_t)(chance(2) ? below(9) : draw());
        break;
    case 5: /* followed by letters though it is short */
        if (ends_short())
            add_frame(f->frames[f->lines - 1], f->sizes[f->lines - 1]);
        break;
    default: /* of another index, or letter */
        f->frames[k][1] = (uint8_t)(chance(2) ? below(5) : draw());
    }
}

/* The place in the file's order of a frame of kind 01 to 05 or 07: 07 may stand where 04 does. */
static uint8_t rank_of(uint8_t kind) {
    return kind == 7 ? 4 : kind;
}

/* A frame of a known kind but 06 where another is due: renamed, exchanged, or one more at the end. Where 06 stands, 03 could
 * stand as well. */
static void break_order(size_t k) {
    uint8_t *kind = f->frames[k];
    size_t other = below(f->lines);
    if (chance(3))
        add_frame(f->frames[below(2)], f->sizes[0]);
    else if (*kind == 6)
        *kind = (uint8_t)(1 + (3 + below(4)) % 5);
    else if (chance(2) && rank_of(*kind) != rank_of(f->frames[other][0]) && f->frames[other][0] != 6)
        swap_frames(k, other);
    else {
        *kind = (uint8_t)(1 + (rank_of(*kind) + below(4)) % 5);
        *kind = *kind == 4 && chance(2) ? 7 : *kind;
    }
}

/* Another length for frame k, of 258 bytes at most. */
static void break_size(size_t k) {
    size_t old = f->sizes[k];
    if (f->frames[k][0] == 5)
        f->sizes[k] = chance(2) ? 1 : 66 + below(193);
    else
        do
            f->sizes[k] = chance(2) ? old + 1 : chance(2) ? old - 1 : 1 + below(258);
        while (f->sizes[k] == old || f->sizes[k] > 258);
}

/* Breaks frames as planned: each of these alone is one fault of refusal 12. */
void damage_frames(void) {
    size_t k = any_line(), row = 3 + f->masks + below(f->transitions);
    if (breaks(FRAME_KIND))
        f->frames[k][0] = (uint8_t)(chance(3) ? 0 : chance(2) ? 8 : 8 + below(248));
    if (breaks(FRAME_ORDER))
        break_order(k);
    if (breaks(FRAME_LENGTH))
        break_size(k);
    if (breaks(FRAME_INDEX))
        f->frames[row][1] = (uint8_t)(f->frames[row][1] + (chance(2) ? 1 : 1 + below(255)));
    if (breaks(FRAME_SHORT)) {
        if (!ends_short())
            add_letters(1 + below(63));
        add_letters(1 + below(64));
    }
    break_masks();
    for (size_t times = wants(12) && !is_alone() && chance(2) ? 1 + below(2) : 0; times > 0 && f->lines > 1; times--)
        damage_any_frame();
    if (breaks(LINE_LONG))
        f->sizes[any_line()] = chance(3) ? 259 : 259 + below(MOST_FRAME - 259);
    if (breaks(FRAME_MISSING))
        f->lines = below(3 + f->masks + f->transitions);
}

/* Puts a byte in. */
static void put_byte(size_t at, uint8_t byte) {
    memmove(f->text + at + 1, f->text + at, f->bytes - at);
    f->text[at] = byte;
    f->bytes++;
}

/* Takes a byte out. */
static void take_byte(size_t at) {
    memmove(f->text + at, f->text + at + 1, f->bytes - at - 1);
    f->bytes--;
}

/* Puts a byte in, takes one out, changes one, or cuts the text. */
static void damage_any_byte(void) {
    static const uint8_t bytes[] = "\n\r 09AFG:@/af\n\0\377x0A";
    size_t at = f->bytes == 0 ? 0 : chance(4) ? f->bytes - 1 : below(f->bytes);
    switch (f->bytes == 0 ? 0 : below(5)) {
    case 0:
        put_byte(at, bytes[below(sizeof bytes - 1)]);
        break;
    case 1:
        take_byte(at);
        break;
    case 2:
    case 3:
        f->text[at] = chance(8) ? (uint8_t)draw() : bytes[below(sizeof bytes - 1)];
        break;
    default:
        f->bytes = at;
    }
}

/* A digit by chance: where it stands in the text, and with at_start, where its line begins. */
static size_t find_digit(int at_start) {
    size_t at = 0, k = any_line();
    for (size_t i = 0; i < k; i++)
        at += 2 * f->sizes[i] + 1;
    return at_start || f->sizes[k] == 0 ? at : at + below(2 * f->sizes[k]);
}

/* Breaks the text as planned: each of these alone is one fault of refusal 11. */
void damage_text(void) {
    static const uint8_t no_digits[] = "/:@G`agz \r\0\377";
    if (f->lines > 0 && breaks(LINE_DIGIT))
        f->text[find_digit(0)] = no_digits[below(sizeof no_digits - 1)];
    if (f->lines > 0 && breaks(LINE_ODD))
        take_byte(find_digit(0));
    else if (breaks(LINE_EMPTY))
        put_byte(f->lines == 0 || chance(4) ? f->bytes : find_digit(1), '\n');
    if (f->lines > 0 && breaks(LINE_FEED))
        f->bytes -= 1 + (chance(2) || f->sizes[f->lines - 1] == 0 ? 0 : 2 * below(f->sizes[f->lines - 1]));
    for (size_t times = wants(11) && !is_alone() && chance(2) ? 1 + below(2) : 0; times > 0; times--)
        damage_any_byte();
}
