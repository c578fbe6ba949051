/* Case files by chance: right ones, with faulty numbers, and of any bytes; damage.c makes faulty frames and lines. */
#include "compare.h"

#include <string.h>

struct case_file drawn_file;
static struct case_file *const f = &drawn_file;

/* Adds a frame of these bytes. */
void add_frame(const uint8_t *bytes, size_t size) {
    memcpy(f->frames[f->lines], bytes, size);
    f->sizes[f->lines++] = size;
}

/* A number of two bytes into a frame, the high byte first. */
static void put_number(uint8_t *frame, size_t p, uint16_t number) {
    frame[1 + 2 * p] = (uint8_t)(number >> 8);
    frame[2 + 2 * p] = (uint8_t)number;
}

/* A count that a file can say and that is outside 1..64. */
static uint8_t faulty_byte(void) {
    return (uint8_t)(chance(3) ? 0 : chance(2) ? 65 : 65 + below(191));
}

/* A frame 06 with some pockets, or with one: the first place, the last, or any. */
void draw_mask(uint8_t *frame) {
    size_t one = chance(3) ? 0 : chance(2) ? f->places - 1 : below(f->places), style = below(4);
    memset(frame, 0, 9);
    frame[0] = 6;
    for (size_t p = 0; p < f->places; p++)
        if (p == one || (style < 2 && chance(2 + style)))
            frame[8 - p / 8] |= (uint8_t)(1u << p % 8);
}

/* Frame 06 in some of the files, and where something of it is to be wrong. */
static void add_mask(void) {
    uint8_t frame[9];
    size_t past = f->places + (chance(3) ? 0 : below(64 - f->places + (f->places == 64)));
    if (!chance(3) && !breaks(MASK_EMPTY) && !breaks(MASK_PAST) && !breaks(MASK_AGAIN))
        return;
    draw_mask(frame);
    if (breaks(MASK_EMPTY))
        memset(frame + 1, 0, 8);
    if (breaks(MASK_PAST) && past < 64)
        frame[8 - past / 8] |= (uint8_t)(1u << past % 8);
    add_frame(frame, 9);
    f->masks = 1;
}

/* Frames 01, 02, 03, with faulty counts and tokens where that is planned; 06 now and then. */
static void add_head(size_t places, size_t transitions) {
    uint8_t counts[3] = {1, (uint8_t)places, (uint8_t)transitions}, caps[129] = {2}, tokens[129] = {3};
    size_t full = breaks(FILE_FULL) ? below(places) : places, over = breaks(FILE_OVER) ? below(places) : places;
    size_t style = below(3), high = below(2);
    for (size_t p = 0; p < places; p++) {
        uint16_t cap = style == 0 ? 65535 : style == 1 ? (uint16_t)below(9) : (uint16_t)draw();
        uint16_t most = cap == 65535 ? 65534 : cap, held = (uint16_t)(high ? most : below(most < 7 ? most + 1u : 7));
        if (p == over) {
            cap = cap < 65534 ? cap : (uint16_t)below(65534);
            held = (uint16_t)(cap + 1 + (chance(2) ? 0 : below((size_t)65534 - cap)));
        }
        if (p == full)
            cap = held = 65535;
        put_number(caps, p, cap);
        put_number(tokens, p, held);
    }
    if (breaks(FILE_PLACES))
        counts[1] = faulty_byte();
    if (breaks(FILE_TRANSITIONS))
        counts[2] = faulty_byte();
    add_frame(counts, 3);
    add_frame(caps, 1 + 2 * places);
    add_mask();
    add_frame(tokens, 1 + 2 * places);
}

/* A weight of a file: none, a byte's, up to the limit, or an edge. */
static uint16_t draw_weight(size_t one_in, int is_wide) {
    static const uint16_t edges[] = {1, 255, 256, 4094, 4095};
    if (!chance(one_in))
        return 0;
    if (chance(3))
        return edges[below(is_wide ? 5 : 2)];
    return (uint16_t)below(is_wide && chance(2) ? MOST_WEIGHT + 1 : MOST_BYTE + 1);
}

/* The weights of all rows by chance, or few of them: of a byte each in all rows, or in none of them for sure. */
static void draw_rows(const struct weights *net) {
    size_t one_in = chance(2) ? 1 : 2 + below(12), style = below(3);
    for (size_t t = 0; t < net->transitions; t++) {
        int is_wide = style == 0 || (style == 1 && chance(2));
        for (size_t at = t * net->places; at < (t + 1) * net->places; at++) {
            net->pre[at] = draw_weight(one_in, is_wide);
            net->post[at] = draw_weight(one_in, is_wide);
        }
    }
}

/* The row of transition t: a frame 07, with two bytes for each weight, where one is over 255, else a frame 04. A row that is to
 * be an 07 all the same has no such weight: larger ones become 255. */
static void add_row(const struct weights *net, size_t t, int is_small) {
    uint16_t *rows[2] = {net->pre + t * net->places, net->post + t * net->places};
    uint8_t frame[MOST_FRAME];
    int is_wide = is_small;
    for (size_t i = 0; i < 2 * net->places; i++) {
        uint16_t *weight = rows[i / net->places] + i % net->places;
        if (is_small && *weight > MOST_BYTE)
            *weight = MOST_BYTE;
        is_wide |= *weight > MOST_BYTE;
    }
    frame[0] = is_wide ? 7 : 4;
    frame[1] = (uint8_t)t;
    for (size_t i = 0; i < 2 * net->places; i++) {
        uint16_t weight = rows[i / net->places][i % net->places];
        if (is_wide)
            put_number(frame + 1, i, weight);
        else
            frame[2 + i] = (uint8_t)weight;
    }
    add_frame(frame, 2 + (is_wide ? 4 : 2) * net->places);
}

/* A row for each transition; loose nodes, heavy weights and an 07 that is none only where they are planned. */
static void add_rows(size_t places, size_t transitions) {
    static uint16_t pre[4096], post[4096];
    struct weights net = {places, transitions, pre, post};
    size_t small = breaks(ROW_SMALL) ? below(transitions) : transitions;
    draw_rows(&net);
    wire(&net, 0);
    if (breaks(FILE_LOOSE_PLACE) || breaks(FILE_LOOSE_TRANSITION))
        loosen(&net, breaks(FILE_LOOSE_PLACE), breaks(FILE_LOOSE_TRANSITION));
    break_weights(&net, breaks(FILE_HEAVY_PRE), breaks(FILE_HEAVY_POST));
    for (size_t t = 0; t < transitions; t++)
        add_row(&net, t, t == small);
}

/* Frames 05 for the letters; where that is planned, with a wrong one on one of their lines, the first where a line may be broken
 * too, on that of letter 65,536, and now and then on another. */
static void add_all_letters(size_t transitions, size_t letters) {
    size_t lines = (letters + 63) / 64, faulty = letters > 65535 ? 65472 : lines > 0 && !wants(12) ? 64 * below(lines) : 0;
    uint8_t frame[MOST_FRAME];
    for (size_t at = 0; at < letters; at += 64) {
        size_t count = letters - at < 64 ? letters - at : 64;
        frame[0] = 5;
        for (size_t i = 0; i < count; i++)
            frame[1 + i] = (uint8_t)below(transitions);
        if (breaks(FILE_LETTER) && (at == faulty || at == 65472 || chance(letters < 1000 ? 8 : 4000)))
            frame[1 + below(count)] = (uint8_t)(chance(2) ? transitions : transitions + below(256 - transitions));
        add_frame(frame, 1 + count);
    }
}

/* Writes the frames as lines. */
static void write_text(void) {
    static const uint8_t digits[] = "0123456789ABCDEF";
    f->bytes = 0;
    for (size_t k = 0; k < f->lines; k++) {
        for (size_t i = 0; i < f->sizes[k]; i++) {
            f->text[f->bytes++] = digits[f->frames[k][i] >> 4];
            f->text[f->bytes++] = digits[f->frames[k][i] & 15];
        }
        f->text[f->bytes++] = '\n';
    }
}

/* How many letters: few, or about the limit; over it where that is planned, and some where one is to be faulty. */
static size_t draw_letter_count(void) {
    if (breaks(LONG_FILE))
        return 65536 + (chance(3) ? 0 : below(400));
    if (breaks(FILE_LETTER))
        return 1 + (chance(2) ? below(400) : below(70));
    if (is_sound() && chance(150))
        return 65535 - (chance(2) ? 0 : below(3));
    return chance(6) ? below(300) : chance(3) ? 64 * below(3) : below(70);
}

/* A whole text, with the faults that are planned, or now and then of any bytes. */
static void draw_text(void) {
    size_t places = draw_count();
    f->transitions = draw_count();
    places -= breaks(MASK_PAST) && places == 64;
    places += is_alone() && breaks(FILE_LOOSE_PLACE) && places == 1;
    f->transitions += is_alone() && breaks(FILE_LOOSE_TRANSITION) && f->transitions == 1;
    f->lines = f->masks = 0;
    f->places = places;
    add_head(places, f->transitions);
    add_rows(places, f->transitions);
    add_all_letters(f->transitions, draw_letter_count());
    damage_frames();
    write_text();
    damage_text();
    if (!is_alone() && !is_sound() && chance(30)) {
        f->bytes = below(40);
        fill_random(f->text, f->bytes);
    }
}

/* The file and the six rooms. */
void make_case(void) {
    uint8_t *file;
    draw_text();
    file = lend(&in.file, 1, f->bytes);
    fill_random(file, in.file.count);
    memcpy(file, f->text, in.file.count < f->bytes ? in.file.count : f->bytes);
    lend_room(&in.caps2, 2, 64);
    lend_room(&in.marks2, 1, 64);
    lend_room(&in.initial2, 2, 64);
    lend_room(&in.pre2, 2, 4096);
    lend_room(&in.post2, 2, 4096);
    lend_room(&in.room, 1, 65535);
}
