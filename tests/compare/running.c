/* States of a running replay by chance, sound and damaged, and the inputs of its questions: a start, a part on any state, and a
 * word cut into parts. */
#include "compare.h"

#include <string.h>

enum { MOST_PARTS = 2048 };

kaunorpi_running *own_state(void) {
    return own(&in.state);
}

int64_t most_tokens_held(void) {
    return 65534 + MOST_WEIGHT * (int64_t)own_state()->fired;
}

/* Lends a state, filled by chance; as 32-bit entries, of which the last has the cause and bytes that are nobody's. */
static void lend_state(void) {
    lend_room(&in.state, 4, sizeof(kaunorpi_running) / 4);
}

/* Net, marking, state. */
void make_start_replay(void) {
    draw_net();
    draw_marking();
    lend_state();
    break_marking();
    break_net();
}

/* Letters fired: none, some, or as many as the part leaves; more where that is planned, one or any. */
static uint32_t draw_fired(size_t part) {
    size_t left = part < 65535 ? 65535 - part : 0, over = (size_t)UINT32_MAX - left;
    if (breaks(LONG_PART))
        return (uint32_t)(left + (chance(2) ? 1 : chance(3) ? over - below(3) : 1 + below(over)));
    switch (below(6)) {
    case 0:
        return 0;
    case 1:
        return (uint32_t)left;
    case 2:
        return (uint32_t)below(left + 1);
    default:
        return (uint32_t)below(left < 40 ? left + 1 : 40);
    }
}

/* The most tokens that place p may hold in the state. */
static int64_t most_at(size_t p) {
    const uint16_t *caps = own(&in.caps);
    int64_t most = most_tokens_held() < UINT32_MAX ? most_tokens_held() : UINT32_MAX;
    return p < in.caps.count && caps[p] != 65535 ? caps[p] : most;
}

/* Tokens that may be: none, as many as can be, a few, any. */
static uint32_t draw_tokens(size_t style, int64_t most) {
    int64_t few = (int64_t)below(6);
    if (style == 4)
        style = below(4);
    if (style == 0)
        return 0;
    return (uint32_t)(style == 1 || (style == 2 && few > most) ? most : style == 2 ? few : (int64_t)below((size_t)most + 1));
}

/* A cause that a block can have: short, over, or any other byte but 0. */
static uint8_t draw_cause(void) {
    return (uint8_t)(chance(3) ? 1 : chance(2) ? 2 : chance(3) ? 255 : 3 + below(253));
}

/* A place number at or past the places. */
static uint32_t past_places(size_t places) {
    return (uint32_t)(places + (chance(2) ? 0 : chance(3) ? (size_t)UINT32_MAX - places : below((size_t)UINT32_MAX - places)));
}

/* A state that may be, for the part that is lent; what is past the places, and a block's numbers, stay as chance filled them,
 * but that a block has a place of the net. */
static void draw_state(void) {
    kaunorpi_running *state = own_state();
    size_t places = in.places >= 1 && in.places <= 64 ? in.places : 64, style = below(6);
    state->fired = draw_fired(in.word.count);
    for (size_t p = 0; p < places; p++)
        state->marking[p] = draw_tokens(style < 2 ? 2 : style - 1, most_at(p));
    state->position = chance(2) ? state->position : chance(4) ? 0 : (uint32_t)below(65536);
    state->place = chance(2) ? state->place : (uint32_t)below(70);
    state->blocked = breaks(BAD_BLOCK) || chance(3) ? draw_cause() : 0;
    if (state->blocked != 0)
        state->place = breaks(BAD_BLOCK) ? past_places(places) : (uint32_t)(chance(3) ? places - 1 : below(places));
}

/* Letters for the part, mostly such as fire from the state's marking. */
static void draw_part(void) {
    int64_t m[64];
    int fires = is_whole_net() && in.word.count <= 65535 && !chance(8);
    for (size_t p = 0; fires && p < in.places; p++)
        m[p] = own_state()->marking[p];
    draw_word_from(own(&in.word), in.word.count, 0, m, fires);
}

/* Puts more tokens onto a place than may be, where that is planned: one more or any number, of letters or of capacity. */
static void break_state(void) {
    kaunorpi_running *state = own_state();
    const uint16_t *caps = own(&in.caps);
    size_t free = find_place(0), capped = find_place(1);
    int64_t most = most_tokens_held() < UINT32_MAX ? most_tokens_held() : UINT32_MAX, over = UINT32_MAX - most;
    if (breaks(STATE_MANY) && free < 64 && over > 0)
        state->marking[free] = (uint32_t)(most + 1 + (chance(2) ? 0 : (int64_t)below((size_t)over)));
    if (breaks(STATE_OVER) && capped < 64)
        state->marking[capped] = (uint32_t)(caps[capped] + 1 + (chance(2) ? 0 : (int64_t)below((size_t)(most - caps[capped]))));
}

/* Net, part, state. */
void make_replay_part(void) {
    draw_net();
    suit_caps();
    lend(&in.word, 1, draw_length());
    in.end = in.word.count;
    lend_state();
    draw_state();
    draw_part();
    break_letters();
    break_state();
    break_net();
}

/* Cuts a word of so many letters into parts: the ends of the parts go to the list. Each has one letter, up to so many, or none. */
static size_t draw_cuts(size_t length, size_t *ends) {
    size_t most = length > 500 ? 64 + below(length) : chance(3) ? 1 : 1 + below(length + 1), count = 0, at = 0;
    int has_empty = chance(2);
    while (at < length) {
        size_t letters = most == 1 || chance(4) ? 1 : 1 + below(most);
        if (has_empty && chance(4))
            ends[count++] = at;
        at = count + 6 > MOST_PARTS || letters > length - at ? length : at + letters;
        ends[count++] = at;
    }
    while (count < MOST_PARTS && chance(3))
        ends[count++] = length;
    return count;
}

/* Net, marking, word, the ends of its parts, state. */
void make_cut_replay(void) {
    static size_t ends[MOST_PARTS];
    int is_long = is_sound() && chance(105);
    size_t count;
    draw_net_for(is_long);
    draw_marking();
    if (is_long)
        bend_for_long_words();
    lend_word(is_long ? 65535 : draw_length());
    count = draw_cuts(in.word.count, ends);
    memcpy(lend(&in.cuts, sizeof *ends, count), ends, count * sizeof *ends);
    lend_state();
    break_marking();
    break_net();
}

/* The faults of a state and of a part on it, for faults.c. */
int state_many(void) {
    for (size_t p = 0; p < in.places; p++)
        if (own_state()->marking[p] > most_tokens_held())
            return 1;
    return 0;
}

int state_over(void) {
    const uint16_t *caps = own(&in.caps);
    for (size_t p = 0; p < in.places; p++)
        if (caps[p] != 65535 && own_state()->marking[p] > caps[p])
            return 1;
    return 0;
}

int long_part(void) { return (uint64_t)own_state()->fired + in.word.count > 65535; }
int bad_block(void) { return own_state()->blocked != 0 && own_state()->place >= in.places; }
