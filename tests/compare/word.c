/* Words and stretches by chance, and the inputs of replay and of summaries made from words. */
#include "compare.h"

/* How many letters: mostly few, now and then at the limit; over it where that is planned, and one at least where a
 * letter is to be faulty. */
size_t draw_length(void) {
    size_t kind = below(1000), least = breaks(BAD_LETTER);
    if (breaks(LONG_WORD))
        return 65536 + (chance(2) ? 0 : below(300));
    if (kind == 0)
        return 65535 - below(3);
    if (kind < 15)
        return least + below(700);
    return least + (kind < 150 ? below(80) : below(13));
}

/* Letters; those from number `from` on are mostly such as fire one after another from m, where it is wanted that they fire. */
void draw_word_from(uint8_t *word, size_t length, size_t from, int64_t *m, int fires) {
    size_t t = in.transitions >= 1 && in.transitions <= 64 ? in.transitions : 64;
    for (size_t i = 0; i < length; i++) {
        word[i] = (uint8_t)below(t);
        for (int tries = 0; fires && i >= from && tries < 6 && !enabled_now(m, word[i]); tries++)
            word[i] = (uint8_t)below(t);
        fires = fires && (i < from || enabled_now(m, word[i]));
        if (fires && i >= from)
            fire_now(m, word[i]);
    }
}

/* Letters that mostly fire from the initial marking, from number `from` on. */
void draw_word(uint8_t *word, size_t length, size_t from) {
    const uint16_t *initial = own(&in.initial);
    int64_t m[64];
    int fires = is_whole() && length <= 65535 && !chance(8);
    for (size_t p = 0; fires && p < in.places; p++)
        m[p] = initial[p];
    draw_word_from(word, length, from, m, fires);
}

/* Makes one or two letters of the stretch name no transition where that is planned. */
void break_letters(void) {
    size_t t = in.transitions >= 1 && in.transitions <= 64 ? in.transitions : 64, start = in.start, length;
    uint8_t *word = own(&in.word);
    if (!breaks(BAD_LETTER) || in.end > in.word.count || start >= in.end)
        return;
    length = in.end - start;
    for (size_t faults = 1 + below(2); faults > 0; faults--) {
        size_t at = chance(3) ? length - 1 : chance(3) ? 0 : below(length);
        word[start + at] = (uint8_t)(chance(2) ? t : t + below(256 - t));
    }
}

/* A net; for a long word mostly a small one, since others take long. */
void draw_net_for(int is_long) {
    if (is_long && !chance(4))
        draw_net_of(1 + below(4), 1 + below(4));
    else
        draw_net();
}

/* Bends net and marking so that words of thousands of letters fire: every weight the same, and the marking at the limit
 * that they move away from. Either nothing ever blocks, or a place runs empty, or full, near the word's end. */
void bend_for_long_words(void) {
    size_t kind = below(4);
    uint16_t takes = kind == 1 ? 1 : kind == 3 ? (uint16_t)(1 + below(MOST_WEIGHT)) : 0;
    uint16_t puts = kind == 0 ? MOST_WEIGHT : kind == 2 ? 1 : kind == 3 ? takes : 0;
    uint16_t *pre = own(&in.pre), *post = own(&in.post), *caps = own(&in.caps), *initial = own(&in.initial);
    for (size_t i = 0; i < in.pre.count && i < in.post.count; i++)
        pre[i] = takes, post[i] = puts;
    for (size_t p = 0; p < in.caps.count && p < in.initial.count; p++) {
        caps[p] = kind == 2 ? (uint16_t)(65534 - below(20)) : 65535;
        initial[p] = kind == 2 ? 0 : (uint16_t)(65534 - (chance(2) ? 0 : below(20)));
    }
}

/* Lends a word and draws its letters; the stretch is all of it. */
void lend_word(size_t length) {
    uint8_t *word = lend(&in.word, 1, length);
    in.end = in.word.count;
    draw_word(word, in.word.count, 0);
    break_letters();
}

/* Net, marking, word, room. */
void make_replay(void) {
    int is_long = is_sound() && chance(105);
    draw_net_for(is_long);
    draw_marking();
    if (is_long)
        bend_for_long_words();
    lend_word(is_long ? 65535 : draw_length());
    lend_room(&in.room, 4, in.places < 80 ? in.places : 80);
    break_marking();
    break_net();
}

/* Makes the ends wrong where that is planned: the start past the end, the end past the word, or both. */
static void break_stretch(size_t length) {
    if (breaks(BAD_END))
        in.end = chance(2) ? length + 1 : chance(2) ? (size_t)-1 - below(2) : length + 1 + below(70000);
    if (breaks(BAD_START))
        in.start = chance(2) ? in.end + 1 : chance(2) ? (size_t)-1 : in.end + 1 + below(length + 3);
}

/* Draws the two ends of a stretch of the word: any, none, all; of a long word often as many letters as may be, and more
 * where that is planned. */
static void draw_stretch(size_t length) {
    in.start = chance(4) ? 0 : below(length + 1);
    in.end = chance(4) ? length : in.start + below(length - in.start + 1);
    if (chance(10))
        in.end = in.start;
    if (length > 65535 && (chance(2) || in.end - in.start > 65535 || breaks(LONG_WORD))) {
        size_t letters = breaks(LONG_WORD) ? 65536 + below(length - 65535) : 65535;
        in.start = chance(3) ? length - letters : below(length - letters + 1);
        in.end = in.start + letters;
    }
    if (breaks(BAD_LETTER) && in.start == in.end && length > 0) {
        in.start -= in.start == length;
        in.end = in.start + 1;
    }
    break_stretch(length);
}

/* Lends a word and draws a stretch of it; letters outside the stretch may name no transition. */
static void draw_word_and_stretch(int is_long) {
    size_t length = is_long ? 65536 + below(400) : draw_length(), one_in = chance(4) ? 4 : 0;
    uint8_t *word = lend(&in.word, 1, length);
    draw_stretch(in.word.count);
    draw_word(word, in.word.count, in.start);
    break_letters();
    for (size_t i = 0; one_in > 0 && i < in.word.count; i++)
        if ((i < in.start || i >= in.end) && chance(one_in))
            word[i] = 255;
}

/* Net, marking, word, stretch, room. */
void make_replay_stretch(void) {
    int is_long = is_sound() && chance(90);
    draw_net_for(is_long);
    draw_marking();
    if (is_long)
        bend_for_long_words();
    draw_word_and_stretch(is_long);
    lend_room(&in.room, 4, in.places < 80 ? in.places : 80);
    break_marking();
    break_net();
}

/* The three rooms of a summary. */
static void lend_summary_rooms(void) {
    lend_room(&in.need[2], 4, 64);
    lend_room(&in.climb[2], 4, 64);
    lend_room(&in.change[2], 4, 64);
}

/* Place count, rooms. */
void make_empty(void) {
    in.places = breaks(BAD_PLACES) ? faulty_count() : draw_count();
    lend_summary_rooms();
}

/* Net, word, rooms. */
void make_summary(void) {
    int is_long = is_sound() && chance(250);
    draw_net_for(is_long);
    lend_word(is_long ? 65535 : draw_length());
    lend_summary_rooms();
    break_net();
}

/* Net, word, stretch, rooms. */
void make_summary_stretch(void) {
    int is_long = is_sound() && chance(120);
    draw_net_for(is_long);
    draw_word_and_stretch(is_long);
    lend_summary_rooms();
    break_net();
}
