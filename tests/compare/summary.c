/* Summaries by chance: of words, by arithmetic alone, damaged; the inputs of join and ask. */
#include "compare.h"

#include <string.h>

/* A summary as drawn, before it is lent. */
struct drawn {
    uint32_t letters, need[64], climb[64];
    int32_t change[64];
};

/* The summary of a word of a small net of its own. */
static void draw_from_word(struct drawn *s, size_t places) {
    uint16_t pre[64 * 3], post[64 * 3], caps[64] = {0};
    uint8_t word[40], marks[64];
    struct weights net = {places, 3, pre, post};
    size_t length = below(41), most = chance(3) ? MOST_WEIGHT + 1 : chance(3) ? MOST_BYTE + 1 : 4, mark_style = below(6);
    for (size_t i = 0; i < places * 3; i++) {
        pre[i] = (uint16_t)below(most);
        post[i] = (uint16_t)below(most);
    }
    wire(&net, 0);
    for (size_t p = 0; p < places; p++)
        marks[p] = draw_mark(mark_style);
    for (size_t i = 0; i < length; i++)
        word[i] = (uint8_t)below(3);
    s->letters = (uint32_t)length;
    reference_summary_word(places, 3, pre, places * 3, post, places * 3, caps, places, marks, places, word, length, s->need,
                           64, s->climb, 64, s->change, 64);
}

/* A number from 0 to most, often one of the two. */
static int64_t draw_to(int64_t most) {
    size_t kind = below(5);
    return kind == 0 ? 0 : kind == 1 ? most : kind == 2 ? (int64_t)below((size_t)(most < 6 ? most : 6) + 1)
                                                        : (int64_t)below((size_t)most + 1);
}

/* A well-formed summary that need not be of any word. */
static void draw_by_arithmetic(struct drawn *s, size_t places, uint32_t letters) {
    s->letters = letters;
    for (size_t p = 0; p < places; p++) {
        int64_t most = (chance(4) ? MOST_BYTE : MOST_WEIGHT) * (int64_t)letters, need = draw_to(most), climb = draw_to(most);
        s->need[p] = (uint32_t)need;
        s->climb[p] = (uint32_t)climb;
        s->change[p] = (int32_t)(draw_to(need + climb) - need);
    }
}

/* Breaks the summary in one place, or makes it too long. */
static void damage(struct drawn *s, size_t places) {
    size_t p = below(places), past = places < 64 ? places + below(64 - places) : 63;
    int64_t most = MOST_WEIGHT * (int64_t)s->letters;
    switch (below(11)) {
    case 0:
        s->letters = 65536 + (uint32_t)below(3);
        break;
    case 1:
        s->letters = 0xFFFFFFFFu - (uint32_t)below(3);
        break;
    case 2:
        s->need[p] = (uint32_t)(most + 1);
        break;
    case 3:
        s->climb[p] = (uint32_t)(most + 1);
        break;
    case 4:
        s->change[p] = (int32_t)(s->climb[p] + 1);
        break;
    case 5:
        s->change[p] = (int32_t)(-(int64_t)s->need[p] - 1);
        break;
    case 6:
        s->need[past] = (uint32_t)(chance(2) ? 1 : draw());
        break;
    case 7:
        s->climb[past] = (uint32_t)(chance(2) ? 1 : draw());
        break;
    case 8:
        s->change[past] = chance(2) ? -1 : (int32_t)(uint32_t)draw();
        break;
    case 9:
        s->change[p] = chance(2) ? -2147483647 - 1 : 2147483647;
        break;
    default:
        (chance(2) ? s->need : s->climb)[p] = chance(2) ? 0xFFFFFFFFu : (uint32_t)draw();
    }
}

/* Lends one of the three lists of a summary; entries past its 64 are by chance. */
static void lend_list(struct lent *piece, const void *entries) {
    uint8_t *to = lend(piece, 4, 64);
    fill_random(to, piece->count * 4);
    memcpy(to, entries, 4 * (piece->count < 64 ? piece->count : 64));
}

/* Lends the summary as number `which`, damaged where that is planned. */
static void lend_summary(int which, struct drawn *s, size_t places, size_t said) {
    for (size_t times = 1 + below(2), tries = 0; breaks(which == 0 ? BAD_FIRST : BAD_SECOND) && tries < 20; tries++)
        if (tries < times || is_well_formed(places, s->letters, s->need, s->climb, s->change))
            damage(s, places);
    in.summary_places[which] = said;
    in.letters[which] = s->letters;
    lend_list(&in.need[which], s->need);
    lend_list(&in.climb[which], s->climb);
    lend_list(&in.change[which], s->change);
}

/* A number of letters, often at the limit. */
static uint32_t draw_letters(void) {
    size_t kind = below(6);
    return (uint32_t)(kind == 0 ? 65535 : kind == 1 ? below(65536) : below(5));
}

/* A summary of at most so many letters, or of exactly so many where that is asked. */
static void draw_summary(struct drawn *s, size_t places, uint32_t most, int is_exact) {
    uint32_t letters = is_exact || chance(3) ? most : draw_letters();
    memset(s, 0, sizeof *s);
    if (is_exact || most < 40 || chance(2))
        draw_by_arithmetic(s, places, letters < most ? letters : most);
    else
        draw_from_word(s, places);
}

/* Two summaries of one place count, together at the limit now and then, over it where that is planned; and the rooms. */
void make_join(void) {
    struct drawn s[2];
    size_t places = draw_count(), other = 1 + (places + below(63)) % 64;
    int is_long = breaks(LONG_TOGETHER);
    draw_summary(&s[0], places, chance(3) ? 65535 : 1 + (uint32_t)below(65535), is_long);
    draw_summary(&s[1], places, 65535 - s[0].letters, 0);
    if (is_long)
        draw_summary(&s[1], places, 65536 - s[0].letters + (chance(2) ? 0 : (uint32_t)below(s[0].letters)), 1);
    lend_summary(0, &s[0], places, breaks(BAD_FIRST_COUNT) ? faulty_count() : places);
    lend_summary(1, &s[1], places, breaks(BAD_SECOND_COUNT) ? faulty_count() : breaks(NOT_THE_OTHERS) ? other : places);
    lend_room(&in.need[2], 4, 64);
    lend_room(&in.climb[2], 4, 64);
    lend_room(&in.change[2], 4, 64);
}

/* The summary of a word of the net as lent, one that fires in most cases. */
static void draw_from_net(struct drawn *s) {
    static uint8_t word[700];
    size_t length = below(chance(20) ? 700 : 12);
    kaunorpi_summary made;
    draw_word(word, length, 0);
    made = reference_summary_word(in.places, in.transitions, own(&in.pre), in.pre.count, own(&in.post), in.post.count,
                                  own(&in.caps), in.caps.count, own(&in.marks), in.marks.count, word, length, s->need, 64,
                                  s->climb, 64, s->change, 64);
    s->letters = made.letters;
}

/* Net, marking, summary, room. */
void make_ask(void) {
    struct drawn s;
    size_t said, places;
    memset(&s, 0, sizeof s);
    draw_net();
    draw_marking();
    places = in.places >= 1 && in.places <= 64 ? in.places : draw_count();
    said = places;
    if (chance(5))
        draw_by_arithmetic(&s, places, draw_letters());
    else
        draw_from_net(&s);
    if (breaks(NOT_THE_NETS))
        said = 1 + (places + below(63)) % 64;
    if (breaks(BAD_FIRST_COUNT))
        said = faulty_count();
    lend_summary(0, &s, places, said);
    lend_room(&in.room, 4, in.places < 80 ? in.places : 80);
    break_marking();
    break_net();
}
