/* Edges of document 01 that the inputs must have met: each is a kind of input and answer, and is counted. */
#include "compare.h"

#include <stdio.h>
#include <string.h>

/* Is it this answer (not a refusal)? */
static int answered(const struct given *g, int number) {
    return g->kind == KAUNORPI_ANSWERED && g->number == number;
}

/* Is it this refusal? */
static int refused(const struct given *g, int number) {
    return g->kind == KAUNORPI_REFUSED && g->number == number;
}

/* The largest tokens in the room of the reference. */
static uint32_t largest(void) {
    const uint32_t *room = on_side(REFERENCE, &in.room);
    uint32_t most = 0;
    for (size_t p = 0; p < in.room.count; p++)
        most = room[p] > most ? room[p] : most;
    return most;
}

/* Two faults at once: the lower number must win, so a later one has to be there too. */
static int two_faults(const struct given *g) {
    return refused(g, 2) && in.initial.count > 0 && in.places <= 64 && *(const uint16_t *)own(&in.initial) == 65535;
}

/* One test for each edge; the table below says in words what it is. */
static int all_fired_long(const struct given *g) { return answered(g, 0) && g->field[0] == 65535; }
static int short_late(const struct given *g) { return answered(g, 1) && g->field[0] > 1000; }
static int over_late(const struct given *g) { return answered(g, 2) && g->field[0] > 1000; }
static int most_tokens(const struct given *g) { return answered(g, 0) && largest() == 268431359; }
static int all_places(const struct given *g) { return g->kind == KAUNORPI_ANSWERED && in.places == 64; }
static int all_transitions(const struct given *g) { return g->kind == KAUNORPI_ANSWERED && in.transitions == 64; }
static int one_place_more(const struct given *g) { return refused(g, 1) && in.places == 65; }
static int one_letter_more(const struct given *g) { return refused(g, 4) && in.word.count == 65536; }
static int part_of_long(const struct given *g) { return answered(g, 0) && in.word.count > 65536 && g->field[0] == 65535; }
static int empty_at_end(const struct given *g) { return answered(g, 0) && in.start == in.word.count && in.start > 0; }
static int null_word(const struct given *g) { return answered(g, 0) && in.word.is_null; }
static int long_summary(const struct given *g) { return answered(g, 0) && g->field[2] == 65535; }
static int whole_list(const struct given *g) { return answered(g, 0) && in.list.count == 4096 * in.places; }
static int list_one_more(const struct given *g) { return refused(g, 9) && in.list.count == 4097 * in.places; }
static int three_before_nine(const struct given *g) { return refused(g, 3) && in.list.count > 4096 * in.places; }
static int full_complement(const struct given *g) { return answered(g, 0) && g->field[1] == 64; }
static int complement_one_more(const struct given *g) { return refused(g, 10) && in.initial2.count == 65; }
static int letter_after_limit(const struct given *g) { return refused(g, 4) && wants(5); }
static int longest_file(const struct given *g) { return answered(g, 0) && g->field[3] == 65535; }
static int all_letters(const struct given *g) { return answered(g, 0) && in.word.count == 65535; }
static int no_letter(const struct given *g) { return answered(g, 0) && in.word.count == 0; }
static int full_line(const struct given *g) { return answered(g, 0) && in.word.count > 0 && in.word.count % 64 == 0; }
static int one_past_line(const struct given *g) { return answered(g, 0) && in.word.count > 64 && in.word.count % 64 == 1; }
static int exact_room(const struct given *g) { return answered(g, 0) && in.room.count == file_bytes(); }
static int longer_room(const struct given *g) { return answered(g, 0) && in.room.count == file_bytes() + 1; }
static int shorter_room(const struct given *g) { return refused(g, 14) && in.room.count + 1 == file_bytes(); }
static int no_room(const struct given *g) { return refused(g, 14) && in.room.count == 0; }
static int full_logs(const struct given *g) { return answered(g, 0) && in.log[0].count == 255 && in.log[1].count == 255; }
static int full_none(const struct given *g) { return answered(g, 1) && in.log[0].count == 255 && in.log[1].count == 255; }
static int no_logs(const struct given *g) { return answered(g, 0) && in.log[0].count + in.log[1].count == 0; }
static int no_first(const struct given *g) { return answered(g, 0) && in.log[0].count == 0 && in.log[1].count > 0; }
static int no_second(const struct given *g) { return answered(g, 0) && in.log[0].count > 0 && in.log[1].count == 0; }
static int log_one_more(const struct given *g) { return refused(g, 15) && in.log[0].count == 256; }
static int log_one_more_1(const struct given *g) { return refused(g, 15) && in.log[1].count == 256; }
static int long_one_more(const struct given *g) { return refused(g, 4) && in.log[0].count == 65536; }
static int long_one_more_1(const struct given *g) { return refused(g, 4) && in.log[1].count == 65536; }
static int room_one_more(const struct given *g) { return refused(g, 2) && in.room.count == in.room.right + 1; }
static int room_one_short(const struct given *g) { return refused(g, 2) && in.room.count + 1 == in.room.right; }
static int work_one_more(const struct given *g) { return refused(g, 2) && in.work.count == 65537; }
static int work_one_short(const struct given *g) { return refused(g, 2) && in.work.count == 65535; }
static int letter_in_both(const struct given *g) { return refused(g, 5) && breaks(LOG_LETTER) && breaks(LOG_LETTER_1); }
static int ends_with(const struct given *g, int log) {
    return answered(g, 0) && in.room.count > 0 && ((uint8_t *)on_side(REFERENCE, &in.room))[in.room.count - 1] == log;
}
static int ends_first(const struct given *g) { return ends_with(g, 0) && in.log[1].count > 0; }
static int ends_second(const struct given *g) { return ends_with(g, 1) && in.log[0].count > 0; }

/* Does the order take from the second log where a letter of the first could fire? Whoever never goes back finds no such. */
static int goes_back(const struct given *g) {
    const uint8_t *order = on_side(REFERENCE, &in.room), *log[2] = {own(&in.log[0]), own(&in.log[1])}, *ends = log[0];
    const uint16_t *initial = own(&in.initial);
    int64_t m[64];
    if (!answered(g, 0))
        return 0;
    ends += in.log[0].count;
    for (size_t p = 0; p < in.places; p++)
        m[p] = initial[p];
    for (size_t i = 0; i < in.log[0].count + in.log[1].count; i++) {
        if (order[i] == 1 && log[0] < ends && enabled_now(m, *log[0]))
            return 1;
        fire_now(m, *log[order[i]]++);
    }
    return 0;
}

static int goes_back_late(const struct given *g) { return in.room.count > 40 && goes_back(g); }
static int first_step(const struct given *g) { return answered(g, 0) && in.step == 0; }
static int last_step(const struct given *g) { return answered(g, 0) && in.step + 1 == in.order.count && in.step > 0; }
static int step_at_end(const struct given *g) { return refused(g, 16) && in.step == in.order.count && in.step > 0; }
static int no_order(const struct given *g) { return refused(g, 16) && in.order.count == 0; }
static int byte_beside(const struct given *g) {
    return refused(g, 16) && is_alone() && breaks(ORDER_BYTE) && in.order.count > in.log[0].count + in.log[1].count;
}
static int byte_instead(const struct given *g) {
    return refused(g, 16) && is_alone() && breaks(ORDER_BYTE) && in.order.count == in.log[0].count + in.log[1].count;
}

/* Where loose nodes are. */
static int last_loose(const struct given *g) { return refused(g, 17) && g->field[0] + 1 == in.places && in.places > 1; }
static int between_loose(const struct given *g) {
    return refused(g, 17) && g->field[0] > 0 && g->field[0] + 1 < in.places;
}
static int first_loose_after(const struct given *g) { return refused(g, 17) && g->field[0] == 64 && in.transitions > 1; }
static int last_loose_after(const struct given *g) {
    return refused(g, 17) && g->field[0] == 63 + in.transitions && in.transitions > 1;
}
static int between_loose_after(const struct given *g) {
    return refused(g, 17) && g->field[0] > 64 && g->field[0] < 63 + in.transitions;
}
static int both_loose(const struct given *g) { return refused(g, 17) && has_loose_place() && has_loose_transition(); }
static int loose_before_letter(const struct given *g) { return refused(g, 17) && breaks(FILE_LETTER); }
static int capped_loop(const struct given *g) { return answered(g, 0) && has_capped_loop(); }
static int capped_loop_full(const struct given *g) { return full_complement(g) && has_capped_loop(); }

static int pocket_loop(const struct given *g) { return answered(g, 0) && has_pocket_loop(); }

/* Has the net a pocket with, or without, a capacity? */
static int has_pocket(int capped) {
    const uint16_t *caps = own(&in.caps);
    for (size_t p = 0; p < in.places && p < in.caps.count; p++)
        if (is_pocket(p) && (caps[p] != 65535) == capped)
            return 1;
    return 0;
}

/* Is the last letter over at a pocket that would hold no more than its capacity once the letter's tokens have left it? */
static int jams(const struct given *g) {
    const uint32_t *room = on_side(REFERENCE, &in.room);
    const uint16_t *caps = own(&in.caps);
    const uint8_t *word = own(&in.word);
    return answered(g, 2) && room[g->field[1]] + change_now(g->field[1], word[in.start + g->field[0]]) <= caps[g->field[1]];
}

/* Does a letter fire that takes from a pocket, and fills it exactly before it does? */
static int just_fits(const struct given *g) {
    const uint16_t *initial = own(&in.initial), *caps = own(&in.caps);
    const uint16_t *pre = own(&in.pre), *post = own(&in.post);
    const uint8_t *word = own(&in.word);
    int64_t m[64];
    if (!answered(g, 0) || g->field[0] > 1000)
        return 0;
    for (size_t p = 0; p < in.places; p++)
        m[p] = initial[p];
    for (size_t i = in.start; i < in.end; i++) {
        for (size_t p = 0, at = word[i] * in.places; p < in.places; p++, at++)
            if (is_pocket(p) && caps[p] != 65535 && pre[at] > 0 && m[p] + post[at] == caps[p])
                return 1;
        fire_now(m, word[i]);
    }
    return 0;
}

/* The net as lent, but with all places plain. */
#define OWN(piece) own(&in.piece), in.piece.count
#define PLAIN_NET in.places, in.transitions, OWN(pre), OWN(post), OWN(caps), plain, in.places
static const uint8_t plain[64];

/* Would the list be answered otherwise if all places were plain? */
static int marks_decide_list(const struct given *g) {
    kaunorpi_list other;
    if (g->kind == KAUNORPI_REFUSED || !has_pocket(1))
        return 0;
    other = reference_closed_list(PLAIN_NET, OWN(initial), OWN(list));
    return other.number != g->number || other.position != g->field[0];
}

/* Would an order of the two logs fire if all places were plain, where none does? */
static int marks_decide_order(const struct given *g) {
    static uint8_t order[1024];
    if (!answered(g, 1) || !has_pocket(1))
        return 0;
    return reference_table_order(PLAIN_NET, own(&in.initial), OWN(log[0]), OWN(log[1]), order);
}

/* Is place 63 a pocket, in what is lent, or in the file that is read? */
static int last_pocket(const struct given *g) { return answered(g, 0) && in.places == 64 && is_pocket(63); }
static int last_read(const struct given *g) {
    return answered(g, 0) && g->field[1] == 64 && ((uint8_t *)on_side(REFERENCE, &in.marks2))[63] == 1;
}
static int pocket_uncapped(const struct given *g) { return answered(g, 0) && !has_pocket(1) && has_pocket(0); }
static int full_pockets(const struct given *g) { return full_complement(g) && has_pocket_loop(); }

/* The largest of so many weights. */
static size_t most_of(const uint16_t *weights, size_t count) {
    size_t most = 0;
    for (size_t i = 0; i < count; i++)
        most = weights[i] > most ? weights[i] : most;
    return most;
}

/* The largest weight of the net that is lent. */
static size_t most_lent(void) {
    size_t most = most_of(own(&in.pre), in.pre.count), other = most_of(own(&in.post), in.post.count);
    return most > other ? most : other;
}

/* Where weights over the limit are, and weights at it. */
static int one_over(const struct given *g) { return refused(g, 18) && most_lent() == 4096; }
static int far_over(const struct given *g) { return refused(g, 18) && most_lent() == 65535; }
static int at_limit(const struct given *g) { return g->kind == KAUNORPI_ANSWERED && most_lent() == 4095; }
static int last_heavy(const struct given *g) { return refused(g, 18) && g->field[0] > 0 && g->field[0] + 1 == in.transitions; }
static int between_heavy(const struct given *g) {
    return refused(g, 18) && g->field[0] > 0 && g->field[0] + 1 < in.transitions;
}
static int post_before_pre(const struct given *g) {
    return refused(g, 18) && !is_heavy_in(&in.pre, g->field[0]) && has_heavy_pre();
}
static int heavy_and_loose(const struct given *g) { return refused(g, 18) && (has_loose_place() || has_loose_transition()); }

/* The rows of a file to be written: whether the largest weight of one is this, and whether there are frames 04 beside 07. */
static int widest_of(const struct given *g, size_t weight) { return answered(g, 0) && most_lent() == weight; }
static int widest_255(const struct given *g) { return widest_of(g, 255); }
static int widest_256(const struct given *g) { return widest_of(g, 256); }
static int some_wide(const struct given *g) { return answered(g, 0) && count_wide() > 0 && count_wide() < in.transitions; }
static int all_wide(const struct given *g) { return answered(g, 0) && count_wide() == in.transitions && in.transitions > 1; }

/* The largest weight of transition t in the rooms that the reference has read a file into. */
static size_t most_read(const struct given *g, size_t t) {
    const uint16_t *pre = on_side(REFERENCE, &in.pre2), *post = on_side(REFERENCE, &in.post2);
    size_t most = most_of(pre + t * g->field[1], g->field[1]), other = most_of(post + t * g->field[1], g->field[1]);
    return most > other ? most : other;
}

/* How many rows of the file that was read have a largest weight from `from` to `to`. */
static size_t rows_read(const struct given *g, size_t from, size_t to) {
    size_t count = 0;
    for (size_t t = 0; answered(g, 0) && t < g->field[2]; t++)
        count += most_read(g, t) >= from && most_read(g, t) <= to;
    return count;
}

static int read_255(const struct given *g) { return rows_read(g, 255, 255) > 0; }
static int read_256(const struct given *g) { return rows_read(g, 256, 256) > 0; }
static int read_4095(const struct given *g) { return rows_read(g, 4095, 4095) > 0; }
static int read_both(const struct given *g) { return rows_read(g, 0, 255) > 0 && rows_read(g, 256, 4095) > 0; }
static int read_first(const struct given *g) { return answered(g, 0) && most_read(g, 0) > 255; }
static int read_last(const struct given *g) { return answered(g, 0) && g->field[2] > 1 && most_read(g, g->field[2] - 1) > 255; }
static int digits_516(const struct given *g) { return g->field[1] == 64 && rows_read(g, 256, 4095) > 0; }

/* What the line has that a file was refused for. */
static int digits_518(const struct given *g) {
    look_at_line(g->field[0]);
    return refused(g, 11) && line_digits() == 518;
}
static int wide_line(const struct given *g) {
    look_at_line(g->field[0]);
    return refused(g, 12) && line_digits() > 260;
}
static int heavy_row(const struct given *g) {
    look_at_line(g->field[0]);
    return refused(g, 18) && largest_on_line() == 4096;
}
static int small_row(const struct given *g) {
    look_at_line(g->field[0]);
    return refused(g, 12) && row_small() && largest_on_line() == 255;
}
static int heavy_on_last(const struct given *g) {
    look_at_line(g->field[0]);
    return refused(g, 18) && is_last_row() && (file_loose_place() || file_loose_transition());
}

/* States, and parts on them. */
static size_t together(void) { return own_state()->fired + in.word.count; }
static int is_held(void) { return own_state()->blocked != 0; }
static int holds(int64_t tokens) {
    for (size_t p = 0; p < in.places; p++)
        if (own_state()->marking[p] == tokens)
            return 1;
    return 0;
}
static int held_most(const struct given *g) {
    return g->kind == KAUNORPI_ANSWERED && own_state()->fired > 0 && holds(most_tokens_held());
}
static int held_one_more(const struct given *g) {
    return refused(g, 3) && own_state()->fired > 0 && holds(most_tokens_held() + 1);
}
static int all_together(const struct given *g) { return answered(g, 0) && !is_held() && together() == 65535; }
static int one_together_more(const struct given *g) { return refused(g, 4) && together() == 65536; }
static int one_more_held(const struct given *g) { return one_together_more(g) && is_held(); }
static int most_fired(const struct given *g) { return refused(g, 4) && own_state()->fired == UINT32_MAX; }
static int held_last(const struct given *g) {
    return g->kind == KAUNORPI_ANSWERED && is_held() && own_state()->place + 1 == in.places && in.places > 1;
}
static int held_past(const struct given *g) { return refused(g, 13) && own_state()->place == in.places; }
static int held_255(const struct given *g) { return answered(g, 255); }
static int held_empty(const struct given *g) { return g->kind == KAUNORPI_ANSWERED && is_held() && in.word.count == 0; }
static int held_letter(const struct given *g) { return refused(g, 5) && is_held() && !bad_block(); }
static int held_both(const struct given *g) { return refused(g, 5) && bad_block(); }
static int stops_after(const struct given *g) {
    return !is_held() && (answered(g, 1) || answered(g, 2)) && g->field[0] > own_state()->fired && own_state()->fired > 0;
}

/* How a word is cut: the part that letter n is of, and whether it begins or ends there. */
static size_t part_of(size_t n) {
    const size_t *ends = own(&in.cuts);
    size_t k = 0;
    while (k < in.cuts.count && ends[k] <= n)
        k++;
    return k;
}
static int is_cut_at(size_t n) {
    const size_t *ends = own(&in.cuts);
    return n > 0 && part_of(n - 1) < in.cuts.count && ends[part_of(n - 1)] == n;
}
static int stopped(const struct given *g) { return answered(g, 1) || answered(g, 2); }
static int no_part(const struct given *g) { return answered(g, 0) && in.cuts.count == 0; }
static int cut_long(const struct given *g) { return all_fired_long(g) && in.cuts.count > 1; }
static int cut_letters(const struct given *g) { return answered(g, 0) && in.word.count > 8 && in.cuts.count >= in.word.count; }
static int stops_at_cut(const struct given *g) { return stopped(g) && is_cut_at(g->field[0]); }
static int stops_before_cut(const struct given *g) {
    return stopped(g) && is_cut_at(g->field[0] + 1) && part_of(g->field[0]) + 1 < in.cuts.count;
}
static int empty_after_stop(const struct given *g) {
    const size_t *ends = own(&in.cuts);
    return stopped(g) && in.cuts.count > part_of(g->field[0]) + 1 && ends[in.cuts.count - 2] == in.word.count;
}

/* The edges of weights, for a question that is lent a net. */
#define HEAVY(question) \
    {question, "a weight of 4,095", at_limit, 0}, {question, "a weight of 4,096, and none larger", one_over, 0}, \
        {question, "a weight of 65,535", far_over, 0}, {question, "the last transition heavy", last_heavy, 0}, \
        {question, "a transition between heavy", between_heavy, 0}, \
        {question, "Post heavy, and Pre of a later transition", post_before_pre, 0}, \
        {question, "a heavy weight in a loose net", heavy_and_loose, 0}

/* The edges of loose nodes, for a question that is lent a net. */
#define LOOSE(question) \
    {question, "the last place loose", last_loose, 0}, {question, "a place between loose", between_loose, 0}, \
        {question, "the first transition loose", first_loose_after, 0}, \
        {question, "the last transition loose", last_loose_after, 0}, \
        {question, "a transition between loose", between_loose_after, 0}, \
        {question, "a place and a transition loose", both_loose, 0}

/* A question's edge, and how often it came. */
static struct edge {
    const char *question, *what;
    int (*is_met)(const struct given *g);
    unsigned long met;
} edges[] = {
    {"replay_word", "all of 65,535 letters fire", all_fired_long, 0},
    {"replay_word", "short after 1,000 letters", short_late, 0},
    {"replay_word", "over capacity after 1,000 letters", over_late, 0},
    {"replay_word", "the most tokens that a replay reaches", most_tokens, 0},
    {"replay_word", "64 places", all_places, 0},
    {"replay_word", "64 transitions", all_transitions, 0},
    {"replay_word", "65 places", one_place_more, 0},
    {"replay_word", "65,536 letters", one_letter_more, 0},
    {"replay_word", "no letters, at no address", null_word, 0},
    {"replay_word", "refusals 2 and 3 at once", two_faults, 0},
    {"replay_stretch", "65,535 letters of a longer word", part_of_long, 0},
    {"replay_stretch", "an empty stretch at the word's end", empty_at_end, 0},
    {"start_replay", "64 places", all_places, 0},
    {"replay_part", "as many tokens as the letters fired can bring", held_most, 0},
    {"replay_part", "one token more", held_one_more, 0},
    {"replay_part", "65,535 letters, those fired and the part", all_together, 0},
    {"replay_part", "65,536", one_together_more, 0},
    {"replay_part", "65,536, and a block is held", one_more_held, 0},
    {"replay_part", "4,294,967,295 letters fired", most_fired, 0},
    {"replay_part", "a block held at the last place", held_last, 0},
    {"replay_part", "a block held at the place count", held_past, 0},
    {"replay_part", "a block held with the cause 255", held_255, 0},
    {"replay_part", "an empty part where a block is held", held_empty, 0},
    {"replay_part", "a wrong letter where a block is held", held_letter, 0},
    {"replay_part", "the same, its place past the places", held_both, 0},
    {"replay_part", "a later letter of a later part blocked", stops_after, 0},
    {"replay_part", "64 places", all_places, 0},
    {"replay_part", "64 transitions", all_transitions, 0},
    {"cut_replay", "no part at all", no_part, 0},
    {"cut_replay", "all of 65,535 letters fire, in parts", cut_long, 0},
    {"cut_replay", "a part for each letter", cut_letters, 0},
    {"cut_replay", "short after 1,000 letters", short_late, 0},
    {"cut_replay", "over capacity after 1,000 letters", over_late, 0},
    {"cut_replay", "blocked at a part's first letter", stops_at_cut, 0},
    {"cut_replay", "blocked at a part's last letter, and parts after it", stops_before_cut, 0},
    {"cut_replay", "an empty part after the block", empty_after_stop, 0},
    {"summary_word", "65,535 letters", long_summary, 0},
    {"join_summaries", "65,535 letters together", long_summary, 0},
    {"ask_summary", "64 places", all_places, 0},
    {"place_weighting", "64 places", all_places, 0},
    {"closed_list", "4,096 markings", whole_list, 0},
    {"closed_list", "4,097 markings", list_one_more, 0},
    {"closed_list", "64 places", all_places, 0},
    {"closed_list", "refusal 3 in a list that is too long", three_before_nine, 0},
    {"cover_list", "4,096 markings", whole_list, 0},
    {"complement_places", "64 places with the complement's", full_complement, 0},
    {"complement_net", "65 places with the complement's", complement_one_more, 0},
    {"read_case", "65,535 letters", longest_file, 0},
    {"read_case", "a wrong letter on the line of letter 65,536", letter_after_limit, 0},
    {"case_length", "65,535 letters", all_letters, 0},
    {"write_case", "64 places", all_places, 0},
    {"write_case", "64 transitions", all_transitions, 0},
    {"write_case", "65,535 letters", all_letters, 0},
    {"write_case", "no letter", no_letter, 0},
    {"write_case", "a last line of 64 letters", full_line, 0},
    {"write_case", "a last line of one letter", one_past_line, 0},
    {"write_case", "a room exactly long enough", exact_room, 0},
    {"write_case", "a room one longer", longer_room, 0},
    {"write_case", "a room one short", shorter_room, 0},
    {"write_case", "no room", no_room, 0},
    {"order_logs", "255 letters each, found", full_logs, 0},
    {"order_logs", "255 letters each, none", full_none, 0},
    {"order_logs", "two empty logs", no_logs, 0},
    {"order_logs", "an empty first log", no_first, 0},
    {"order_logs", "an empty second log", no_second, 0},
    {"order_logs", "256 letters in the first log", log_one_more, 0},
    {"order_logs", "256 letters in the second log", log_one_more_1, 0},
    {"order_logs", "65,536 letters in the first log", long_one_more, 0},
    {"order_logs", "65,536 letters in the second log", long_one_more_1, 0},
    {"order_logs", "a room one longer", room_one_more, 0},
    {"order_logs", "a room one short", room_one_short, 0},
    {"order_logs", "a work space one longer", work_one_more, 0},
    {"order_logs", "a work space one short", work_one_short, 0},
    {"order_logs", "a wrong letter in both logs", letter_in_both, 0},
    {"order_logs", "a last step from the first log", ends_first, 0},
    {"order_logs", "a last step from the second log", ends_second, 0},
    {"order_logs", "a letter of the first log that could fire and must wait", goes_back, 0},
    {"order_logs", "the same with over 40 letters", goes_back_late, 0},
    {"order_logs", "64 places", all_places, 0},
    {"order_logs", "64 transitions", all_transitions, 0},
    {"rest_fault", "an empty order", no_order, 0},
    {"unread_rest", "the first step", first_step, 0},
    {"unread_rest", "the last step", last_step, 0},
    {"unread_rest", "a step at the order's length", step_at_end, 0},
    {"unread_rest", "another byte beside all 0s and 1s", byte_beside, 0},
    {"unread_rest", "another byte instead of a 0 or 1", byte_instead, 0},
    {"complement_places", "a capped place that only loops touch", capped_loop, 0},
    {"complement_places", "the same with 64 places in all", capped_loop_full, 0},
    {"complement_net", "a capped place that only loops touch", capped_loop, 0},
    {"read_case", "a wrong letter after a loose net", loose_before_letter, 0},
    {"replay_word", "a pocket over that a plain place would not be", jams, 0},
    {"replay_stretch", "a pocket over that a plain place would not be", jams, 0},
    {"replay_word", "a pocket exactly full before a letter's tokens leave it", just_fits, 0},
    {"summary_word", "pockets, none with a capacity", pocket_uncapped, 0},
    {"closed_list", "a list that is answered otherwise where all places are plain", marks_decide_list, 0},
    {"order_logs", "no order where all places plain would have one", marks_decide_order, 0},
    {"complement_places", "a capped pocket that only loops touch", pocket_loop, 0},
    {"complement_places", "the same with 64 places in all", full_pockets, 0},
    {"complement_net", "a capped pocket that only loops touch", pocket_loop, 0},
    {"read_case", "place 63 a pocket", last_read, 0},
    {"write_case", "place 63 a pocket", last_pocket, 0},
    {"write_case", "pockets, none with a capacity", pocket_uncapped, 0},
    {"write_case", "a largest weight of 255", widest_255, 0},
    {"write_case", "a largest weight of 256", widest_256, 0},
    {"write_case", "frames 04 and 07", some_wide, 0},
    {"write_case", "frames 07 alone", all_wide, 0},
    {"case_length", "frames 04 and 07", some_wide, 0},
    {"read_case", "a row whose largest weight is 255", read_255, 0},
    {"read_case", "a row whose largest weight is 256", read_256, 0},
    {"read_case", "a row whose largest weight is 4,095", read_4095, 0},
    {"read_case", "frames 04 and 07", read_both, 0},
    {"read_case", "a first row of kind 07", read_first, 0},
    {"read_case", "a last row of kind 07", read_last, 0},
    {"read_case", "a line of 516 digits", digits_516, 0},
    {"read_case", "a line of 518 digits", digits_518, 0},
    {"read_case", "refusal 12 for a line of over 260 digits", wide_line, 0},
    {"read_case", "a weight of 4,096", heavy_row, 0},
    {"read_case", "a frame 07 with a weight of 255, and none larger", small_row, 0},
    {"read_case", "a heavy weight on the line where the net is loose", heavy_on_last, 0},
    LOOSE("replay_word"),
    HEAVY("replay_word"),
    LOOSE("replay_stretch"),
    HEAVY("replay_stretch"),
    LOOSE("start_replay"),
    HEAVY("start_replay"),
    LOOSE("replay_part"),
    HEAVY("replay_part"),
    LOOSE("summary_word"),
    HEAVY("summary_word"),
    LOOSE("summary_stretch"),
    HEAVY("summary_stretch"),
    LOOSE("ask_summary"),
    HEAVY("ask_summary"),
    LOOSE("place_weighting"),
    HEAVY("place_weighting"),
    LOOSE("transition_weighting"),
    HEAVY("transition_weighting"),
    LOOSE("place_bound"),
    HEAVY("place_bound"),
    LOOSE("siphon_set"),
    HEAVY("siphon_set"),
    LOOSE("trap_set"),
    HEAVY("trap_set"),
    LOOSE("closed_list"),
    HEAVY("closed_list"),
    LOOSE("closed_target"),
    HEAVY("closed_target"),
    LOOSE("closed_stall"),
    HEAVY("closed_stall"),
    LOOSE("cover_list"),
    HEAVY("cover_list"),
    LOOSE("cover_target"),
    HEAVY("cover_target"),
    LOOSE("complement_places"),
    HEAVY("complement_places"),
    LOOSE("complement_net"),
    HEAVY("complement_net"),
    LOOSE("case_length"),
    HEAVY("case_length"),
    LOOSE("write_case"),
    HEAVY("write_case"),
    LOOSE("order_logs"),
    HEAVY("order_logs"),
};

/* Counts the edges that this input and answer meet. */
void count_edges(const char *question, const struct given *g) {
    for (size_t k = 0; k < sizeof edges / sizeof edges[0]; k++)
        if (edges[k].question == question)
            edges[k].met += edges[k].is_met(g) != 0;
}

/* Ties the edges to the questions' own names, so that counting need not compare text. */
void start_edges(void) {
    for (size_t k = 0; k < sizeof edges / sizeof edges[0]; k++)
        for (size_t q = 0; q < question_count; q++)
            if (strcmp(edges[k].question, questions[q].name) == 0)
                edges[k].question = questions[q].name;
}

/* Reports the edges of a question that were never met; with show, how often each was. */
int missed_edges(const char *question, int show) {
    int lacks = 0;
    for (size_t k = 0; k < sizeof edges / sizeof edges[0]; k++) {
        if (edges[k].question != question)
            continue;
        if (show)
            printf("%s: %s: %lu\n", question, edges[k].what, edges[k].met);
        if (edges[k].met == 0) {
            printf("compare: %s never met: %s\n", question, edges[k].what);
            lacks = 1;
        }
    }
    return lacks;
}
