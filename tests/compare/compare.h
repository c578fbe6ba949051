/* The comparer: the library and the reference are asked the same questions, and must agree in everything.
 *
 * An input is drawn from a seed, its question and its number alone (random.c), with the faults that plan.c plans for it,
 * into lent memory with guard bytes around each piece (lend.c). What is drawn is up to net.c, wire.c, heavy.c, word.c, running.c,
 * complement.c, summary.c, weighting.c, lists.c, file.c, damage.c, write.c and order.c; ask.c puts the question to both sides;
 * compare.c compares, counts what came, and reports; faults.c and lines.c find which lent thing a refusal comes from, decided.c
 * counts those, and edges.c knows the edges that must come. every.c asks without chance: all short logs of some small nets.
 */
#ifndef COMPARE_H
#define COMPARE_H

#include "../reference/reference.h"

/* ---- random.c */
void start_random(uint64_t seed, uint64_t question, uint64_t input);
uint64_t draw(void);
size_t below(size_t n);
int chance(size_t one_in);
void fill_random(void *at, size_t bytes);

/* ---- lend.c */

/* One lent piece: count entries of size bytes, at an offset in each side's memory; right is the count it should have. */
struct lent {
    size_t offset, count, right, size;
    int is_null, is_room;
};

/* What an input is made of; a question uses a part of it. Index 0 and 1 of the summaries and of the logs are the first and
 * the second one lent, 2 is a summary's room. A whole word is the stretch from 0 to its end, and so is a part of a log; cuts are
 * the ends of a word's parts. */
struct input {
    size_t places, transitions;
    struct lent pre, post, caps, marks, initial, word, room, weights, set, list, target;
    struct lent need[3], climb[3], change[3];
    struct lent pre2, post2, caps2, marks2, initial2, file, log[2], order, work, state, cuts;
    size_t summary_places[2], start, end, place, step;
    uint32_t letters[2];
};
extern struct input in;

enum { LIBRARY, REFERENCE };

void start_lending(void);
void *lend(struct lent *piece, size_t size, size_t count);
void *lend_room(struct lent *piece, size_t size, size_t count);
void *own(const struct lent *piece);
void *on_side(int side, const struct lent *piece);
void hand_out(void);
int differing_memory(int quiet);
void print_input(void);

/* ---- plan.c, faults.c, lines.c */

/* Refusals are numbered from 1 up to, and without, this. */
enum { REFUSALS = 19 };

/* Every fault that a lent thing can have, by the refusal that it gives; the table in faults.c has their names. */
enum fault {
    /* 1 */
    BAD_PLACES, BAD_TRANSITIONS, BAD_FIRST_COUNT, BAD_SECOND_COUNT, FILE_PLACES, FILE_TRANSITIONS,
    /* 2 */
    PRE_LENGTH, POST_LENGTH, CAPS_LENGTH, MARKS_LENGTH, INITIAL_LENGTH, ROOM_LENGTH, WEIGHTS_LENGTH, SET_LENGTH,
    LIST_LENGTH, TARGET_LENGTH, NEED_LENGTH, NEED_LENGTH_1, NEED_LENGTH_2, CLIMB_LENGTH, CLIMB_LENGTH_1, CLIMB_LENGTH_2,
    CHANGE_LENGTH, CHANGE_LENGTH_1, CHANGE_LENGTH_2, PRE2_LENGTH, POST2_LENGTH, CAPS2_LENGTH, MARKS2_LENGTH,
    INITIAL2_LENGTH, WORK_LENGTH, BAD_START, BAD_END, NOT_THE_NETS, NOT_THE_OTHERS,
    /* 3 */
    INITIAL_FULL, INITIAL_OVER, LIST_FULL, LIST_OVER, TARGET_FULL, FILE_FULL, FILE_OVER, STATE_MANY, STATE_OVER,
    /* 4 to 10, 13 and 14 */
    LONG_WORD, LONG_FILE, LONG_LOG, LONG_LOG_1, LONG_PART, BAD_LETTER, FILE_LETTER, LOG_LETTER, LOG_LETTER_1, BAD_FIRST,
    BAD_SECOND, LONG_TOGETHER, ALL_ZERO, NO_MARKING, MANY_MARKINGS, MANY_PLACES, BAD_PLACE, BAD_BLOCK, SHORT_ROOM,
    /* 11 */
    LINE_FEED, LINE_EMPTY, LINE_ODD, LINE_LONG, LINE_DIGIT,
    /* 12 */
    FRAME_KIND, FRAME_ORDER, FRAME_LENGTH, FRAME_INDEX, FRAME_SHORT, FRAME_MISSING, MASK_EMPTY, MASK_PAST, MASK_AGAIN,
    MASK_ELSEWHERE, ROW_SMALL,
    /* 15 */
    OVER_LOG, OVER_LOG_1,
    /* 16 */
    ORDER_SPLIT, ORDER_BYTE, ORDER_LENGTH, BAD_STEP,
    /* 17 */
    LOOSE_PLACE, LOOSE_TRANSITION, FILE_LOOSE_PLACE, FILE_LOOSE_TRANSITION,
    /* 18 */
    HEAVY_PRE, HEAVY_POST, FILE_HEAVY_PRE, FILE_HEAVY_POST,
    FAULTS
};

/* A set of faults, a bit each. */
typedef unsigned __int128 fault_set;

/* A fault: its refusal, what it is in words, and how it is found in the input: as the wrong length of a piece, or else. */
struct fault_kind {
    int refusal;
    const char *what;
    const struct lent *piece;
    int (*is_there)(void);
};
extern const struct fault_kind faults[FAULTS];

void plan_faults(uint32_t refusals, fault_set can);
int wants(int refusal);
int breaks(enum fault fault);
int is_sound(void);
int is_alone(void);

int has_wrong_length(const struct lent *piece);
int is_well_formed(size_t places, uint32_t letters, const uint32_t *need, const uint32_t *climb, const int32_t *change);

void look_at_line(size_t line);
int line_feed(void), line_empty(void), line_odd(void), line_long(void), line_digit(void);
int frame_kind(void), frame_order(void), frame_length(void), frame_index(void), frame_short(void), frame_missing(void);
int mask_empty(void), mask_past(void), mask_again(void), mask_elsewhere(void), row_small(void), is_last_row(void);
size_t line_digits(void), largest_on_line(void);
int file_places(void), file_transitions(void), file_full(void), file_over(void);
int file_loose_place(void), file_loose_transition(void), file_heavy_pre(void), file_heavy_post(void);

/* ---- wire.c */

/* A net's weights, where an input, a file or a summary has them. */
struct weights {
    size_t places, transitions;
    uint16_t *pre, *post;
};

/* The largest weight, and the largest that a frame 04 can hold. */
enum { MOST_WEIGHT = 4095, MOST_BYTE = 255 };
size_t count_loose(const struct weights *net, int transitions);
void wire(const struct weights *net, int with_loops);
void loosen(const struct weights *net, int places, int transitions);
int has_net(struct weights *net);
int has_loose_place(void), has_loose_transition(void);
void wire_net(int with_loops);
void break_net(void);

/* ---- heavy.c */
void break_weights(const struct weights *net, int in_pre, int in_post);
int has_heavy_pre(void), has_heavy_post(void);
int is_heavy_in(const struct lent *weights, size_t t);

/* ---- net.c */
size_t draw_count(void);
size_t faulty_count(void);
void draw_net(void);
void draw_net_of(size_t places, size_t transitions);
void draw_marking(void);
void break_marking(void);
void fill_up(uint16_t *marking);
void fill_over(uint16_t *marking);
size_t find_place(int has_capacity);
void suit_caps(void);
int is_whole_net(void);
int is_whole(void);
int enabled_now(const int64_t *m, size_t t);
void fire_now(int64_t *m, size_t t);
int64_t change_now(size_t p, size_t t);
uint16_t within(size_t p, uint16_t tokens);
uint8_t draw_mark(size_t style);
int is_pocket(size_t p);

/* ---- complement.c */
int has_capped_loop(void), has_pocket_loop(void);

/* ---- word.c */
size_t draw_length(void);
void draw_word_from(uint8_t *word, size_t length, size_t from, int64_t *m, int fires);
void draw_word(uint8_t *word, size_t length, size_t from);
void break_letters(void);
void draw_net_for(int is_long);
void bend_for_long_words(void);
void lend_word(size_t length);

/* ---- running.c */

/* The state that is lent, and the most tokens that its letters fired can have led to. */
kaunorpi_running *own_state(void);
int64_t most_tokens_held(void);
int state_many(void), state_over(void), long_part(void), bad_block(void);

/* ---- write.c */
size_t count_wide(void);
size_t file_bytes(void);

/* ---- file.c, damage.c */
enum { MOST_LINES = 1200, MOST_FRAME = 270, MOST_BYTES = 1 << 18 };

/* The frames of a case file before they become text, and the text; `masks` is how many frames 06 it has. */
struct case_file {
    uint8_t frames[MOST_LINES][MOST_FRAME], text[MOST_BYTES];
    size_t sizes[MOST_LINES], lines, bytes, places, transitions, masks;
};
extern struct case_file drawn_file;
void add_frame(const uint8_t *bytes, size_t size);
void draw_mask(uint8_t *frame);
void damage_frames(void);
void damage_text(void);

/* ---- Each question's input. */
void make_replay(void);
void make_replay_stretch(void);
void make_start_replay(void);
void make_replay_part(void);
void make_cut_replay(void);
void make_empty(void);
void make_summary(void);
void make_summary_stretch(void);
void make_join(void);
void make_ask(void);
void make_place_weighting(void);
void make_transition_weighting(void);
void make_bound(void);
void make_set(void);
void make_closed(void);
void make_closed_target(void);
void make_cover(void);
void make_cover_target(void);
void make_complement_places(void);
void make_complement(void);
void make_case(void);
void make_case_length(void);
void make_write_case(void);
void make_order_logs(void);
void make_rest(void);

/* ---- ask.c */

/* An answer of any question: its fields in order, and the class it is counted under. */
struct given {
    uint8_t kind, number;
    uint64_t field[4];
    int class;
};

/* A question: its name, its input, how it is put, the classes that must come, by position 0 and above 0: answers, then
 * refusals; and the faults each of which must decide by itself. */
struct question {
    const char *name;
    void (*make)(void);
    struct given (*ask)(int side);
    uint32_t answers, answers_further, refusals, refusals_further;
    fault_set faults;
};
extern const struct question questions[];
extern const size_t question_count;

/* ---- compare.c, selfcheck.c, every.c */
int same_given(const struct given *a, const struct given *b);
int agrees(size_t q, uint64_t seed, size_t input, int show);
int every_order(void);
int self_check(size_t inputs, uint64_t seed);

/* ---- decided.c */
void count_faults(size_t q, size_t input, const struct given *g);
int missed_faults(size_t q, int show);

/* ---- edges.c */
void start_edges(void);
void count_edges(const char *question, const struct given *g);
int missed_edges(const char *question, int show);

#endif
