/* How each question is put to a side, and what must come of it. */
#include "compare.h"

#include <string.h>

/* The two sides: every question of the library, and of the reference. */
#define SIDE(question) \
    static __typeof__(kaunorpi_##question) *const side_##question[2] = {kaunorpi_##question, reference_##question};
SIDE(replay_word)
SIDE(replay_stretch)
SIDE(start_replay)
SIDE(replay_part)
SIDE(empty_summary)
SIDE(summary_word)
SIDE(summary_stretch)
SIDE(join_summaries)
SIDE(ask_summary)
SIDE(place_weighting)
SIDE(transition_weighting)
SIDE(place_bound)
SIDE(siphon_set)
SIDE(trap_set)
SIDE(closed_list)
SIDE(closed_target)
SIDE(closed_stall)
SIDE(cover_list)
SIDE(cover_target)
SIDE(complement_places)
SIDE(complement_net)
SIDE(read_case)
SIDE(case_length)
SIDE(write_case)
SIDE(order_logs)
SIDE(rest_fault)
SIDE(unread_rest)

/* A lent piece as a pointer and a length; the net; the three lists of a summary. */
#define LENT(piece) on_side(side, &in.piece), in.piece.count
#define NET in.places, in.transitions, LENT(pre), LENT(post), LENT(caps), LENT(marks)
#define SUMMARY(which) LENT(need[which]), LENT(climb[which]), LENT(change[which])

/* A question whose answer has only kind, number and position. */
#define PLAIN(question, ...) \
    static struct given ask_##question(int side) { \
        kaunorpi_answer a = side_##question[side](NET, __VA_ARGS__); \
        return (struct given){a.kind, a.number, {a.position}, a.number}; \
    }
PLAIN(ask_summary, LENT(initial), in.summary_places[0], in.letters[0], SUMMARY(0), LENT(room))
PLAIN(place_weighting, LENT(weights))
PLAIN(transition_weighting, LENT(weights))
PLAIN(siphon_set, LENT(set))
PLAIN(trap_set, LENT(set))
PLAIN(complement_net, LENT(initial), LENT(pre2), LENT(post2), LENT(caps2), LENT(marks2), LENT(initial2))
PLAIN(order_logs, LENT(initial), LENT(log[0]), LENT(log[1]), LENT(room), LENT(work))

/* A question of replay. */
#define REPLAY(question, ...) \
    static struct given ask_##question(int side) { \
        kaunorpi_replay a = side_##question[side](NET, __VA_ARGS__); \
        return (struct given){a.kind, a.number, {a.position, a.place}, a.number}; \
    }
REPLAY(replay_word, LENT(initial), LENT(word), LENT(room))
REPLAY(replay_stretch, LENT(initial), LENT(word), in.start, in.end, LENT(room))

/* The state as a side has it; the bytes behind its last field are nobody's, and are made as they were lent. */
static kaunorpi_running *side_state(int side) { return on_side(side, &in.state); }
static void even_out(int side) {
    uint8_t *state = on_side(side, &in.state), *end = &side_state(side)->blocked + 1;
    memcpy(end, (uint8_t *)own(&in.state) + (end - state), sizeof(kaunorpi_running) - (size_t)(end - state));
}

/* A question of running replay; a block that was held already is counted as 20. */
static struct given given_running(int side, kaunorpi_replay a, int was_held) {
    int held = was_held && a.kind == KAUNORPI_ANSWERED;
    even_out(side);
    return (struct given){a.kind, a.number, {a.position, a.place}, held ? 20 : a.number};
}

static struct given ask_start_replay(int side) {
    return given_running(side, side_start_replay[side](NET, LENT(initial), side_state(side)), 0);
}

static struct given ask_replay_part(int side) {
    return given_running(side, side_replay_part[side](NET, side_state(side), LENT(word)), own_state()->blocked != 0);
}

/* The whole word by the reference's replay, and the state that its parts must have led to. */
static kaunorpi_replay replay_whole(int side) {
    kaunorpi_running *state = side_state(side);
    uint32_t room[80] = {0};
    kaunorpi_replay a = reference_replay_word(NET, LENT(initial), LENT(word), room, in.places);
    if (a.kind == KAUNORPI_REFUSED)
        return a;
    memcpy(state->marking, room, sizeof state->marking);
    state->fired = (uint32_t)a.position;
    state->position = a.number == 0 ? 0 : (uint32_t)a.position;
    state->place = (uint32_t)a.place;
    state->blocked = a.number;
    return a;
}

/* The same word by the library, part by part. */
static kaunorpi_replay replay_parts(int side) {
    const size_t *ends = own(&in.cuts);
    const uint8_t *word = on_side(side, &in.word);
    kaunorpi_replay a = kaunorpi_start_replay(NET, LENT(initial), side_state(side));
    for (size_t k = 0, from = 0; a.kind == KAUNORPI_ANSWERED && k < in.cuts.count; from = ends[k++])
        a = kaunorpi_replay_part(NET, side_state(side), ends[k] > from ? word + from : NULL, ends[k] - from);
    return a;
}

static struct given ask_cut_replay(int side) {
    return given_running(side, side == LIBRARY ? replay_parts(side) : replay_whole(side), 0);
}

/* A question whose answer is a summary. */
#define MAKES(question, ...) \
    static struct given ask_##question(int side) { \
        kaunorpi_summary a = side_##question[side](__VA_ARGS__, SUMMARY(2)); \
        return (struct given){a.kind, a.number, {a.position, a.places, a.letters}, a.number}; \
    }
MAKES(empty_summary, in.places)
MAKES(summary_word, NET, LENT(word))
MAKES(summary_stretch, NET, LENT(word), in.start, in.end)
MAKES(join_summaries, in.summary_places[0], in.letters[0], SUMMARY(0), in.summary_places[1], in.letters[1], SUMMARY(1))

/* A question about a list. */
#define LISTS(question, ...) \
    static struct given ask_##question(int side) { \
        kaunorpi_list a = side_##question[side](NET, LENT(initial), __VA_ARGS__); \
        return (struct given){a.kind, a.number, {a.position, a.transition}, a.number}; \
    }
LISTS(closed_list, LENT(list))
LISTS(closed_target, LENT(list), LENT(target))
LISTS(closed_stall, LENT(list))
LISTS(cover_list, LENT(list))
LISTS(cover_target, LENT(list), LENT(target))

/* The bound; "no bound" is counted by its cause, as 21, 22 and 23. */
static struct given ask_place_bound(int side) {
    kaunorpi_bound a = side_place_bound[side](NET, LENT(initial), LENT(weights), in.place);
    int none = a.kind == KAUNORPI_ANSWERED && a.number == 1;
    return (struct given){a.kind, a.number, {a.position, a.bound}, none ? 20 + (int)a.position : a.number};
}

/* The complement's place count. */
static struct given ask_complement_places(int side) {
    kaunorpi_places a = side_complement_places[side](NET);
    return (struct given){a.kind, a.number, {a.position, a.places}, a.number};
}

/* The case file. */
static struct given ask_read_case(int side) {
    kaunorpi_case a =
        side_read_case[side](LENT(file), LENT(caps2), LENT(marks2), LENT(initial2), LENT(pre2), LENT(post2), LENT(room));
    return (struct given){a.kind, a.number, {a.position, a.places, a.transitions, a.letters}, a.number};
}

/* A question whose answer has a file's length. */
#define WRITES(question, ...) \
    static struct given ask_##question(int side) { \
        kaunorpi_length a = side_##question[side](NET, LENT(initial), __VA_ARGS__); \
        return (struct given){a.kind, a.number, {a.position, a.length}, a.number}; \
    }
WRITES(case_length, LENT(word))
WRITES(write_case, LENT(word), LENT(room))

/* Whether the unread rest may be asked for. */
static struct given ask_rest_fault(int side) {
    kaunorpi_answer a = side_rest_fault[side](LENT(log[0]), LENT(log[1]), LENT(order), in.step);
    return (struct given){a.kind, a.number, {a.position}, a.number};
}

/* The unread rest; an answer is counted by its log, as 20 and 21. */
static struct given ask_unread_rest(int side) {
    kaunorpi_rest a = side_unread_rest[side](LENT(log[0]), LENT(log[1]), LENT(order), in.step);
    int answered = a.kind == KAUNORPI_ANSWERED;
    return (struct given){a.kind, a.number, {a.position, a.log, a.start, a.length}, answered ? 20 + (int)a.log : a.number};
}

/* The faults of what is lent. */
#define F(fault) ((fault_set)1 << (fault))
#define OF_LOOSE (F(LOOSE_PLACE) | F(LOOSE_TRANSITION))
#define OF_HEAVY (F(HEAVY_PRE) | F(HEAVY_POST))
#define OF_NET \
    (F(BAD_PLACES) | F(BAD_TRANSITIONS) | F(PRE_LENGTH) | F(POST_LENGTH) | F(CAPS_LENGTH) | F(MARKS_LENGTH) | OF_LOOSE | \
     OF_HEAVY)
#define OF_MARKING (F(INITIAL_LENGTH) | F(INITIAL_FULL) | F(INITIAL_OVER))
#define OF_WORD (F(LONG_WORD) | F(BAD_LETTER))
#define OF_PART (F(STATE_MANY) | F(STATE_OVER) | F(LONG_PART) | F(BAD_LETTER) | F(BAD_BLOCK))
#define OF_STRETCH (OF_WORD | F(BAD_START) | F(BAD_END))
#define OF_ROOM F(ROOM_LENGTH)
#define OF_LOGS (F(LONG_LOG) | F(LONG_LOG_1) | F(OVER_LOG) | F(OVER_LOG_1))
#define OF_LETTERS (F(LOG_LETTER) | F(LOG_LETTER_1))
#define OF_ORDER (F(ORDER_SPLIT) | F(ORDER_BYTE) | F(ORDER_LENGTH) | F(BAD_STEP))
#define OF_FIRST (F(BAD_FIRST_COUNT) | F(NEED_LENGTH) | F(CLIMB_LENGTH) | F(CHANGE_LENGTH) | F(BAD_FIRST))
#define OF_SECOND (F(BAD_SECOND_COUNT) | F(NEED_LENGTH_1) | F(CLIMB_LENGTH_1) | F(CHANGE_LENGTH_1) | F(BAD_SECOND))
#define OF_SUMMARY_ROOMS (F(NEED_LENGTH_2) | F(CLIMB_LENGTH_2) | F(CHANGE_LENGTH_2))
#define OF_WEIGHTS (F(WEIGHTS_LENGTH) | F(ALL_ZERO))
#define OF_SET (F(SET_LENGTH) | F(ALL_ZERO))
#define OF_COVER (F(LIST_LENGTH) | F(NO_MARKING) | F(MANY_MARKINGS))
#define OF_CLOSED (OF_COVER | F(LIST_FULL) | F(LIST_OVER))
#define OF_TARGET (F(TARGET_LENGTH) | F(TARGET_FULL))
#define OF_NET_ROOMS (F(PRE2_LENGTH) | F(POST2_LENGTH) | F(CAPS2_LENGTH) | F(MARKS2_LENGTH) | F(INITIAL2_LENGTH))
#define OF_LINES (F(LINE_FEED) | F(LINE_EMPTY) | F(LINE_ODD) | F(LINE_LONG) | F(LINE_DIGIT))
#define OF_FRAMES \
    (F(FRAME_KIND) | F(FRAME_ORDER) | F(FRAME_LENGTH) | F(FRAME_INDEX) | F(FRAME_SHORT) | F(FRAME_MISSING) | F(MASK_EMPTY) | \
     F(MASK_PAST) | F(MASK_AGAIN) | F(MASK_ELSEWHERE) | F(ROW_SMALL))
#define OF_FILE_NUMBERS \
    (F(FILE_PLACES) | F(FILE_TRANSITIONS) | F(FILE_HEAVY_PRE) | F(FILE_HEAVY_POST) | F(FILE_FULL) | F(FILE_OVER) | \
     F(FILE_LOOSE_PLACE) | F(FILE_LOOSE_TRANSITION) | F(LONG_FILE) | F(FILE_LETTER))

#define B(number) (1u << (number))
/* the refusals of a net, and those of them that have a position */
#define NETS (B(1) | B(2) | FURTHER)
#define FURTHER (B(17) | B(18))
const struct question questions[] = {
    {"replay_word", make_replay, ask_replay_word, B(0) | B(1) | B(2), B(0) | B(1) | B(2),
     NETS | B(3) | B(4) | B(5), B(3) | B(5) | FURTHER, OF_NET | OF_MARKING | OF_WORD | OF_ROOM},
    {"replay_stretch", make_replay_stretch, ask_replay_stretch, B(0) | B(1) | B(2), B(0) | B(1) | B(2),
     NETS | B(3) | B(4) | B(5), B(3) | B(5) | FURTHER, OF_NET | OF_MARKING | OF_STRETCH | OF_ROOM},
    {"start_replay", make_start_replay, ask_start_replay, B(0), 0, NETS | B(3), B(3) | FURTHER, OF_NET | OF_MARKING},
    {"replay_part", make_replay_part, ask_replay_part, B(0) | B(1) | B(2) | B(20), B(0) | B(1) | B(2) | B(20),
     NETS | B(3) | B(4) | B(5) | B(13), B(3) | B(5) | FURTHER, OF_NET | OF_PART},
    {"cut_replay", make_cut_replay, ask_cut_replay, B(0) | B(1) | B(2), B(0) | B(1) | B(2), NETS | B(3), B(3) | FURTHER,
     OF_NET | OF_MARKING},
    {"empty_summary", make_empty, ask_empty_summary, B(0), 0, B(1) | B(2), 0, F(BAD_PLACES) | OF_SUMMARY_ROOMS},
    {"summary_word", make_summary, ask_summary_word, B(0), 0, NETS | B(4) | B(5), B(5) | FURTHER,
     OF_NET | OF_WORD | OF_SUMMARY_ROOMS},
    {"summary_stretch", make_summary_stretch, ask_summary_stretch, B(0), 0, NETS | B(4) | B(5), B(5) | FURTHER,
     OF_NET | OF_STRETCH | OF_SUMMARY_ROOMS},
    {"join_summaries", make_join, ask_join_summaries, B(0), 0, B(1) | B(2) | B(6) | B(7), B(6),
     OF_FIRST | OF_SECOND | F(NOT_THE_OTHERS) | F(LONG_TOGETHER) | OF_SUMMARY_ROOMS},
    {"ask_summary", make_ask, ask_ask_summary, B(0) | B(1), 0, NETS | B(3) | B(6), B(3) | B(6) | FURTHER,
     OF_NET | OF_MARKING | OF_FIRST | F(NOT_THE_NETS) | OF_ROOM},
    {"place_weighting", make_place_weighting, ask_place_weighting, B(0) | B(1), B(1), NETS | B(8), FURTHER,
     OF_NET | OF_WEIGHTS},
    {"transition_weighting", make_transition_weighting, ask_transition_weighting, B(0) | B(1) | B(2), B(1),
     NETS | B(8), FURTHER, OF_NET | OF_WEIGHTS},
    {"place_bound", make_bound, ask_place_bound, B(0), B(21) | B(22) | B(23), NETS | B(3) | B(8) | B(13),
     B(3) | FURTHER, OF_NET | OF_MARKING | OF_WEIGHTS | F(BAD_PLACE)},
    {"siphon_set", make_set, ask_siphon_set, B(0) | B(1), B(1), NETS | B(8), FURTHER, OF_NET | OF_SET},
    {"trap_set", make_set, ask_trap_set, B(0) | B(1), B(1), NETS | B(8), FURTHER, OF_NET | OF_SET},
    {"closed_list", make_closed, ask_closed_list, B(0) | B(1) | B(2), B(2), NETS | B(3) | B(9), B(3) | FURTHER,
     OF_NET | OF_MARKING | OF_CLOSED},
    {"closed_target", make_closed_target, ask_closed_target, B(0) | B(1) | B(2) | B(3), B(2),
     NETS | B(3) | B(9), B(3) | FURTHER, OF_NET | OF_MARKING | OF_CLOSED | OF_TARGET},
    {"closed_stall", make_closed, ask_closed_stall, B(0) | B(1) | B(2) | B(3), B(2), NETS | B(3) | B(9),
     B(3) | FURTHER, OF_NET | OF_MARKING | OF_CLOSED},
    {"cover_list", make_cover, ask_cover_list, B(0) | B(1) | B(2), B(2), NETS | B(3) | B(9), B(3) | FURTHER,
     OF_NET | OF_MARKING | OF_COVER},
    {"cover_target", make_cover_target, ask_cover_target, B(0) | B(1) | B(2) | B(3), B(2), NETS | B(3) | B(9),
     B(3) | FURTHER, OF_NET | OF_MARKING | OF_COVER | OF_TARGET},
    {"complement_places", make_complement_places, ask_complement_places, B(0), 0, NETS | B(10), FURTHER,
     OF_NET | F(MANY_PLACES)},
    {"complement_net", make_complement, ask_complement_net, B(0), 0, NETS | B(3) | B(10), B(3) | FURTHER,
     OF_NET | OF_MARKING | OF_NET_ROOMS | F(MANY_PLACES)},
    {"read_case", make_case, ask_read_case, B(0), 0, B(2), B(1) | B(3) | B(4) | B(5) | B(11) | B(12) | FURTHER,
     OF_NET_ROOMS | OF_ROOM | OF_FILE_NUMBERS | OF_LINES | OF_FRAMES},
    {"case_length", make_case_length, ask_case_length, B(0), 0, NETS | B(3) | B(4) | B(5), B(3) | B(5) | FURTHER,
     OF_NET | OF_MARKING | OF_WORD},
    {"write_case", make_write_case, ask_write_case, B(0), 0, NETS | B(3) | B(4) | B(5) | B(14),
     B(3) | B(5) | FURTHER, OF_NET | OF_MARKING | OF_WORD | F(SHORT_ROOM)},
    {"order_logs", make_order_logs, ask_order_logs, B(0) | B(1), 0, NETS | B(3) | B(4) | B(5) | B(15),
     B(3) | B(5) | FURTHER, OF_NET | OF_MARKING | OF_LOGS | OF_LETTERS | OF_ROOM | F(WORK_LENGTH)},
    {"rest_fault", make_rest, ask_rest_fault, B(0), 0, B(4) | B(15) | B(16), 0, OF_LOGS | OF_ORDER},
    {"unread_rest", make_rest, ask_unread_rest, B(20) | B(21), 0, B(4) | B(15) | B(16), 0, OF_LOGS | OF_ORDER},
};
const size_t question_count = sizeof questions / sizeof questions[0];
