/* Which lent thing a refusal comes from. The faults are looked for in the input as it was lent, not in what was planned,
 * and those of the refusal that the reference gave are counted where there is only one: that one decided. */
#include "compare.h"

/* Is the piece of another length than it should be? A list should have whole markings. */
int has_wrong_length(const struct lent *piece) {
    if (piece == &in.list)
        return in.places > 0 && piece->count % in.places != 0;
    return piece->count != piece->right;
}

/* Is it no count? */
static int outside(size_t count) { return count < 1 || count > 64; }

static int bad_places(void) { return outside(in.places); }
static int bad_transitions(void) { return outside(in.transitions); }
static int bad_first_count(void) { return outside(in.summary_places[0]); }
static int bad_second_count(void) { return outside(in.summary_places[1]); }
static int bad_start(void) { return in.start > in.end; }
static int bad_end(void) { return in.end > in.word.count; }
static int not_the_nets(void) { return in.summary_places[0] != in.places; }
static int not_the_others(void) { return in.summary_places[0] != in.summary_places[1]; }

/* Has one of the markings 65,535 tokens? */
static int has_full(const struct lent *markings) {
    const uint16_t *tokens = own(markings);
    for (size_t i = 0; i < markings->count; i++)
        if (tokens[i] == 65535)
            return 1;
    return 0;
}

/* Has one of the markings more tokens than a capacity? */
static int has_over(const struct lent *markings) {
    const uint16_t *tokens = own(markings), *caps = own(&in.caps);
    for (size_t i = 0; i < markings->count; i++)
        if (caps[i % in.places] != 65535 && tokens[i] > caps[i % in.places])
            return 1;
    return 0;
}

static int initial_full(void) { return has_full(&in.initial); }
static int initial_over(void) { return has_over(&in.initial); }
static int list_full(void) { return has_full(&in.list); }
static int list_over(void) { return has_over(&in.list); }
static int target_full(void) { return has_full(&in.target); }

static int long_word(void) { return in.end - in.start > 65535; }
static int long_log(void) { return in.log[0].count > 65535; }
static int long_log_1(void) { return in.log[1].count > 65535; }
static int over_log(void) { return in.log[0].count > 255; }
static int over_log_1(void) { return in.log[1].count > 255; }

/* Is there a letter of this piece, from start to end, that names no transition? */
static int names_none(const struct lent *piece, size_t start, size_t end) {
    const uint8_t *word = own(piece);
    for (size_t i = start; i < end; i++)
        if (word[i] >= in.transitions)
            return 1;
    return 0;
}

static int bad_letter(void) { return names_none(&in.word, in.start, in.end); }
static int log_letter(void) { return names_none(&in.log[0], 0, in.log[0].count); }
static int log_letter_1(void) { return names_none(&in.log[1], 0, in.log[1].count); }

/* How many steps of the order are this byte. */
static size_t steps_of(uint8_t byte) {
    const uint8_t *order = own(&in.order);
    size_t count = 0;
    for (size_t i = 0; i < in.order.count; i++)
        count += order[i] == byte;
    return count;
}

/* The order is made of 0s and 1s: as many as both logs have letters, but not of each as many; or another number. */
static int order_byte(void) { return steps_of(0) + steps_of(1) != in.order.count; }
static int order_length(void) { return !order_byte() && in.order.count != in.log[0].count + in.log[1].count; }
static int order_split(void) { return !order_byte() && !order_length() && steps_of(0) != in.log[0].count; }
static int bad_step(void) { return in.step >= in.order.count; }

/* Is the summary well formed (refusal 6)? */
int is_well_formed(size_t places, uint32_t letters, const uint32_t *need, const uint32_t *climb, const int32_t *change) {
    int64_t most = MOST_WEIGHT * (int64_t)letters;
    if (letters > 65535)
        return 0;
    for (size_t p = 0; p < 64; p++) {
        int64_t falls = need[p], climbs = climb[p], changes = change[p];
        int is_zero = falls == 0 && climbs == 0 && changes == 0;
        int is_bounded = falls <= most && climbs <= most && -falls <= changes && changes <= climbs;
        if (!(p < places ? is_bounded : is_zero))
            return 0;
    }
    return 1;
}

/* Is the first or the second summary not well formed? */
static int bad_summary(int k) {
    return !is_well_formed(in.summary_places[k], in.letters[k], own(&in.need[k]), own(&in.climb[k]), own(&in.change[k]));
}

static int bad_first(void) { return bad_summary(0); }
static int bad_second(void) { return bad_summary(1); }
static int long_together(void) { return (uint64_t)in.letters[0] + in.letters[1] > 65535; }
static int no_marking(void) { return in.list.count == 0; }
static int many_markings(void) { return in.list.count > 4096 * in.places; }
static int short_room(void) { return in.room.count < file_bytes(); }
static int bad_place(void) { return in.place >= in.places; }

/* Refusals that have one source only: the refusal itself says that it is there. */
static int is_the_only(void) { return 1; }

const struct fault_kind faults[FAULTS] = {
    [BAD_PLACES] = {1, "the place count", 0, bad_places},
    [BAD_TRANSITIONS] = {1, "the transition count", 0, bad_transitions},
    [BAD_FIRST_COUNT] = {1, "the first summary's own count", 0, bad_first_count},
    [BAD_SECOND_COUNT] = {1, "the second summary's own count", 0, bad_second_count},
    [FILE_PLACES] = {1, "the file's place count", 0, file_places},
    [FILE_TRANSITIONS] = {1, "the file's transition count", 0, file_transitions},
    [PRE_LENGTH] = {2, "pre", &in.pre, 0},
    [POST_LENGTH] = {2, "post", &in.post, 0},
    [CAPS_LENGTH] = {2, "the capacities", &in.caps, 0},
    [MARKS_LENGTH] = {2, "the marks", &in.marks, 0},
    [INITIAL_LENGTH] = {2, "the marking", &in.initial, 0},
    [ROOM_LENGTH] = {2, "the room", &in.room, 0},
    [WEIGHTS_LENGTH] = {2, "the weighting", &in.weights, 0},
    [SET_LENGTH] = {2, "the set", &in.set, 0},
    [LIST_LENGTH] = {2, "the list", &in.list, 0},
    [TARGET_LENGTH] = {2, "the target", &in.target, 0},
    [NEED_LENGTH] = {2, "the first need", &in.need[0], 0},
    [NEED_LENGTH_1] = {2, "the second need", &in.need[1], 0},
    [NEED_LENGTH_2] = {2, "the room for need", &in.need[2], 0},
    [CLIMB_LENGTH] = {2, "the first climb", &in.climb[0], 0},
    [CLIMB_LENGTH_1] = {2, "the second climb", &in.climb[1], 0},
    [CLIMB_LENGTH_2] = {2, "the room for climb", &in.climb[2], 0},
    [CHANGE_LENGTH] = {2, "the first change", &in.change[0], 0},
    [CHANGE_LENGTH_1] = {2, "the second change", &in.change[1], 0},
    [CHANGE_LENGTH_2] = {2, "the room for change", &in.change[2], 0},
    [PRE2_LENGTH] = {2, "the room for pre", &in.pre2, 0},
    [POST2_LENGTH] = {2, "the room for post", &in.post2, 0},
    [CAPS2_LENGTH] = {2, "the room for capacities", &in.caps2, 0},
    [MARKS2_LENGTH] = {2, "the room for marks", &in.marks2, 0},
    [INITIAL2_LENGTH] = {2, "the room for a marking", &in.initial2, 0},
    [WORK_LENGTH] = {2, "the work space", &in.work, 0},
    [BAD_START] = {2, "a stretch that ends before its start", 0, bad_start},
    [BAD_END] = {2, "a stretch that ends past its word", 0, bad_end},
    [NOT_THE_NETS] = {2, "a summary's count that is not the net's", 0, not_the_nets},
    [NOT_THE_OTHERS] = {2, "two summaries' counts that differ", 0, not_the_others},
    [INITIAL_FULL] = {3, "65,535 tokens in the marking", 0, initial_full},
    [INITIAL_OVER] = {3, "tokens above capacity in the marking", 0, initial_over},
    [LIST_FULL] = {3, "65,535 tokens in the list", 0, list_full},
    [LIST_OVER] = {3, "tokens above capacity in the list", 0, list_over},
    [TARGET_FULL] = {3, "65,535 tokens in the target", 0, target_full},
    [FILE_FULL] = {3, "65,535 tokens in the file", 0, file_full},
    [FILE_OVER] = {3, "tokens above capacity in the file", 0, file_over},
    [STATE_MANY] = {3, "more tokens in the state than its letters can bring", 0, state_many},
    [STATE_OVER] = {3, "tokens above capacity in the state", 0, state_over},
    [LONG_WORD] = {4, "the letters", 0, long_word},
    [LONG_FILE] = {4, "the file's letters", 0, is_the_only},
    [LONG_LOG] = {4, "the first log's letters", 0, long_log},
    [LONG_LOG_1] = {4, "the second log's letters", 0, long_log_1},
    [LONG_PART] = {4, "the letters fired and those of the part", 0, long_part},
    [BAD_LETTER] = {5, "a letter", 0, bad_letter},
    [FILE_LETTER] = {5, "a letter of the file", 0, is_the_only},
    [LOG_LETTER] = {5, "a letter of the first log", 0, log_letter},
    [LOG_LETTER_1] = {5, "a letter of the second log", 0, log_letter_1},
    [BAD_FIRST] = {6, "the first summary", 0, bad_first},
    [BAD_SECOND] = {6, "the second summary", 0, bad_second},
    [LONG_TOGETHER] = {7, "the letters of both summaries", 0, long_together},
    [ALL_ZERO] = {8, "a weighting or set of nothing", 0, is_the_only},
    [NO_MARKING] = {9, "a list of no marking", 0, no_marking},
    [MANY_MARKINGS] = {9, "a list of too many markings", 0, many_markings},
    [MANY_PLACES] = {10, "the complement's places", 0, is_the_only},
    [BAD_PLACE] = {13, "the place number", 0, bad_place},
    [BAD_BLOCK] = {13, "the place of a held block", 0, bad_block},
    [SHORT_ROOM] = {14, "a room shorter than the file", 0, short_room},
    [LINE_FEED] = {11, "a line without its line feed", 0, line_feed},
    [LINE_EMPTY] = {11, "a line without digits", 0, line_empty},
    [LINE_ODD] = {11, "an odd number of digits", 0, line_odd},
    [LINE_LONG] = {11, "over 516 digits", 0, line_long},
    [LINE_DIGIT] = {11, "a byte that is no digit", 0, line_digit},
    [FRAME_KIND] = {12, "a frame of unknown kind", 0, frame_kind},
    [FRAME_ORDER] = {12, "a frame in the wrong order", 0, frame_order},
    [FRAME_LENGTH] = {12, "a frame of wrong length", 0, frame_length},
    [FRAME_INDEX] = {12, "a frame of wrong index", 0, frame_index},
    [FRAME_SHORT] = {12, "a frame after a short one", 0, frame_short},
    [FRAME_MISSING] = {12, "a frame that is missing", 0, frame_missing},
    [MASK_EMPTY] = {12, "a frame 06 without a pocket", 0, mask_empty},
    [MASK_PAST] = {12, "a frame 06 with a bit past the places", 0, mask_past},
    [MASK_AGAIN] = {12, "a second frame 06", 0, mask_again},
    [MASK_ELSEWHERE] = {12, "a frame 06 elsewhere than after 02", 0, mask_elsewhere},
    [ROW_SMALL] = {12, "a frame 07 without a weight over 255", 0, row_small},
    [OVER_LOG] = {15, "the first log's length", 0, over_log},
    [OVER_LOG_1] = {15, "the second log's length", 0, over_log_1},
    [ORDER_SPLIT] = {16, "other numbers of 0s and of 1s", 0, order_split},
    [ORDER_BYTE] = {16, "a step that is neither 0 nor 1", 0, order_byte},
    [ORDER_LENGTH] = {16, "an order of another length", 0, order_length},
    [BAD_STEP] = {16, "a step that the order does not have", 0, bad_step},
    [LOOSE_PLACE] = {17, "a place without an arc", 0, has_loose_place},
    [LOOSE_TRANSITION] = {17, "a transition without an arc", 0, has_loose_transition},
    [FILE_LOOSE_PLACE] = {17, "a place of the file without an arc", 0, file_loose_place},
    [FILE_LOOSE_TRANSITION] = {17, "a transition of the file without an arc", 0, file_loose_transition},
    [HEAVY_PRE] = {18, "a weight of pre", 0, has_heavy_pre},
    [HEAVY_POST] = {18, "a weight of post", 0, has_heavy_post},
    [FILE_HEAVY_PRE] = {18, "a weight of Pre in the file", 0, file_heavy_pre},
    [FILE_HEAVY_POST] = {18, "a weight of Post in the file", 0, file_heavy_post},
};
