/* Kaunorpi for C: could this order of machine events have happened at all?
 *
 * Every function below may be called with anything, and ends with an answer. The library holds no memory of
 * its own, keeps nothing between calls, and may be called from several threads at once.
 *
 * What is lent. Each list is handed over as a pointer and then its number of entries (not bytes). A list that
 * is `const` is only read, another is a room that the answer is written to; both are used during the call and
 * never after it. A pointer may be null where its length is 0; else it must be valid for its length and aligned for
 * its type. A room must not overlap anything else that is lent in the same call. The lengths are compared with the
 * counts: a wrong one is refusal 2, and is not used. The state of a running replay is handed over as a pointer alone, never
 * null: it is read and changed in place, and belongs to the caller, who may keep it anywhere between two calls.
 *
 * Stack. kaunorpi_order_logs needs some 410 KB for two logs of 255 letters, since it calls itself for each letter: 800
 * bytes for each letter of both logs, and 2.3 KB. kaunorpi_read_case needs some 84 KB, for rooms of its own in which a
 * whole file is read before anything is written; the functions about lists of markings need some 31 KB, for an index of
 * their own; every other function needs less than 4 KB. Read off the machine code of the archive for x86-64, of this
 * version: 84,088 bytes; at most 31,264 (kaunorpi_closed_stall); and at most 3,376 (kaunorpi_summary_stretch); with what a
 * function calls and without memcpy and memset, which are the C library's.
 *
 * What is proved. Each function's comment ends with its contract, which says that the answer is the entry's of that
 * name, number by number, and with theorems that say what such an answer means; docs/STATEMENTS.md has them in words,
 * and in section 1.2 those that say when a refusal is given.
 *
 * The net comes first in every question, always whole and in this order:
 *   places, transitions   how many there are, 1 to 64 each
 *   pre, post             places * transitions weights of 16 bits each, 0 to 4,095 (more is 18): what transition t
 *                         takes from place p, and puts there, stands at t * places + p; 0 is no arc. Each place and
 *                         each transition must have an arc, else 17
 *   caps                  places capacities, 0 to 65,534; 65,535 is none
 *   marks                 places marks of a byte each: 0 is a plain place, any other a pocket, all alike
 * At a plain place what a transition takes leaves before anything comes: tokens - Pre + Post must keep to its capacity.
 * At a pocket the new tokens come first: tokens + Post must. A pocket without a capacity is as a plain place. Replays,
 * orders of two logs, summaries, closed lists, the complement net and case files go by the marks; weightings, sets of
 * places and cover lists do not.
 * A marking is a list of places token counts, 0 to 65,534. A word is a list of transition numbers, its letters,
 * at most 65,535 of them; the first letter is number 0, and so are the first place and the first transition.
 *
 * How to read an answer. `kind` is 0x81 for an answer and 0x82 for a refusal; `number` then says which. A field
 * that a comment below does not name for an answer is 0.
 *
 * A refusal (kind 0x82) means that the question itself is faulty. Nothing was written to any room. `number`:
 *    1  a place or transition count outside 1..64
 *    2  a list or room whose length disagrees with the counts; two summaries of different place counts; a summary
 *       whose place count is not the net's; a stretch that ends before its start or past its word; a room for an order
 *       that has not one byte for each letter of both logs; a work space of other than 65,536 bytes
 *    3  65,535 tokens where not allowed, or more tokens than the capacity. position: the place; in a list of
 *       markings, marking number * places + place. The initial marking must keep to the capacities in every question,
 *       cover lists too; a closed list's markings as well; a cover list's entries are free; a target may be above
 *       capacity, but 65,535 in a target is 3, though in a cover list it means any number. In the state of a running
 *       replay: more tokens than 65,534 and 4,095 for each letter fired (exactly as many are allowed), or than the capacity
 *    4  a word over 65,535 letters; a part of a log that would bring the letters fired over 65,535, blocked or not
 *    5  a letter that names no transition. position: the letter; of a part in the part
 *    6  a summary that is not well formed. It is well formed if its letters n are at most 65,535, at each place
 *       need <= 4,095 n, climb <= 4,095 n and -need <= change <= climb, and past the place count all is 0. position: 0
 *       if n is too large, else the lowest place or slot. A well-formed summary that no word has is answered by its
 *       numbers. Of two summaries the first is looked at before the second, whatever the positions
 *    7  summaries that together have over 65,535 letters
 *    8  a set without places, a weighting all zero
 *    9  a list of no marking, or of more than 4,096
 *   10  a complement net of more than 64 places
 *   11  a line of a case file breaks the digit rules or lacks its line feed. position: the line, from 1
 *   12  a frame of unknown kind, in the wrong order, of wrong length or index, or missing; a frame 06 that makes no
 *       place a pocket, or one that the net does not have; a frame 07 without a weight over 255. position: the line
 *   13  a place number that is not below the place count; in the state of a running replay, that of a block
 *   14  a room that is shorter than what is to be written there
 *   15  a log over 255 letters, after 4
 *   16  a list that is not made of as many 0s and 1s as the two logs have letters, or a step that is not below its
 *       length, after 15
 *   17  a net in which some place or transition has no arc, after 3. position: the lowest such place, else 64 plus the
 *       lowest such transition
 *   18  a weight over 4,095, in pre or in post, after 2 and before 3. position: the lowest transition that has one
 * position is 0 where nothing else is said. Of several refusals the lowest number is given, but that 18 comes right
 * after 2, 17 right after 3, and 15 and 16 right after 4; and of one number the lowest position, the initial marking
 * before a list before a target, and the first log before the second. A case file (kaunorpi_read_case) is different:
 * the first faulty line decides, on it 11 and 12 come before 1, 18, 3, 17, 4 and 5, and position is that line; 18 falls
 * on the line of its transition, a frame 07, and 17 on that of the last transition.
 */
#ifndef KAUNORPI_H
#define KAUNORPI_H

#include <stddef.h>
#include <stdint.h>

#ifdef __cplusplus
extern "C" {
#endif

/* Another number with every change of a function, a struct, an answer or a refusal. */
#define KAUNORPI_VERSION 7

#define KAUNORPI_ANSWERED 0x81
#define KAUNORPI_REFUSED 0x82

/* the lengths of a summary's three lists, and the largest counts */
#define KAUNORPI_MOST_PLACES 64
#define KAUNORPI_MOST_TRANSITIONS 64
#define KAUNORPI_MOST_CELLS 4096
#define KAUNORPI_MOST_LETTERS 65535
/* the largest weight of an arc */
#define KAUNORPI_MOST_WEIGHT 4095
/* as a capacity: none; in a cover list: any number */
#define KAUNORPI_NONE 65535
#define KAUNORPI_ANY 65535

/* The net, the way each function is lent it. */
#define KAUNORPI_NET \
    size_t places, size_t transitions, const uint16_t *pre, size_t pre_len, const uint16_t *post, size_t post_len, \
    const uint16_t *caps, size_t caps_len, const uint8_t *marks, size_t marks_len

typedef struct kaunorpi_answer {
    uint8_t kind;
    uint8_t number;
    size_t position;
} kaunorpi_answer;

typedef struct kaunorpi_replay {
    uint8_t kind;
    uint8_t number;
    size_t position;
    size_t place;
} kaunorpi_replay;

typedef struct kaunorpi_summary {
    uint8_t kind;
    uint8_t number;
    size_t position;
    size_t places;
    uint32_t letters;
} kaunorpi_summary;

typedef struct kaunorpi_bound {
    uint8_t kind;
    uint8_t number;
    size_t position;
    uint64_t bound;
} kaunorpi_bound;

typedef struct kaunorpi_list {
    uint8_t kind;
    uint8_t number;
    size_t position;
    size_t transition;
} kaunorpi_list;

typedef struct kaunorpi_places {
    uint8_t kind;
    uint8_t number;
    size_t position;
    size_t places;
} kaunorpi_places;

typedef struct kaunorpi_case {
    uint8_t kind;
    uint8_t number;
    size_t position;
    size_t places;
    size_t transitions;
    size_t letters;
} kaunorpi_case;

typedef struct kaunorpi_length {
    uint8_t kind;
    uint8_t number;
    size_t position;
    size_t length;
} kaunorpi_length;

typedef struct kaunorpi_rest {
    uint8_t kind;
    uint8_t number;
    size_t position;
    size_t log;
    size_t start;
    size_t length;
} kaunorpi_rest;

/* A replay that goes on. It may hold anything when it is lent: what cannot be is refused, and the rest taken as it stands. */
typedef struct kaunorpi_running {
    /* the tokens of each place; the entries past the net's places are not read and stay */
    uint32_t marking[KAUNORPI_MOST_PLACES];
    /* the letters fired since the first part */
    uint32_t fired;
    /* of a block: its letter, counted from the first part, and its place; while nothing blocks they are not read and stay */
    uint32_t position;
    uint32_t place;
    /* 0 while nothing blocks; 1 short of tokens, 2 over capacity; another number is a block too, handed back as it stands */
    uint8_t blocked;
} kaunorpi_running;

/* ---- Replay: can the letters of the word happen in this order? Refusals 1 2 18 3 17 4 5.
 * 0x81 0: all of them. position: how many. room: the tokens of each place afterwards.
 * 0x81 1: letter `position` cannot happen, since `place` has fewer tokens than it takes; no lower place has.
 * 0x81 2: letter `position` cannot happen: no place is short, but `place` would hold more than its capacity, a pocket
 *         before the letter's tokens leave it; no lower place would.
 * In the last two cases room holds the tokens after the letters before that one. room: places entries.
 * Contract: crates/c_replay/src/lib.rt. Theorems: fired_means, fires_fired, fired_longest, blocked_cause in
 * crates/replay/proofs/Meaning.antt. */
kaunorpi_replay kaunorpi_replay_word(KAUNORPI_NET, const uint16_t *initial, size_t initial_len, const uint8_t *word,
                                     size_t word_len, uint32_t *room, size_t room_len);
/* The same for the letters from number start up to, and without, number end. Positions count from start, and the
 * rest of the word is not looked at.
 * Contract: crates/c_replay/src/lib.rt. Theorems: fired_means, fires_fired, fired_longest, blocked_cause in
 * crates/replay/proofs/Meaning.antt. */
kaunorpi_replay kaunorpi_replay_stretch(KAUNORPI_NET, const uint16_t *initial, size_t initial_len, const uint8_t *word,
                                        size_t word_len, size_t start, size_t end, uint32_t *room, size_t room_len);

/* ---- Running replay: a log that comes in parts. A state is set before the first part, and each part is played on it: for
 * any cutting of a word into parts, empty ones too, the last answer and the last state are those of kaunorpi_replay_word of
 * the whole. */

/* Sets the state before the first part. Refusals 1 2 18 3 17.
 * 0x81 0: set, position 0. state: the initial marking, 0 past the places, and 0 everywhere else. A refusal leaves it as
 * found.
 * Contract: crates/c_running/src/lib.rt. Theorems: start_as_found in crates/c_running/proofs/Meaning.antt;
 * start_refused_exactly, start_unique in crates/running/proofs/Exactly.antt. */
kaunorpi_replay kaunorpi_start_replay(KAUNORPI_NET, const uint16_t *initial, size_t initial_len, kaunorpi_running *state);
/* Plays a part of the log from where the state stands. Refusals 1 2 18 3 17 4 5 13. Positions count from the first letter of
 * the first part, but that of 5 from the first letter of this one.
 * 0x81 0: all letters so far can happen. position: how many, those of this part with them. state: the tokens of each place
 *         and the letters fired.
 * 0x81 1: letter `position` cannot happen, since `place` has fewer tokens than it takes; no lower place has.
 * 0x81 2: letter `position` cannot happen: no place is short, but `place` would hold more than its capacity, a pocket
 *         before the letter's tokens leave it; no lower place would.
 * In the last two cases the state has the tokens after the letters before that one, their number, and the block.
 * A state that holds a block already: the answer is that block as it stands, 0x81 and its `blocked`, position and place, and
 * nothing changes; a part with a wrong letter is refused all the same. A refusal leaves the state as found.
 * Contract: crates/c_running/src/lib.rt. Theorems: any_cutting, block_stays, tail_stays in
 * crates/running/proofs/Cutting.antt; resumes in crates/running/proofs/Meaning.antt; refused_exactly, refused_as_found in
 * crates/running/proofs/Exactly.antt. */
kaunorpi_replay kaunorpi_replay_part(KAUNORPI_NET, kaunorpi_running *state, const uint8_t *part, size_t part_len);

/* ---- Summaries: what a word needs, how far it climbs, and what it changes, at each place. At a pocket that has a
 * capacity the climb counts what a letter puts before what it takes: a summary is one of a net with its capacities and
 * marks.
 * A summary is a place count, a number of letters and three lists of exactly 64 entries, need, climb and change, with
 * zeros past the place count. Another length of any of them is refusal 2.
 * 0x81 0: made. places, letters: the summary's own. need, climb, change: its lists, all 64 entries written. */

/* The summary of no letters. Refusals 1 2.
 * Contract: crates/c_summary/src/lib.rt. Theorems: empty_allowed_made in crates/summary/proofs/Exactly.antt;
 * empty_left, empty_right in crates/summary_join/proofs/Meaning.antt. */
kaunorpi_summary kaunorpi_empty_summary(size_t places, uint32_t *need, size_t need_len, uint32_t *climb,
                                        size_t climb_len, int32_t *change, size_t change_len);
/* The summary of a word. Refusals 1 2 18 17 4 5.
 * Contract: crates/c_summary/src/lib.rt. Theorems: word_allowed_made in crates/summary/proofs/Exactly.antt;
 * summary_published in crates/summary_form/proofs/Meaning.antt; fires_iff in crates/summary_ask/proofs/Meaning.antt. */
kaunorpi_summary kaunorpi_summary_word(KAUNORPI_NET, const uint8_t *word, size_t word_len, uint32_t *need,
                                       size_t need_len, uint32_t *climb, size_t climb_len, int32_t *change,
                                       size_t change_len);
/* The same for a stretch of a word (see kaunorpi_replay_stretch). Refusals 1 2 18 17 4 5.
 * Contract: crates/c_summary/src/lib.rt. Theorems: stretch_allowed_made in crates/summary/proofs/Exactly.antt;
 * summary_published in crates/summary_form/proofs/Meaning.antt; fires_iff in crates/summary_ask/proofs/Meaning.antt. */
kaunorpi_summary kaunorpi_summary_stretch(KAUNORPI_NET, const uint8_t *word, size_t word_len, size_t start, size_t end,
                                          uint32_t *need, size_t need_len, uint32_t *climb, size_t climb_len,
                                          int32_t *change, size_t change_len);
/* The summary of the first word followed by the second, from their summaries. Refusals 1 2 6 7.
 * Contract: crates/c_summary_join/src/lib.rt. Theorems: join_allowed_made in crates/summary_join/proofs/Exactly.antt;
 * join_of_words, join_associative in crates/summary_join/proofs/Meaning.antt. */
kaunorpi_summary kaunorpi_join_summaries(size_t first_places, uint32_t first_letters, const uint32_t *first_need,
                                         size_t first_need_len, const uint32_t *first_climb, size_t first_climb_len,
                                         const int32_t *first_change, size_t first_change_len, size_t second_places,
                                         uint32_t second_letters, const uint32_t *second_need, size_t second_need_len,
                                         const uint32_t *second_climb, size_t second_climb_len,
                                         const int32_t *second_change, size_t second_change_len, uint32_t *need,
                                         size_t need_len, uint32_t *climb, size_t climb_len, int32_t *change,
                                         size_t change_len);
/* Does the word of this summary fire from this marking? Refusals 1 2 18 3 17 6. room: places entries.
 * 0x81 0: yes, and room holds the tokens of each place afterwards. 0x81 1: no, and room is as it was.
 * Contract: crates/c_summary_ask/src/lib.rt. Theorems: ask_fires, fires_ask, ask_yes, ask_no in
 * crates/summary_ask/proofs/Meaning.antt. */
kaunorpi_answer kaunorpi_ask_summary(KAUNORPI_NET, const uint16_t *marking, size_t marking_len, size_t summary_places,
                                     uint32_t summary_letters, const uint32_t *need, size_t need_len,
                                     const uint32_t *climb, size_t climb_len, const int32_t *change, size_t change_len,
                                     uint32_t *room, size_t room_len);

/* ---- Weightings. Refusals 1 2 18 17 8.
 * y: places entries. 0x81 0: invariant: every firing keeps the sum of y x tokens. 0x81 1: not invariant; position: the
 * lowest transition that changes the sum.
 * Contract: crates/c_weighting/src/lib.rt. Theorems: place_invariant_exactly, place_no_exactly, accepted_keeps_sum
 * in crates/weighting/proofs/Promise.antt. */
kaunorpi_answer kaunorpi_place_weighting(KAUNORPI_NET, const int16_t *y, size_t y_len);
/* x: transitions entries. 0x81 0: invariant, with a negative entry. 0x81 1: not invariant; position: the lowest place
 * that would change. 0x81 2: invariant and proper, no entry is negative: firing each t x(t) times changes nothing.
 * Contract: crates/c_weighting/src/lib.rt. Theorems: transition_proper_exactly, transition_invariant_exactly,
 * transition_no_exactly, proper_returns in crates/weighting/proofs/Promise.antt. */
kaunorpi_answer kaunorpi_transition_weighting(KAUNORPI_NET, const int16_t *x, size_t x_len);
/* What y bounds the tokens of `place` by. Refusals 1 2 18 3 17 8 13.
 * 0x81 0: bound: the place never holds more. 0x81 1: no bound, since position: 1 y is not invariant, 2 it has a
 * negative entry, 3 y(place) is not positive.
 * Contract: crates/c_weighting/src/lib.rt. Theorems: bounded_holds in crates/weighting_bound/proofs/Promise.antt;
 * bound_judged in crates/weighting_bound/proofs/Meaning.antt. */
kaunorpi_bound kaunorpi_place_bound(KAUNORPI_NET, const uint16_t *initial, size_t initial_len, const int16_t *y,
                                    size_t y_len, size_t place);

/* ---- Sets of places. set: places bytes, 0 for out. Refusals 1 2 18 17 8.
 * 0x81 0: yes. 0x81 1: no; position: the lowest transition that breaks it. */

/* Siphon: every transition that puts into the set takes from it; empty, it stays empty.
 * Contract: crates/c_weighting/src/lib.rt. Theorems: siphon_yes_exactly, siphon_no_exactly, accepted_stays_empty in
 * crates/sets/proofs/Promise.antt. */
kaunorpi_answer kaunorpi_siphon_set(KAUNORPI_NET, const uint8_t *set, size_t set_len);
/* Trap: every transition that takes from the set puts into it; marked, it stays marked.
 * Contract: crates/c_weighting/src/lib.rt. Theorems: trap_yes_exactly, trap_no_exactly, accepted_stays_marked in
 * crates/sets/proofs/Promise.antt. */
kaunorpi_answer kaunorpi_trap_set(KAUNORPI_NET, const uint8_t *set, size_t set_len);

/* ---- Marking lists. list: the markings one after another, places entries each. Refusals 1 2 18 3 17 9.
 * 0x81 1: the list is not accepted: the initial marking is missing from it (or not covered).
 * 0x81 2: the list is not accepted: the result of firing `transition` at listed marking number `position` is missing
 *         from it (or not covered). It is the first such marking, and in it the lowest such transition. */

/* Closed: 0x81 0: accepted: whatever can be reached from the initial marking is listed.
 * Contract: crates/c_lists/src/lib.rt. Theorems: accepted_exactly, initial_missing_exactly, result_missing_exactly,
 * accepted_never_reached in crates/closed/proofs/Promise.antt. */
kaunorpi_list kaunorpi_closed_list(KAUNORPI_NET, const uint16_t *initial, size_t initial_len, const uint16_t *list,
                                   size_t list_len);
/* 0x81 0: the target is never reached. 0x81 3: not shown: it is listed, and a list may hold more than can be reached.
 * Contract: crates/c_lists/src/lib.rt. Theorems: target_shown_exactly, target_open_exactly, shown_never_reached in
 * crates/closed/proofs/Promise.antt. */
kaunorpi_list kaunorpi_closed_target(KAUNORPI_NET, const uint16_t *initial, size_t initial_len, const uint16_t *list,
                                     size_t list_len, const uint16_t *target, size_t target_len);
/* 0x81 0: the line never stalls: every listed marking enables something. 0x81 3: not shown.
 * Contract: crates/c_lists/src/lib.rt. Theorems: stall_shown_exactly, stall_open_exactly, shown_never_stalls in
 * crates/closed/proofs/Promise.antt. */
kaunorpi_list kaunorpi_closed_stall(KAUNORPI_NET, const uint16_t *initial, size_t initial_len, const uint16_t *list,
                                    size_t list_len);
/* Cover: an entry of 65,535 is "any number". Capacities are not used. 0x81 0: accepted: whatever can be reached is
 * covered by a listed marking.
 * Contract: crates/c_lists/src/lib.rt. Theorems: accepted_exactly, initial_missing_exactly, result_missing_exactly,
 * accepted_covers in crates/cover/proofs/Promise.antt. */
kaunorpi_list kaunorpi_cover_list(KAUNORPI_NET, const uint16_t *initial, size_t initial_len, const uint16_t *list,
                                  size_t list_len);
/* 0x81 0: nothing that can be reached covers the target. 0x81 3: not shown.
 * Contract: crates/c_lists/src/lib.rt. Theorems: target_shown_exactly, target_open_exactly, shown_never_covered in
 * crates/cover/proofs/Promise.antt. */
kaunorpi_list kaunorpi_cover_target(KAUNORPI_NET, const uint16_t *initial, size_t initial_len, const uint16_t *list,
                                    size_t list_len, const uint16_t *target, size_t target_len);

/* ---- The complement net: the same net without capacities, which fires the very same words.
 * 0x81 0: places: how many places it has. Refusals 1 2 18 17 10.
 * Contract: crates/c_net/src/lib.rt. Theorems: told_places, told_rooms in crates/complement/proofs/Promise.antt. */
kaunorpi_places kaunorpi_complement_places(KAUNORPI_NET);
/* 0x81 0: the rooms hold it: transitions * n weights in pre2 and in post2, n capacities, n marks and n tokens, where n
 * is what kaunorpi_complement_places answers. The old places come first, with their arcs and tokens; then one place for
 * each place that has a capacity and is a pocket, or that has one and some transition changes (Pre and Post differ), in
 * order of number. It starts with capacity minus tokens. Of a plain place: a transition that adds k to the old place
 * takes k from the new one, one that takes k away puts k there. Of a pocket: a transition takes from the new place what
 * it puts into the old one, and puts there what it takes from the old one. Every capacity is 65,535, none, and every
 * mark 0, plain. Where n is over 64, rooms of another length than n says are 2, and rooms of that length 10.
 * Refusals 1 2 18 3 17 10.
 * Contract: crates/c_net/src/lib.rt. Theorems: made_net, made_initial, made_fires_same, made_blocked_same, made_ready
 * in crates/complement/proofs/Promise.antt. */
kaunorpi_answer kaunorpi_complement_net(KAUNORPI_NET, const uint16_t *initial, size_t initial_len, uint16_t *pre2,
                                        size_t pre2_len, uint16_t *post2, size_t post2_len, uint16_t *caps2,
                                        size_t caps2_len, uint8_t *marks2, size_t marks2_len, uint16_t *initial2,
                                        size_t initial2_len);

/* ---- A case file: its bytes, into a net, a marking and a word. Refusals 2 11 12 1 18 3 17 4 5; but for 2 position is
 * the line.
 * The rooms have the largest sizes, exactly: 64, 64, 64, 4,096, 4,096 and 65,535 entries; another length is refusal 2.
 * 0x81 0: places, transitions, letters: the file's. Its capacities, marks, tokens, weights and letters stand at the
 * front of the rooms; what lies behind them is as it was. A pocket's mark is 1, a plain place's 0; where the file has
 * no frame 06 they are all 0.
 * Contract: crates/c_net/src/lib.rt. Theorems: read_exactly, read_those in crates/file_entry/proofs/Accepted.antt;
 * refused_file in crates/file_entry/proofs/Meaning.antt. */
kaunorpi_case kaunorpi_read_case(const uint8_t *file, size_t file_len, uint16_t *caps, size_t caps_len, uint8_t *marks,
                                 size_t marks_len, uint16_t *initial, size_t initial_len, uint16_t *pre,
                                 size_t pre_len, uint16_t *post, size_t post_len, uint8_t *word, size_t word_len);

/* ---- A case file written back: a net, its initial marking and a word, into the bytes of a file. Each net, marking and
 * word has one file: kaunorpi_read_case reads from those bytes what was written, and of a file that it accepts the same
 * bytes are written again. A mark that is not 0 is written as 1, and read as 1. A transition has a frame 04, with weights
 * of a byte each, or where one of them is over 255 a frame 07, with two. Whether the word fires is not looked at. */

/* the longest file there is: 64 places, some of them pockets, 64 transitions, each with a weight over 255, and 65,535
 * letters, line feeds included */
#define KAUNORPI_FILE_LIMIT 167774

/* How many bytes the file has, so that a room of that length can be lent. Refusals 1 2 18 3 17 4 5.
 * 0x81 0: length.
 * Contract: crates/c_write/src/lib.rt. Theorems: told_length, told_few, told_is_written, short_refused in
 * crates/file_write/proofs/Meaning.antt. */
kaunorpi_length kaunorpi_case_length(KAUNORPI_NET, const uint16_t *initial, size_t initial_len, const uint8_t *word,
                                     size_t word_len);
/* Writes the file to the front of room. A room of as many bytes as kaunorpi_case_length tells is long enough, one of
 * KAUNORPI_FILE_LIMIT for every file; a shorter one is refusal 14, given last. Refusals 1 2 18 3 17 4 5 14.
 * 0x81 0: length: the file is the first `length` bytes of room; what lies behind them is as it was. No zero byte is put
 * at its end.
 * Contract: crates/c_write/src/lib.rt. Theorems: written_length, written_file, written_rest in
 * crates/file_write/proofs/Meaning.antt; read_written, write_read, written_apart in
 * crates/file_round/proofs/Meaning.antt. */
kaunorpi_length kaunorpi_write_case(KAUNORPI_NET, const uint16_t *initial, size_t initial_len, const uint8_t *word,
                                    size_t word_len, uint8_t *room, size_t room_len);

/* ---- Two logs of one line: words of at most KAUNORPI_MOST_LOG letters, each recorded in its own order. An order of
 * the two is a list of one byte for each letter of both: 0 takes the next letter of the first log, 1 the next of the
 * second. It fires if the word that it makes can happen, from the initial marking, in the sense of
 * kaunorpi_replay_word. */

/* the most letters of one log, and the bytes of work space */
#define KAUNORPI_MOST_LOG 255
#define KAUNORPI_WORK_SPACE 65536

/* Is there an order of the two logs that fires? Refusals 1 2 18 3 17 4 15 5. room: first_len + second_len bytes. work:
 * KAUNORPI_WORK_SPACE bytes, which may hold anything.
 * 0x81 0: yes, and room holds it; of several the one that takes from the first log at the earliest step where two
 * differ.
 * 0x81 1: no order of the two logs fires, and room is as it was.
 * Both leave all of work 0; a refusal leaves it as it was. The position in 5 is the letter's in its own log.
 * Contract: crates/c_order/src/lib.rt. Theorems: found_fires, found_first, none_exactly, keeps_order, replays in
 * crates/order/proofs/Meaning.antt. */
kaunorpi_answer kaunorpi_order_logs(KAUNORPI_NET, const uint16_t *initial, size_t initial_len, const uint8_t *first,
                                    size_t first_len, const uint8_t *second, size_t second_len, uint8_t *room,
                                    size_t room_len, uint8_t *work, size_t work_len);
/* May the unread rest be asked for, for a step of an order of the two logs? Steps count from 0. No net is lent: whether
 * the order fires is not looked at. Refusals 4 15 16.
 * 0x81 0: yes.
 * Contract: crates/c_order/src/lib.rt. Theorems: allowed_answered, answered_allowed, refused_exactly in
 * crates/order_rest/proofs/Meaning.antt. */
kaunorpi_answer kaunorpi_rest_fault(const uint8_t *first, size_t first_len, const uint8_t *second, size_t second_len,
                                    const uint8_t *order, size_t order_len, size_t step);
/* What is still unread of the log that the step takes from, from that step's letter on. Refusals 4 15 16.
 * 0x81 0: it is the last `length` letters of log `log`, 0 the first and 1 the second: they begin at letter `start` of
 * it, which is the step's own. There is at least that one.
 * Contract: crates/c_order/src/lib.rt. Theorems: rest_lies, rest_refused in crates/c_order/proofs/Meaning.antt. */
kaunorpi_rest kaunorpi_unread_rest(const uint8_t *first, size_t first_len, const uint8_t *second, size_t second_len,
                                   const uint8_t *order, size_t order_len, size_t step);

#ifdef __cplusplus
}
#endif
#endif
