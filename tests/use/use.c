/* The library from C, with kaunorpi.h alone: a case file is read, written back and replayed, a word is summed up, two
 * summaries are joined and one is asked, a list of markings is judged, two logs are put into one order, a log comes in parts, a
 * pocket jams, a bin is counted in kilograms. What is expected is document 01's case and its samples, worked out by hand there,
 * and of two logs, of parts, of pockets and of kilograms by hand here. Prints nothing and ends with 0 where every answer is right, else prints the lines that
 * are not. */
#include <stdio.h>
#include <string.h>

#include "kaunorpi.h"

static int wrong;
#define EXPECT(test) ((test) ? (void)0 : (void)(wrong = 1, printf("tests/use/use.c:%d: %s does not hold\n", __LINE__, #test)))

static const char case_file[] = "010303\n02FFFFFFFF0005\n03000100000000\n0400010000000100\n0401000100010002\n0402000003000000\n050001000102\n";

/* The rooms of the largest sizes that a case file is read into; the net is then their front. */
static uint16_t caps[KAUNORPI_MOST_PLACES], initial[KAUNORPI_MOST_PLACES], pre[KAUNORPI_MOST_CELLS], post[KAUNORPI_MOST_CELLS];
static uint8_t marks[KAUNORPI_MOST_PLACES], word[KAUNORPI_MOST_LETTERS];
#define NET 3, 3, pre, 9, post, 9, caps, 3, marks, 3

/* A summary as C holds one. */
typedef struct {
    size_t places;
    uint32_t letters;
    uint32_t need[KAUNORPI_MOST_PLACES], climb[KAUNORPI_MOST_PLACES];
    int32_t change[KAUNORPI_MOST_PLACES];
} summary;
#define LISTS(s) (s).need, KAUNORPI_MOST_PLACES, (s).climb, KAUNORPI_MOST_PLACES, (s).change, KAUNORPI_MOST_PLACES
#define SUMMARY(s) (s).places, (s).letters, LISTS(s)

static int slot_is(const summary *s, size_t place, uint32_t need, uint32_t climb, int32_t change) {
    return s->need[place] == need && s->climb[place] == climb && s->change[place] == change;
}

static summary sum_up(const uint8_t *letters, size_t n) {
    summary s;
    memset(&s, 7, sizeof s);
    kaunorpi_summary r = kaunorpi_summary_word(NET, letters, n, LISTS(s));
    EXPECT(r.kind == KAUNORPI_ANSWERED && r.number == 0 && r.position == 0 && r.places == 3 && r.letters == n);
    s.places = r.places;
    s.letters = r.letters;
    return s;
}

static void read_the_case(void) {
    const uint8_t *file = (const uint8_t *)case_file;
    size_t bytes = sizeof case_file - 1;
    word[5] = 7;
    memset(marks, 7, sizeof marks);
    kaunorpi_case r = kaunorpi_read_case(file, bytes - 1, caps, 64, marks, 64, initial, 64, pre, 4096, post, 4096, word, 65535);
    EXPECT(r.kind == KAUNORPI_REFUSED && r.number == 11 && r.position == 7 && r.places == 0 && caps[0] == 0);
    r = kaunorpi_read_case(file, bytes, caps, 63, marks, 64, initial, 64, pre, 4096, post, 4096, word, 65535);
    EXPECT(r.kind == KAUNORPI_REFUSED && r.number == 2 && r.position == 0 && caps[0] == 0);
    r = kaunorpi_read_case(file, bytes, caps, 64, marks, 65, initial, 64, pre, 4096, post, 4096, word, 65535);
    EXPECT(r.kind == KAUNORPI_REFUSED && r.number == 2 && r.position == 0 && caps[0] == 0 && marks[0] == 7);
    r = kaunorpi_read_case(file, bytes, caps, 64, marks, 64, initial, 64, pre, 4096, post, 4096, word, 65535);
    EXPECT(r.kind == KAUNORPI_ANSWERED && r.number == 0 && r.position == 0);
    EXPECT(r.places == 3 && r.transitions == 3 && r.letters == 5);
    EXPECT(caps[0] == KAUNORPI_NONE && caps[2] == 5 && caps[3] == 0 && initial[0] == 1 && initial[1] == 0);
    /* the file has no frame 06: all places are plain */
    EXPECT(marks[0] == 0 && marks[1] == 0 && marks[2] == 0 && marks[3] == 7);
    EXPECT(pre[0] == 1 && post[1] == 1 && pre[4] == 1 && post[5] == 2 && pre[8] == 3 && pre[9] == 0);
    EXPECT(word[0] == 0 && word[1] == 1 && word[4] == 2 && word[5] == 7);
}

/* The net and the word that were read, as a file again. */
static void write_it_back(void) {
    uint8_t room[sizeof case_file];
    size_t bytes = sizeof case_file - 1;
    memset(room, 7, sizeof room);
    kaunorpi_length r = kaunorpi_case_length(NET, initial, 3, word, 5);
    EXPECT(r.kind == KAUNORPI_ANSWERED && r.number == 0 && r.position == 0 && r.length == bytes);
    r = kaunorpi_write_case(NET, initial, 3, word, 5, room, bytes - 1);
    EXPECT(r.kind == KAUNORPI_REFUSED && r.number == 14 && r.position == 0 && r.length == 0 && room[0] == 7);
    r = kaunorpi_write_case(NET, initial, 3, word, 5, room, sizeof room);
    EXPECT(r.kind == KAUNORPI_ANSWERED && r.number == 0 && r.position == 0 && r.length == bytes);
    EXPECT(memcmp(room, case_file, bytes) == 0 && room[bytes] == 7);
}

static void replay(void) {
    static const uint8_t six[] = {0, 1, 0, 1, 0, 1}, lone[] = {2};
    uint32_t room[3] = {7, 7, 7};
    /* the case file's own word */
    kaunorpi_replay r = kaunorpi_replay_word(NET, initial, 3, word, 5, room, 3);
    EXPECT(r.kind == KAUNORPI_ANSWERED && r.number == 0 && r.position == 5 && r.place == 0);
    EXPECT(room[0] == 1 && room[1] == 0 && room[2] == 1);
    /* samples 1 to 4 */
    r = kaunorpi_replay_word(NET, initial, 3, six, 4, room, 3);
    EXPECT(r.number == 0 && r.position == 4 && room[0] == 1 && room[1] == 0 && room[2] == 4);
    r = kaunorpi_replay_word(NET, initial, 3, six, 6, room, 3);
    EXPECT(r.kind == KAUNORPI_ANSWERED && r.number == 2 && r.position == 5 && r.place == 2);
    EXPECT(room[0] == 0 && room[1] == 1 && room[2] == 4);
    r = kaunorpi_replay_word(NET, initial, 3, lone, 1, room, 3);
    EXPECT(r.number == 1 && r.position == 0 && r.place == 2);
    r = kaunorpi_replay_word(NET, initial, 3, NULL, 0, room, 3);
    EXPECT(r.number == 0 && r.position == 0 && room[0] == 1 && room[1] == 0 && room[2] == 0);
    /* a stretch, and one that ends past its word */
    r = kaunorpi_replay_stretch(NET, initial, 3, six, 6, 2, 4, room, 3);
    EXPECT(r.number == 0 && r.position == 2 && room[2] == 2);
    room[0] = 7;
    r = kaunorpi_replay_stretch(NET, initial, 3, six, 6, 2, 7, room, 3);
    EXPECT(r.kind == KAUNORPI_REFUSED && r.number == 2 && r.position == 0 && room[0] == 7);
}

static void summaries(void) {
    static const uint8_t pair[] = {0, 1}, lone[] = {2};
    uint32_t room[3] = {7, 7, 7};
    summary s = sum_up(pair, 2), t = sum_up(lone, 1), both;
    /* sample 5, and zeros past the places */
    EXPECT(slot_is(&s, 0, 1, 0, 0) && slot_is(&s, 1, 0, 1, 0) && slot_is(&s, 2, 0, 2, 2) && slot_is(&s, 3, 0, 0, 0) && slot_is(&s, 63, 0, 0, 0));
    /* samples 6 and 7 */
    kaunorpi_summary r = kaunorpi_join_summaries(SUMMARY(s), SUMMARY(t), LISTS(both));
    EXPECT(r.kind == KAUNORPI_ANSWERED && r.number == 0 && r.places == 3 && r.letters == 3 && slot_is(&both, 2, 1, 2, -1));
    r = kaunorpi_join_summaries(SUMMARY(t), SUMMARY(s), LISTS(both));
    EXPECT(r.letters == 3 && slot_is(&both, 2, 3, 0, -1));
    /* 0 1 fires from the initial marking and 2 does not */
    kaunorpi_answer a = kaunorpi_ask_summary(NET, initial, 3, SUMMARY(t), room, 3);
    EXPECT(a.kind == KAUNORPI_ANSWERED && a.number == 1 && room[0] == 7 && room[2] == 7);
    a = kaunorpi_ask_summary(NET, initial, 3, SUMMARY(s), room, 3);
    EXPECT(a.number == 0 && room[0] == 1 && room[1] == 0 && room[2] == 2);
    /* a list of another length: 2, after 1 and before all else, and nothing is written */
    s.letters = 65536;
    a = kaunorpi_ask_summary(NET, initial, 3, s.places, s.letters, s.need, 63, s.climb, 64, s.change, 64, room, 3);
    EXPECT(a.kind == KAUNORPI_REFUSED && a.number == 2);
    a = kaunorpi_ask_summary(NET, initial, 3, 65, s.letters, s.need, 63, s.climb, 64, s.change, 64, room, 3);
    EXPECT(a.kind == KAUNORPI_REFUSED && a.number == 1);
    a = kaunorpi_ask_summary(NET, initial, 3, SUMMARY(s), room, 3);
    EXPECT(a.kind == KAUNORPI_REFUSED && a.number == 6 && room[2] == 2);
    both.need[0] = 7;
    r = kaunorpi_empty_summary(3, both.need, 64, both.climb, 64, both.change, 65);
    EXPECT(r.kind == KAUNORPI_REFUSED && r.number == 2 && r.places == 0 && both.need[0] == 7);
    r = kaunorpi_empty_summary(0, both.need, 64, both.climb, 64, both.change, 65);
    EXPECT(r.kind == KAUNORPI_REFUSED && r.number == 1 && both.need[0] == 7);
    r = kaunorpi_empty_summary(3, LISTS(both));
    EXPECT(r.kind == KAUNORPI_ANSWERED && r.number == 0 && r.places == 3 && r.letters == 0 && slot_is(&both, 0, 0, 0, 0));
    r = kaunorpi_summary_stretch(NET, word, 5, 1, 0, LISTS(both));
    EXPECT(r.kind == KAUNORPI_REFUSED && r.number == 2);
}

/* "the closed list of all 12 markings (one of places 0 and 1 marked, place 2 from 0 to 5) accepted, and failing when
 * (0,1,5) is struck out"; sample 12; samples 8 to 11; the complement net. */
static void lists_and_weightings(void) {
    static const uint16_t cover[] = {1, 0, KAUNORPI_ANY, 0, 1, KAUNORPI_ANY}, target[] = {1, 1, 0};
    static const int16_t y[] = {1, 1, 0}, alone[] = {0, 0, 1}, x[] = {3, 3, 2};
    static const uint8_t ends[] = {1, 1, 0}, last[] = {0, 0, 1};
    uint16_t list[36];
    size_t n = 0;
    for (uint16_t tokens = 0; tokens < 6; tokens++)
        for (uint16_t first = 0; first < 2; first++) {
            list[n++] = (uint16_t)(1 - first);
            list[n++] = first;
            list[n++] = tokens;
        }
    EXPECT(list[33] == 0 && list[34] == 1 && list[35] == 5);
    kaunorpi_list l = kaunorpi_closed_list(NET, initial, 3, list, 36);
    EXPECT(l.kind == KAUNORPI_ANSWERED && l.number == 0 && l.position == 0 && l.transition == 0);
    /* without the last, (1,0,5) is number 10, and transition 0 leads from it to what is struck out */
    l = kaunorpi_closed_list(NET, initial, 3, list, 33);
    EXPECT(l.kind == KAUNORPI_ANSWERED && l.number == 2 && l.position == 10 && l.transition == 0);
    l = kaunorpi_closed_target(NET, initial, 3, list, 36, target, 3);
    EXPECT(l.number == 0);
    l = kaunorpi_cover_list(NET, initial, 3, cover, 6);
    EXPECT(l.kind == KAUNORPI_ANSWERED && l.number == 0);
    l = kaunorpi_cover_target(NET, initial, 3, cover, 6, target, 3);
    EXPECT(l.kind == KAUNORPI_ANSWERED && l.number == 0);
    l = kaunorpi_cover_list(NET, initial, 3, cover, 5);
    EXPECT(l.kind == KAUNORPI_REFUSED && l.number == 2 && l.position == 0);
    kaunorpi_answer a = kaunorpi_place_weighting(NET, y, 3);
    EXPECT(a.kind == KAUNORPI_ANSWERED && a.number == 0 && a.position == 0);
    a = kaunorpi_place_weighting(NET, alone, 3);
    EXPECT(a.kind == KAUNORPI_ANSWERED && a.number == 1 && a.position == 1);
    kaunorpi_bound b = kaunorpi_place_bound(NET, initial, 3, y, 3, 0);
    EXPECT(b.kind == KAUNORPI_ANSWERED && b.number == 0 && b.position == 0 && b.bound == 1);
    b = kaunorpi_place_bound(NET, initial, 3, y, 3, 2);
    EXPECT(b.kind == KAUNORPI_ANSWERED && b.number == 1 && b.position == 3 && b.bound == 0);
    a = kaunorpi_transition_weighting(NET, x, 3);
    EXPECT(a.kind == KAUNORPI_ANSWERED && a.number == 2);
    EXPECT(kaunorpi_siphon_set(NET, ends, 3).number == 0 && kaunorpi_trap_set(NET, ends, 3).number == 0);
    EXPECT(kaunorpi_siphon_set(NET, last, 3).number == 1 && kaunorpi_siphon_set(NET, last, 3).position == 1);
    EXPECT(kaunorpi_trap_set(NET, last, 3).number == 1 && kaunorpi_trap_set(NET, last, 3).position == 2);
    kaunorpi_places p = kaunorpi_complement_places(NET);
    EXPECT(p.kind == KAUNORPI_ANSWERED && p.number == 0 && p.position == 0 && p.places == 4);
    uint16_t pre2[12], post2[12], caps2[4], initial2[4];
    uint8_t marks2[4] = {7, 7, 7, 7};
    a = kaunorpi_complement_net(NET, initial, 3, pre2, 12, post2, 12, caps2, 4, marks2, 4, initial2, 4);
    EXPECT(a.kind == KAUNORPI_ANSWERED && a.number == 0 && initial2[3] == 5 && caps2[3] == KAUNORPI_NONE && pre2[7] == 2 && post2[11] == 3);
    EXPECT(marks2[0] == 0 && marks2[3] == 0);
    /* the line: place 2 full and place 1 marked, transition 2 still fires, so it never stalls */
    l = kaunorpi_closed_stall(NET, initial, 3, list, 36);
    EXPECT(l.kind == KAUNORPI_ANSWERED && l.number == 0);
}

/* Two recorders: one wrote each 0, the other each 1 and then a 2. 0 and 1 go by turns, so that only 0 1 0 1 2 fires; with a
 * third 1 and no third 0 none does. */
static void two_logs(void) {
    static const uint8_t zeros[] = {0, 0}, others[] = {1, 1, 2}, late[] = {1, 1, 1, 2};
    static uint8_t work[KAUNORPI_WORK_SPACE];
    uint8_t order[7];
    memset(order, 7, sizeof order);
    memset(work, 7, sizeof work);
    kaunorpi_answer a = kaunorpi_order_logs(NET, initial, 3, zeros, 2, others, 3, order, 5, work, sizeof work - 1);
    EXPECT(a.kind == KAUNORPI_REFUSED && a.number == 2 && a.position == 0 && order[0] == 7 && work[0] == 7);
    a = kaunorpi_order_logs(NET, initial, 3, zeros, 2, others, 3, order, 5, work, sizeof work);
    EXPECT(a.kind == KAUNORPI_ANSWERED && a.number == 0 && a.position == 0 && work[0] == 0 && work[sizeof work - 1] == 0);
    EXPECT(order[0] == 0 && order[1] == 1 && order[2] == 0 && order[3] == 1 && order[4] == 1 && order[5] == 7);
    /* step 3 takes the second 1, and the 2 lies behind it */
    kaunorpi_rest r = kaunorpi_unread_rest(zeros, 2, others, 3, order, 5, 3);
    EXPECT(r.kind == KAUNORPI_ANSWERED && r.number == 0 && r.log == 1 && r.start == 1 && r.length == 2);
    r = kaunorpi_unread_rest(zeros, 2, others, 3, order, 5, 2);
    EXPECT(r.log == 0 && r.start == 1 && r.length == 1);
    EXPECT(kaunorpi_rest_fault(zeros, 2, others, 3, order, 5, 4).kind == KAUNORPI_ANSWERED);
    EXPECT(kaunorpi_rest_fault(zeros, 2, others, 3, order, 5, 5).number == 16);
    r = kaunorpi_unread_rest(zeros, 2, others, 3, order, 4, 0);
    EXPECT(r.kind == KAUNORPI_REFUSED && r.number == 16 && r.log == 0 && r.start == 0 && r.length == 0);
    order[0] = 7;
    work[0] = 7;
    a = kaunorpi_order_logs(NET, initial, 3, zeros, 2, late, 4, order, 6, work, sizeof work);
    EXPECT(a.kind == KAUNORPI_ANSWERED && a.number == 1 && order[0] == 7 && work[0] == 0);
}

/* The case's word 0 1 0 1 2 in parts, an empty one among them, from a state that held anything; then sample 2's, which is over at
 * letter 5: the block stays, a wrong letter is refused all the same, and what is past the three places is never touched. */
static void parts(void) {
    static const uint8_t over[] = {0, 1, 0, 1}, wrong_letter[] = {0, 3};
    kaunorpi_running s, before;
    memset(&s, 7, sizeof s);
    kaunorpi_replay r = kaunorpi_start_replay(NET, initial, 2, &s);
    EXPECT(r.kind == KAUNORPI_REFUSED && r.number == 2 && r.position == 0 && s.blocked == 7 && s.marking[0] == 0x07070707);
    r = kaunorpi_start_replay(NET, initial, 3, &s);
    EXPECT(r.kind == KAUNORPI_ANSWERED && r.number == 0 && r.position == 0 && r.place == 0);
    EXPECT(s.marking[0] == 1 && s.marking[2] == 0 && s.marking[63] == 0 && s.fired == 0 && s.blocked == 0);
    s.marking[3] = 4000000000;
    r = kaunorpi_replay_part(NET, &s, word, 2);
    EXPECT(r.kind == KAUNORPI_ANSWERED && r.number == 0 && r.position == 2 && s.fired == 2 && s.marking[2] == 2);
    r = kaunorpi_replay_part(NET, &s, NULL, 0);
    EXPECT(r.kind == KAUNORPI_ANSWERED && r.number == 0 && r.position == 2 && s.fired == 2);
    before = s;
    r = kaunorpi_replay_part(NET, &s, word + 2, 3);
    EXPECT(r.kind == KAUNORPI_ANSWERED && r.number == 0 && r.position == 5 && s.fired == 5 && s.marking[2] == 1);
    /* a state that was kept goes on as if nothing had happened */
    s = before;
    r = kaunorpi_replay_part(NET, &s, over, 4);
    EXPECT(r.kind == KAUNORPI_ANSWERED && r.number == 2 && r.position == 5 && r.place == 2);
    EXPECT(s.fired == 5 && s.position == 5 && s.place == 2 && s.blocked == 2 && s.marking[1] == 1 && s.marking[2] == 4);
    r = kaunorpi_replay_part(NET, &s, NULL, 0);
    EXPECT(r.kind == KAUNORPI_ANSWERED && r.number == 2 && r.position == 5 && r.place == 2 && s.fired == 5);
    r = kaunorpi_replay_part(NET, &s, wrong_letter, 2);
    EXPECT(r.kind == KAUNORPI_REFUSED && r.number == 5 && r.position == 1 && s.blocked == 2 && s.fired == 5);
    s.place = 3;
    r = kaunorpi_replay_part(NET, &s, word, 1);
    EXPECT(r.kind == KAUNORPI_REFUSED && r.number == 13 && r.position == 0);
    s.marking[2] = 6;
    EXPECT(kaunorpi_replay_part(NET, &s, word, 1).number == 3 && s.marking[3] == 4000000000);
    s.marking[2] = 4;
    s.fired = 65535;
    EXPECT(kaunorpi_replay_part(NET, &s, word, 1).number == 4);
}

/* A belt pocket for one board, with one in it: transition 0 takes it and brings the next. As a plain place it passes, as a
 * pocket it jams; without a capacity a pocket passes too. The file of the pocket has a frame 06, and is read with a mark of 1. */
static void pockets(void) {
    static const char jams[] = "010101\n020001\n060000000000000001\n030001\n04000101\n0500\n";
    static const uint8_t letter[] = {0}, plain[] = {0}, other[] = {255};
    static const uint16_t one[] = {1}, capacity[] = {1}, none[] = {KAUNORPI_NONE}, board[] = {1};
    uint32_t room[1] = {7}, need[64], climb[64];
    int32_t change[64];
    uint8_t marks2[2] = {7, 7}, file[sizeof jams];
    uint16_t pre2[2], post2[2], caps2[2], initial2[2];
    kaunorpi_replay r = kaunorpi_replay_word(1, 1, one, 1, one, 1, capacity, 1, plain, 1, board, 1, letter, 1, room, 1);
    EXPECT(r.number == 0 && r.position == 1 && room[0] == 1);
    r = kaunorpi_replay_word(1, 1, one, 1, one, 1, capacity, 1, other, 1, board, 1, letter, 1, room, 1);
    EXPECT(r.kind == KAUNORPI_ANSWERED && r.number == 2 && r.position == 0 && r.place == 0);
    r = kaunorpi_replay_word(1, 1, one, 1, one, 1, none, 1, other, 1, board, 1, letter, 1, room, 1);
    EXPECT(r.number == 0 && r.position == 1);
    r = kaunorpi_replay_word(1, 1, one, 1, one, 1, capacity, 1, NULL, 0, board, 1, letter, 1, room, 1);
    EXPECT(r.kind == KAUNORPI_REFUSED && r.number == 2 && r.position == 0);
    kaunorpi_summary s = kaunorpi_summary_word(1, 1, one, 1, one, 1, capacity, 1, other, 1, letter, 1, need, 64, climb, 64, change, 64);
    EXPECT(s.number == 0 && need[0] == 1 && climb[0] == 1 && change[0] == 0);
    s = kaunorpi_summary_word(1, 1, one, 1, one, 1, none, 1, other, 1, letter, 1, need, 64, climb, 64, change, 64);
    EXPECT(s.number == 0 && need[0] == 1 && climb[0] == 0 && change[0] == 0);
    EXPECT(kaunorpi_complement_places(1, 1, one, 1, one, 1, capacity, 1, plain, 1).places == 1);
    EXPECT(kaunorpi_complement_places(1, 1, one, 1, one, 1, capacity, 1, other, 1).places == 2);
    kaunorpi_answer a = kaunorpi_complement_net(1, 1, one, 1, one, 1, capacity, 1, other, 1, board, 1, pre2, 2, post2, 2, caps2, 2, marks2, 2, initial2, 2);
    EXPECT(a.number == 0 && pre2[1] == 1 && post2[1] == 1 && caps2[1] == KAUNORPI_NONE && marks2[0] == 0 && marks2[1] == 0 && initial2[1] == 0);
    kaunorpi_length l = kaunorpi_write_case(1, 1, one, 1, one, 1, capacity, 1, other, 1, board, 1, letter, 1, file, sizeof file);
    EXPECT(l.number == 0 && l.length == sizeof jams - 1 && memcmp(file, jams, sizeof jams - 1) == 0);
    kaunorpi_case c = kaunorpi_read_case(file, l.length, caps, 64, marks, 64, initial, 64, pre, 4096, post, 4096, word, 65535);
    EXPECT(c.kind == KAUNORPI_ANSWERED && c.places == 1 && caps[0] == 1 && marks[0] == 1 && marks[1] == 0 && initial[0] == 1);
}

/* A chip bin for 6,000 kilograms with 2,600 in it: transition 0 brings 1,500, transition 1 takes 4,095. Two loads fit, a third
 * does not; after two the truck can come. The row of both is a frame 07, and a weight of 4,096 is refusal 18. */
static void kilograms(void) {
    static const char bin[] = "010102\n021770\n030A28\n0700000005DC\n07010FFF0000\n05000001\n";
    static const uint16_t takes[] = {0, 4095}, puts[] = {1500, 0}, heavy[] = {0, 4096}, capacity[] = {6000}, held[] = {2600};
    static const uint8_t plain[] = {0}, loads[] = {0, 0, 1, 0}, three[] = {0, 0, 0};
    uint32_t room[1] = {7}, need[64], climb[64];
    int32_t change[64];
    uint8_t file[sizeof bin];
    kaunorpi_replay r = kaunorpi_replay_word(1, 2, takes, 2, puts, 2, capacity, 1, plain, 1, held, 1, loads, 4, room, 1);
    EXPECT(r.kind == KAUNORPI_ANSWERED && r.number == 0 && r.position == 4 && room[0] == 3005);
    r = kaunorpi_replay_word(1, 2, takes, 2, puts, 2, capacity, 1, plain, 1, held, 1, three, 3, room, 1);
    EXPECT(r.kind == KAUNORPI_ANSWERED && r.number == 2 && r.position == 2 && r.place == 0 && room[0] == 5600);
    r = kaunorpi_replay_word(1, 2, takes, 2, puts, 2, capacity, 1, plain, 1, held, 1, loads + 2, 1, room, 1);
    EXPECT(r.kind == KAUNORPI_ANSWERED && r.number == 1 && r.position == 0 && r.place == 0 && room[0] == 2600);
    r = kaunorpi_replay_word(1, 2, heavy, 2, puts, 2, capacity, 1, plain, 1, held, 1, loads, 4, room, 1);
    EXPECT(r.kind == KAUNORPI_REFUSED && r.number == 18 && r.position == 1 && room[0] == 2600);
    r = kaunorpi_replay_word(1, 2, puts, 2, heavy, 2, capacity, 1, plain, 1, held, 1, loads, 4, room, 1);
    EXPECT(r.kind == KAUNORPI_REFUSED && r.number == 18 && r.position == 1);
    kaunorpi_summary s = kaunorpi_summary_word(1, 2, takes, 2, puts, 2, capacity, 1, plain, 1, loads, 3, need, 64, climb, 64, change, 64);
    EXPECT(s.number == 0 && need[0] == 1095 && climb[0] == 3000 && change[0] == -1095);
    kaunorpi_length l = kaunorpi_write_case(1, 2, takes, 2, puts, 2, capacity, 1, plain, 1, held, 1, loads, 3, file, sizeof file);
    EXPECT(l.number == 0 && l.length == sizeof bin - 1 && memcmp(file, bin, sizeof bin - 1) == 0);
    kaunorpi_case c = kaunorpi_read_case(file, l.length, caps, 64, marks, 64, initial, 64, pre, 4096, post, 4096, word, 65535);
    EXPECT(c.kind == KAUNORPI_ANSWERED && c.transitions == 2 && pre[0] == 0 && pre[1] == 4095 && post[0] == 1500 && post[1] == 0);
}

int main(void) {
    read_the_case();
    write_it_back();
    replay();
    summaries();
    lists_and_weightings();
    two_logs();
    parts();
    pockets();
    kilograms();
    return wrong;
}
