/* bench: each question through the library and through the same algorithm in C, in turn, the best time of each.
 * Prints a line for each row: question|size|ns of the library|ns of C, and of an order how many pairs of letters read were
 * looked at. bench/run makes a table of several such runs.
 * Sizes are volatile, so that no compiler knows them; both sides' answers and rooms are compared after every round. */
#include "same.h"

#include <stdio.h>
#include <stdlib.h>
#include <string.h>
#include <time.h>

#define PROCESS_CLOCK 2 /* Linux's CLOCK_PROCESS_CPUTIME_ID */

#define SIDE(question) \
    static __typeof__(kaunorpi_##question) *volatile side_##question[2] = {kaunorpi_##question, same_##question};
SIDE(replay_word)
SIDE(start_replay)
SIDE(replay_part)
SIDE(summary_word)
SIDE(join_summaries)
SIDE(place_weighting)
SIDE(closed_list)
static __typeof__(kaunorpi_replay_word) *volatile side_plain_replay[2] = {kaunorpi_replay_word, plain_replay_word};
static __typeof__(kaunorpi_closed_list) *volatile side_plain_list[2] = {kaunorpi_closed_list, plain_closed_list};
#ifdef BASE
static __typeof__(kaunorpi_closed_list) base_list;
static __typeof__(kaunorpi_closed_list) *volatile side_base_list[2] = {kaunorpi_closed_list, base_list};
#endif
SIDE(cover_list)
SIDE(complement_net)
SIDE(read_case)
SIDE(write_case)
SIDE(order_logs)

/* What is lent. */
static volatile size_t P, T, cells, letters, part_letters, entries, file_size, wide, log_length[2];
static uint16_t pre[4096], post[4096], caps[64], initial[64], list[4096 * 64];
static uint8_t marks[64], word[65535], file[KAUNORPI_FILE_LIMIT], logs[2][KAUNORPI_MOST_LOG];
static int16_t weights[64];
static uint32_t need[2][64], climb[2][64];
static int32_t change[2][64];
static uint32_t half[2];

/* What each side answers and writes. */
static struct written {
    uint64_t answer[4];
    uint32_t room[64], need[64], climb[64];
    int32_t change[64];
    uint16_t caps[64], initial[64], pre[4096], post[4096];
    uint8_t marks[64], word[65535], file[KAUNORPI_FILE_LIMIT], order[2 * KAUNORPI_MOST_LOG], work[KAUNORPI_WORK_SPACE];
} out[2];

#define NET P, T, pre, cells, post, cells, caps, P, marks, P
#define ROOMS o->need, 64, o->climb, 64, o->change, 64

/* Keeps an answer's numbers beside the rooms. */
static void keep(struct written *o, uint8_t kind, uint8_t number, size_t position, size_t more) {
    o->answer[0] = kind;
    o->answer[1] = number;
    o->answer[2] = position;
    o->answer[3] = more;
}

/* Each question put to a side, its answer and rooms kept in that side's memory. */
static void ask_replay(int side) {
    struct written *o = &out[side];
    kaunorpi_replay a = side_replay_word[side](NET, initial, P, word, letters, o->room, P);
    keep(o, a.kind, a.number, a.position, a.place);
}

static void ask_plain_replay(int side) {
    struct written *o = &out[side];
    kaunorpi_replay a = side_plain_replay[side](NET, initial, P, word, letters, o->room, P);
    keep(o, a.kind, a.number, a.position, a.place);
}

/* The word in parts; the state's numbers are kept beside the answer, since the bytes behind its last field are nobody's. */
static void ask_parts(int side) {
    static kaunorpi_running states[2];
    kaunorpi_running *s = &states[side];
    kaunorpi_replay a = side_start_replay[side](NET, initial, P, s);
    for (size_t from = 0; from < letters; from += part_letters)
        a = side_replay_part[side](NET, s, word + from, letters - from < part_letters ? letters - from : part_letters);
    memcpy(out[side].room, s->marking, sizeof s->marking);
    keep(&out[side], a.kind, (uint8_t)(a.number | s->blocked), a.position, s->fired);
}

static void ask_summary(int side) {
    struct written *o = &out[side];
    kaunorpi_summary a = side_summary_word[side](NET, word, letters, ROOMS);
    keep(o, a.kind, a.number, a.position, a.letters);
}

static void ask_join(int side) {
    struct written *o = &out[side];
    kaunorpi_summary a = side_join_summaries[side](P, half[0], need[0], 64, climb[0], 64, change[0], 64, P, half[1],
                                                   need[1], 64, climb[1], 64, change[1], 64, ROOMS);
    keep(o, a.kind, a.number, a.position, a.letters);
}

static void ask_weighting(int side) {
    kaunorpi_answer a = side_place_weighting[side](NET, weights, P);
    keep(&out[side], a.kind, a.number, a.position, 0);
}

static void ask_closed(int side) {
    kaunorpi_list a = side_closed_list[side](NET, initial, P, list, entries);
    keep(&out[side], a.kind, a.number, a.position, a.transition);
}

static void ask_plain(int side) {
    kaunorpi_list a = side_plain_list[side](NET, initial, P, list, entries);
    keep(&out[side], a.kind, a.number, a.position, a.transition);
}

#ifdef BASE
/* The library's closed_list as the base had it: weights of a byte, no marks. */
kaunorpi_list base_closed_list(size_t places, size_t transitions, const uint8_t *pre, size_t pre_len, const uint8_t *post,
                               size_t post_len, const uint16_t *caps, size_t caps_len, const uint16_t *initial,
                               size_t initial_len, const uint16_t *list, size_t list_len);

static kaunorpi_list base_list(KAUNORPI_NET, const uint16_t *initial, size_t initial_len, const uint16_t *list,
                               size_t list_len) {
    static uint8_t takes[4096], puts[4096];
    (void)marks, (void)marks_len;
    for (size_t k = 0; k < pre_len; k++) {
        takes[k] = (uint8_t)pre[k];
        puts[k] = (uint8_t)post[k];
    }
    return base_closed_list(places, transitions, takes, pre_len, puts, post_len, caps, caps_len, initial, initial_len, list,
                            list_len);
}

static void ask_base(int side) {
    kaunorpi_list a = side_base_list[side](NET, initial, P, list, entries);
    keep(&out[side], a.kind, a.number, a.position, a.transition);
}
#endif

static void ask_cover(int side) {
    kaunorpi_list a = side_cover_list[side](NET, initial, P, list, entries);
    keep(&out[side], a.kind, a.number, a.position, a.transition);
}

static void ask_complement(int side) {
    struct written *o = &out[side];
    kaunorpi_answer a = side_complement_net[side](NET, initial, P, o->pre, T * wide, o->post, T * wide, o->caps, wide,
                                                  o->marks, wide, o->initial, wide);
    keep(o, a.kind, a.number, a.position, 0);
}

static void ask_case(int side) {
    struct written *o = &out[side];
    kaunorpi_case a = side_read_case[side](file, file_size, o->caps, 64, o->marks, 64, o->initial, 64, o->pre, 4096, o->post,
                                           4096, o->word, 65535);
    keep(o, a.kind, a.number, a.position, a.letters);
}

static void ask_write(int side) {
    struct written *o = &out[side];
    kaunorpi_length a = side_write_case[side](NET, initial, P, word, letters, o->file, sizeof o->file);
    keep(o, a.kind, a.number, a.position, a.length);
}

static void ask_order(int side) {
    struct written *o = &out[side];
    kaunorpi_answer a = side_order_logs[side](NET, initial, P, logs[0], log_length[0], logs[1], log_length[1], o->order,
                                              log_length[0] + log_length[1], o->work, sizeof o->work);
    keep(o, a.kind, a.number, a.position, 0);
}

/* A number by chance, always the same ones. */
static size_t below(size_t n) {
    static uint64_t state = 1;
    state = state * 6364136223846793005u + 1442695040888963407u;
    return (size_t)(state >> 33) % n;
}

/* A net of 64 transitions that each move a token on, with loops beside; capacities at every other place. */
static void make_ring(size_t places) {
    P = places;
    T = 64;
    cells = places * 64;
    for (size_t t = 0; t < 64; t++)
        for (size_t p = 0; p < places; p++) {
            uint16_t loop = (uint16_t)below(3);
            pre[t * places + p] = (uint16_t)(loop + (p == t % places));
            post[t * places + p] = (uint16_t)(loop + (p == (t + 1) % places));
        }
    for (size_t p = 0; p < places; p++) {
        caps[p] = p % 2 ? 65534 : 65535;
        initial[p] = 30000;
        weights[p] = 1;
    }
}

/* The longest word, all of which fires. */
static void make_word(void) {
    make_ring(64);
    letters = 65535;
    for (size_t i = 0; i < 65535; i++)
        word[i] = (uint8_t)below(64);
}

/* 4,096 letters of it, in parts of so many. */
static void make_parts(size_t length) {
    make_word();
    letters = 4096;
    part_letters = length;
}
static void make_parts_1(void) { make_parts(1); }
static void make_parts_64(void) { make_parts(64); }
static void make_parts_4096(void) { make_parts(4096); }

/* The same with every other of the capped places a pocket: there is always room for what a letter puts before it takes. */
static void make_pockets(void) {
    make_word();
    for (size_t p = 1; p < 64; p += 4)
        marks[p] = 1;
}

/* The same in kilograms: each transition takes 1,000 more from every place, and puts them back. */
static void make_kilograms(void) {
    make_word();
    for (size_t k = 0; k < cells; k++) {
        pre[k] = (uint16_t)(pre[k] + 1000);
        post[k] = (uint16_t)(post[k] + 1000);
    }
}

/* A small net and a short word: what a clerk's case file says. */
static void make_small(void) {
    make_ring(4);
    T = 4;
    cells = 16;
    letters = 100;
    for (size_t i = 0; i < 100; i++)
        word[i] = (uint8_t)below(4);
}

/* The summaries of the word's two halves. */
static void make_halves(void) {
    make_word();
    for (size_t k = 0; k < 2; k++) {
        half[k] = 32767;
        same_summary_word(NET, word + k * 32767, 32767, need[k], 64, climb[k], 64, change[k], 64);
    }
}

/* 32 places, all capped, so that the complement has 64. */
static void make_capped(void) {
    make_ring(32);
    for (size_t p = 0; p < 32; p++)
        caps[p] = 40000;
    wide = 64;
}

/* Deals a word of 200 letters that fires out to two logs by chance. The net is a ring of four places, of two tokens each at
 * most, around which three are handed: there is always one that can move, and letters often have to wait. */
static void make_logs(void) {
    size_t n[2] = {0, 0};
    uint32_t m[4] = {1, 0, 2, 0};
    P = T = 4;
    cells = 16;
    for (size_t t = 0; t < 4; t++)
        for (size_t p = 0; p < 4; p++) {
            pre[t * 4 + p] = p == t;
            post[t * 4 + p] = p == (t + 1) % 4;
        }
    for (size_t p = 0; p < 4; p++) {
        initial[p] = (uint16_t)m[p];
        caps[p] = 2;
    }
    while (n[0] + n[1] < 200) {
        size_t t = below(4), which = below(2);
        if (!may_fire_lent(pre + t * 4, post + t * 4, caps, marks, m, 4))
            continue;
        fire(pre + t * 4, post + t * 4, m, 4);
        logs[which][n[which]++] = (uint8_t)t;
    }
    log_length[0] = n[0];
    log_length[1] = n[1];
}

/* Two logs of 255 letters each that fire one after the other, on the ring of 64 places. */
static void make_straight(void) {
    make_ring(64);
    for (size_t i = 0; i < 510; i++)
        logs[i / 255][i % 255] = (uint8_t)below(64);
    log_length[0] = log_length[1] = 255;
}

/* The longest way round: the first letter of the first log takes the token that the last one of the second looks at, and all
 * the others only put onto a heap. A search that forgets where it has been would go through every order of 509 letters. */
static void make_comb(void) {
    P = 2;
    T = 3;
    cells = 6;
    caps[0] = caps[1] = 65535;
    initial[0] = 1;
    initial[1] = 0;
    memset(pre, 0, sizeof pre);
    memset(post, 0, sizeof post);
    pre[0] = pre[2] = post[2] = post[5] = 1;
    memset(logs, 2, sizeof logs);
    logs[0][0] = 0;
    logs[1][254] = 1;
    log_length[0] = log_length[1] = 255;
}

/* Where the markings of a list differ from their neighbours. */
enum order { LAST, FIRST, CHANCE };

/* Puts the markings in an order by chance. */
static void shuffle(void) {
    for (size_t k = entries / P - 1; k > 0; k--)
        for (size_t j = below(k + 1), p = 0; p < P; p++) {
            uint16_t kept = list[k * P + p];
            list[k * P + p] = list[j * P + p];
            list[j * P + p] = kept;
        }
}

/* The place of one side of a switch: among the last places, among the first, or anywhere. */
static size_t switch_place(size_t bits, enum order order, size_t side) {
    return order == LAST ? (64 - 2 * bits + side) % 64 : order == FIRST ? side : (5 * side + 3) % 64;
}

/* All 2^bits settings of so many switches, each a pair of the 64 places and two transitions. The other places never
 * change, and the other transitions, which would take from one of them each, are never enabled. */
static void make_switches(size_t bits, enum order order) {
    size_t still = switch_place(bits, order, 63);
    P = 64;
    T = 64;
    cells = 4096;
    entries = ((size_t)1 << bits) * 64;
    memset(pre, 0, sizeof pre);
    memset(post, 0, sizeof post);
    for (size_t t = 0; t < 64; t++)
        if (t < 2 * bits) {
            pre[t * 64 + switch_place(bits, order, t)] = 1;
            post[t * 64 + switch_place(bits, order, t ^ 1)] = 1;
        } else {
            pre[t * 64 + switch_place(bits, order, t)] = 1;
            pre[t * 64 + still] = 255;
        }
    for (size_t k = 0; k < entries / 64; k++)
        for (size_t side = 0; side < 64; side++)
            list[k * 64 + switch_place(bits, order, side)] =
                side >= 2 * bits ? 3 : (k >> (bits - 1 - side / 2) & 1) == (side & 1);
    if (order == CHANCE)
        shuffle();
    for (size_t p = 0; p < 64; p++) {
        initial[p] = list[p];
        caps[p] = p % 2 ? 65535 : 7;
    }
}

/* All 2^bits markings of three places up to their capacities, with a transition that takes one token and one that puts one
 * for each. */
static void make_counters(size_t bits, enum order order) {
    size_t share[3] = {bits / 3, (bits + 1) / 3, (bits + 2) / 3};
    P = 3;
    T = 6;
    cells = 18;
    entries = ((size_t)1 << bits) * 3;
    memset(pre, 0, sizeof pre);
    memset(post, 0, sizeof post);
    for (size_t p = 0; p < 3; p++) {
        caps[p] = (uint16_t)((1 << share[p]) - 1);
        initial[p] = 0;
        pre[2 * p * 3 + p] = 1;
        post[(2 * p + 1) * 3 + p] = 1;
    }
    for (size_t k = 0; k < entries / 3; k++)
        for (size_t left = k, turn = 0; turn < 3; turn++) {
            size_t p = order == FIRST ? turn : 2 - turn;
            list[k * 3 + p] = (uint16_t)(left & caps[p]);
            left >>= share[p];
        }
    if (order == CHANCE)
        shuffle();
}

/* The largest case file but for a line of marks: 64 places, 64 transitions, 65,535 letters. */
static void make_file(void) {
    make_word();
    file_size = same_write_case(NET, initial, P, word, letters, file, sizeof file).length;
}

/* The same with a frame 07 for each transition. */
static void make_wide_file(void) {
    make_kilograms();
    file_size = same_write_case(NET, initial, P, word, letters, file, sizeof file).length;
}

/* A row: the question, its size, its input, how it is asked, in how many rounds of how many calls. */
struct row {
    const char *question, *size;
    void (*make)(void);
    void (*ask)(int side);
    size_t rounds, calls;
};

static const struct row rows[] = {
    {"replay_word", "65,535 letters, 64 places", make_word, ask_replay, 60, 1},
    {"replay_word", "the same, half of the capped places pockets", make_pockets, ask_replay, 60, 1},
    {"replay_word", "the same, weights of 1,000 and more", make_kilograms, ask_replay, 60, 1},
    {"plain_replay", "65,535 letters, 64 places, C without copies", make_word, ask_plain_replay, 60, 1},
    {"replay_part", "4,096 letters, 64 places, in 4096 parts", make_parts_1, ask_parts, 3, 1},
    {"replay_part", "4,096 letters, 64 places, in 64 parts", make_parts_64, ask_parts, 60, 1},
    {"replay_part", "4,096 letters, 64 places, in 1 part", make_parts_4096, ask_parts, 200, 2},
    {"replay_part", "4,096 letters, 64 places, whole by replay_word", make_parts_4096, ask_replay, 200, 2},
    {"summary_word", "65,535 letters, 64 places", make_word, ask_summary, 12, 1},
    {"join_summaries", "64 places", make_halves, ask_join, 300, 200},
    {"place_weighting", "64 places, 64 transitions, invariant", make_word, ask_weighting, 300, 20},
    {"complement_net", "32 capped places, 64 transitions", make_capped, ask_complement, 300, 20},
    {"read_case", "64 places, 64 transitions, 65,535 letters: 151 KB", make_file, ask_case, 100, 1},
    {"read_case", "the same with frames 07: the largest file, 168 KB", make_wide_file, ask_case, 100, 1},
    {"write_case", "64 places, 64 transitions, 65,535 letters: 151 KB", make_word, ask_write, 100, 1},
    {"write_case", "the same with frames 07: the largest file, 168 KB", make_kilograms, ask_write, 100, 1},
    {"write_case", "4 places, 4 transitions, 100 letters", make_small, ask_write, 300, 200},
    {"order_logs", "200 letters of one word, 4 places", make_logs, ask_order, 100, 10},
    {"order_logs", "255 letters each that fire at once, 64 places", make_straight, ask_order, 100, 10},
    {"order_logs", "255 letters each, every pair looked at", make_comb, ask_order, 40, 1},
};

/* Nanoseconds that this process has run: what others do on the machine in between is not counted. */
static double now(void) {
    struct timespec t;
    clock_gettime(PROCESS_CLOCK, &t);
    return 1e9 * (double)t.tv_sec + (double)t.tv_nsec;
}

/* One row; ends the program if the sides differ, or if what should be answered is refused. */
static void run(const struct row *row) {
    double best[2] = {1e18, 1e18};
    memset(out, 0, sizeof out);
    memset(marks, 0, sizeof marks);
    row->make();
    for (size_t round = 0; round < row->rounds; round++) {
        for (int side = 0; side < 2; side++) {
            double before = now(), took;
            for (size_t k = 0; k < row->calls; k++)
                row->ask(side);
            took = (now() - before) / (double)row->calls;
            best[side] = took < best[side] ? took : best[side];
        }
        if (memcmp(&out[0], &out[1], sizeof out[0]) != 0 || out[0].answer[0] != 0x81 || out[0].answer[1] != 0) {
            printf("bench: %s, %s: the two differ, or do not accept\n", row->question, row->size);
            exit(1);
        }
    }
    if (row->ask == ask_order && same_order_visits > 2 * KAUNORPI_WORK_SPACE) {
        printf("bench: %s, %s: %zu pairs looked at\n", row->question, row->size, same_order_visits);
        exit(1);
    }
    printf("%s|%s|%.0f|%.0f", row->question, row->size, best[0], best[1]);
    if (row->ask == ask_order)
        printf("|%zu", same_order_visits);
    puts("");
}

/* The list that the next row is of. */
static size_t list_bits;
static enum order list_order;
static void make_narrow(void) { make_counters(list_bits, list_order); }
static void make_wide(void) { make_switches(list_bits, list_order); }

/* Rows of one question, asked in this way, about lists of 2^from to 2^to markings, every step-th power, of as many places as
 * make gives them, for each order. */
static void run_lists(const char *question, void (*ask)(int side), const char *places, void (*make)(void), size_t from,
                      size_t to, size_t step, size_t rounds) {
    static const char *const orders[] = {"unlike in the last places", "unlike in the first places", "unlike by chance"};
    for (list_order = LAST; list_order <= CHANCE; list_order++)
        for (list_bits = from; list_bits <= to; list_bits += step) {
            char size[80];
            struct row row = {question, size, make, ask, rounds, 1};
            snprintf(size, sizeof size, "%u markings of %s places, %s", 1u << list_bits, places, orders[list_order]);
            run(&row);
        }
}

/* The bytes before the code (layout.c), named so that the linker keeps them. */
extern const char layout_shift[];
const char *volatile shifted = layout_shift;

/* bench [QUESTION]: every row, or those of one question. plain_replay is replay_word against C that reads capacities and marks
 * as they are lent; plain_list is closed_list against C without an index; base_list,
 * which bench/base has, against the base's library. */
int main(int count, char **words) {
    const char *only = count < 2 ? 0 : words[1];
#ifdef BASE
    run_lists("base_list", ask_base, "3", make_narrow, 12, 12, 1, 3);
    run_lists("base_list", ask_base, "64", make_wide, 12, 12, 1, 1);
    return 0;
#endif
    for (size_t k = 0; k < sizeof rows / sizeof rows[0]; k++)
        if (!only || strcmp(only, rows[k].question) == 0)
            run(&rows[k]);
    if (!only || strcmp(only, "closed_list") == 0) {
        run_lists("closed_list", ask_closed, "3", make_narrow, 8, 12, 1, 20);
        run_lists("closed_list", ask_closed, "64", make_wide, 8, 12, 1, 5);
    }
    if (!only || strcmp(only, "plain_list") == 0) {
        run_lists("plain_list", ask_plain, "3", make_narrow, 8, 12, 2, 1);
        run_lists("plain_list", ask_plain, "64", make_wide, 8, 12, 2, 1);
    }
    if (!only || strcmp(only, "cover_list") == 0)
        run_lists("cover_list", ask_cover, "64", make_wide, 8, 10, 2, 2);
    return 0;
}
