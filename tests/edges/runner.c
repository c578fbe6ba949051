/* Runs tables of calls on the library for C, as include/kaunorpi.h declares it.
 *
 *   runner TABLE..     or, without a table, standard input
 *
 * A line of a table is a call and what must come of it (call.c says its form; # begins a comment). Each call is made
 * twice, with guard bytes around all that is lent which differ between the two (lend.c). Compared are every field of the
 * answer, every room, every list that is only to be read, and the guard bytes. Prints nothing where all is right, else
 * the calls that are not, and ends with 1. Ends with 2 at a line that is not of the form, or a table without a call. */
#include "call.h"

#include <stdio.h>
#include <string.h>

#include "kaunorpi.h"

static int failed;
static uint64_t came[FIELDS];
static size_t came_count;

/* Begins a line about the call. */
void report(void) {
    failed = 1;
    printf("%s:%zu: case %s, %s: ", call.file, call.line, call.number, call.question);
}

/* The fields of each answer, in the header's order. */
static void keep(const uint64_t *fields, size_t count) {
    came_count = count;
    memcpy(came, fields, count * sizeof *fields);
}
#define KEEP(...) keep((uint64_t[]){__VA_ARGS__}, sizeof((uint64_t[]){__VA_ARGS__}) / sizeof(uint64_t))
static void keep_answer(kaunorpi_answer a) { KEEP(a.kind, a.number, a.position); }
static void keep_replay(kaunorpi_replay a) { KEEP(a.kind, a.number, a.position, a.place); }
static void keep_summary(kaunorpi_summary a) { KEEP(a.kind, a.number, a.position, a.places, a.letters); }
static void keep_bound(kaunorpi_bound a) { KEEP(a.kind, a.number, a.position, a.bound); }
static void keep_list(kaunorpi_list a) { KEEP(a.kind, a.number, a.position, a.transition); }
static void keep_places(kaunorpi_places a) { KEEP(a.kind, a.number, a.position, a.places); }
static void keep_length(kaunorpi_length a) { KEEP(a.kind, a.number, a.position, a.length); }
static void keep_rest(kaunorpi_rest a) { KEEP(a.kind, a.number, a.position, a.log, a.start, a.length); }
static void keep_case(kaunorpi_case a) { KEEP(a.kind, a.number, a.position, a.places, a.transitions, a.letters); }

typedef uint8_t u8;
typedef uint16_t u16;
typedef uint32_t u32;
typedef int16_t i16;
typedef int32_t i32;

/* What a question is lent, by its name in the header: a number, a list that is only read, a room; and several at once.
 * A name that the line does not have ends the runner. */
#define NUMBER(type, name) (type) number(#name, TYPE(type))
#define LENT(type, name) (const type *)lend(#name, TYPE(type), 0)->at, lend(#name, TYPE(type), 0)->count
#define ROOM(type, name) (type *)lend(#name, TYPE(type), 1)->at, lend(#name, TYPE(type), 1)->count
#define NET \
    NUMBER(size_t, places), NUMBER(size_t, transitions), LENT(u16, pre), LENT(u16, post), LENT(u16, caps), LENT(u8, marks)
#define SUMMARY(which) \
    NUMBER(size_t, which##places), NUMBER(u32, which##letters), LENT(u32, which##need), LENT(u32, which##climb), \
        LENT(i32, which##change)
#define STATE lend_state()
#define SUMMARY_ROOMS ROOM(u32, need), ROOM(u32, climb), ROOM(i32, change)

/* Is it the question kaunorpi_ASKED? Then the call is made, and its answer, a struct kaunorpi_ANSWER, kept. */
#define QUESTION(asked, answer, ...) \
    if (strcmp(call.question, #asked) == 0) { \
        keep_##answer(kaunorpi_##asked(__VA_ARGS__)); \
        return; \
    }

/* Makes the call: a row for each question of the header. */
static void ask(void) {
    QUESTION(replay_word, replay, NET, LENT(u16, initial), LENT(u8, word), ROOM(u32, room))
    QUESTION(replay_stretch, replay, NET, LENT(u16, initial), LENT(u8, word), NUMBER(size_t, start), NUMBER(size_t, end),
             ROOM(u32, room))
    QUESTION(start_replay, replay, NET, LENT(u16, initial), STATE)
    QUESTION(replay_part, replay, NET, STATE, LENT(u8, part))
    QUESTION(empty_summary, summary, NUMBER(size_t, places), SUMMARY_ROOMS)
    QUESTION(summary_word, summary, NET, LENT(u8, word), SUMMARY_ROOMS)
    QUESTION(summary_stretch, summary, NET, LENT(u8, word), NUMBER(size_t, start), NUMBER(size_t, end), SUMMARY_ROOMS)
    QUESTION(join_summaries, summary, SUMMARY(first_), SUMMARY(second_), SUMMARY_ROOMS)
    QUESTION(ask_summary, answer, NET, LENT(u16, marking), NUMBER(size_t, summary_places), NUMBER(u32, summary_letters),
             LENT(u32, need), LENT(u32, climb), LENT(i32, change), ROOM(u32, room))
    QUESTION(place_weighting, answer, NET, LENT(i16, y))
    QUESTION(transition_weighting, answer, NET, LENT(i16, x))
    QUESTION(place_bound, bound, NET, LENT(u16, initial), LENT(i16, y), NUMBER(size_t, place))
    QUESTION(siphon_set, answer, NET, LENT(u8, set))
    QUESTION(trap_set, answer, NET, LENT(u8, set))
    QUESTION(closed_list, list, NET, LENT(u16, initial), LENT(u16, list))
    QUESTION(closed_target, list, NET, LENT(u16, initial), LENT(u16, list), LENT(u16, target))
    QUESTION(closed_stall, list, NET, LENT(u16, initial), LENT(u16, list))
    QUESTION(cover_list, list, NET, LENT(u16, initial), LENT(u16, list))
    QUESTION(cover_target, list, NET, LENT(u16, initial), LENT(u16, list), LENT(u16, target))
    QUESTION(complement_places, places, NET)
    QUESTION(complement_net, answer, NET, LENT(u16, initial), ROOM(u16, pre2), ROOM(u16, post2), ROOM(u16, caps2),
             ROOM(u8, marks2), ROOM(u16, initial2))
    QUESTION(read_case, case, LENT(u8, file), ROOM(u16, caps), ROOM(u8, marks), ROOM(u16, initial), ROOM(u16, pre),
             ROOM(u16, post), ROOM(u8, word))
    QUESTION(case_length, length, NET, LENT(u16, initial), LENT(u8, word))
    QUESTION(write_case, length, NET, LENT(u16, initial), LENT(u8, word), ROOM(u8, room))
    QUESTION(order_logs, answer, NET, LENT(u16, initial), LENT(u8, first), LENT(u8, second), ROOM(u8, room), ROOM(u8, work))
    QUESTION(rest_fault, answer, LENT(u8, first), LENT(u8, second), LENT(u8, order), NUMBER(size_t, step))
    QUESTION(unread_rest, rest, LENT(u8, first), LENT(u8, second), LENT(u8, order), NUMBER(size_t, step))
    malformed("no such question", call.question);
}

static void print_fields(const uint64_t *fields) {
    for (size_t k = 0; k < came_count; k++)
        printf(" %lu", (unsigned long)fields[k]);
}

/* Is the answer what the line tells? Says what came where it is not. */
static int right_answer(void) {
    if (call.answer_count != came_count)
        malformed("not as many numbers as the answer has fields", call.question);
    if (memcmp(came, call.answer, came_count * sizeof *came) == 0)
        return 1;
    report();
    printf("answered");
    print_fields(came);
    printf(", wanted");
    print_fields(call.answer);
    puts("");
    return 0;
}

/* Makes the call of a line round by round, up to one that goes wrong. */
static void run_call(char *line) {
    take_apart(line);
    for (int round = 0, right = 1; round < ROUNDS && right; round++) {
        start_lending(round);
        ask();
        take_state_back();
        check_used(&call.lent);
        check_used(&call.left);
        right = right_answer() & right_memory();
    }
}

/* Runs a table. */
static void run_table(const char *name, FILE *table) {
    static char line[1 << 18];
    size_t calls = 0;
    call = (struct call){.file = name};
    while (fgets(line, sizeof line, table) != NULL) {
        size_t length = strlen(line);
        call.line++;
        if (length == 0 || line[length - 1] != '\n')
            malformed("no line feed, or a line too long for the runner", "");
        line[length - 1] = 0;
        if (line[0] == '#')
            continue;
        run_call(line);
        calls++;
    }
    if (calls == 0)
        malformed("a table without a call", name);
}

int main(int argc, char **argv) {
    if (argc < 2)
        run_table("standard input", stdin);
    for (int k = 1; k < argc; k++) {
        FILE *table = fopen(argv[k], "r");
        if (table == NULL) {
            printf("%s: cannot be read\n", argv[k]);
            return 2;
        }
        run_table(argv[k], table);
        fclose(table);
    }
    return failed;
}
