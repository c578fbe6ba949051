/* Lent memory. Each list and room lies between guard bytes, which differ from round to round: neither a write outside of
 * what is lent passes, even of the guard's own value, nor an answer that depends on what lies outside. Beside the memory
 * stands what it must be after the call: guards and lists that are only read as they were, rooms as the line tells. */
#include "call.h"

#include <stdio.h>
#include <string.h>

#include "kaunorpi.h"

enum { MOST = 1 << 20, GUARD = 64, PIECES = 16 };

static _Alignas(64) uint8_t memory[MOST], wanted[MOST];
static struct piece pieces[PIECES];
static size_t piece_count, used;
static int round_now;
static const uint8_t guards[ROUNDS] = {0xA5, 0x5A};

/* A state between guard bytes; is_lent is whether this round has one. */
static struct {
    uint8_t before[GUARD];
    kaunorpi_running state;
    uint8_t behind[GUARD];
} running;
static int is_lent;

/* Begins a round of the call: nothing is lent. In the second one what has no entry is lent as a null pointer. */
void start_lending(int round) {
    round_now = round;
    piece_count = 0;
    used = 0;
    is_lent = 0;
}

/* Puts guard bytes behind what is used, up to there. */
static void guard_up_to(size_t to) {
    memset(memory + used, guards[round_now], to - used);
    memset(wanted + used, guards[round_now], to - used);
    used = to;
}

/* Lays out what the line tells under this name, with guard bytes on both sides. */
static void lay_out(struct piece *piece, const char *name, struct type type, int is_room) {
    const char *text = text_of(&call.lent, name);
    guard_up_to((used + GUARD + 7) / 8 * 8);
    size_t most = MOST - used - 2 * GUARD, count = read_list(text, type, memory + used, most), bytes = count * type.size;
    void *at = count == 0 && round_now == 1 ? NULL : memory + used;
    *piece = (struct piece){name, type, is_room, at, used, count};
    if (!is_room)
        memcpy(wanted + used, memory + used, bytes);
    else if (read_list(text_of(&call.left, name), type, wanted + used, most) != count)
        malformed("another length at exit", name);
    used += bytes;
    guard_up_to(used + GUARD);
}

/* The list or room of this name; the first who asks for it in a round has it laid out. */
const struct piece *lend(const char *name, struct type type, int is_room) {
    for (size_t k = 0; k < piece_count; k++)
        if (strcmp(pieces[k].name, name) == 0)
            return &pieces[k];
    if (piece_count == PIECES || MOST - used < 4 * GUARD)
        malformed("more lent than the runner holds", name);
    lay_out(&pieces[piece_count], name, type, is_room);
    return &pieces[piece_count++];
}

/* The pieces that a line tells a state by, in the struct's order, and where each lies in it; all are read and written. */
static void state_pieces(const struct piece *pieces_of[5], void *fields[5]) {
    kaunorpi_running *s = &running.state;
    static const char *const names[] = {"marking", "fired", "position", "place", "blocked"};
    void *at[] = {s->marking, &s->fired, &s->position, &s->place, &s->blocked};
    for (size_t k = 0; k < 5; k++) {
        pieces_of[k] = lend(names[k], k < 4 ? TYPE(uint32_t) : TYPE(uint8_t), 1);
        fields[k] = at[k];
        if (pieces_of[k]->count != (k == 0 ? KAUNORPI_MOST_PLACES : 1))
            malformed("not as many numbers as a state has", names[k]);
    }
}

/* The state that the line tells, between guard bytes of the round; what lies behind its last field is as the guards. */
kaunorpi_running *lend_state(void) {
    const struct piece *of[5];
    void *fields[5];
    memset(&running, guards[round_now], sizeof running);
    state_pieces(of, fields);
    for (size_t k = 0; k < 5; k++)
        memcpy(fields[k], of[k]->at, of[k]->count * of[k]->type.size);
    is_lent = 1;
    return &running.state;
}

/* Puts what the state has become where it is compared, and looks at the guard bytes around it. */
void take_state_back(void) {
    const struct piece *of[5];
    void *fields[5];
    uint8_t guard[GUARD];
    if (!is_lent)
        return;
    state_pieces(of, fields);
    for (size_t k = 0; k < 5; k++)
        memcpy(of[k]->at, fields[k], of[k]->count * of[k]->type.size);
    memset(guard, guards[round_now], sizeof guard);
    if (memcmp(running.before, guard, sizeof guard) != 0 || memcmp(running.behind, guard, sizeof guard) != 0) {
        report();
        puts("wrote outside the state");
    }
}

/* Prints an entry of a piece that lies there. */
static void print_entry(const struct piece *piece, const uint8_t *at) {
    uint64_t entry = 0;
    memcpy(&entry, at, piece->type.size);
    uint64_t sign = (uint64_t)1 << (8 * piece->type.size - 1);
    if (piece->type.is_signed)
        printf("%ld", (long)((entry ^ sign) - sign));
    else
        printf("%lu", (unsigned long)entry);
}

/* Says where a piece is not what it must be, if it is not. */
static void report_piece(const struct piece *piece) {
    for (size_t k = 0; k < piece->count; k++) {
        size_t at = piece->offset + k * piece->type.size;
        if (memcmp(memory + at, wanted + at, piece->type.size) == 0)
            continue;
        report();
        printf("entry %zu of %s is ", k, piece->name);
        print_entry(piece, memory + at);
        printf(", wanted ");
        print_entry(piece, wanted + at);
        puts(piece->is_room ? "" : " (it is only to be read)");
        return;
    }
}

/* Says where a byte outside was written, if one was, from there to there. */
static void report_guard(size_t from, size_t to, const char *side, const char *name) {
    if (memcmp(memory + from, wanted + from, to - from) == 0)
        return;
    report();
    printf("wrote %s %s\n", side, name);
}

/* Is the memory what it must be? Says where it is not. */
int right_memory(void) {
    size_t from = 0;
    if (memcmp(memory, wanted, used) == 0)
        return 1;
    for (size_t k = 0; k < piece_count; k++) {
        size_t end = pieces[k].offset + pieces[k].count * pieces[k].type.size;
        report_guard(from, pieces[k].offset, "before", pieces[k].name);
        report_piece(&pieces[k]);
        report_guard(end, end + GUARD, "behind", pieces[k].name);
        from = end + GUARD;
    }
    return 0;
}
