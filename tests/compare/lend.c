/* Lent memory. Each piece lies between guard bytes; the library and the reference get a copy each, with guard bytes
 * that differ, so that neither a write outside a piece nor an answer that depends on what lies outside passes. */
#include "compare.h"

#include <stdio.h>
#include <string.h>

enum { MOST = 1 << 22, GUARD = 32, PIECES = 32 };

struct input in;

static _Alignas(64) uint8_t original[MOST], sides[2][MOST];
static const struct lent *pieces[PIECES];
static size_t piece_count, used;
static uint8_t guard[2];

/* Begins an input: nothing is lent. */
void start_lending(void) {
    memset(&in, 0, sizeof in);
    piece_count = 0;
    used = 0;
    guard[LIBRARY] = (uint8_t)draw();
    guard[REFERENCE] = (uint8_t)~guard[LIBRARY];
}

/* Another length, or by accident the same: one off, none, the double, any. */
static size_t other_length(size_t count) {
    switch (below(5)) {
    case 0:
        return count + 1;
    case 1:
        return count - (count > 0);
    case 2:
        return 0;
    case 3:
        return count * 2;
    default:
        return below(count + 70);
    }
}

/* Is the piece's length to be another? A piece that may have any gets another only where several things are broken; a state has
 * none that could be told, and the ends of the parts are told to nobody. */
static int wants_other_length(const struct lent *piece) {
    if (!wants(2) || piece == &in.state || piece == &in.cuts)
        return 0;
    for (int f = 0; f < FAULTS; f++)
        if (faults[f].piece == piece)
            return breaks((enum fault)f);
    return !is_alone() && chance(3);
}

/* Puts a piece behind the ones before, with a wrong length where that is planned. */
static void *place_piece(struct lent *piece, size_t size, size_t count, int is_room) {
    *piece = (struct lent){0, count, count, size, 0, is_room};
    if (wants_other_length(piece))
        for (int tries = 0; tries < 20 && !has_wrong_length(piece); tries++)
            piece->count = other_length(count);
    used += GUARD;
    used += (size - used % size) % size + size * below(8);
    piece->offset = used;
    piece->is_null = piece->count == 0 && chance(2);
    used += piece->count * size;
    pieces[piece_count++] = piece;
    return own(piece);
}

/* Lends a piece that is only read; the caller fills its entries, as many as the piece now has. */
void *lend(struct lent *piece, size_t size, size_t count) {
    return place_piece(piece, size, count, 0);
}

/* Lends a room, filled by chance. */
void *lend_room(struct lent *piece, size_t size, size_t count) {
    void *room = place_piece(piece, size, count, 1);
    fill_random(room, piece->count * size);
    return room;
}

/* Where the piece is drawn. */
void *own(const struct lent *piece) {
    return original + piece->offset;
}

/* Where a side finds the piece. */
void *on_side(int side, const struct lent *piece) {
    return piece->is_null ? NULL : sides[side] + piece->offset;
}

/* Gives each side its copy, with its own guard bytes. */
void hand_out(void) {
    used += GUARD;
    for (int side = 0; side < 2; side++) {
        memset(sides[side], guard[side], used);
        for (size_t k = 0; k < piece_count; k++)
            memcpy(sides[side] + pieces[k]->offset, original + pieces[k]->offset, pieces[k]->count * pieces[k]->size);
    }
}

/* The first byte from a to b where the side's guard is gone; b if there is none. */
static size_t broken_guard(int side, size_t a, size_t b) {
    while (a < b && sides[side][a] == guard[side])
        a++;
    return a;
}

/* The number of the first differing byte; count if there is none. */
static size_t first_difference(const uint8_t *a, const uint8_t *b, size_t count) {
    size_t i = 0;
    if (memcmp(a, b, count) == 0)
        return count;
    while (a[i] == b[i])
        i++;
    return i;
}

/* Does piece k differ: a room between the sides, another piece from what was lent? */
static int differing_piece(size_t k, int quiet) {
    size_t at = pieces[k]->offset, bytes = pieces[k]->count * pieces[k]->size, where;
    for (int side = 0; side < 2; side++) {
        const uint8_t *right = pieces[k]->is_room ? sides[REFERENCE] : original;
        where = first_difference(sides[side] + at, right + at, bytes);
        if (where < bytes) {
            if (!quiet)
                printf("  lent piece %zu (%s), byte %zu: %u, and not %u\n", k, pieces[k]->is_room ? "room" : "only read",
                       where, sides[side][at + where], right[at + where]);
            return 1;
        }
    }
    return 0;
}

/* Do the sides' memories differ, or did one write where it must not? */
int differing_memory(int quiet) {
    size_t from = 0;
    for (size_t k = 0; k <= piece_count; k++) {
        size_t to = k < piece_count ? pieces[k]->offset : used;
        for (int side = 0; side < 2; side++)
            if (broken_guard(side, from, to) < to) {
                if (!quiet)
                    printf("  %s wrote outside, before lent piece %zu\n", side == LIBRARY ? "library" : "reference", k);
                return 1;
            }
        if (k < piece_count && differing_piece(k, quiet))
            return 1;
        from = k < piece_count ? to + pieces[k]->count * pieces[k]->size : used;
    }
    return 0;
}

/* Shows the input, each piece up to its hundredth entry, for whoever looks for the cause of a difference. */
void print_input(void) {
    printf("places %zu transitions %zu start %zu end %zu place %zu step %zu summaries %zu:%u %zu:%u\n", in.places,
           in.transitions, in.start, in.end, in.place, in.step, in.summary_places[0], in.letters[0], in.summary_places[1],
           in.letters[1]);
    for (size_t k = 0; k < piece_count; k++) {
        const uint8_t *at = own(pieces[k]);
        printf("piece %zu (%s, %zu entries of %zu bytes):", k, pieces[k]->is_room ? "room" : "only read",
               pieces[k]->count, pieces[k]->size);
        for (size_t i = 0; i < pieces[k]->count && i < 100; i++) {
            uint64_t entry = 0;
            memcpy(&entry, at + i * pieces[k]->size, pieces[k]->size);
            printf(" %lu", (unsigned long)entry);
        }
        printf("\n");
    }
}
