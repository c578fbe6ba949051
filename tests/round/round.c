/* round FILE..: each case file that kaunorpi_read_case accepts is written back from what was read, by kaunorpi_write_case, into
 * rooms exactly long enough, one longer, one short, empty, and for the longest file: the same bytes must stand at the front, the
 * rest and all of a room too short must be as found, and kaunorpi_case_length must tell the file's length. Prints what is not so,
 * then how many files were written back, and the length of the longest. A mark that is not 0 is written as 1, so each is written
 * with all pockets' marks 1, and once more with 2 and 255. Ends with 0, or 1 where a file cannot be held. */
#include <stdio.h>
#include <string.h>

#include "kaunorpi.h"

enum { GUARD = 64, MOST = 1 << 21 };

/* The file, and what was read of it. */
static uint8_t file[MOST], marks[KAUNORPI_MOST_PLACES], word[KAUNORPI_MOST_LETTERS];
static uint16_t pre[KAUNORPI_MOST_CELLS], post[KAUNORPI_MOST_CELLS], caps[KAUNORPI_MOST_PLACES], initial[KAUNORPI_MOST_PLACES];
static size_t size, written_back, longest;
static kaunorpi_case read;
static const char *name;

#define CELLS (read.places * read.transitions)
#define LENT \
    read.places, read.transitions, pre, CELLS, post, CELLS, caps, read.places, marks, read.places, initial, read.places, \
        word, read.letters

/* A room between guard bytes, and what must stand there after the call. */
static uint8_t memory[KAUNORPI_FILE_LIMIT + 1 + 2 * GUARD], wanted[sizeof memory];

static void expect(int holds, const char *what, size_t room) {
    if (!holds)
        printf("%s, a room of %zu bytes: %s\n", name, room, what);
}

/* Writes into a room of so many bytes; the bytes around it, and at its end, are as found. */
static void write_into(size_t room) {
    kaunorpi_length a;
    memset(memory, 0xA5, sizeof memory);
    memset(wanted, 0xA5, sizeof wanted);
    if (room >= size)
        memcpy(wanted + GUARD, file, size);
    a = kaunorpi_write_case(LENT, memory + GUARD, room);
    if (room >= size)
        expect(a.kind == KAUNORPI_ANSWERED && a.number == 0 && a.position == 0 && a.length == size, "not written", room);
    else
        expect(a.kind == KAUNORPI_REFUSED && a.number == 14 && a.position == 0 && a.length == 0, "not refused by 14", room);
    expect(memcmp(memory, wanted, sizeof memory) == 0, "other bytes than the file's and those found", room);
}

/* Gives each pocket another mark. */
static void mark_otherwise(void) {
    for (size_t p = 0; p < read.places; p++) {
        expect(marks[p] < 2, "a mark that is neither 0 nor 1", 0);
        marks[p] = marks[p] == 0 ? 0 : p % 2 == 0 ? 2 : 255;
    }
}

/* Reads the file, and writes it back if it is accepted. */
static void go_round(void) {
    kaunorpi_length told;
    memset(marks, 7, sizeof marks);
    read = kaunorpi_read_case(file, size, caps, KAUNORPI_MOST_PLACES, marks, KAUNORPI_MOST_PLACES, initial,
                              KAUNORPI_MOST_PLACES, pre, KAUNORPI_MOST_CELLS, post, KAUNORPI_MOST_CELLS, word,
                              KAUNORPI_MOST_LETTERS);
    if (read.kind != KAUNORPI_ANSWERED)
        return;
    told = kaunorpi_case_length(LENT);
    expect(told.kind == KAUNORPI_ANSWERED && told.number == 0 && told.length == size, "another length is told", 0);
    write_into(size);
    write_into(size + 1);
    write_into(size - 1);
    write_into(0);
    write_into(KAUNORPI_FILE_LIMIT);
    mark_otherwise();
    write_into(size);
    written_back++;
    longest = size > longest ? size : longest;
}

/* The bytes of a file; false if it cannot be read, or is longer than can be held. */
static int take_file(void) {
    FILE *from = fopen(name, "r");
    if (from == NULL)
        return 0;
    size = fread(file, 1, sizeof file, from);
    fclose(from);
    return size < sizeof file;
}

int main(int count, char **words) {
    for (int k = 1; k < count; k++) {
        name = words[k];
        if (!take_file()) {
            printf("%s: cannot be read\n", name);
            return 1;
        }
        go_round();
    }
    printf("%zu written back, the longest has %zu bytes\n", written_back, longest);
    return 0;
}
