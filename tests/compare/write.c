/* The inputs of writing a case file: net, marking and word, and rooms about as long as the file. */
#include "compare.h"

/* How many transitions of the lent net have a frame 07: where a weight is over 255. */
size_t count_wide(void) {
    struct weights net;
    size_t count = 0, last = 0;
    for (size_t i = 0; has_net(&net) && i < in.pre.count; i++)
        if ((net.pre[i] > MOST_BYTE || net.post[i] > MOST_BYTE) && last != i / in.places + 1) {
            last = i / in.places + 1;
            count++;
        }
    return count;
}

/* How many bytes the file of what is lent has: the lines 01, 02 and 03, 06 if a place is a pocket, a line for each transition,
 * those of kind 07 with two digits more for each weight, and the letters. */
size_t file_bytes(void) {
    size_t p = in.places < 80 ? in.places : 80, t = in.transitions < 80 ? in.transitions : 80;
    size_t letters = in.word.count, lines = letters / 64 + (letters % 64 > 0), pockets = 0;
    for (size_t k = 0; k < p; k++)
        pockets += (size_t)is_pocket(k);
    return 7 + 2 * (4 * p + 3) + (pockets > 0 ? 19 : 0) + t * (4 * p + 5) + count_wide() * 4 * p + 2 * letters + 3 * lines;
}

/* How many letters: few, or about as many as fill a line, two or three; now and then about the limit, and over it where that
 * is planned. */
static size_t draw_letters(void) {
    if (breaks(LONG_WORD))
        return 65536 + (chance(2) ? 0 : below(300));
    if (chance(250))
        return 65535 - (chance(2) ? 0 : below(65));
    return chance(2) ? 64 * (1 + below(3)) + below(3) - 1 : breaks(BAD_LETTER) + below(9);
}

/* Net, marking and word. */
void make_case_length(void) {
    draw_net();
    draw_marking();
    lend_word(draw_letters());
    break_marking();
    break_net();
}

/* How long the room is: exactly as long as the file, one longer, more; where that is planned one short, empty, or shorter. */
static size_t draw_room(void) {
    size_t exact = file_bytes();
    if (breaks(SHORT_ROOM))
        return chance(3) ? exact - 1 : chance(2) ? 0 : below(exact);
    return chance(3) ? exact : chance(2) ? exact + 1 : exact + below(400);
}

/* Net, marking, word, room. */
void make_write_case(void) {
    make_case_length();
    lend_room(&in.room, 1, draw_room());
}
