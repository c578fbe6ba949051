/* So many empty bytes before the code that is timed: bench/run links it once for each of several numbers. An emulator that
 * translates page by page makes a loop that lies across two pages up to half as slow again, and which loop does is chance. */
#ifndef SHIFT
#define SHIFT 0
#endif
#define TEXT(number) #number
#define SKIP(number) ".text\n.globl layout_shift\nlayout_shift:\n.skip " TEXT(number) "\n"
__asm__(SKIP(SHIFT));
