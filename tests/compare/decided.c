/* How often each fault decided by itself, and whether the inputs are drawn as they were planned. */
#include "compare.h"

#include <stdio.h>

/* By question and fault; and by question how many inputs have another answer than their plan says, and the last of them. */
static unsigned long decided[32][FAULTS], astray[32];
static size_t last_astray[32];

/* Does the fault of this question stand in the input? */
static int is_there(size_t q, int f, int refusal) {
    if ((questions[q].faults >> f & 1u) == 0 || faults[f].refusal != refusal)
        return 0;
    return faults[f].piece != NULL ? has_wrong_length(faults[f].piece) : faults[f].is_there();
}

/* Counts the one fault that the refusal comes from. An input that was drawn with one fault must be refused for that one
 * alone, one that was drawn with none must be answered, and no refusal comes from nowhere. */
void count_faults(size_t q, size_t input, const struct given *g) {
    int refused = g->kind == KAUNORPI_REFUSED, found = 0, decider = FAULTS;
    if (refused)
        look_at_line(g->field[0]);
    for (int f = 0; refused && f < FAULTS; f++)
        if (is_there(q, f, g->number)) {
            decider = f;
            found++;
        }
    if (found == 1)
        decided[q][decider]++;
    if (is_alone() ? found != 1 || !breaks((enum fault)decider) : refused && (is_sound() || found == 0)) {
        astray[q]++;
        last_astray[q] = input;
    }
}

/* Reports the faults of a question that never decided by themselves, and inputs that went astray; with show, how often
 * each decided. */
int missed_faults(size_t q, int show) {
    int lacks = astray[q] > 0;
    if (astray[q] > 0)
        printf("compare: %s was not refused or answered as planned %lu times, at last for input %zu\n", questions[q].name,
               astray[q], last_astray[q]);
    for (int f = 0; f < FAULTS; f++) {
        if ((questions[q].faults >> f & 1u) == 0)
            continue;
        if (show)
            printf("%s: %d by %s: %lu\n", questions[q].name, faults[f].refusal, faults[f].what, decided[q][f]);
        if (decided[q][f] == 0) {
            printf("compare: %s never gave refusal %d for %s alone\n", questions[q].name, faults[f].refusal,
                   faults[f].what);
            lacks = 1;
        }
    }
    return lacks;
}
