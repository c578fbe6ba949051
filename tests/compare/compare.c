/* compare N SEED [QUESTION [INPUT]]: N inputs for each question (or the one named), drawn from SEED; with INPUT that one
 * alone, shown in full. Prints nothing if library and reference agree in all of them, every answer and refusal that can
 * come did come, and each lent thing that can be refused was refused alone. compare --questions prints the questions'
 * names; compare --every asks for all short logs (every.c). Built with -DSELF_CHECK it looks instead whether each broken
 * rule is noticed.
 * Ends with 0, 1 (a difference), 2 (wrong use) or 3 (something never came). */
#include "compare.h"

#include <stdio.h>
#include <stdlib.h>
#include <string.h>

/* Built with -DCOUNTS=1 it also prints how often what came. */
#ifndef COUNTS
#define COUNTS 0
#endif

/* How often each class came: by question, refused or not, class, and whether its position is above 0. */
static unsigned long came[32][2][32][2];

/* How often a refusal was given to an input drawn for another as well: by question and the two numbers. */
static unsigned long before[32][REFUSALS][REFUSALS];

/* Prints an answer. */
static void print_given(const char *side, const struct given *g) {
    printf("  %s: %02X %u", side, g->kind, g->number);
    for (size_t i = 0; i < 4; i++)
        printf(" %lu", (unsigned long)g->field[i]);
    printf("\n");
}

/* Are two answers the same in every field? */
int same_given(const struct given *a, const struct given *b) {
    return a->kind == b->kind && a->number == b->number && memcmp(a->field, b->field, sizeof a->field) == 0;
}

/* Counts what came of one input. */
static void count(size_t q, size_t input, const struct given *g) {
    int refused = g->kind == KAUNORPI_REFUSED;
    came[q][refused][g->class & 31][g->field[0] > 0]++;
    for (int other = 1; refused && other < REFUSALS; other++)
        before[q][g->number][other] += wants(other) != 0;
    count_edges(questions[q].name, g);
    count_faults(q, input, g);
}

/* Puts one input to both sides; true if they agree. With show, prints the input and both answers. */
int agrees(size_t q, uint64_t seed, size_t input, int show) {
    struct given ours, theirs;
    int same;
    start_random(seed, q, input);
    start_lending();
    plan_faults(questions[q].refusals | questions[q].refusals_further, questions[q].faults);
    questions[q].make();
    hand_out();
    ours = questions[q].ask(LIBRARY);
    theirs = questions[q].ask(REFERENCE);
    same = same_given(&ours, &theirs) && !differing_memory(1);
    count(q, input, &theirs);
    if (show) {
        print_input();
        print_given("library  ", &ours);
        print_given("reference", &theirs);
        differing_memory(0);
    }
    return same;
}

/* Reports each class of a set that never came. */
static int missing(size_t q, uint32_t classes, int refused, int further) {
    int lacks = 0;
    for (int k = 0; k < 32; k++)
        if ((classes >> k & 1u) != 0 && came[q][refused][k][further] == 0) {
            printf("compare: %s never gave %s %d with a position %s 0\n", questions[q].name,
                   refused ? "refusal" : "answer", k, further ? "above" : "of");
            lacks = 1;
        }
    return lacks;
}

/* Where a refusal stands among them: by its number, but 18 comes right after 2, 17 right after 3, and 15 and 16 right after 4. In
 * a file 3 falls on a line before those of 18, and comes first. */
static int rank_of(int refusal, int of_line) {
    static const int ranks[REFUSALS] = {0, 1, 2, 4, 6, 9, 10, 11, 12, 13, 14, 15, 16, 17, 18, 7, 8, 5, 3};
    static const int ranks_in_file[REFUSALS] = {0, 1, 2, 3, 6, 9, 10, 11, 12, 13, 14, 15, 16, 17, 18, 7, 8, 5, 4};
    return (of_line ? ranks_in_file : ranks)[refusal];
}

/* Does refusal i come before j? After those of the whole file come those of its lines. */
static int comes_before(size_t q, int i, int j) {
    uint32_t of_lines = questions[q].refusals_further & ~questions[q].refusals;
    int i_of_line = (of_lines >> i & 1u) != 0, j_of_line = (of_lines >> j & 1u) != 0;
    return i_of_line == j_of_line ? rank_of(i, i_of_line) < rank_of(j, j_of_line) : j_of_line;
}

/* Reports two refusals that were never due at once. */
static int never_both(size_t q) {
    uint32_t refusals = questions[q].refusals | questions[q].refusals_further;
    int lacks = 0;
    for (int i = 1; i < REFUSALS; i++)
        for (int j = 1; j < REFUSALS; j++)
            if ((refusals >> i & refusals >> j & 1u) != 0 && comes_before(q, i, j) && before[q][i][j] == 0) {
                printf("compare: %s never gave refusal %d to an input drawn for %d too\n", questions[q].name, i, j);
                lacks = 1;
            }
    return lacks;
}

/* Reports what should have come and never did. */
static int never_came(size_t q) {
    int lacks = missing(q, questions[q].answers, 0, 0) | never_both(q);
    lacks |= missing(q, questions[q].answers_further, 0, 1);
    lacks |= missing(q, questions[q].refusals, 1, 0);
    lacks |= missing(q, questions[q].refusals_further, 1, 1);
    return lacks | missed_edges(questions[q].name, COUNTS) | missed_faults(q, COUNTS);
}

/* The inputs of one question, up to the first difference. */
static int compare_question(size_t q, size_t inputs, uint64_t seed) {
    for (size_t i = 0; i < inputs; i++)
        if (!agrees(q, seed, i, 0)) {
            printf("compare: %s differs: see compare %zu %lu %s %zu\n", questions[q].name, inputs, (unsigned long)seed,
                   questions[q].name, i);
            return 1;
        }
    return never_came(q) ? 3 : 0;
}

/* Prints how often what came. */
static void print_counts(size_t q) {
    for (int refused = 0; refused < 2; refused++)
        for (int k = 0; k < 32; k++)
            for (int further = 0; further < 2; further++)
                if (came[q][refused][k][further] > 0)
                    printf("%s %s %d %s %lu\n", questions[q].name, refused ? "82" : "81", k, further ? "+" : "0",
                           came[q][refused][k][further]);
    for (int i = 1; i < REFUSALS; i++)
        for (int j = 1; j < REFUSALS; j++)
            if (comes_before(q, i, j) && before[q][i][j] > 0)
                printf("%s 82 %d though drawn for %d too: %lu\n", questions[q].name, i, j, before[q][i][j]);
}

/* Prints the names of all questions, a line each. */
static int print_questions(void) {
    for (size_t q = 0; q < question_count; q++)
        puts(questions[q].name);
    return 0;
}

/* The inputs of every question, or of the one named; 2 if there is none of that name. */
static int compare_questions(size_t inputs, uint64_t seed, const char *name) {
    int result = 2;
    for (size_t q = 0; q < question_count; q++) {
        int found;
        if (name != NULL && strcmp(name, questions[q].name) != 0)
            continue;
        found = compare_question(q, inputs, seed);
        result = result == 2 || (result != 1 && found != 0) ? found : result;
        if (COUNTS)
            print_counts(q);
    }
    return result;
}

/* One input of the question named, shown in full; 2 if there is none of that name. */
static int show_input(uint64_t seed, const char *name, size_t input) {
    for (size_t q = 0; q < question_count; q++)
        if (strcmp(name, questions[q].name) == 0)
            return agrees(q, seed, input, 1) ? 0 : 1;
    return 2;
}

/* Reads the arguments and runs. */
int main(int count, char **words) {
    size_t inputs;
    uint64_t seed;
    if (count == 2 && strcmp(words[1], "--questions") == 0)
        return print_questions();
    if (count == 2 && strcmp(words[1], "--every") == 0)
        return every_order();
    if (count < 3)
        return 2;
    inputs = strtoul(words[1], NULL, 10);
    seed = strtoul(words[2], NULL, 10);
    start_edges();
#ifdef SELF_CHECK
    return self_check(inputs, seed);
#endif
    if (count > 4)
        return show_input(seed, words[3], strtoul(words[4], NULL, 10));
    return compare_questions(inputs, seed, count > 3 ? words[3] : NULL);
}
