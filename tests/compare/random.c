/* Numbers by chance, the same for the same seed, question and input number. */
#include "compare.h"

#include <string.h>

static uint64_t state;

/* The next 64 bits (splitmix64). */
uint64_t draw(void) {
    uint64_t z = state += 0x9E3779B97F4A7C15u;
    z = (z ^ (z >> 30)) * 0xBF58476D1CE4E5B9u;
    z = (z ^ (z >> 27)) * 0x94D049BB133111EBu;
    return z ^ (z >> 31);
}

/* Begins an input. */
void start_random(uint64_t seed, uint64_t question, uint64_t input) {
    state = seed;
    state = draw() + question;
    state = draw() + input;
    state = draw();
}

/* A number from 0 to n - 1. */
size_t below(size_t n) {
    return (size_t)(draw() % n);
}

/* True once in so many times. */
int chance(size_t one_in) {
    return below(one_in) == 0;
}

/* Bytes by chance. */
void fill_random(void *at, size_t bytes) {
    uint8_t *to = at;
    for (size_t i = 0; i < bytes; i += 8) {
        uint64_t eight = draw();
        memcpy(to + i, &eight, bytes - i < 8 ? bytes - i : 8);
    }
}
