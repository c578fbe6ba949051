/* The part of C's <time.h> that is used here: the kit's clang comes without headers. */
#ifndef TESTS_TIME_H
#define TESTS_TIME_H
struct timespec {
    long tv_sec;
    long tv_nsec;
};
#define CLOCK_MONOTONIC 1
int clock_gettime(int clock, struct timespec *now);
#endif
