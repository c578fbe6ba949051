/* The part of C's <stdlib.h> that is used here: the kit's clang comes without headers. */
#ifndef TESTS_STDLIB_H
#define TESTS_STDLIB_H
#include <stddef.h>
void *malloc(size_t n);
void *calloc(size_t n, size_t each);
void free(void *p);
void exit(int status) __attribute__((noreturn));
void abort(void) __attribute__((noreturn));
int atoi(const char *s);
unsigned long strtoul(const char *s, char **end, int base);
#endif
