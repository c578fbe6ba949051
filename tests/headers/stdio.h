/* The part of C's <stdio.h> that is used here: the kit's clang comes without headers. */
#ifndef TESTS_STDIO_H
#define TESTS_STDIO_H
#include <stddef.h>
int printf(const char *form, ...) __attribute__((format(printf, 1, 2)));
int snprintf(char *room, size_t size, const char *form, ...) __attribute__((format(printf, 3, 4)));
int puts(const char *line);
int putchar(int c);
/* files, as the C library of the kit has them */
typedef struct _IO_FILE FILE;
extern FILE *stdin;
FILE *fopen(const char *name, const char *mode);
char *fgets(char *line, int most, FILE *file);
size_t fread(void *to, size_t size, size_t count, FILE *file);
int fclose(FILE *file);
#endif
