/* As much of the C library as the tests use, for wasm64: libc.c defines it, run.mjs is its system. */
#ifndef STDIO_H
#define STDIO_H

#include <stddef.h>

typedef struct FILE FILE;

#define stdout ((FILE *)1)
#define stdin ((FILE *)2)

FILE *fopen(const char *path, const char *mode);
size_t fread(void *to, size_t size, size_t count, FILE *file);
int fclose(FILE *file);
int fflush(FILE *file);
int printf(const char *format, ...) __attribute__((format(printf, 1, 2)));
int snprintf(char *to, size_t length, const char *format, ...) __attribute__((format(printf, 3, 4)));

#endif
