/* As much of the C library as the tests use, for wasm64. */
#ifndef STDLIB_H
#define STDLIB_H

#include <stddef.h>

void *malloc(size_t length);
void free(void *block);
_Noreturn void exit(int status);
unsigned long long strtoull(const char *text, char **end, int base);

#endif
