/* As much of the C library as the tests use, for wasm64. What the system does, run.mjs does: it writes to standard
 * output, reads files and standard input, hands over the words of the command line, and ends the program. */
#include <stdarg.h>
#include <stdbool.h>
#include <stdint.h>

#include "stdio.h"
#include "stdlib.h"
#include "string.h"

void host_write(const char *bytes, size_t length);
size_t host_open(const char *path, size_t length);
size_t host_read(size_t file, void *to, size_t length);
size_t host_word(size_t number, char *to, size_t length);
_Noreturn void host_exit(size_t status);

int main(int count, char **words);

void *memcpy(void *to, const void *from, size_t length)
{
    for (size_t i = 0; i < length; i++) {
        ((volatile uint8_t *)to)[i] = ((const uint8_t *)from)[i];
    }
    return to;
}

void *memset(void *to, int byte, size_t length)
{
    for (size_t i = 0; i < length; i++) {
        ((volatile uint8_t *)to)[i] = (uint8_t)byte;
    }
    return to;
}

int memcmp(const void *a, const void *b, size_t length)
{
    const uint8_t *const first = a, *const second = b;

    for (size_t i = 0; i < length; i++) {
        if (first[i] != second[i]) {
            return first[i] < second[i] ? -1 : 1;
        }
    }
    return 0;
}

int strncmp(const char *a, const char *b, size_t length)
{
    for (size_t i = 0; i < length; i++) {
        if (a[i] != b[i] || a[i] == 0) {
            return (uint8_t)a[i] - (uint8_t)b[i];
        }
    }
    return 0;
}

int strcmp(const char *a, const char *b)
{
    return strncmp(a, b, SIZE_MAX);
}

static size_t length_of(const char *text)
{
    size_t length = 0;

    while (text[length]) {
        length++;
    }
    return length;
}

/* Blocks lie one behind another; when all are free, the room begins anew. */
static _Alignas(16) uint8_t room[1 << 20];
static size_t used, blocks;

void *malloc(size_t length)
{
    uint8_t *const block = room + used;

    if (length > sizeof room - used - 16) {
        return NULL;
    }
    used += (length + 16) / 16 * 16;
    blocks++;
    return block;
}

void free(void *block)
{
    if (block != NULL && --blocks == 0) {
        used = 0;
    }
}

void exit(int status)
{
    host_exit((size_t)status);
}

/* A decimal number, which is all that the tests are given. */
unsigned long long strtoull(const char *text, char **end, int base)
{
    unsigned long long number = 0;

    (void)end;
    (void)base;
    while (*text >= '0' && *text <= '9') {
        number = 10 * number + (unsigned)(*text++ - '0');
    }
    return number;
}

FILE *fopen(const char *path, const char *mode)
{
    (void)mode;
    return (FILE *)host_open(path, length_of(path));
}

size_t fread(void *to, size_t size, size_t count, FILE *file)
{
    return host_read((size_t)file, to, size * count);
}

int fclose(FILE *file)
{
    (void)file;
    return 0;
}

int fflush(FILE *file)
{
    (void)file;
    return 0;
}

/* The directives d, u, zu, llu, llx and s, with a width of digits after 0. */
static size_t format_list(char *to, size_t length, const char *format, va_list list)
{
    size_t at = 0;

    for (; *format && at + 1 < length; format++) {
        char digits[20];
        unsigned long long number;
        size_t wide = 0, width = 0, count = 0;

        if (*format != '%') {
            to[at++] = *format;
            continue;
        }
        while (*++format >= '0' && *format <= '9') {
            width = 10 * width + (size_t)(*format - '0');
        }
        for (; *format == 'l' || *format == 'z'; format++) {
            wide++;
        }
        if (*format == 's') {
            for (const char *text = va_arg(list, const char *); *text && at + 1 < length; text++) {
                to[at++] = *text;
            }
            continue;
        }
        number = wide ? va_arg(list, unsigned long long) : va_arg(list, unsigned);
        do {
            const unsigned base = *format == 'x' ? 16 : 10;

            digits[count++] = "0123456789abcdef"[number % base];
            number /= base;
        } while (number);
        for (; width > count && at + 1 < length; width--) {
            to[at++] = '0';
        }
        while (count && at + 1 < length) {
            to[at++] = digits[--count];
        }
    }
    to[at] = 0;
    return at;
}

int snprintf(char *to, size_t length, const char *format, ...)
{
    va_list list;
    size_t written;

    va_start(list, format);
    written = format_list(to, length, format, list);
    va_end(list);
    return (int)written;
}

int printf(const char *format, ...)
{
    char text[1024];
    va_list list;
    size_t written;

    va_start(list, format);
    written = format_list(text, sizeof text, format, list);
    va_end(list);
    host_write(text, written);
    return (int)written;
}

/* Runs a program with these many words of the command line. */
size_t run(size_t count)
{
    static char text[4][1024];
    static char *words[5];

    for (size_t i = 0; i < count && i < 4; i++) {
        text[i][host_word(i, text[i], sizeof text[i] - 1)] = 0;
        words[i] = text[i];
    }
    return (size_t)main((int)count, words);
}
