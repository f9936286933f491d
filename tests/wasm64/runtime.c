/*
 * What the archive for wasm64 takes from the program that links it: three functions of its compiler's runtime, which
 * each call of the library begins and ends with, and a product, which clang's runtime has too.
 */
#include <stdint.h>

static int inside;

int __rattle_enter(void);
void __rattle_leave(void);
_Noreturn void __rattle_trap(void);
__int128 __multi3(__int128 a, __int128 b);

/* 0 if a call may begin, which is when none is under way. */
int __rattle_enter(void)
{
    if (inside) {
        return 1;
    }
    inside = 1;
    return 0;
}

void __rattle_leave(void)
{
    inside = 0;
}

void __rattle_trap(void)
{
    __builtin_trap();
}

/* The product of two numbers of 128 bits. */
__int128 __multi3(__int128 a, __int128 b)
{
    const uint64_t low_a = (uint64_t)a, low_b = (uint64_t)b, mask = 0xffffffff;
    const uint64_t a0 = low_a & mask, a1 = low_a >> 32, b0 = low_b & mask, b1 = low_b >> 32;
    const uint64_t middle = a1 * b0 + (a0 * b0 >> 32), other = a0 * b1 + (middle & mask);
    const uint64_t high = a1 * b1 + (middle >> 32) + (other >> 32) + (uint64_t)((unsigned __int128)a >> 64) * low_b
                          + low_a * (uint64_t)((unsigned __int128)b >> 64);

    return (__int128)((unsigned __int128)high << 64 | low_a * low_b);
}
