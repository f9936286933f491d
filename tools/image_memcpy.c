/* The one routine that the library takes from the C library, for images, which have none: n bytes from one place to
 * another that does not overlap it. */
#include <stddef.h>

void *memcpy(void *to, const void *from, size_t n)
{
    void *start = to;

    __asm__ volatile("rep movsb" : "+D"(to), "+S"(from), "+c"(n) : : "memory");
    return start;
}
