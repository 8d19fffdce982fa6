/* The four functions of a C library that there have to be, byte by byte. Compile it with -fno-tree-loop-distribute-patterns, so that the
   compiler doesn't make a call of memcpy of memcpy's own loop. */
#include <stdint.h>
#include <string.h>

void *memcpy(void *restrict to, const void *restrict from, size_t count)
{
    const uint8_t *source = from;
    for (uint8_t *at = to; count > 0; count--)
        *at++ = *source++;
    return to;
}

/* Backwards where the target lies behind the source. */
void *memmove(void *to, const void *from, size_t count)
{
    if ((uintptr_t)to <= (uintptr_t)from)
        return memcpy(to, from, count);
    while (count-- > 0)
        ((uint8_t *)to)[count] = ((const uint8_t *)from)[count];
    return to;
}

void *memset(void *to, int value, size_t count)
{
    for (uint8_t *at = to; count > 0; count--)
        *at++ = (uint8_t)value;
    return to;
}

int memcmp(const void *one, const void *two, size_t count)
{
    const uint8_t *left = one, *right = two;
    for (; count > 0; count--, left++, right++)
        if (*left != *right)
            return *left < *right ? -1 : 1;
    return 0;
}
