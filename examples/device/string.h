/* What the library and its companions want of a C library; memory.c has it. */
#ifndef DEVICE_STRING_H
#define DEVICE_STRING_H

#include <stddef.h>

void *memcpy(void *restrict to, const void *restrict from, size_t count);
void *memmove(void *to, const void *from, size_t count);
void *memset(void *to, int value, size_t count);
int memcmp(const void *one, const void *two, size_t count);

#endif
