/*
 * Refuses one allocation of the program that it is loaded into: the one whose number, from 1, is in REFUSE; then it writes a byte to
 * the file with the descriptor 9. An allocation is a call of malloc or of realloc.
 */
#include <stddef.h>
#include <stdlib.h>
#include <unistd.h>

void *__libc_malloc(size_t size);
void *__libc_realloc(void *at, size_t size);

static int is_refused(void)
{
    static long count;
    const char *number = getenv("REFUSE");
    if (++count != (number ? atol(number) : 0))
        return 0;
    return write(9, "!", 1) == 1;
}

void *malloc(size_t size)
{
    return is_refused() ? NULL : __libc_malloc(size);
}

void *realloc(void *at, size_t size)
{
    return is_refused() ? NULL : __libc_realloc(at, size);
}
