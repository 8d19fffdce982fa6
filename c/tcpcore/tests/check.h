/* What the tests share: a check that stops the program. */
#ifndef TCPCORE_CHECK_H
#define TCPCORE_CHECK_H

#include <stdio.h>
#include <stdlib.h>

#define CHECK(found, wanted) check(__FILE__, __LINE__, #found, (long long)(found), (long long)(wanted))

static int checks;

static void check(const char *file, int line, const char *what, long long found, long long wanted)
{
    checks++;
    if (found != wanted) {
        printf("%s:%d: %s is %lld, not %lld\n", file, line, what, found, wanted);
        exit(1);
    }
}

#endif
