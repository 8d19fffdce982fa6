/* The test of faults.c: each packet bears its number, and what comes out is counted. */
#include "../faults.h"
#include "tests/check.h"

#include <string.h>

enum { PACKETS = 20000 };

static int came[PACKETS], order[3 * PACKETS], count;

static void take(const void *packet, size_t length, void *context)
{
    int number;
    CHECK(length, sizeof number);
    CHECK(context == came, 1);
    memcpy(&number, packet, sizeof number);
    came[number]++;
    order[count++] = number;
}

static void pass_all(uint32_t percent)
{
    static struct faults faults;
    memset(&faults, 0, sizeof faults);
    memset(came, 0, sizeof came);
    faults.percent = percent;
    count = 0;
    for (int number = 0; number < PACKETS; number++)
        faults_pass(&faults, &number, sizeof number, take, came);
}

int main(void)
{
    int lost = 0, doubled = 0, late = 0, largest = -1;
    pass_all(0);
    CHECK(count, PACKETS);
    for (int at = 0; at < PACKETS; at++)
        CHECK(order[at], at);
    pass_all(5);
    for (int at = 0; at < count; at++) {
        late += order[at] < largest;
        CHECK(largest - order[at] <= FAULTS_LATER, 1);
        largest = order[at] > largest ? order[at] : largest;
    }
    for (int at = 0; at < PACKETS - 1; at++) {
        lost += came[at] == 0;
        doubled += came[at] == 2;
        CHECK(came[at] <= 2, 1);
    }
    CHECK(lost > 800 && lost < 1200, 1);
    CHECK(doubled > 800 && doubled < 1200, 1);
    CHECK(late > 600 && late < 1200, 1);
    printf("faults: %d checks\n", checks);
    return 0;
}
