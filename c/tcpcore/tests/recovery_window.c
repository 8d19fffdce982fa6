/* What a connection's loss recovery by time tells the congestion window: a loss once, and one that a probe has repaired. */
#include "recovery.h"

static struct tcpcore_congestion congestion(void)
{
    struct tcpcore_congestion found;
    CHECK(tcpcore_connection_congestion(&a, &found), TCPCORE_DONE);
    return found;
}

static void windows_shrink_once(void)
{
    /* RFC 5681, 3.1: ten segments were in flight when the loss of two was found. */
    begin(1, TCPCORE_CONGESTION_RENO);
    sends(NOW, 10);
    trip(NOW, 1 << 1 | 1 << 2);
    CHECK(congestion().ssthresh, UINT64_C(1) << 40);
    emit(&flying, &a, NOW + TRIP + WINDOW);
    CHECK(flying.count, 2);
    uint64_t ssthresh = congestion().ssthresh;
    CHECK(ssthresh >= 2 * FULL && ssthresh <= 5 * FULL, 1);
    trip(NOW + TRIP + WINDOW, 0);
    is_over(10 * FULL);
    CHECK(congestion().ssthresh, ssthresh);
    CHECK(congestion().is_recovering, 0);
    free_both();
    /* RFC 8985, 7.4.2: the probe has repaired a loss, as is known once more is acknowledged. */
    begin(1, TCPCORE_CONGESTION_RENO);
    sends(NOW, 3);
    trip(NOW, 1 << 2);
    again(NOW + TRIP + 400 * MS, 2 * FULL, FULL);
    trip(NOW + TRIP + 400 * MS, 0);
    CHECK(congestion().ssthresh, UINT64_C(1) << 40);
    sends(NOW + SECOND, 1);
    trip(NOW + SECOND, 0);
    CHECK(congestion().ssthresh < UINT64_C(1) << 40, 1);
    is_over(4 * FULL);
    free_both();
}

int main(void)
{
    windows_shrink_once();
    printf("recovery_window: windows shrink once for a loss, and for one that a probe has repaired\n");
    return checks > 50 ? 0 : 1;
}
