/* The other side is gVisor's netstack (see peer.h), by gvisor/netstack.go, in this process and on the driver's clock. */
#include "peer.h"

#include "ip.h"
#include "netstack.h"
#include "segment.h"

#include <stdio.h>
#include <string.h>

const char *const PEER_NAME = "gVisor";
const int PEER_IS_REAL = 0;
const uint64_t PEER_PACE = 4000;

/* A packet has room for so many bytes; its timers are looked at so often, in milliseconds, and behind a second without a packet so much
   less; behind its longest timeout, 120 s, it is silent; and what a read answers without bytes. */
enum { PACKET = 1700, TICK = 10, SECOND = 1000, SLOW_TICK = 250, SILENT = 121000, ENDED = -1, FAILED = -2 };

static uint64_t reached, stirred;
static int has_ended, has_failed;

void peer_begin(void)
{
    has_ended = has_failed = 0;
    reached = stirred = now;
    wire_begin();
    netstack_begin(trial.opens == PEER, trial.sack, trial.seed);
}

/* What it has to send. */
static void leave(void)
{
    uint8_t packet[PACKET];
    int length;
    while ((length = netstack_leave(packet, sizeof packet)) > 0) {
        stirred = now;
        wire_put(PEER, packet + IP_HEADER, (size_t)length - IP_HEADER);
    }
}

void peer_arrive(const uint8_t *segment, size_t length)
{
    uint8_t packet[PACKET];
    size_t total = ip_write(packet, (tcpcore_addr){{10, 0, 0, 1}}, (tcpcore_addr){{10, 0, 0, 2}}, length);
    memcpy(packet + IP_HEADER, segment, length);
    stirred = now;
    netstack_arrive(packet, (int)total);
    leave();
}

static void read_some(void)
{
    static uint8_t text[1 << 16];
    for (;;) {
        size_t wants = user_wants(PEER, sizeof text);
        int count = wants > 0 ? netstack_read(text, (int)wants) : 0;
        has_ended |= count == ENDED;
        has_failed |= count == FAILED;
        if (count <= 0)
            return;
        user_reads(PEER, text, (size_t)count);
    }
}

static void write_some(void)
{
    uint8_t text[1 << 14];
    size_t length;
    while ((length = user_text(PEER, text, sizeof text)) > 0) {
        int count = netstack_write(text, (int)length);
        if (count <= 0)
            return;
        trial.users[PEER].sent += (uint64_t)count;
    }
}

void peer_turn(void)
{
    netstack_advance(now - reached);
    reached = now;
    if (netstack_is_open() && !has_failed) {
        read_some();
        write_some();
        trial.users[PEER].saw_end = has_ended;
        trial.users[PEER].saw_fault |= has_failed;
        if (user_aborts(PEER)) {
            netstack_abort();
            has_failed = 1;
        } else if (user_closes(PEER)) {
            netstack_shutdown();
        }
    }
    leave();
}

uint64_t peer_next(void) { return now + (now - stirred < SECOND ? TICK : SLOW_TICK); }
uint64_t peer_wait(uint64_t until) { return until; }
int peer_is_over(void) { return has_failed || (has_ended && trial.users[PEER].has_closed); }

/* In fast recovery a FIN without text doesn't count as outstanding, and where nothing does no timer is set behind a probe: if both are lost
   our side waits for the end. */
const char *peer_fault(void)
{
    int is_silent = trial.users[PEER].has_closed && !trial.users[OWN].saw_end && !has_failed && now - stirred > SILENT;
    return is_silent ? "a FIN that isn't sent again (snd.go, lines 1060 and 933)" : 0;
}

void peer_report(void)
{
    printf("    gVisor: state %d ended %d failed %d closed %d\n", netstack_state(), has_ended, has_failed, trial.users[PEER].has_closed);
}
