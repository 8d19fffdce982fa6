/* The other side is an end of ours, too (see peer.h). */
#include "peer.h"

const char *const PEER_NAME = "own";
const uint64_t PEER_PACE = 4000;
const int PEER_IS_REAL = 0;

void peer_begin(void) { own_begin(PEER); }
void peer_arrive(const uint8_t *segment, size_t length) { own_arrive(PEER, segment, length); }
void peer_turn(void) { own_turn(PEER); }
uint64_t peer_next(void) { return own_next(PEER); }

uint64_t peer_wait(uint64_t until) { return until; }

int peer_is_over(void)
{
    if (own_fault(PEER))
        trial.users[PEER].saw_fault = 1;
    return own_is_over(PEER);
}

const char *peer_fault(void) { return 0; }
void peer_report(void) { own_report(PEER); }
