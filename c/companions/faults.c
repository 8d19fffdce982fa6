/* A path with faults (see faults.h). C, tested and not proved. */
#include "faults.h"

#include <string.h>

enum { LOST, DOUBLED, LATE, WHOLE };

/* What happens to the next packet. */
static uint32_t draw(struct faults *faults)
{
    faults->state = faults->state * 1664525 + 1013904223;
    uint32_t drawn = (faults->state >> 16) % 100, kind = faults->percent ? drawn / faults->percent : WHOLE;
    return kind < WHOLE ? kind : WHOLE;
}

void faults_pass(struct faults *faults, const void *packet, size_t length,
                 void (*go)(const void *packet, size_t length, void *context), void *context)
{
    uint32_t kind = draw(faults);
    if (kind == LATE && faults->length == 0 && length <= FAULTS_MOST) {
        memcpy(faults->late, packet, length);
        faults->length = length;
        faults->passing = FAULTS_LATER;
        return;
    }
    if (kind != LOST)
        go(packet, length, context);
    if (kind == DOUBLED)
        go(packet, length, context);
    if (faults->length > 0 && --faults->passing == 0) {
        go(faults->late, faults->length, context);
        faults->length = 0;
    }
}
