/* An example: two ends over a wire in memory that loses every third segment. Text goes both ways, then both sides close. */
#include "tcpcore.h"

#include <stdio.h>
#include <stdlib.h>

struct side {
    const char *name;
    tcpcore_end end;
    void *memory; /* all that the end will ever use */
    tcpcore_addr addr;
    const char *text; /* what its user sends */
    size_t length;
    size_t sent;
    int is_closed; /* whether its user has closed */
};

static const char HERE[] = "The first line goes from A to B, and it is longer than one segment of this wire.\n";
static const char BACK[] = "The second line comes back from B to A.\n";

/* Ends the program where a call that is to be done isn't. */
static void need(const char *call, uint32_t answer)
{
    if (answer != TCPCORE_DONE) {
        printf("%s answered %u\n", call, answer);
        exit(1);
    }
}

static void make(struct side *side, uint16_t port, uint32_t isn)
{
    tcpcore_config config = {
        .addr = side->addr, .port = port, .mss = 64, .isn = isn, .send_capacity = 4096, .recv_capacity = 4096,
        .limit = TCPCORE_LIMIT, .sack = 1};
    side->memory = malloc(tcpcore_room(&config));
    need("new", tcpcore_new(&side->end, &config, side->memory, side->memory ? tcpcore_room(&config) : 0));
}

static struct tcpcore_status status(struct side *side)
{
    struct tcpcore_status reported;
    need("status", tcpcore_status(&side->end, &reported));
    return reported;
}

/* Carries all that is due from one end to the other; each third segment of the wire is lost. Answers how many were due. */
static int carry(struct side *from, struct side *to)
{
    static int count;
    unsigned char segment[TCPCORE_EMIT_ROOM];
    tcpcore_addr destination;
    size_t length;
    int due = 0;
    while (tcpcore_emit(&from->end, segment, sizeof segment, &destination, &length) == TCPCORE_DONE) {
        due++;
        count++;
        if (count % 3 == 0) {
            printf("%2d %s > %s %zu bytes, lost\n", count, from->name, to->name, length);
            continue;
        }
        uint32_t answer = tcpcore_arrive(&to->end, from->addr, destination, segment, length);
        printf("%2d %s > %s %zu bytes, %s\n", count, from->name, to->name, length,
               answer == TCPCORE_DONE ? "taken" : "passed over");
    }
    return due;
}

/* What its user does: reads what came, sends its text, and closes behind it, or where the peer has closed. */
static void use(struct side *side)
{
    char text[128];
    size_t count;
    uint32_t answer;
    while ((answer = tcpcore_receive(&side->end, text, sizeof text, &count)) == TCPCORE_DONE)
        printf("   %s is handed %zu bytes: %.*s\n", side->name, count, (int)(count - (text[count - 1] == '\n')), text);
    if (status(side).phase >= TCPCORE_PHASE_ESTABLISHED && side->sent < side->length) {
        need("send", tcpcore_send(&side->end, side->text + side->sent, side->length - side->sent, &count));
        side->sent += count;
    }
    int has_sent = side->sent == side->length;
    if (!side->is_closed && (answer == TCPCORE_END_OF_STREAM || (side->name[0] == 'A' && has_sent))) {
        need("close", tcpcore_close(&side->end));
        side->is_closed = 1;
    }
}

/* Lets one of its timers run out, the short one before the long one; whether one was running. TIME-WAIT is left alone. */
static int run_out(struct side *side)
{
    uint32_t due;
    need("timers", tcpcore_timers(&side->end, &due));
    if (due >> TCPCORE_TIMER_REORDER & 1)
        need("timer", tcpcore_timer(&side->end, TCPCORE_TIMER_REORDER));
    else if (due >> TCPCORE_TIMER_RETRANSMIT & 1)
        need("timer", tcpcore_timer(&side->end, TCPCORE_TIMER_RETRANSMIT));
    else
        return 0;
    return 1;
}

static void report(struct side *side)
{
    struct tcpcore_status reported = status(side);
    printf("%s: phase %u, ending %u, %llu bytes acknowledged, %llu received\n", side->name, reported.phase, reported.ending,
           (unsigned long long)reported.released, (unsigned long long)reported.ordered);
    need("free", tcpcore_free(&side->end));
    free(side->memory);
}

int main(void)
{
    struct side a = {.name = "A", .addr = {{10, 0, 0, 1}}, .text = HERE, .length = sizeof HERE - 1};
    struct side b = {.name = "B", .addr = {{10, 0, 0, 2}}, .text = BACK, .length = sizeof BACK - 1};
    make(&a, 1, 1000);
    make(&b, 2, 5000);
    need("listen", tcpcore_listen(&b.end));
    need("connect", tcpcore_connect(&a.end, b.addr, 2));
    for (int turn = 0; turn < 100 && status(&a).ending == TCPCORE_ENDING_NOT_ENDED; turn++) {
        int due = carry(&a, &b);
        due += carry(&b, &a);
        use(&a);
        use(&b);
        /* A turn in which nothing was due stands for the time after which timers run out, TIME-WAIT the last. */
        if (due == 0 && run_out(&a) + run_out(&b) == 0)
            need("timer", tcpcore_timer(&a.end, TCPCORE_TIMER_TIME_WAIT));
    }
    report(&a);
    report(&b);
    return 0;
}
