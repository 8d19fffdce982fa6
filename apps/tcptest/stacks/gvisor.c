/* gVisor's netstack (see child.h), by netstack.go in this process. */
#include "child.h"

#include "netstack.h"

enum { PACKET = 2048 };

const unsigned stack_step = 1000;

static uint64_t reached;

static void leave(void)
{
    uint8_t packet[PACKET];
    int length;
    while ((length = netstack_leave(packet, sizeof packet)) > 0)
        child_leave(packet, (size_t)length);
}

void stack_begin(void)
{
    reached = now;
    netstack_begin();
}

void stack_arrive(const uint8_t *packet, size_t length)
{
    netstack_arrive((void *)packet, (int)length);
    leave();
}

void stack_turn(void)
{
    netstack_advance(now - reached);
    reached = now;
    leave();
}

int stack_listen(uint16_t port, const struct wishes *wishes)
{
    return netstack_listen(port, (int)wishes->capacity, wishes->nagle, wishes->ttl, wishes->service);
}

int stack_connect(uint16_t port, const uint8_t address[4], uint16_t to, const struct wishes *wishes)
{
    return netstack_connect(port, (void *)address, to, (int)wishes->capacity, wishes->nagle, wishes->ttl, wishes->service);
}

int stack_accept(uint16_t port) { return netstack_accept(port); }
long stack_send(int handle, const void *text, size_t length) { return netstack_send(handle, (void *)text, (int)length); }
long stack_receive(int handle, void *out, size_t room) { return netstack_receive(handle, out, (int)room); }
int stack_is_open(int handle) { return netstack_is_open(handle); }
void stack_close(int handle) { netstack_shutdown(handle); }
void stack_leave(int handle) { netstack_close(handle); }
void stack_abort(int handle) { netstack_abort(handle); }

int stack_wish(int handle, const struct wishes *wishes)
{
    return netstack_wish(handle, wishes->nagle, wishes->ttl, wishes->service, wishes->keeps, (int)wishes->idle, (int)wishes->interval);
}
