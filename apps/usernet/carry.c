/* Text between an end and the host's socket (see usernet.h). C over tcpcore.h and its companions, tested and not proved. */
#define _GNU_SOURCE
#include "usernet.h"

#include <errno.h>
#include <string.h>
#include <sys/socket.h>
#include <sys/uio.h>

/* The client learns of the room, where its window has become small and has grown by a segment (RFC 9293, 3.8.6.2.2). One that is shut opens by
   more than that: a socket of the host's that has taken no more can be written to again once much of its buffer is free. */
static void report_window(struct usernet *net, const struct conn *conn, uint64_t rcv_position)
{
    const struct end *end = conn->end;
    uint64_t left = end->edge > rcv_position ? end->edge - rcv_position : 0;
    uint64_t step = net->mss < conn->capacity / 2 ? net->mss : conn->capacity / 2;
    if (2 * left < conn->capacity && rcv_position + ends_status(net, conn).rcv_wnd >= end->edge + step)
        tcpcore_host_acknowledge(&net->ends, time_of(net), &end->id);
}

/* What the client sent goes to the host's socket from where it lies, as far as that takes it; 0 where the connection can't go on. */
int carry_up(struct usernet *net, struct conn *conn, uint64_t rcv_position)
{
    struct tcpcore_lent lent;
    uint32_t answer = TCPCORE_DONE;
    while (conn->can_write && !conn->client_done && (answer = tcpcore_host_peek(&net->ends, &conn->end->id, &lent)) == TCPCORE_DONE) {
        size_t length = lent.first.length + lent.second.length, taken;
        struct iovec pieces[2];
        memcpy(&pieces[0], &lent.first, sizeof pieces[0]);
        memcpy(&pieces[1], &lent.second, sizeof pieces[1]);
        ssize_t sent = sendmsg(conn->socket, &(struct msghdr){.msg_iov = pieces, .msg_iovlen = 2}, MSG_NOSIGNAL);
        if (sent < 0 && errno != EAGAIN)
            return 0;
        tcpcore_host_consume(&net->ends, time_of(net), &conn->end->id, sent > 0 ? (size_t)sent : 0, &taken);
        report_window(net, conn, rcv_position);
        conn->end->carried += taken;
        count(net, UP, taken);
        conn->can_write = taken == length;
    }
    if (answer == TCPCORE_END_OF_STREAM)
        shutdown(conn->socket, SHUT_WR), conn->client_done = 1;
    return 1;
}

/* What the host sent goes into the end's queue, as far as it has room; 0 where the connection can't go on. */
int carry_down(struct usernet *net, struct conn *conn, size_t room)
{
    while (conn->can_read && !conn->host_done) {
        size_t taken = 0;
        ssize_t got = room == 0 ? 0 : recv(conn->socket, net->text, room, 0);
        if (room == 0 || (got < 0 && errno == EAGAIN)) {
            conn->can_read = room == 0;
            return 1;
        }
        if (got == 0) {
            conn->host_done = 1;
            tcpcore_host_close(&net->ends, time_of(net), &conn->end->id);
        } else if (got < 0 || tcpcore_host_send(&net->ends, time_of(net), &conn->end->id, net->text, (size_t)got, &taken) != TCPCORE_DONE) {
            return 0;
        }
        conn->end->carried += taken;
        count(net, DOWN, taken);
        room -= taken;
    }
    return 1;
}

