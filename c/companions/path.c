/* What ICMP says of a connection's path (see path.h). C over tcpcore.h, tested and not proved. */
#include "path.h"
#include "segment.h"

#include <string.h>

/* MTUs that links have: what a router takes that doesn't say it is the next one below the packet that met it (RFC 1191, 7.1). */
static const uint16_t PLATEAUS[] = {65535, 32000, 17914, 8166, 4352, 2002, 1492, 1006, 508, 296, 68};

void path_init(struct path *path, uint32_t isn, uint32_t mtu) { *path = (struct path){.isn = isn, .mtu = mtu, .first_mtu = mtu}; }

/* Whether a sequence number is in flight (RFC 5927, 4.1). */
static int is_in_flight(const struct path *path, const struct tcpcore_status *status, uint32_t seq)
{
    return seq - path->isn - (uint32_t)status->snd_una < (uint32_t)(status->snd_nxt - status->snd_una);
}

static uint32_t mtu_of(const struct icmp_error *error)
{
    size_t at = 0;
    if (error->mtu)
        return error->mtu;
    while (at + 1 < sizeof PLATEAUS / sizeof PLATEAUS[0] && PLATEAUS[at] >= error->length)
        at++;
    return PLATEAUS[at];
}

/* Takes a lesser MTU; whether it is one. Below PATH_LEAST the segments stay as they are, and routers cut them. */
static int lower(struct path *path, uint32_t mtu, uint64_t now)
{
    uint32_t next = mtu < PATH_LEAST ? PATH_LEAST : mtu;
    int is_less = next < path->mtu || (mtu < PATH_LEAST && !path->may_be_cut);
    path->claimed = 0;
    if (!is_less)
        return 0;
    path->may_be_cut |= mtu < PATH_LEAST;
    path->mtu = next;
    path->sample = 0;
    path->longest = path->longest < next ? path->longest : next;
    path->lowered_at = now;
    return 1;
}

/* What a router says that met a packet too long for its next hop. A router that says no less than the packet had is wrong, and so is
   one that says less than an IPv4 host has to take (RFC 791, 3.2). */
static int too_big(struct path *path, const struct tcpcore_status *status, const struct icmp_error *error, uint64_t now)
{
    uint32_t mtu = mtu_of(error);
    if (mtu >= error->length || mtu < PLATEAUS[sizeof PLATEAUS / sizeof PLATEAUS[0] - 1] || (mtu >= path->mtu && path->mtu > PATH_LEAST))
        return PATH_NOTHING;
    if (path->longest <= mtu)
        return lower(path, mtu, now) ? PATH_NARROWER : PATH_NOTHING;
    path->claimed = mtu;
    path->claimed_at = status->snd_una;
    return PATH_NOTHING;
}

/* Whether nobody will ever answer there, as far as the error is true (RFC 9293, 3.9.2.2: SHLD-26). */
static int is_hard(const struct icmp_error *error)
{
    return error->type == ICMP_UNREACHABLE && (error->code == ICMP_NO_PROTOCOL || error->code == ICMP_NO_PORT);
}

int path_error(struct path *path, const struct tcpcore_status *status, const struct icmp_error *error, uint64_t now)
{
    if (error->protocol != IP_TCP || !is_in_flight(path, status, error->seq))
        return PATH_NOTHING;
    path->type = error->type, path->code = error->code;
    if (error->type == ICMP_UNREACHABLE && error->code == ICMP_TOO_BIG)
        return too_big(path, status, error, now);
    return is_hard(error) && status->phase < TCPCORE_PHASE_ESTABLISHED ? PATH_HARD : PATH_SOFT;
}

void path_sent(struct path *path, uint64_t end, size_t length)
{
    if (length > path->longest && length > path->sample)
        path->sample = (uint32_t)length, path->sample_end = end;
}

int path_run(struct path *path, uint64_t una, int timed_out, uint64_t now)
{
    if (path->sample && una >= path->sample_end)
        path->longest = path->sample, path->sample = 0;
    if (path->claimed && una != path->claimed_at)
        path->claimed = 0; /* there was progress: it wasn't true */
    if ((path->mtu < path->first_mtu || path->may_be_cut) && now - path->lowered_at >= PATH_AGE)
        path->mtu = path->first_mtu, path->may_be_cut = 0;
    return path->claimed && timed_out && lower(path, path->claimed, now);
}

size_t path_text(const struct path *path, size_t header) { return path->mtu - IP_HEADER - header; }

/* The sum of the pseudo-header (RFC 9293, 3.1). */
static uint64_t pseudo_sum(tcpcore_addr src, tcpcore_addr dst, size_t length)
{
    return (uint64_t)read16(src.byte) + read16(src.byte + 2) + read16(dst.byte) + read16(dst.byte + 2) + IP_TCP + length;
}

static void write32(uint8_t *at, uint32_t number)
{
    write16(at, (uint16_t)(number >> 16));
    write16(at + 2, (uint16_t)number);
}

size_t path_piece(const struct path *path, const uint8_t *segment, size_t length, size_t *from, uint8_t *out, tcpcore_addr src, tcpcore_addr dst)
{
    size_t header = header_of(segment), start = *from ? *from : header, most = path_text(path, header);
    if (*from == length)
        return 0;
    size_t text = length - start < most ? length - start : most, piece = header + text;
    memcpy(out, segment, header);
    memcpy(out + header, segment + start, text);
    write32(out + AT_SEQ, read32(segment + AT_SEQ) + (uint32_t)(start - header));
    *from = start + text;
    if (*from < length)
        out[AT_BITS] &= (uint8_t)~(FIN | PSH);
    write16(out + AT_CHECKSUM, 0);
    write16(out + AT_CHECKSUM, (uint16_t)~words_sum(out, piece, pseudo_sum(src, dst, piece)));
    return piece;
}
