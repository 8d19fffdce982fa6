/* Ethernet frames (see ethernet.h). C beside ip.h, tested and not proved. */
#include "ethernet.h"
#include "segment.h"

#include <string.h>

/* Of an ARP packet for Ethernet and IPv4 (RFC 826): its first six bytes, where the other fields lie, and what it is. */
enum { AT_OPERATION = 6, AT_SENDER = 8, AT_SENDER_IP = 14, AT_TARGET = 18, AT_TARGET_IP = 24, REQUEST = 1, REPLY = 2 };
static const uint8_t KIND[6] = {0, 1, 8, 0, 6, 4};

void ethernet_write(uint8_t *out, struct ethernet_addr dst, struct ethernet_addr src, uint16_t type)
{
    memcpy(out, &dst, sizeof dst);
    memcpy(out + 6, &src, sizeof src);
    write16(out + 12, type);
}

struct ethernet_addr ethernet_src(const uint8_t *frame)
{
    struct ethernet_addr src;
    memcpy(&src, frame + 6, sizeof src);
    return src;
}

uint16_t ethernet_type(const uint8_t *frame) { return read16(frame + 12); }

size_t ethernet_answer(uint8_t *out, const uint8_t *frame, size_t length, struct ethernet_addr own, tcpcore_addr ip)
{
    const uint8_t *asks = frame + ETHERNET_HEADER;
    uint8_t *reply = out + ETHERNET_HEADER;
    struct ethernet_addr peer;
    if (length < ETHERNET_ANSWER || ethernet_type(frame) != ETHERNET_ARP || memcmp(asks, KIND, sizeof KIND) != 0 ||
        read16(asks + AT_OPERATION) != REQUEST || memcmp(asks + AT_TARGET_IP, &ip, sizeof ip) != 0)
        return 0;
    memcpy(&peer, asks + AT_SENDER, sizeof peer);
    ethernet_write(out, peer, own, ETHERNET_ARP);
    memcpy(reply, KIND, sizeof KIND);
    write16(reply + AT_OPERATION, REPLY);
    memcpy(reply + AT_SENDER, &own, sizeof own);
    memcpy(reply + AT_SENDER_IP, &ip, sizeof ip);
    memcpy(reply + AT_TARGET, &peer, sizeof peer);
    memcpy(reply + AT_TARGET_IP, asks + AT_SENDER_IP, sizeof ip);
    return ETHERNET_ANSWER;
}
