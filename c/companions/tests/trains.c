/* The test of trains.c: what an end emits as trains is framed, and completed and cut by plain code, as a device does it. The segments
   have to be those that a second end like it emits one by one. */
#include "../trains.h"
#include "made.h"
#include "tests/check.h"

#include <linux/virtio_net.h>
#include <string.h>

/* The bytes that an end keeps, and the sum of the last bytes of both addresses. */
enum { KEEPS = 300000, LASTS = 3 };

static const tcpcore_addr OWN = {{10, 0, 0, 1}}, PEER = {{10, 0, 0, 2}};

struct side {
    tcpcore_end end;
    uint8_t block[TCPCORE_MEMORY(KEEPS, KEEPS)];
};

/* An end that emits trains, one like it that emits segments, and the peer of both. */
static struct side joined, single, peer;
static uint8_t frame[TRAINS_ROOM], text[KEEPS];

/* Of the frames of emit_all: how many they were, the segments and the header of the last one, and the length of the longest. */
static size_t frames, segments, header, longest;

static void make(struct side *side, tcpcore_addr addr, uint16_t port, uint16_t mss)
{
    tcpcore_config config = {.addr = addr, .port = port, .mss = mss, .isn = UINT32_MAX - 5000, .send_capacity = KEEPS,
                             .recv_capacity = KEEPS, .limit = TCPCORE_LIMIT, .window_shift = 3, .scales = 1, .sack = 1};
    side->end = (tcpcore_end)TCPCORE_END_INIT;
    CHECK(tcpcore_new(&side->end, &config, side->block, sizeof side->block), TCPCORE_DONE);
}

/* A segment that the device sends has to be what is emitted one by one; the peer takes it. */
static void is_next(const uint8_t *segment, size_t length)
{
    uint8_t wanted[TCPCORE_EMIT_ROOM];
    tcpcore_addr to;
    size_t count;
    CHECK(tcpcore_emit(&single.end, wanted, sizeof wanted, &to, &count), TCPCORE_DONE);
    CHECK(length, count);
    CHECK(memcmp(segment, wanted, count), 0);
    CHECK(tcpcore_arrive(&peer.end, OWN, PEER, segment, length), TCPCORE_DONE);
}

/* The device puts the complement of the sum from one place on into the field at another. */
static void complete(uint8_t *packet, size_t length, const struct virtio_net_hdr *front)
{
    uint32_t sum = 0;
    for (size_t at = 0; front->csum_start + at < length; at++)
        sum += (uint32_t)packet[front->csum_start + at] << (at % 2 ? 0 : 8);
    while (sum >> 16)
        sum = (sum & 0xffff) + (sum >> 16);
    write16(packet + front->csum_start + front->csum_offset, (uint16_t)~sum);
}

/* The device cuts text off again and again: each header is the first one, further on, and PSH and FIN are the last one's. */
static size_t cut(const uint8_t *packet, size_t length, const struct virtio_net_hdr *front)
{
    const uint8_t *segment = packet + IP_HEADER;
    uint8_t piece[TCPCORE_EMIT_ROOM];
    size_t fore = front->hdr_len - (size_t)IP_HEADER, all = length - front->hdr_len, count = 0, many;
    for (size_t at = 0; at < all; at += many, count++) {
        many = all - at < front->gso_size ? all - at : front->gso_size;
        memcpy(piece, segment, fore);
        memcpy(piece + fore, segment + fore + at, many);
        write32(piece + AT_SEQ, read32(segment + AT_SEQ) + (uint32_t)at);
        if (at + many < all)
            piece[AT_BITS] &= (uint8_t)~(PSH | FIN);
        write_checksum(piece, fore + many, LASTS);
        is_next(piece, fore + many);
    }
    return count;
}

/* The device takes a frame. Answers how many segments it is. */
static size_t take(size_t length)
{
    struct virtio_net_hdr front;
    struct ip_packet found;
    size_t count = 0;
    int vouched = 0;
    uint8_t *packet = frame + TUN_HEADER, *segment = frame + TRAINS_FRONT;
    CHECK(trains_read(frame, length, &count, &vouched) == packet, 1);
    CHECK(count, length - TUN_HEADER);
    CHECK(vouched, 1);
    CHECK(ip_read((struct ip_net){PEER, 24}, packet, count, &found), IP_DONE);
    CHECK(found.segment == segment && found.length == length - TRAINS_FRONT, 1);
    CHECK(memcmp(&found.src, &OWN, sizeof OWN) == 0 && memcmp(&found.dst, &PEER, sizeof PEER) == 0, 1);
    memcpy(&front, frame, sizeof front);
    CHECK(front.flags, VIRTIO_NET_HDR_F_NEEDS_CSUM);
    CHECK(front.hdr_len, IP_HEADER + header_of(segment));
    complete(packet, count, &front);
    uint16_t sum = read16(segment + AT_CHECKSUM);
    segment[AT_CHECKSUM] ^= 0x55;
    trains_sum(segment, found.length, OWN, PEER);
    CHECK(read16(segment + AT_CHECKSUM), sum);
    if (front.gso_type != VIRTIO_NET_HDR_GSO_NONE) {
        CHECK(front.gso_type, VIRTIO_NET_HDR_GSO_TCPV4);
        return cut(packet, count, &front);
    }
    is_next(segment, found.length);
    return 1;
}

/* All that is due goes to the device, which sends all that it may. */
static void emit_all(void)
{
    struct tcpcore_train train;
    uint32_t due = 1;
    frames = longest = 0;
    while (tcpcore_emit_train(&joined.end, frame + TRAINS_FRONT, TCPCORE_TRAIN_ROOM, SIZE_MAX, &train) == TCPCORE_DONE) {
        size_t length = trains_write(frame, OWN, &train);
        CHECK(length, TRAINS_FRONT + train.whole.length);
        CHECK(take(length), train.segments);
        segments = train.segments, header = train.header;
        longest = length > longest ? length : longest;
        frames++;
    }
    CHECK(tcpcore_pending(&single.end, &due), TCPCORE_DONE);
    CHECK(due, 0);
}

/* All that the peer has due but for the first few comes to both ends. */
static void answer_all(size_t lost)
{
    uint8_t bytes[TCPCORE_EMIT_ROOM];
    tcpcore_addr to;
    size_t length;
    for (size_t at = 0; tcpcore_emit(&peer.end, bytes, sizeof bytes, &to, &length) == TCPCORE_DONE; at++)
        if (at >= lost) {
            CHECK(tcpcore_arrive(&joined.end, PEER, OWN, bytes, length), TCPCORE_DONE);
            CHECK(tcpcore_arrive(&single.end, PEER, OWN, bytes, length), TCPCORE_DONE);
        }
}

static void open_all(uint16_t mss)
{
    make(&joined, OWN, 80, mss), make(&single, OWN, 80, mss), make(&peer, PEER, 99, mss);
    CHECK(tcpcore_listen(&joined.end) == TCPCORE_DONE && tcpcore_listen(&single.end) == TCPCORE_DONE, 1);
    CHECK(tcpcore_connect(&peer.end, OWN, 80), TCPCORE_DONE);
    answer_all(0);
    emit_all(); /* a SYN with options */
    CHECK(frames == 1 && segments == 1, 1);
    answer_all(0);
    emit_all();
    CHECK(frames, 0);
}

static void free_all(void)
{
    CHECK(tcpcore_free(&joined.end), TCPCORE_DONE);
    CHECK(tcpcore_free(&single.end), TCPCORE_DONE);
    CHECK(tcpcore_free(&peer.end), TCPCORE_DONE);
}

static void give(struct side *side, size_t length)
{
    size_t taken;
    CHECK(tcpcore_send(&side->end, text, length, &taken), TCPCORE_DONE);
    CHECK(taken, length);
}

/* So much text came to the peer, which acknowledges it. */
static void is_there(size_t length)
{
    static uint8_t found[KEEPS];
    size_t count;
    CHECK(tcpcore_receive(&peer.end, found, sizeof found, &count), TCPCORE_DONE);
    CHECK(count, length);
    CHECK(memcmp(found, text, length), 0);
    answer_all(0);
}

/* So much text, then the end of the stream. */
static void carries(uint16_t mss, size_t length)
{
    size_t most = TCPCORE_TRAIN_ROOM / mss;
    open_all(mss);
    give(&joined, length), give(&single, length);
    emit_all();
    CHECK(frames <= 1 + length / ((most - 1) * mss) && longest <= TRAINS_ROOM, 1);
    CHECK(header, SEGMENT_HEADER);
    is_there(length);
    CHECK(tcpcore_close(&joined.end) == TCPCORE_DONE && tcpcore_close(&single.end) == TCPCORE_DONE, 1);
    emit_all();
    CHECK(frames == 1 && segments == 1 && longest == TRAINS_FRONT + SEGMENT_HEADER, 1);
    free_all();
}

/* What came out of order is reported by each segment of a train: the header has options. */
static void reports(void)
{
    open_all(1000);
    give(&peer, 2000);
    answer_all(1);
    give(&joined, 20000), give(&single, 20000);
    emit_all();
    CHECK(frames == 1 && segments > 20000 / 1000 && header == SEGMENT_HEADER + 12, 1);
    is_there(20000);
    emit_all();
    free_all();
}

/* What the device gives may have no packet; and a packet that is summed says whether it was found right. */
static void bounds(void)
{
    size_t count = 0;
    int vouched = 1;
    uint8_t bytes[TUN_HEADER + 30] = {0};
    CHECK(TRAINS_ROOM, TUN_HEADER + 65535);
    CHECK(trains_read(bytes, TUN_HEADER - 1, &count, &vouched) == NULL, 1);
    CHECK(trains_read(bytes, sizeof bytes, &count, &vouched) == bytes + TUN_HEADER, 1);
    CHECK(count, 30);
    CHECK(vouched, 0);
    bytes[0] = VIRTIO_NET_HDR_F_DATA_VALID;
    CHECK(trains_read(bytes, TUN_HEADER, &count, &vouched) == bytes + TUN_HEADER, 1);
    CHECK(count, 0);
    CHECK(vouched, 1);
}

int main(void)
{
    static const uint16_t SIZES[] = {64, 536, 1000, 1460};
    for (size_t at = 0; at < sizeof text; at++)
        text[at] = (uint8_t)(at * at >> 7 ^ at);
    for (size_t at = 0; at < sizeof SIZES / sizeof *SIZES; at++) {
        size_t mss = SIZES[at], lengths[] = {1, mss - 1, mss, mss + 1, 2 * mss, 3 * mss + 7, 44 * mss, 44 * mss + 1, KEEPS};
        for (size_t each = 0; each < sizeof lengths / sizeof *lengths; each++)
            carries(SIZES[at], lengths[each]);
    }
    reports();
    bounds();
    printf("trains: %d checks\n", checks);
    return 0;
}
