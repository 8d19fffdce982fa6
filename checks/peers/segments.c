/*
 * Segments made by hand, each for an end of ours in LISTEN, or in ESTABLISHED with 100 bytes sent and acknowledged each way, and what is
 * wanted of it: whether it is taken, what answers it, and where the end is then. They are SYNs as known systems send them, keep-alives
 * and probes of all styles, options that today's stacks send, and what blind attackers and scanners send. What is wanted is RFC
 * 9293's, 3.10.7, or is said beside the row. Prints each row that failed, and as its last line `N cases, M failed`.
 */
#include "tcpcore.h"
#include "tests/made.h"

#include <stdio.h>
#include <stdlib.h>
#include <string.h>

enum { ISN = 1000000, PEER_ISN = 5000000, MOST = 40000, KEEPS = 20000, SENT = 100, URG = 32, ECE = 64, CWR = 128, NONE = 0 };

/* A segment, its numbers counted from RCV.NXT and SND.NXT of the end, and what is wanted. */
struct row {
    const char *name, *options; /* in hexadecimal digits */
    int32_t seq, ack;
    unsigned bits;
    uint32_t text;
    uint32_t answer;     /* of tcpcore_arrive_with_at_once */
    unsigned emits;      /* the bits of the segment that answers, NONE: none does */
    int32_t moved;       /* by how much RCV.NXT has grown */
    uint32_t phase;
};

/* A SYN in LISTEN, and what the two SYNs agree on. */
struct syn {
    const char *name, *options;
    unsigned bits;
    uint32_t text, mss;
    int scaling, peer_shift, sack;
};

static int count, failed;
static tcpcore_end end;
static uint8_t block[TCPCORE_MEMORY(KEEPS, KEEPS)], out[TCPCORE_EMIT_ROOM];
static size_t out_length;
static const tcpcore_addr OWN = {{10, 0, 0, 1}}, PEER = {{10, 0, 0, 2}};

static uint8_t digit(char of) { return (uint8_t)(of <= '9' ? of - '0' : of - 'a' + 10); }

/* Writes a segment of the peer's; its length. Spaces in the options are passed over. */
static size_t make(uint8_t *bytes, uint32_t seq, uint32_t ack, unsigned bits, const char *options, uint32_t text)
{
    size_t length = SEGMENT_HEADER;
    memset(bytes, 0, SEGMENT_HEADER);
    for (const char *at = options; *at; at++)
        if (*at != ' ') {
            bytes[length++] = (uint8_t)(digit(at[0]) << 4 | digit(at[1]));
            at++;
        }
    write16(bytes, 2);
    write16(bytes + 2, 1);
    write32(bytes + AT_SEQ, seq);
    write32(bytes + AT_ACK, bits & ACK ? ack : 0);
    bytes[AT_OFFSET] = (uint8_t)(length * 4 | (bits >> 8 & 15));
    bytes[AT_BITS] = (uint8_t)bits;
    write16(bytes + AT_WINDOW, 64240);
    memset(bytes + length, 'x', text);
    length += text;
    write_checksum(bytes, length, 1 + 2);
    return length;
}

static uint32_t arrive(uint32_t seq, uint32_t ack, unsigned bits, const char *options, uint32_t text)
{
    static uint8_t bytes[MOST];
    uint32_t at_once;
    size_t length = make(bytes, seq, ack, bits, options, text);
    return tcpcore_arrive_with_at_once(&end, PEER, OWN, bytes, length, &at_once);
}

/* Emits one segment; its bits, or NONE. */
static unsigned emit(void)
{
    tcpcore_addr to;
    return tcpcore_emit(&end, out, sizeof out, &to, &out_length) == TCPCORE_DONE ? bits_of(out, 255) : NONE;
}

static struct tcpcore_status status_of(void)
{
    struct tcpcore_status status;
    tcpcore_status(&end, &status);
    return status;
}

static void must(const char *name, const char *what, long long found, long long wanted)
{
    if (found == wanted)
        return;
    printf("%s: %s is %lld, not %lld\n", name, what, found, wanted);
    failed++;
}

static void begin(void)
{
    const tcpcore_config config = {.addr = OWN, .port = 1, .mss = 1460, .isn = ISN, .send_capacity = KEEPS, .recv_capacity = KEEPS,
                                   .limit = TCPCORE_LIMIT, .scales = 1, .sack = 1};
    tcpcore_free(&end);
    if (tcpcore_new(&end, &config, block, sizeof block) != TCPCORE_DONE || tcpcore_listen(&end) != TCPCORE_DONE)
        exit(2);
}

/* ESTABLISHED with a peer without scale and blocks, and bytes sent and acknowledged each way. */
static void establish(void)
{
    static uint8_t text[SENT];
    size_t taken;
    begin();
    arrive(PEER_ISN, 0, SYN, "020405b4", 0);
    emit();
    arrive(PEER_ISN + 1, ISN + 1, ACK, "", SENT);
    emit();
    tcpcore_send(&end, text, SENT, &taken);
    emit();
    arrive(PEER_ISN + 1 + SENT, ISN + 1 + SENT, ACK, "", 0);
    if (emit() != NONE || status_of().phase != TCPCORE_PHASE_ESTABLISHED)
        exit(2);
}

static const struct syn SYNS[] = {
    {"Linux", "020405b4 0402 080a0102030400000000 01 030307", SYN, 0, 1460, 1, 7, 1},
    {"Linux, with ECN", "020405b4 0402 080a0102030400000000 01 030307", SYN | ECE | CWR, 0, 1460, 1, 7, 1},
    {"Linux, with AccECN", "020405b4 0402 080a0102030400000000 01 030307", SYN | ECE | CWR | 0x100, 0, 1460, 1, 7, 1},
    {"Windows", "020405b4 01 030308 01 01 0402", SYN, 0, 1460, 1, 8, 1},
    {"macOS", "020405b4 01 030306 0101 080a0102030400000000 0402 0000", SYN | ECE | CWR, 0, 1460, 1, 6, 1},
    {"FreeBSD", "020405b4 01 030306 0402 080a0102030400000000", SYN, 0, 1460, 1, 6, 1},
    {"OpenBSD", "020405b4 0101 0402 01 030306 0101 080a0102030400000000", SYN, 0, 1460, 1, 6, 1},
    {"Solaris", "0101 080a0102030400000000 020405b4 01 030300 0101 0402", SYN, 0, 1460, 1, 0, 1},
    {"lwIP", "020405b4", SYN, 0, 1460, 0, 0, 0},
    {"a small stack, without options", "", SYN, 0, 536, 0, 0, 0},
    {"an MSS of a tunnel", "02040578 0402 080a0102030400000000 01 030307", SYN, 0, 1400, 1, 7, 1},
    {"an MSS below 64", "02040010", SYN, 0, 64, 0, 0, 0},
    {"an MSS of jumbo frames", "02042300", SYN, 0, 1460, 0, 0, 0},
    {"a shift above 14 (RFC 7323, 2.3)", "020405b4 01 03030f", SYN, 0, 1460, 1, 14, 0},
    {"TCP Fast Open, a cookie asked for (RFC 7413)", "020405b4 0402 2202 030307 01", SYN, 0, 1460, 1, 7, 1},
    {"TCP Fast Open, with cookie and text, which comes again", "020405b4 220a0102030405060708 0101", SYN, 100, 1460, 0, 0, 0},
    {"MPTCP (RFC 8684)", "020405b4 0402 1e040181 030307 01 0101", SYN, 0, 1460, 1, 7, 1},
    {"MD5 (RFC 2385)", "020405b4 0101 131200112233445566778899aabbccddeeff", SYN, 0, 1460, 0, 0, 0},
    {"TCP-AO (RFC 5925)", "020405b4 1d100102000102030405060708090a0b", SYN, 0, 1460, 0, 0, 0},
    {"an experiment (RFC 6994)", "020405b4 fd04f989", SYN, 0, 1460, 0, 0, 0},
    {"an option without use and an end", "020405b4 fe02 00 00", SYN, 0, 1460, 0, 0, 0},
    {"all reserved bits", "020405b4", SYN | 0xf00, 0, 1460, 0, 0, 0},
    {"text in the SYN, which comes again", "020405b4", SYN, 10, 1460, 0, 0, 0},
    {"PSH and URG", "020405b4", SYN | PSH | URG, 0, 1460, 0, 0, 0},
};

/* What of a SYN,ACK's options has a kind. */
static int has_option(uint8_t kind)
{
    size_t at = SEGMENT_HEADER;
    while (at < header_of(out) && out[at] != kind)
        at += out[at] == 1 ? 1 : out[at + 1];
    return at < header_of(out);
}

static void opens(const struct syn *row)
{
    count++;
    begin();
    must(row->name, "the answer", arrive(PEER_ISN, 0, row->bits, row->options, row->text), TCPCORE_DONE);
    must(row->name, "what is emitted", emit(), SYN | ACK);
    must(row->name, "what it acknowledges", read32(out + AT_ACK), PEER_ISN + 1);
    struct tcpcore_status status = status_of();
    must(row->name, "the MSS", status.mss, row->mss);
    must(row->name, "scaling", status.scaling, row->scaling);
    must(row->name, "the peer's shift", status.peer_shift, row->peer_shift);
    must(row->name, "blocks", status.sack, row->sack);
    must(row->name, "the MSS option", has_option(2), 1);
    must(row->name, "the scale option", has_option(3), row->scaling);
    must(row->name, "the blocks option", has_option(4), row->sack);
    must(row->name, "an option that wasn't asked for", has_option(8) || has_option(34) || has_option(30), 0);
}

enum { HERE = TCPCORE_PHASE_ESTABLISHED, GONE = TCPCORE_PHASE_CLOSED, HALF = TCPCORE_PHASE_CLOSE_WAIT, TAKEN = TCPCORE_DONE,
       PASSED = TCPCORE_DROPPED };

static const struct row ROWS[] = {
    /* Keep-alives (3.8.4) and probes, by Linux, BSD and Windows. */
    {"a keep-alive without text", "", -1, 0, ACK, 0, PASSED, ACK, 0, HERE},
    {"a keep-alive with a byte that was there", "", -1, 0, ACK, 1, PASSED, ACK, 0, HERE},
    {"a keep-alive with PSH", "", -1, 0, ACK | PSH, 1, PASSED, ACK, 0, HERE},
    {"a probe of a window with the next byte", "", 0, 0, ACK, 1, TAKEN, ACK, 1, HERE},
    {"an acknowledgement alone, again", "", 0, 0, ACK, 0, TAKEN, NONE, 0, HERE},
    {"an old segment again", "", -100, 0, ACK | PSH, 100, PASSED, ACK, 0, HERE},
    {"an old one with new text behind", "", -50, 0, ACK | PSH, 100, TAKEN, ACK, 50, HERE},
    {"the SYN again (RFC 5961, 4)", "020405b4", -101, 0, SYN, 0, PASSED, ACK, 0, HERE},
    /* Text. */
    {"text", "", 0, 0, ACK | PSH, 10, TAKEN, ACK, 10, HERE},
    {"text out of order", "", 10, 0, ACK | PSH, 10, TAKEN, ACK, 0, HERE},
    {"text with PSH alone missing", "", 0, 0, ACK, 1460, TAKEN, ACK, 1460, HERE},
    {"text of offloads, above the MSS", "", 0, 0, ACK | PSH, 19000, TAKEN, ACK, 19000, HERE},
    {"text past the window: its front is taken", "", 0, 0, ACK | PSH, 30000, TAKEN, ACK, KEEPS - SENT, HERE},
    {"text outside of the window", "", KEEPS, 0, ACK | PSH, 10, PASSED, ACK, 0, HERE},
    {"text with URG: it is in line (RFC 6093)", "", 0, 0, ACK | URG | PSH, 10, TAKEN, ACK, 10, HERE},
    {"text with ECN's bits (RFC 3168)", "", 0, 0, ACK | PSH | ECE | CWR, 10, TAKEN, ACK, 10, HERE},
    {"text with AccECN's bits", "", 0, 0, ACK | PSH | ECE | CWR | 0x100, 10, TAKEN, ACK, 10, HERE},
    {"text and FIN", "", 0, 0, ACK | PSH | FIN, 10, TAKEN, ACK, 11, HALF},
    {"FIN", "", 0, 0, ACK | FIN, 0, TAKEN, ACK, 1, HALF},
    {"FIN out of order", "", 10, 0, ACK | FIN, 0, TAKEN, ACK, 0, HERE},
    /* Options, that were agreed on or not. */
    {"timestamps that weren't agreed on (RFC 7323, 3.2)", "0101 080a0102030401020304", 0, 0, ACK, 10, TAKEN, ACK, 10, HERE},
    {"blocks that weren't agreed on", "0101 050a0000000100000002", 0, 0, ACK, 10, TAKEN, ACK, 10, HERE},
    {"a block of what came twice (RFC 2883)", "0101 0512000f4240000f4250000f4240000f4260", 0, 0, ACK, 10, TAKEN, ACK, 10, HERE},
    {"MPTCP's DSS", "1e0820010000 0000", 0, 0, ACK, 10, TAKEN, ACK, 10, HERE},
    {"MD5", "0101 131200112233445566778899aabbccddeeff", 0, 0, ACK, 10, TAKEN, ACK, 10, HERE},
    {"AccECN's option", "ae0b0102030405060708 09 01", 0, 0, ACK, 10, TAKEN, ACK, 10, HERE},
    {"an MSS behind the SYN", "02040200", 0, 0, ACK, 10, TAKEN, ACK, 10, HERE},
    {"forty bytes of options", "0101010101010101010101010101010101010101 0101010101010101010101010101010101010101", 0, 0, ACK, 10, TAKEN, ACK,
     10, HERE},
    {"an end of options, and zeros", "00000000", 0, 0, ACK, 10, TAKEN, ACK, 10, HERE},
    /* By this profile a segment that isn't well formed is none; RFC 9293, 3.1 has padding of zeros, and 3.2 a length of 2 or more. */
    {"an end of options, and other bytes: none", "00414243", 0, 0, ACK, 10, TCPCORE_BAD_PADDING, NONE, 0, HERE},
    {"an option of length 0: none", "08000000", 0, 0, ACK, 10, TCPCORE_BAD_OPTION, NONE, 0, HERE},
    {"an option of length 1: none", "08010000", 0, 0, ACK, 10, TCPCORE_BAD_OPTION, NONE, 0, HERE},
    {"an option past the header: none", "01010809", 0, 0, ACK, 10, TCPCORE_BAD_OPTION, NONE, 0, HERE},
    /* Resets (RFC 5961, 3). */
    {"a reset at RCV.NXT", "", 0, 0, RST, 0, TAKEN, NONE, 0, GONE},
    {"a reset with ACK at RCV.NXT", "", 0, 0, RST | ACK, 0, TAKEN, NONE, 0, GONE},
    {"a reset in the window", "", 1, 0, RST, 0, PASSED, ACK, 0, HERE},
    {"a reset at the window's last number", "", KEEPS - SENT - 1, 0, RST, 0, PASSED, ACK, 0, HERE},
    {"a reset behind the window", "", KEEPS - SENT, 0, RST, 0, PASSED, NONE, 0, HERE},
    {"a reset before the window", "", -1, 0, RST, 0, PASSED, NONE, 0, HERE},
    {"a reset far off", "", 1 << 30, 0, RST | ACK, 0, PASSED, NONE, 0, HERE},
    {"a reset with text", "", 1, 0, RST | ACK, 10, PASSED, ACK, 0, HERE},
    /* SYNs (RFC 5961, 4). */
    {"a SYN at RCV.NXT", "020405b4", 0, 0, SYN, 0, PASSED, ACK, 0, HERE},
    {"a SYN in the window", "020405b4", 100, 0, SYN, 0, PASSED, ACK, 0, HERE},
    {"a SYN far off", "020405b4", 1 << 30, 0, SYN, 0, PASSED, ACK, 0, HERE},
    {"a SYN,ACK", "020405b4", -101, 0, SYN | ACK, 0, PASSED, ACK, 0, HERE},
    {"SYN and FIN", "", 0, 0, SYN | FIN, 0, PASSED, ACK, 0, HERE},
    {"SYN and RST at RCV.NXT", "", 0, 0, SYN | RST, 0, TAKEN, NONE, 0, GONE},
    /* Acknowledgements (RFC 5961, 5; text with one far below SND.UNA is taken: RFC 9293, 3.10.7.4, without 5961's MAX.SND.WND). */
    {"text with an acknowledgement of what wasn't sent", "", 0, 1, ACK, 10, PASSED, ACK, 0, HERE},
    {"text with one far ahead", "", 0, 1 << 30, ACK, 10, PASSED, ACK, 0, HERE},
    {"text with an old one", "", 0, -50, ACK, 10, TAKEN, ACK, 10, HERE},
    {"text with one far below", "", 0, -(1 << 30), ACK, 10, TAKEN, ACK, 10, HERE},
    /* Scanners. */
    {"no bits", "", 0, 0, 0, 10, PASSED, NONE, 0, HERE},
    {"FIN, URG and PSH", "", 0, 0, FIN | URG | PSH, 0, PASSED, NONE, 0, HERE},
    {"FIN alone", "", 0, 0, FIN, 0, PASSED, NONE, 0, HERE},
    {"all bits at RCV.NXT", "", 0, 0, 255, 0, TAKEN, NONE, 0, GONE},
    {"all bits elsewhere", "", 100, 0, 255, 0, PASSED, ACK, 0, HERE},
    {"reserved bits", "", 0, 0, ACK | 0xf00, 10, TAKEN, ACK, 10, HERE},
};

static void answers(const struct row *row)
{
    count++;
    establish();
    struct tcpcore_status before = status_of();
    uint32_t answer = arrive(PEER_ISN + (uint32_t)before.rcv_position + (uint32_t)row->seq, ISN + 1 + SENT + (uint32_t)row->ack, row->bits,
                             row->options, row->text);
    must(row->name, "the answer", answer, row->answer);
    must(row->name, "what is emitted", emit(), row->emits);
    if (row->emits != NONE)
        must(row->name, "what it acknowledges", (int32_t)(read32(out + AT_ACK) - PEER_ISN - (uint32_t)before.rcv_position), row->moved);
    must(row->name, "what comes next", (long long)(status_of().rcv_position - before.rcv_position), row->moved);
    must(row->name, "the phase", status_of().phase, row->phase);
    must(row->name, "a second segment", emit(), NONE);
}

int main(void)
{
    for (size_t at = 0; at < sizeof SYNS / sizeof *SYNS; at++)
        opens(&SYNS[at]);
    for (size_t at = 0; at < sizeof ROWS / sizeof *ROWS; at++)
        answers(&ROWS[at]);
    tcpcore_free(&end);
    printf("%d cases, %d failed\n", count, failed);
    return failed > 0;
}
