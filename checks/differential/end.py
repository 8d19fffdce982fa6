"""One end of a TCP connection after docs/RULES.md: a second program, written apart from the first.

It counts in 32-bit numbers alone, keeps what is held in a dictionary and what is marked in a set of numbers, and knows
nothing of positions.
"""

import struct

from program import with_checksum, word_sum

SPACE = 1 << 32
HALF = 1 << 31
SHORT_LIMIT = HALF - 16
FIN, SYN, RST, PSH, ACK = 1, 2, 4, 8, 16
NAMES = [(16, "ACK"), (8, "PSH"), (4, "RST"), (2, "SYN"), (1, "FIN")]
SYNCHRONIZED_OPEN = ("SYN-RECEIVED", "ESTABLISHED", "FIN-WAIT-1", "FIN-WAIT-2", "CLOSE-WAIT")
TAKES_TEXT = ("ESTABLISHED", "FIN-WAIT-1", "FIN-WAIT-2")
SENDS_TEXT = ("ESTABLISHED", "FIN-WAIT-1", "CLOSE-WAIT", "CLOSING", "LAST-ACK")


def before(a, b):
    """Modular order (RFC 9293, 3.4)."""
    return 0 < (b - a) % SPACE < HALF


def flag_names(flags):
    return ",".join(name for bit, name in [(128, "CWR"), (64, "ECE"), (32, "URG")] + NAMES if flags & bit) or "-"


def read_options(area):
    """The options of a segment, each as (kind, body), up to the end of their list (RFC 9293, 3.2)."""
    options, at = [], 0
    while at < len(area) and area[at] != 0:
        if area[at] == 1:
            at += 1
            continue
        options.append((area[at], area[at + 2 : at + area[at + 1]]))
        at += area[at + 1]
    return options


class Segment:
    """The fields of a segment that can be read."""

    def __init__(self, data):
        self.src_port, self.dst_port, self.seq, self.ack = struct.unpack(">HHII", data[:12])
        offset = 4 * (data[12] >> 4)
        self.flags = data[13]
        (self.window,) = struct.unpack(">H", data[14:16])
        self.options = read_options(data[20:offset])
        self.text = data[offset:]

    def has(self, flag):
        return bool(self.flags & flag)

    def option(self, kind, size):
        """The first option of this kind with a body of this size."""
        return next((body for k, body in self.options if k == kind and len(body) == size), None)

    def blocks(self):
        found = []
        for kind, body in self.options:
            if kind == 5 and len(body) in (8, 16, 24, 32):
                found += struct.iter_unpack(">II", body)
        return found

    def numbers(self):
        """SEG.LEN: text, SYN and FIN (RFC 9293, 3.4)."""
        return len(self.text) + self.has(SYN) + self.has(FIN)

    def told(self):
        sack = next((body for k, body in self.options if k == 5 and len(body) in (8, 16, 24, 32)), b"")
        blocks = "+".join(f"{left}-{right}" for left, right in struct.iter_unpack(">II", sack))
        return (
            f"flags {flag_names(self.flags)} seq {self.seq} ack {self.ack} window {self.window} "
            f"text {len(self.text)} sack {blocks or '-'}"
        )


class End:
    """One end. `note` is called with the name of whatever rare rule applies, so that a caller can count them."""

    def __init__(self, config, note=lambda name: None):
        self.config, self.note = config, note
        self.iss = config["isn"]
        # how many bytes the direction takes from its user
        self.limit = config.get("limit", SHORT_LIMIT)
        # how many runs it keeps out of order, and how many of the peer's it remembers
        self.most_runs = config.get("runs", 16)
        self.phase, self.ending, self.closing = "CLOSED", "not-ended", False
        self.peer = (None, None)
        self.peer_mss, self.scaling, self.peer_shift, self.sack = 536, False, 0, False
        self.snd_una = self.snd_nxt = self.iss
        self.snd_wnd = self.snd_wl1 = self.snd_wl2 = 0
        self.queue = self.unread = b""
        self.queue_start = (self.iss + 1) % SPACE  # the number of the queue's first byte
        self.marked = set()
        self.again = None
        self.rcv_nxt, self.fin_taken = None, False
        self.held, self.stamp = {}, 0
        self.owes_syn = self.owes_ack = self.owes_probe = False
        self.reset = None
        self.accepted = self.released = self.ordered = 0

    # ---- calls (RFC 9293, 3.10.1 to 3.10.5)

    def window(self):
        return self.config["recv"] - len(self.unread)

    def own_shift(self):
        return self.config["shift"] if self.scaling else 0

    def window_field(self):
        return min(65535, self.window() >> self.own_shift())

    def set_phase(self, phase):
        self.phase = phase
        self.note(phase)

    def end(self, how):
        """The connection ends."""
        self.set_phase("CLOSED")
        self.ending = how
        self.note(how)
        self.owes_syn = self.owes_ack = self.owes_probe = False
        self.again = None
        if how != "orderly":
            self.queue, self.unread, self.held = b"", b"", {}
            self.marked = set()

    def opening_refusal(self):
        return 14 if self.ending != "not-ended" else 12 if self.phase != "CLOSED" else None

    def open_refusal(self):
        return 14 if self.ending != "not-ended" else 11 if self.phase == "CLOSED" else None

    def connect(self, peer):
        refusal = self.opening_refusal()
        if refusal is None:
            self.peer = peer
            self.send_syn("SYN-SENT")
        return refusal

    def send_syn(self, phase):
        self.snd_una, self.snd_nxt = self.iss, (self.iss + 1) % SPACE
        self.owes_syn = True
        self.set_phase(phase)

    def listen(self):
        refusal = self.opening_refusal()
        if refusal is None:
            self.set_phase("LISTEN")
        return refusal

    def send(self, text):
        """How many bytes are taken, or the refusal as (number,)."""
        refusal = self.open_refusal()
        if refusal is None and self.phase == "LISTEN":
            refusal = 16
        if refusal is None and self.closing:
            refusal = 13
        if refusal is None and text and self.accepted == self.limit:
            refusal = 15
        if refusal is not None:
            return (refusal,)
        front = text[: min(self.config["send"] - len(self.queue), self.limit - self.accepted)]
        self.queue += front
        self.accepted += len(front)
        return len(front)

    def receive(self, room):
        """Bytes, "nothing", "end", or the refusal as (number,)."""
        if self.ending in ("reset", "aborted"):
            return (14,)
        if self.phase == "CLOSED" and self.ending == "not-ended":
            return (11,)
        if not self.unread:
            return "end" if self.fin_taken else "nothing"
        was_shut = self.window_field() == 0
        front, self.unread = self.unread[:room], self.unread[room:]
        if was_shut and self.window_field() > 0 and self.phase in TAKES_TEXT:
            self.owes_ack = True
            self.note("window opened")
        return front

    def close(self):
        refusal = self.open_refusal()
        if refusal is None and self.closing:
            refusal = 13
        if refusal is not None:
            return refusal
        self.closing = True
        if self.phase in ("LISTEN", "SYN-SENT"):
            self.end("aborted")
        elif self.phase == "ESTABLISHED":
            self.set_phase("FIN-WAIT-1")
        elif self.phase == "CLOSE-WAIT":
            self.set_phase("LAST-ACK")
        return None

    def abort(self):
        refusal = self.open_refusal()
        if refusal is None:
            if self.phase in SYNCHRONIZED_OPEN:
                self.reset = (*self.peer, self.snd_nxt, None)
            self.end("aborted")
        return refusal

    def acknowledge(self):
        """The window is told now, where the peer's text is taken (RFC 9293, 3.8.6.2.2)."""
        if self.phase in TAKES_TEXT:
            self.owes_ack = True

    # ---- timers (RFC 9293, 3.10.8)

    def unsent(self):
        return len(self.queue) - max(0, self.place(self.snd_nxt))

    def place(self, number):
        """The place in the queue of a number, below 0 before its first byte."""
        ahead = (number - self.queue_start) % SPACE
        return ahead - SPACE if ahead >= HALF else ahead

    def timer_rule(self, which):
        if which == "retransmit":
            if self.phase in ("SYN-SENT", "SYN-RECEIVED"):
                return "syn"
            if self.phase not in SENDS_TEXT:
                return None
            if self.snd_una != self.snd_nxt:
                return "range"
            return "probe" if self.unsent() > 0 and self.snd_wnd == 0 else None
        if which == "reorder":
            return "gaps" if self.phase in SENDS_TEXT and self.marked else None
        return "leave" if self.phase == "TIME-WAIT" else None

    def timer(self, which):
        rule = self.timer_rule(which)
        if rule == "syn":
            self.owes_syn = True
        elif rule == "range":
            self.marked = set()
            self.again = (self.snd_una, self.snd_nxt)
        elif rule == "probe":
            self.owes_probe = True
            self.note("probe granted")
        elif rule == "gaps":
            last = max(self.marked, key=self.place)
            self.again = (self.snd_una, (last + 1) % SPACE)
            self.note("gaps resent")
        elif rule == "leave":
            self.end("orderly")
        return rule is not None

    def resend_first(self):
        """What is in flight goes out again as far as one segment carries it (RFC 5681, 3.2; RFC 6582, 3.2); whether anything is."""
        flight = (self.snd_nxt - self.snd_una) % SPACE
        if self.phase not in SENDS_TEXT or flight == 0:
            return False
        self.again = (self.snd_una, (self.snd_una + min(flight, self.text_limit())) % SPACE)
        return True

    def resend(self, first, last):
        """What is in flight from the first of these positions on and before the last, which count from the SYN, goes out again (RFC
        6675, 5; RFC 8985, 6.2); whether anything is. The stream is shorter than 2^32."""
        start = max(first, (self.snd_una - self.iss) % SPACE)
        stop = min(last, (self.snd_nxt - self.iss) % SPACE)
        if self.phase not in SENDS_TEXT or start >= stop:
            return False
        self.again = ((self.iss + start) % SPACE, (self.iss + stop) % SPACE)
        return True

    # ---- emission (RFC 9293, 3.7, 3.8 and 3.10; RFC 2018, 4)

    def blocks(self):
        """The held runs by their latest stamp, the newest first, at most four, as numbers."""
        runs = []
        for place in sorted(self.held):
            if runs and runs[-1][1] == place:
                runs[-1][1] = place + 1
                runs[-1][2] = max(runs[-1][2], self.held[place][1])
            else:
                runs.append([place, place + 1, self.held[place][1]])
        runs.sort(key=lambda run: -run[2])
        if len(runs) > 1:
            self.note("several runs held")
        return [((self.rcv_nxt + a) % SPACE, (self.rcv_nxt + b) % SPACE) for a, b, _ in runs[:4]]

    def segment(self, to, seq, ack, flags, window, options, text):
        ports = self.config["port"], to[1]
        offset = (5 + len(options) // 4) << 4
        header = struct.pack(">HHIIBBHHH", *ports, seq, ack, offset, flags, window, 0, 0)
        return to[0], with_checksum(self.config["addr"], to[0], header + options + text)

    def emit(self):
        """The address and the bytes of what is due, or None."""
        if self.reset:
            addr, port, seq, ack = self.reset
            self.reset = None
            self.note("reset emitted")
            return self.segment((addr, port), seq, ack or 0, RST | (ACK if ack is not None else 0), 0, b"", b"")
        if self.owes_syn:
            return self.emit_syn()
        due = self.text_due() if self.phase in SENDS_TEXT else None
        if due is None:
            if not self.owes_ack:
                return None
            due = (self.snd_nxt, b"", 0)
        return self.plain(*due)

    def emit_acknowledgement(self):
        """The address and the bytes of the acknowledgement that is pending, whatever data or FIN is due, or None."""
        if self.reset or self.owes_syn or not self.owes_ack:
            return None
        if self.phase in SENDS_TEXT and self.again:
            self.note("acknowledgement before what goes out again")
        return self.plain(self.snd_nxt, b"", 0)

    def plain(self, seq, text, fin):
        """A segment with the acknowledgement and the blocks."""
        self.owes_ack = False
        ends = bool(text) and self.place(seq) + len(text) == len(self.queue)
        options = b""
        blocks = self.blocks() if self.sack else []
        if blocks:
            self.note("blocks emitted")
            options = bytes([1, 1, 5, 2 + 8 * len(blocks)]) + b"".join(struct.pack(">II", *b) for b in blocks)
        flags = ACK | (PSH if ends else 0) | fin
        return self.segment(self.peer, seq, self.rcv_nxt, flags, self.window_field(), options, text)

    def emit_syn(self):
        answer = self.rcv_nxt is not None
        shift, sack = self.config["shift"], self.config["sack"]
        if answer:
            shift = shift if self.scaling else None
            sack = self.sack
            self.owes_ack = False
        self.owes_syn = False
        options = bytes([2, 4]) + struct.pack(">H", self.config["mss"])
        if shift is not None:
            options += bytes([1, 3, 3, shift])
        if sack:
            options += bytes([1, 1, 4, 2])
        flags, ack = (SYN | ACK, self.rcv_nxt) if answer else (SYN, 0)
        return self.segment(self.peer, self.iss, ack, flags, min(65535, self.window()), options, b"")

    def text_limit(self):
        """The text that fits one segment (RFC 9293, 3.7.1)."""
        count_blocks = len(self.blocks()) if self.sack else 0
        return min(self.config["mss"], self.peer_mss) - (4 + 8 * count_blocks if count_blocks else 0)

    def text_due(self):
        """The number, the text and the FIN bit of what is due, as it goes out."""
        limit = self.text_limit()
        fin_number = (self.queue_start + len(self.queue)) % SPACE
        if self.again:
            start, stop = self.again
            if before(start, self.snd_una):
                start = self.snd_una
            while before(start, stop) and start in self.marked:
                start = (start + 1) % SPACE
                self.note("mark passed over")
            if before(start, stop):
                if start == fin_number:
                    self.again = ((start + 1) % SPACE, stop)
                    self.note("fin resent")
                    return start, b"", FIN
                at, text = self.place(start), b""
                while len(text) < limit and at + len(text) < len(self.queue):
                    number = (start + len(text)) % SPACE
                    if number == stop or number in self.marked:
                        break
                    text += self.queue[at + len(text) : at + len(text) + 1]
                self.again = ((start + len(text)) % SPACE, stop)
                return start, text, 0
            self.again = None
        usable = max(0, self.snd_wnd - (self.snd_nxt - self.snd_una) % SPACE)
        if usable == 0 and self.owes_probe:
            usable = 1
        count = min(limit, self.unsent(), usable)
        if count > 0:
            if self.owes_probe:
                self.note("probe emitted")
            self.owes_probe = False
            start, at = self.snd_nxt, self.place(self.snd_nxt)
            self.snd_nxt = (start + count) % SPACE
            return start, self.queue[at : at + count], 0
        if self.closing and self.snd_nxt == fin_number:
            self.snd_nxt = (fin_number + 1) % SPACE
            return fin_number, b"", FIN
        return None

    # ---- arrival (RFC 9293, 3.10.7)

    def record_reset(self, src, port, seq, ack):
        if self.reset is None:
            self.reset = (src, port, seq, ack)
        else:
            self.note("second reset dropped")

    def arrive(self, src, dst, data):
        """The answer's words, for bytes that can be read but for their checksum."""
        if len(data) < 20:
            return "malformed 1"
        if word_sum(src, dst, data) % 65535:
            return "malformed 3"
        s = Segment(data)
        known = self.phase not in ("CLOSED", "LISTEN")
        if (dst, s.dst_port) != (self.config["addr"], self.config["port"]) or known and (src, s.src_port) != self.peer:
            self.note("not mine")
            return "not-mine"
        if self.phase == "CLOSED":
            taken = self.arrive_closed(src, s)
        elif self.phase == "LISTEN":
            taken = self.arrive_listen(src, s)
        elif self.phase == "SYN-SENT":
            taken = self.arrive_syn_sent(src, s)
        else:
            taken = self.arrive_present(src, s)
        return "processed" if taken else "dropped"

    def arrive_closed(self, src, s):
        if not s.has(RST):
            if s.has(ACK):
                self.record_reset(src, s.src_port, s.ack, None)
            else:
                self.record_reset(src, s.src_port, 0, (s.seq + s.numbers()) % SPACE)
        return False

    def arrive_listen(self, src, s):
        if s.has(RST):
            return False
        if s.has(ACK):
            self.record_reset(src, s.src_port, s.ack, None)
            return False
        if not s.has(SYN):
            return False
        self.peer = (src, s.src_port)
        self.take_syn(s)
        self.send_syn("SYN-RECEIVED")
        return True

    def take_syn(self, s):
        self.rcv_nxt = (s.seq + 1) % SPACE
        mss, shift = s.option(2, 2), s.option(3, 1)
        self.peer_mss = max(64, struct.unpack(">H", mss)[0]) if mss else 536
        self.scaling = shift is not None and self.config["shift"] is not None
        self.peer_shift = min(14, shift[0]) if self.scaling else 0
        self.sack = s.option(4, 0) is not None and self.config["sack"]
        self.note(f"shift {self.peer_shift}" if self.scaling else "not scaled")

    def arrive_syn_sent(self, src, s):
        if s.has(ACK) and s.ack != self.snd_nxt:
            if not s.has(RST):
                self.record_reset(src, s.src_port, s.ack, None)
            return False
        if s.has(RST):
            if s.has(ACK):
                self.end("reset")
            return s.has(ACK)
        if not (s.has(SYN) and s.has(ACK)):
            return False
        self.take_syn(s)
        self.snd_una = s.ack
        self.snd_wnd, self.snd_wl1, self.snd_wl2 = s.window, s.seq, s.ack
        self.owes_syn, self.owes_ack = False, True
        self.set_phase("ESTABLISHED")
        return True

    def is_acceptable(self, s):
        """RFC 9293, 3.10.7.4, first."""
        window, count = self.window(), s.numbers()
        if window == 0:
            return count == 0 and s.seq == self.rcv_nxt
        numbers = [s.seq, s.seq + max(count, 1) - 1]
        return any((number - self.rcv_nxt) % SPACE < window for number in numbers)

    def arrive_present(self, src, s):
        if not self.is_acceptable(s):
            if s.has(RST):
                return False
            if self.window() == 0 and s.has(ACK) and not s.has(SYN):
                self.note("taken while shut")
                taken = self.take_ack(src, s)
                if self.phase != "CLOSED":
                    self.owes_ack = True
                return taken
            self.owes_ack = True
            return False
        if s.has(RST):
            if s.seq == self.rcv_nxt:
                self.end("reset")
                return True
            self.owes_ack = True
            return False
        if s.has(SYN):
            self.owes_ack = True
            return False
        if not s.has(ACK) or not self.take_ack(src, s):
            return False
        self.take_text(s)
        self.take_fin(s)
        return True

    def take_ack(self, src, s):
        """Acknowledgement, window, blocks and own FIN; whether the acknowledgement is good."""
        if self.phase == "SYN-RECEIVED":
            if s.ack != self.snd_nxt:
                self.record_reset(src, s.src_port, s.ack, None)
                return False
            self.snd_una = s.ack
            self.snd_wnd, self.snd_wl1, self.snd_wl2 = s.window << self.peer_shift, s.seq, s.ack
            self.owes_syn = False
            self.set_phase("FIN-WAIT-1" if self.closing else "ESTABLISHED")
        ahead = (s.ack - self.snd_una) % SPACE
        if ahead < HALF:
            if ahead > (self.snd_nxt - self.snd_una) % SPACE:
                self.owes_ack = True
                return False
            self.release(s.ack)
            self.take_news(s)
        else:
            self.note("old acknowledgement")
        self.take_own_fin()
        return True

    def release(self, ack):
        count = max(0, min(len(self.queue), self.place(ack)))
        self.marked -= {(self.queue_start + i) % SPACE for i in range(count)}
        self.queue = self.queue[count:]
        self.queue_start = (self.queue_start + count) % SPACE
        self.released += count
        self.snd_una = ack

    def take_news(self, s):
        follows = s.seq == self.snd_wl1 and not before(s.ack, self.snd_wl2)
        if before(self.snd_wl1, s.seq) or follows:
            window = s.window << self.peer_shift
            if window < self.snd_wnd:
                self.note("window shrinks")
            self.snd_wnd, self.snd_wl1, self.snd_wl2 = window, s.seq, s.ack
        for left, right in s.blocks() if self.sack else []:
            flight = (self.snd_nxt - self.snd_una) % SPACE
            low, high = (left - self.snd_una) % SPACE, (right - self.snd_una) % SPACE
            if not 0 < low < high <= flight:
                self.note("block passed over")
                continue
            at, stop = self.place(left), min(self.place(right), len(self.queue))
            marked = self.marked | {(self.queue_start + i) % SPACE for i in range(max(0, at), stop)}
            if sum((number - 1) % SPACE not in marked for number in marked) <= self.most_runs:
                self.note("block marked")
                self.marked = marked
            else:
                self.note("one marked run too many")

    def take_own_fin(self):
        fin_number = (self.queue_start + len(self.queue)) % SPACE
        sent = self.closing and self.snd_nxt == (fin_number + 1) % SPACE
        if not sent or self.snd_una != self.snd_nxt:
            return
        if self.phase == "FIN-WAIT-1":
            self.set_phase("FIN-WAIT-2")
        elif self.phase == "CLOSING":
            self.set_phase("TIME-WAIT")
        elif self.phase == "LAST-ACK":
            self.end("orderly")

    def take_text(self, s):
        if self.phase not in TAKES_TEXT or not s.text:
            return
        self.owes_ack = True
        offset = (s.seq - self.rcv_nxt) % SPACE
        offset -= SPACE if offset >= HALF else 0
        piece = {offset + i: byte for i, byte in enumerate(s.text) if 0 <= offset + i < self.window()}
        over = dict(self.held)
        self.stamp += 1
        for place, byte in piece.items():
            over[place] = (over[place][0] if place in over else byte, self.stamp)
        runs = sum(place - 1 not in over for place in over)
        if not piece or (0 not in piece and runs > self.most_runs):
            self.note("one held run too many" if piece else "piece not kept")
            return
        count = 0
        while count in over:
            count += 1
        self.unread += bytes(over[place][0] for place in range(count))
        self.held = {place - count: cell for place, cell in over.items() if place >= count}
        self.ordered += count
        self.rcv_nxt = (self.rcv_nxt + count) % SPACE

    def take_fin(self, s):
        if self.phase not in TAKES_TEXT or not s.has(FIN):
            return
        self.owes_ack = True
        if (s.seq + len(s.text)) % SPACE != self.rcv_nxt or self.window() == 0:
            self.note("early fin")
            return
        self.rcv_nxt = (self.rcv_nxt + 1) % SPACE
        self.held, self.fin_taken = {}, True
        self.set_phase({"ESTABLISHED": "CLOSE-WAIT", "FIN-WAIT-1": "CLOSING", "FIN-WAIT-2": "TIME-WAIT"}[self.phase])
