"""A script replayed by the second program: from its lines to its whole report."""

from end import ACK, HALF, RST, SPACE, End, Segment
from program import hexadecimal

DEFAULTS = {"mss": 1460, "send": 65536, "recv": 65536, "shift": None, "sack": True}
LONG_LIMIT = 1 << 62


class Sent:
    """An emitted segment, with its own position and the one that its end wanted next when it went out."""

    def __init__(self, data, position, wanted):
        self.data, self.segment = data, Segment(data)
        self.position, self.wanted = position, wanted


class Party:
    """One end with its user. The end counts modulo 2^32; the positions here never wrap."""

    def __init__(self, config, note):
        self.end = End(config, note)
        self.sent, self.delivered, self.ended = [], 0, False
        self.una, self.una_number = 0, self.end.snd_una

    def follow(self):
        """Takes SND.UNA's way since the last call, which is shorter than 2^31."""
        self.una += (self.end.snd_una - self.una_number) % SPACE
        self.una_number = self.end.snd_una

    def next(self):
        """The position that the end wants next."""
        return 1 + self.end.ordered + self.end.fin_taken

    def position_of(self, seq):
        """The position of a number, read nearest to SND.UNA (RFC 9293, 3.4)."""
        ahead = (seq - self.end.snd_una) % SPACE
        return self.una + (ahead - SPACE if ahead >= HALF else ahead)


class World:
    """Two ends, and every segment that either emitted, none of which arrives once it is older than the lifetime."""

    def __init__(self, settings, note=lambda name: None, life=HALF):
        self.parties, self.life, self.note = {}, life, note
        for side, host, isn in (("A", 1, 1000), ("B", 2, 5000)):
            address = {"addr": bytes([10, 0, 0, host]), "port": host}
            self.parties[side] = Party(DEFAULTS | {"isn": isn} | settings[side] | address, note)

    def call(self, end, refusal):
        return f"refused {refusal}" if refusal is not None else f"ok {end.phase}"

    def event(self, words):
        """What follows the event's words in its line; the words of a `send` lose their bytes."""
        kind, side, *rest = words.split(" ")
        party, other = self.parties[side], self.parties["B" if side == "A" else "A"]
        end = party.end
        if kind == "connect":
            return self.call(end, end.connect((other.end.config["addr"], other.end.config["port"])))
        if kind in ("listen", "close", "abort"):
            return self.call(end, getattr(end, kind)())
        if kind == "send":
            took = end.send(b"" if rest[0] == "-" else bytes.fromhex(rest[0]))
            return f"refused {took[0]}" if isinstance(took, tuple) else f"took {took}"
        if kind == "receive":
            got = end.receive(int(rest[0]))
            if isinstance(got, tuple):
                return f"refused {got[0]}"
            if isinstance(got, bytes):
                party.delivered += len(got)
                return f"bytes {hexadecimal(got)}"
            party.ended |= got == "end"
            return got
        if kind == "timer":
            return "yes" if end.timer(rest[0]) else "no"
        if kind == "emit":
            return self.emission(party)
        return self.delivery(party, other, kind, [int(word) for word in rest])

    def emission(self, party):
        emitted = party.end.emit()
        if emitted is None:
            return "none"
        segment = Segment(emitted[1])
        party.sent.append(Sent(emitted[1], party.position_of(segment.seq), party.next()))
        return f"{len(party.sent) - 1} {segment.told()}"

    def is_expired(self, sent, to):
        """Whether a segment is older than the lifetime, by its own position or by its acknowledgement's."""
        if sent.segment.has(RST):
            return False
        ages = {"position": to.next() - sent.position}
        if sent.segment.has(ACK):
            ages["acknowledgement"] = to.una - sent.wanted
        for name, age in ages.items():
            if age == self.life - 1:
                self.note(f"expiry just missed for its {name}")
            if age >= self.life:
                self.note(f"expired for its {name}")
                return True
        return False

    def delivery(self, party, other, kind, numbers):
        k = numbers[0]
        if k >= len(party.sent):
            return "refused 31"
        data = party.sent[k].data
        if kind == "damage":
            _, place, value = numbers
            if value == 0:
                return "refused 32"
            if place >= len(data):
                return "refused 33"
            data = data[:place] + bytes([data[place] ^ value]) + data[place + 1 :]
        if self.is_expired(party.sent[k], other):
            return "refused 35"
        answer = other.end.arrive(party.end.config["addr"], other.end.config["addr"], data)
        other.follow()
        return f"{answer} {other.end.phase}"

    def turns(self, count, words):
        """The events of a `repeat`: a delivery's number grows by one each turn."""
        kind, side, *rest = words.split(" ")
        for turn in range(count):
            if kind in ("deliver", "damage"):
                yield " ".join([kind, side, str(int(rest[0]) + turn), *rest[1:]])
            else:
                yield words

    def repeat(self, count, words):
        """What follows the words of a `repeat` in its line."""
        answers = [self.event(turn) for turn in self.turns(count, words)]
        refused = sum(answer.startswith("refused ") for answer in answers)
        if words.startswith("send "):
            took = sum(int(answer.split(" ")[1]) for answer in answers if answer.startswith("took "))
            return f"took {took} refused {refused}", refused > 0
        return f"done {len(answers) - refused} refused {refused}", refused > 0

    def line(self, words):
        """The line of an event or of a `repeat`, but for its number, and whether anything in it was refused."""
        event = words.split(" ", 2)[2] if words.startswith("repeat ") else words
        shown = words.rsplit(" ", 1)[0] if event.startswith("send ") else words
        if words.startswith("repeat "):
            told, refused = self.repeat(int(words.split(" ")[1]), event)
        else:
            told = self.event(event)
            refused = told.startswith("refused ")
        return f"{shown} {told}", refused

    def last_lines(self):
        lines = ""
        for side, party in self.parties.items():
            end = party.end
            lines += (
                f"end {side} {end.phase} {end.ending} accepted {end.accepted} delivered {party.delivered} "
                f"released {end.released} ordered {end.ordered} sent {len(party.sent)} "
                f"ended {'yes' if party.ended else 'no'}\n"
            )
        return lines


def read_settings(lines):
    """What `config` lines say: of each side, and the lifetime."""
    settings, life = {"A": {}, "B": {}}, HALF
    for line in lines:
        _, *words = line.split(" ")
        if words[0] == "life":
            life = int(words[1])
            continue
        side, key, value = words
        settings[side][key] = {"on": True, "off": False, "none": None}.get(value, value if not value.isdigit() else int(value))
    return settings, life


def read_script(text, note=lambda name: None):
    """The world of a script without bad lines, and its events, each with the number of its line."""
    lines = list(enumerate(text.split("\n"), 1))
    is_long = lines[0][1] in ("tcpkit 2", "tcpkit 3")
    lines = [(number, line) for number, line in lines[is_long:] if line and not line.startswith("#")]
    settings, life = read_settings(line for _, line in lines if line.startswith("config "))
    if is_long:
        settings = {side: {"limit": LONG_LIMIT} | keys for side, keys in settings.items()}
    return World(settings, note, life), [(number, line) for number, line in lines if not line.startswith("config ")]


def replayed(text, note=lambda name: None):
    """The report of a script without bad lines, and its status."""
    world, events = read_script(text, note)
    report, status = "", 0
    for number, (_, words) in enumerate(events, 1):
        told, refused = world.line(words)
        report += f"{number} {told}\n"
        status = 1 if refused else status
    return report + world.last_lines(), status
