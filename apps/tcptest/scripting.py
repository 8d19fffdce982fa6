"""Scripts in packetdrill's form as texts: read into events, and written of what went in a row."""

import re
from dataclasses import dataclass

from segments import ACK, BLOCKS, LETTERS, MSS, PERMITTED, SCALE, SPACE, TIMES, ahead

SEGMENT = re.compile(r"([SFRPUEW.]+)\s+(\d+):(\d+)\((\d+)\)(?:\s+ack\s+(\d+))?(?:\s+win\s+(\d+))?(?:\s+urg\s+(\d+))?(?:\s*<(.*)>)?$")
CALL = re.compile(r"(\w+)\s*\((.*)\)\s*=\s*(-?\d+|\?)\s*(\w*)")
# The calls that are made of a stack, and those of packetdrill's that are told and passed over.
CALLS = {"socket", "bind", "listen", "accept", "connect", "setsockopt", "fcntl", "read", "recv", "write", "send", "sendto", "shutdown",
         "close"}
UNMADE = {"getsockopt", "ioctl", "poll", "epoll_create", "epoll_ctl", "epoll_wait", "readv", "writev", "recvfrom", "recvmsg", "sendmsg",
          "sendfile", "splice", "open", "pipe", "cap_set"}
TIME = re.compile(r"^(\*|[+]?[\d.]+(?:~[+]?[\d.]+)?(?:\.\.\.[\d.]+)?)\s+(.*)$")
PASSED = re.compile(r"%\{.*?\}%|`.*?`", re.DOTALL)


class NoScript(Exception):
    """What stands in a file is no script, or has more than is read."""


@dataclass
class Event:
    line: int
    kind: str  # "at" a time, so much "after" the last event, or "free"
    at: float
    late: float  # how much later it may come
    text: str


@dataclass
class Script:
    events: list
    tolerance: float


def read(text):
    """The events of a script. What is passed over is told; where something is no line of a script, there is none."""
    tolerance = re.search(r"--tolerance_usecs=(\d+)", text)
    text = re.sub(r"/\*.*?\*/", lambda found: "\n" * found[0].count("\n"), text, flags=re.DOTALL)
    for found in PASSED.findall(text):
        # Variables of the kernel's are set before the script begins (packetdrill.py).
        if found.startswith("`sysctl -q net.ipv4."):
            continue
        print(f"  passed over: {found[:50]!r}")
    text = PASSED.sub(lambda found: "\n" * found[0].count("\n"), text)
    events = []
    for line, words in enumerate(text.split("\n"), 1):
        words = re.sub(r"//.*|(^|\s)#.*", "", words).strip().rstrip(";").strip()
        if not words or words.startswith("--"):
            continue
        if re.fullmatch(r"[*+]?[\d.]*", words):
            continue  # what stood here was passed over
        found = TIME.match(words)
        if not found:
            raise NoScript(f"line {line}: '{words[:60]}' has no time, so it is no event of a script")
        if is_passed_over(found[2], line):
            print(f"  passed over: line {line}: {words[:50]}")
        else:
            events.append(event(line, found[1], found[2]))
    if not events:
        raise NoScript("no event stands in it")
    return Script(events, int(tolerance[1]) / 1e6 if tolerance else 0.0)


def is_passed_over(text, line):
    """Whether an event is one that isn't made. It has to be a segment, or a call that packetdrill has."""
    if text[0] in "<>":
        if re.match(r"[<>]\s*(icmp|udp)\b", text):
            return True
        found = SEGMENT.match(text[1:].strip())
        if not found:
            raise NoScript(f"line {line}: the segment '{text[:60]}' isn't read")
        if int(found[3]) - int(found[2]) != int(found[4]):
            raise NoScript(f"line {line}: '{text[:60]}': the length isn't that of its numbers")
        return False
    found = CALL.match(text)
    if not found or found[1] not in CALLS | UNMADE:
        raise NoScript(f"line {line}: '{text[:60]}' is neither a segment nor a call")
    return found[1] in UNMADE


def event(line, when, text):
    if when == "*":
        return Event(line, "free", 0.0, 0.0, text)
    first, _, last = when.split("...")[0].partition("~")
    kind, at = ("after" if first[0] == "+" else "at"), float(first.lstrip("+") or 0)
    return Event(line, kind, at, float(last.lstrip("+") or 0) - at if last else 0.0, text)


def option_words(segment, base):
    """Options in packetdrill's words, or None where it has none for them."""
    words, at, data = [], 0, segment.options
    while at < len(data):
        kind = data[at]
        if kind < 2:
            words.append("nop" if kind else "eol")
            at += 1
            continue
        length = data[at + 1] if at + 1 < len(data) else 0
        value = data[at + 2 : at + length]
        if length < 2 or at + length > len(data) or kind not in (MSS, SCALE, PERMITTED, BLOCKS, TIMES):
            return None
        words.append(option_word(kind, value, base))
        at += length
    return ",".join(words)


def option_word(kind, value, base):
    number = int.from_bytes(value, "big")
    if kind == BLOCKS:
        edges = [(int.from_bytes(value[at : at + 4], "big") - base) % SPACE for at in range(0, len(value), 4)]
        return "sack " + " ".join(f"{left}:{right}" for left, right in zip(edges[::2], edges[1::2]))
    if kind == TIMES:
        return f"TS val {int.from_bytes(value[:4], 'big')} ecr {int.from_bytes(value[4:], 'big')}"
    return {MSS: f"mss {number}", SCALE: f"wscale {number}", PERMITTED: "sackOK"}[kind]


def segment_words(peer, word, segment):
    """A segment as a script has it."""
    own, other = (peer.irs, peer.iss) if word == "went" else (peer.iss, peer.irs)
    letters = {"S": 0, "F": 1, "R": 2, "P": 3, ".": 4}
    flags = "".join(sorted((letter for bit, letter in LETTERS if segment.flags & bit), key=lambda letter: letters.get(letter, 5))) or "."
    first = ahead(segment.seq, own) % SPACE
    text = f"{'>' if word == 'went' else '<'} {flags} {first}:{first + len(segment.text)}({len(segment.text)})"
    text += f" ack {ahead(segment.ack, other) % SPACE}" if segment.flags & ACK else ""
    options = option_words(segment, peer.irs if word == "came" else peer.iss)
    lacks = [name for name, is_so in (("options that have no word", options is None), ("a wrong checksum", segment.harm), ("reserved bits", segment.reserved),
             ("options of IP", word == "came" and segment.ip_options)) if is_so]
    text += f" win {segment.window}" if word == "came" else ""
    text += f" <{options}>" if options and (word == "came" or "sack " in options) else " <...>" if segment.options and word == "went" else ""
    return text, lacks


def call_words(name, words, wishes, answer, files):
    """A user's call as a script has it, or None."""
    if name == "listen":
        return "listen(3, 16) = 0"
    if name == "wish" and "nagle" in wishes:
        return f"setsockopt({files}, SOL_TCP, TCP_NODELAY, [{1 - wishes['nagle']}], 4) = 0"
    if name == "connect":
        return "connect(3, ..., ...) = -1 EINPROGRESS (Operation now in progress)"
    if name == "accept":
        return None if answer is None else "accept(3, ..., ...) = 4"
    if name == "send" and isinstance(answer, int):
        return f"write({files}, ..., {len(words[1])}) = {answer}"
    if name == "receive" and isinstance(answer, bytes) and not isinstance(answer, str):
        return f"read({files}, ..., {words[1] if len(words) > 1 else 65536}) = {len(answer)}"
    return {"close": f"shutdown({files}, SHUT_WR) = 0", "leave": f"close({files}) = 0"}.get(name)


def wish_words(wishes):
    """What is asked of a socket before it listens."""
    out = [f"+0 setsockopt(3, SOL_SOCKET, SO_RCVBUF, [{wishes['capacity']}], 4) = 0"] if "capacity" in wishes else []
    return out + ([f"+0 setsockopt(3, SOL_TCP, TCP_NODELAY, [{1 - wishes['nagle']}], 4) = 0"] if "nagle" in wishes else [])


def written(row, title, lab):
    """A row that was run, as a script: what its first peer sent, what came, and what the user called."""
    peer = lab.peers[0]
    out = [f"// {', '.join([*row.numbers, row.section])}: {row.asks}", f"// As it went with {title}; written by apps/tcptest."]
    if len(lab.peers) > 1:
        out.append(f"// The row has {len(lab.peers)} connections; this is the first.")
    out += ["0 socket(..., SOCK_STREAM, IPPROTO_TCP) = 3", "+0 setsockopt(3, SOL_SOCKET, SO_REUSEADDR, [1], 4) = 0", "+0 bind(3, ..., ...) = 0"]
    files = 3 if any(called[2] == "connect" for called in lab.called) else 4
    events = [(serial, when, segment_words(peer, word, segment)) for when, word, segment, _, serial in peer.story]
    events += [(serial, when, (call_words(name, words, wishes, answer, files), [])) for serial, when, name, words, wishes, answer in lab.called]
    for *_, name, _, wishes, _ in lab.called:
        if name == "listen":
            out += wish_words(wishes)
    last = 0.0
    for _, when, (text, lacks) in sorted(one for one in events if one[2][0]):
        span = when - last
        time = f"+{span:.3f}" if text[0] != ">" else f"+{0.9 * span:.3f}~+{1.3 * span + 0.1:.3f}"
        out.append(f"{time} {text}" + (f"  // with {', '.join(lacks)}" if lacks else ""))
        last = when
    return "\n".join(out) + "\n"
