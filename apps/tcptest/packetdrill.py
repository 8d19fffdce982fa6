#!/usr/bin/env python3
"""Scripts in packetdrill's form: run against a stack, and written of a row.

    packetdrill.py --stack linux|ours|lwip|gvisor|slirp SCRIPT.pkt ..         each script, and what it differs in
    packetdrill.py --stack ours --export ROW                                  a row as a script, as it went with this stack
    packetdrill.py --stack ours --export-all FOLDER                           each row that is met, as ROW.pkt in this folder

Read are times (0.1, +0.1, *, a~b, a...b), --tolerance_usecs, calls (socket, setsockopt, bind, listen, accept, connect, read, recv, write,
send, shutdown, close) and segments (flags S F R P U E W and ., seq:end(length), ack, win, urg, and options mss, nop, eol, sackOK, wscale,
sack, TS, or <...>). What else packetdrill has, as %{ }%, commands in backquotes, ICMP and other calls, is told and passed over; a file with
a line that is none of these is refused. Each connection's log goes through the proved judge. PSH isn't compared, since each stack sets it by
a rule of its own. The status is 0 where all went as the scripts say, 1 where something differs, and 2 where a script was refused, or where
there is no such stack."""

import argparse
import contextlib
import pathlib
import re
import struct
import sys

import building
import calls
import judging
import scripting
import telling
from lab import Gone, Lab, NotMet, NotSeen
from linux import set_kernel
from segments import ACK, BLOCKS, LETTERS, MSS, NOP, PERMITTED, PSH, SCALE, SPACE, SYN, TIMES, ahead, as_sent
from stacks import Linux
from tcptest import chosen, stack_of

BITS = {letter: bit for bit, letter in LETTERS}
# How much later or earlier than a script says a segment may come, in seconds, where the script says nothing of it; and how long one is
# waited for at most whose time is free.
TOLERANCE, FREE = 0.05, 4.0


class Differs(Exception):
    """The stack does something else than the script says."""


class Runner:
    """One script on one stack."""

    def __init__(self, stack):
        stack.start()
        self.lab = Lab(stack)
        self.peer = self.lab.peer()
        self.files, self.wishes, self.own, self.shift = {}, {}, None, None
        self.started = self.last = self.lab.now()
        self.tolerance = TOLERANCE

    def run(self, script):
        self.tolerance = script.tolerance or TOLERANCE
        for event in script.events:
            due = {"free": None, "after": self.last + event.at, "at": self.started + event.at}[event.kind]
            if event.text[0] == ">":
                self.expect(event, due)
            else:
                self.lab.wait(max(0, (due or 0) - self.lab.now()))
                if event.text[0] == "<":
                    self.send(event.text)
                else:
                    self.call(event.text)
            self.last = self.lab.now() if due is None or event.late > 0 else due

    def send(self, text):
        flags, first, _, length, ack, window, urgent, options = parts(text)
        bits = sum(BITS[letter] for letter in flags)
        options = self.options(options or "", self.own, self.peer.iss)
        number = None if ack is None else (self.own or 0) + ack
        body = bytes((first + at) % 251 for at in range(length))
        self.peer.put(bits, self.peer.iss + first, number or 0, window=window or 0, options=options, text=body, urgent=urgent or 0)

    def expect(self, event, due):
        wait = FREE if due is None else max(0, due - self.lab.now()) + event.late + self.tolerance
        found = self.peer.take(wait)
        if found is None:
            raise Differs(f"line {event.line}: nothing came, wanted {event.text}")
        if self.own is None:
            # A reset to no connection has the numbers of what it answers.
            self.own = found.seq if found.flags & SYN else 0
        flags, first, _, length, ack, window, _, options = parts(event.text)
        wanted = (sum(BITS[letter] for letter in flags) & ~PSH, first, length, ack)
        came = (found.flags & ~PSH, ahead(found.seq, self.own) % SPACE, len(found.text), ahead(found.ack, self.peer.iss) % SPACE if found.flags & ACK else None)
        said = found.words(self.own, self.peer.iss)
        if came != wanted or (window is not None and window != found.window):
            raise Differs(f"line {event.line}: {said} came, wanted {event.text}")
        if due is not None and found.when < due - self.tolerance:
            raise Differs(f"line {event.line}: {said} came {due - found.when:.3f} s early")
        if options is None or options.strip() != "...":
            self.compare(found, options or "", event)

    def compare(self, found, options, event):
        kinds = {kind for kind, _ in found.option_list()}
        if TIMES in kinds and "TS" in options:
            wanted = re.search(r"TS val (\d+)", options)
            self.shift = (int.from_bytes(found.option(TIMES)[:4], "big") - int(wanted[1])) if wanted and self.shift is None else self.shift
            options = re.sub(r"TS val \d+( ecr \d+)?", f"TS val {found.option(TIMES)[:4].hex()} {found.option(TIMES)[4:].hex()}", options)
        wanted = self.options(options, self.peer.iss, self.own)
        if wanted.rstrip(b"\0") != found.options.rstrip(b"\0"):
            raise Differs(f"line {event.line}: options {found.options.hex() or 'none'} came, wanted {wanted.hex() or 'none'}")

    def options(self, text, other, _):
        """The bytes of options in packetdrill's words; blocks count from `other`."""
        made = b""
        for word in (part.strip() for part in text.split(",") if part.strip()):
            name, *values = word.split()
            if name == "sack":
                edges = [tuple((other + int(edge)) % SPACE for edge in pair.split(":")) for pair in values]
                body = b"".join(struct.pack(">II", *pair) for pair in edges)
                made += bytes([BLOCKS, 2 + len(body)]) + body
            elif name == "TS":
                made += bytes([TIMES, 10]) + self.stamps(values)
            elif name in ("nop", "eol", "sackOK", "mss", "wscale"):
                made += plain(name, values)
            else:
                raise Differs(f"option {word} isn't read")
        return made

    def stamps(self, values):
        if values[0] == "val" and len(values) == 3:
            return bytes.fromhex(values[1] + values[2])
        echo = int(values[3]) + (self.shift or 0) if int(values[3]) else 0
        return struct.pack(">II", int(values[1]), echo % SPACE)

    def call(self, text):
        found = scripting.CALL.match(text)
        name, words, wanted, fault = found[1], [word.strip() for word in found[2].split(",")], found[3], found[4]
        self.done(name, words, wanted, fault, text)

    def done(self, name, words, wanted, fault, text):
        """A user's call, and its answer compared."""
        lab, peer = self.lab, self.peer
        if name == "setsockopt":
            self.wish(words)
        elif name == "listen":
            lab.call("listen", peer.port, **self.wishes)
        elif name == "accept":
            self.files[wanted] = peer.accept()
        elif name == "connect":
            peer.user = self.files[words[0]] = lab.call("connect", peer.port, peer.own, **self.wishes)
        elif name in ("read", "recv"):
            answer = peer.got(0.05, int(words[2]))
            count = -1 if answer is None or isinstance(answer, Gone) else len(answer)
            self.same(count, wanted, f"{text}: the user is told {answer if answer is None or isinstance(answer, Gone) else count}")
            if fault == "EAGAIN" and answer is not None:
                raise Differs(f"{text}: {answer!r}")
        elif name in ("write", "send", "sendto"):
            self.same(peer.send(bytes(at % 251 for at in range(int(words[2])))), wanted, text)
        elif name == "close" and peer.user is not None:
            lab.call("leave", peer.user)
        elif name == "shutdown":
            lab.call("close", peer.user)

    def same(self, count, wanted, text):
        if wanted != "?" and count != int(wanted):
            raise Differs(text)

    def wish(self, words):
        value = int((re.search(r"\[(\d+)\]", words[3]) or [0, 0])[1])
        if words[2] == "SO_RCVBUF":
            self.wishes["capacity"] = value
        elif words[2] == "TCP_NODELAY":
            self.wishes["nagle"] = 1 - value
            if self.peer.user is not None:
                with contextlib.suppress(NotSeen):
                    self.lab.call("wish", self.peer.user, nagle=1 - value)
        elif words[2] != "SO_REUSEADDR":
            print(f"  passed over: setsockopt {words[2]}")


def parts(text):
    found = scripting.SEGMENT.match(text[1:].strip())
    numbers = [None if value is None else int(value) for value in found.groups()[1:7]]
    return found[1], *numbers, found[8]


def plain(name, values):
    return {"nop": bytes([NOP]), "eol": b"\0", "sackOK": bytes([PERMITTED, 2])}.get(name) or (
        struct.pack(">BBH", MSS, 4, int(values[0])) if name == "mss" else bytes([SCALE, 3, int(values[0])])
    )


def run_script(stack, path):
    """Whether a stack does what a script says; and why not. NoScript where it is none."""
    script = scripting.read(path.read_text())
    runner = Runner(stack)
    try:
        runner.run(script)
        return True, "as the script says", runner
    except (Differs, NotMet, NotSeen) as why:
        return False, str(why), runner
    finally:
        _, found = judging.judged([runner.peer.log])
        if found:
            print(f"  the judge: {found[0][1]}")
        with contextlib.suppress(NotSeen):
            runner.peer.quit()
        stack.stop()


def prepared(stack, path):
    """Of a script's commands in backquotes those that set a variable of the kernel's, where the kernel is the stack."""
    for name, value in re.findall(r"`sysctl -q net\.ipv4\.(\w+)=(\d+)`", path.read_text()):
        if isinstance(stack, Linux):
            set_kernel(name, value)


def export(stack, row):
    """A row as it goes with a stack, as a script."""
    stack.start()
    lab = Lab(stack)
    try:
        row.run(lab)
    finally:
        text = scripting.written(row, stack.title, lab)
        stack.stop()
    return text


def export_all(stack, folder):
    """Writes each row that is met as a script, and answers the rows with their files."""
    folder.mkdir(parents=True, exist_ok=True)
    for row in chosen(""):
        try:
            text = export(stack, row)
        except (NotMet, NotSeen):
            continue
        path = folder / f"{row.name}.pkt"
        path.write_text(text)
        yield row, path


def main():
    parser = argparse.ArgumentParser(description=__doc__, formatter_class=argparse.RawDescriptionHelpFormatter)
    parser.add_argument("--stack", required=True)
    parser.add_argument("--export", metavar="ROW")
    parser.add_argument("--export-all", type=pathlib.Path, metavar="FOLDER")
    parser.add_argument("--pcap", type=pathlib.Path, help="a capture of each script, SCRIPT.pcap in this folder")
    parser.add_argument("scripts", nargs="*", type=pathlib.Path)
    words = parser.parse_args()
    try:
        return done(words, stack_of(words.stack))
    except (building.Lacks, calls.Misspoken, OSError) as lack:
        print(f"packetdrill: {lack}", file=sys.stderr)
        return 2


def done(words, stack):
    """What was asked for. Answers the status."""
    failed = refused = 0
    if words.export:
        row = next((row for row in chosen(words.export) if row.name == words.export), None)
        if row is None:
            raise building.Lacks(f"no row is called {words.export}")
        print(export(stack, row), end="")
        return 0
    if words.export_all:
        count = sum(1 for _ in export_all(stack, words.export_all))
        print(f"{count} scripts in {words.export_all}")
        return 0
    for path in words.scripts:
        try:
            prepared(stack, path)
            is_same, said, runner = run_script(stack, path)
        except (scripting.NoScript, OSError, UnicodeDecodeError) as why:
            refused += 1
            print(f"{path.name:28} REFUSED: {why}")
            continue
        failed += not is_same
        if words.pcap:
            packets = [(when, as_sent(segment)) for when, _, segment, *_ in runner.peer.story]
            telling.write_capture(words.pcap / f"{path.stem}.pcap", packets)
        print(f"{path.name:28} {said if is_same else 'DIFFERS: ' + said}")
        if not is_same:
            print("\n".join(f"    {when:8.3f} {word} {text}" for when, word, _, text, _ in runner.peer.story[-8:]))
    print(f"{len(words.scripts)} scripts, {failed} differ" + (f", {refused} refused" if refused else ""))
    return 2 if refused or not words.scripts else int(failed > 0)


if __name__ == "__main__":
    sys.exit(main())
