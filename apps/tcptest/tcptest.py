#!/usr/bin/env python3
"""One table of what a TCP stack does: requirement, verdict, evidence (README.md).

    tcptest.py --stack linux|ours|lwip|gvisor|slirp|tun:DEVICE [--only WORD,..] [--json FILE] [--junit FILE] [--pcap FOLDER]
               [--segments] [--set NAME=VALUE]
    tcptest.py --list                                        the rows, and what each asks for

A verdict comes from what was seen on the wire: met, not met, SHOULD not met, MAY not taken, or not seen, where the stack has no call for
it, where what the row stands on isn't so, or where it takes minutes of a clock that isn't the tester's. Each connection's log goes through
the proved judge. The status is 0 where each MUST that was seen is met and the judge accuses nobody, 1 where not, and 2 where nothing could
be tested, or a row has no verdict, since the tester or the stack's program failed. The last line says which, and why.
It wants a C compiler; for linux, slirp and tun also root, network namespaces and Debian's iproute2, and for linux /dev/net/tun. `tun:DEVICE`
is a stack that runs already; --control names the socket at which it answers user calls.
"""

import argparse
import pathlib
import sys
import time

sys.path.insert(0, str(pathlib.Path(__file__).resolve().parent))

import building  # noqa: E402
import calls  # noqa: E402
import judging  # noqa: E402
import rows_arriving  # noqa: E402,F401
import rows_closing  # noqa: E402,F401
import rows_congestion  # noqa: E402,F401
import rows_format  # noqa: E402,F401
import rows_network  # noqa: E402,F401
import rows_opening  # noqa: E402,F401
import rows_sending  # noqa: E402,F401
import rows_transfer  # noqa: E402,F401
import rows_window  # noqa: E402,F401
import telling  # noqa: E402
from lab import Lab, NotMet, NotSeen, TooLate  # noqa: E402
from linux import enter_namespace, set_kernel  # noqa: E402
from rows import MAY, ROWS, SHOULD  # noqa: E402
from segments import ACK, RST, Segment, as_sent  # noqa: E402
from stacks import Child, Device, Linux  # noqa: E402

TITLES = {"ours": "Boqtilen", "lwip": "lwIP 2.1.3", "slirp": "libslirp", "gvisor": "gVisor's netstack"}
NAMES = ("linux", "ours", "lwip", "gvisor", "slirp")
TURNS = 3  # how often a row is run at most that came late


def stack_of(name, control=None):
    """The stack of a name. Its program is made first, since afterwards the process may be in a network of its own."""
    building.judge()
    if name == "linux":
        return Linux()
    if name.startswith("tun:") and control is None:
        raise building.Lacks("tun:DEVICE wants --control, the socket at which the stack answers user calls")
    if name.startswith("tun:"):
        return Device(name[4:], control)
    if name not in TITLES:
        raise building.Lacks(f"no stack {name}: {', '.join(NAMES)} or tun:DEVICE")
    program = getattr(building, name)()
    if name == "slirp":
        enter_namespace()  # its users have sockets of the machine's loopback
    return Child(TITLES[name], program)


def verdict_of(row):
    return {SHOULD: telling.SHOULD_NOT, MAY: telling.MAY_NOT}.get(row.level, telling.NOT_MET)


def run_row(stack, row, fault=None):
    """One row on a stack, and what the judge says of its connections. Where it came at another time than the row asks for, and the clock is
    the machine's, that may have been the machine's load: it is run again, and the last one counts."""
    for turn in range(TURNS):
        found, is_late = run_once(stack, row, fault)
        if not is_late or stack.has_clock:
            break
    if turn:
        found.evidence += f" (run {turn + 1} times, since it came late)"
    return found


def run_once(stack, row, fault):
    """A row, and whether it wasn't met by time alone."""
    began, lab, is_late = time.monotonic(), None, False
    try:
        stack.start()
        lab = Lab(stack, fault)
        verdict, evidence = telling.MET, row.run(lab)
    except NotMet as why:
        verdict, evidence, is_late = verdict_of(row), str(why), isinstance(why, TooLate)
    except NotSeen as why:
        verdict, evidence = telling.NOT_SEEN, str(why)
    except (calls.Misspoken, OSError) as why:
        verdict, evidence = telling.BROKEN, str(why)
    except Exception as why:  # a row is a test of a program that may do anything: its own fault is told, and is no verdict
        verdict, evidence = telling.BROKEN, f"the tester failed: {type(why).__name__}: {why}"
    found = telling.Finding(row.name, row.title(), row.section, row.asks, verdict, evidence)
    if lab is not None:
        clear(lab)
        tell(found, lab, fault)
    found.seconds = time.monotonic() - began
    return found, is_late


def tell(found, lab, fault):
    """What went over the wire, and what the judge says of it."""
    story = sorted([*lab.story, *(seen for peer in lab.peers for seen in peer.story)], key=lambda seen: seen[-1])
    found.packets = [(when, as_sent(segment)) for when, _, segment, *_ in story]
    found.segments = [f"{when:9.3f} {'stack  >' if word == 'went' else 'tester >'} {said}" for when, word, _, said, _ in story]
    if fault is None:
        found.judged, accused = judging.judged([peer.log for peer in lab.peers if peer.is_judged])
        found.judge = [said for _, said in accused]


def clear(lab):
    """Ends what a row has left."""
    lab.fault = None
    try:
        for peer in lab.peers:
            if peer.nxt != peer.iss or peer.irs:
                lab.stack.write(peer_reset(peer).packet())
        lab.stack.stop()
    except (OSError, ValueError, calls.Misspoken, NotSeen):
        lab.stack.stop()


def peer_reset(peer):
    """A reset that ends the stack's connection. In SYN-SENT it has to acknowledge the SYN (RFC 9293, 3.10.7.3)."""
    return Segment(peer.own, peer.port, peer.nxt, (peer.irs + 1) if peer.irs else 0, RST | ACK if peer.irs else RST)


def is_chosen(row, word):
    return word in (*row.numbers, *row.parts) or word in row.name


def chosen(only):
    """The rows of these words, with commas: of names, of parts of names, or of numbers. Each word has to have one."""
    words = [word.strip() for word in only.split(",") if word.strip()]
    unknown = [word for word in words if not any(is_chosen(row, word) for row in ROWS)]
    if unknown:
        raise building.Lacks(f"no row is called {', '.join(unknown)}, and none has that number (--list has them all)")
    return [row for row in ROWS if not words or any(is_chosen(row, word) for word in words)]


def read_words():
    parser = argparse.ArgumentParser(description=__doc__, formatter_class=argparse.RawDescriptionHelpFormatter)
    parser.add_argument("--stack")
    parser.add_argument("--control", help="where the stack at tun:DEVICE answers user calls")
    parser.add_argument("--only", default="", help="rows of these names or numbers, with commas")
    parser.add_argument("--json", type=pathlib.Path)
    parser.add_argument("--junit", type=pathlib.Path)
    parser.add_argument("--pcap", type=pathlib.Path, help="a capture of each row, ROW.pcap in this folder")
    parser.add_argument("--set", action="append", default=[], help="of linux: a variable of net.ipv4, as tcp_syncookies=2")
    parser.add_argument("--segments", action="store_true", help="all segments of each row")
    parser.add_argument("--list", action="store_true")
    return parser.parse_args()


def can_be_written(path):
    """Looks whether a file can be written, before a run whose findings it is for."""
    try:
        with path.open("a"):
            pass
    except OSError as fault:
        raise building.Lacks(f"{path} can't be written: {fault.strerror}") from fault


def settings_of(words):
    """The settings of --set, as pairs. They are of Linux alone, which has a network namespace of its own."""
    pairs = [setting.partition("=")[::2] for setting in words.set]
    if pairs and words.stack != "linux":
        raise building.Lacks("--set is of --stack linux alone, which is tested in a network namespace of its own")
    wrong = [setting for setting, (name, value) in zip(words.set, pairs) if not name or not value]
    if wrong:
        raise building.Lacks(f"--set takes NAME=VALUE, and not {wrong[0]}")
    return pairs


def prepared(words):
    """The rows and the stack, once all that was asked for can be done."""
    rows, settings = chosen(words.only), settings_of(words)
    if not words.stack:
        raise building.Lacks(f"a stack is wanted: --stack {', '.join(NAMES)} or tun:DEVICE")
    for path in words.json, words.junit:
        if path:
            can_be_written(path)
    if words.pcap:
        words.pcap.mkdir(parents=True, exist_ok=True)
    stack = stack_of(words.stack, words.control)
    for name, value in settings:
        if not set_kernel(name, value):
            raise building.Lacks(f"this kernel has no net.ipv4.{name}")
    return rows, stack


def main():
    words = read_words()
    try:
        if words.list:
            for row in chosen(words.only):
                print(f"{row.name:22} {row.level:6} {row.title()}, {row.section}: {row.asks}")
            return 0
        rows, stack = prepared(words)
    except (building.Lacks, OSError) as lack:
        print(f"tcptest: {lack}", file=sys.stderr)
        return 2
    print(f"tcptest: {stack.title}, {len(rows)} rows")
    findings = []
    for row in rows:
        findings.append(run_row(stack, row))
        if words.pcap:
            telling.write_capture(words.pcap / f"{row.name}.pcap", findings[-1].packets)
        print("\n".join(telling.table(findings[-1:], words.segments)), flush=True)
    print(telling.counts(findings))
    if words.json:
        words.json.write_text(telling.as_json(stack.title, findings) + "\n")
    if words.junit:
        words.junit.write_text(telling.as_junit(stack.title, findings) + "\n")
    status, why = telling.status_of(findings)
    print(f"status {status}: {why}")
    return status


if __name__ == "__main__":
    sys.exit(main())
