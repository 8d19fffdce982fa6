#!/usr/bin/env python3
"""That the tester is fair and safe: it leaves the machine's own network alone, blames no stack for what it can't see, and says in words
what is wrong with what it was given. It wants root, network namespaces, and lwIP's source. The last line is `N checks, M failed`."""

import pathlib
import random
import struct
import subprocess
import sys
import tempfile

import broken
import building
import conformance
import segments
import telling
from calls import Calls, Misspoken
from lab import NotSeen, TooLate, by_timeouts, given
from rows import ROWS, Row
from stacks import Child
from tcptest import run_row, stack_of

HERE = pathlib.Path(__file__).resolve().parent
CHECKS = []


def check(run):
    CHECKS.append(run)
    return run


def row(name):
    return next(one for one in ROWS if one.name == name)


def same(found, wanted):
    if found != wanted:
        raise AssertionError(f"{found!r}, and not {wanted!r}")


def verdicts(stack, names, fault=None):
    return {name: run_row(stack, row(name), None if fault is None else fault()) for name in names}


def all_are(found, verdict):
    for name, one in found.items():
        if one.verdict != verdict:
            raise AssertionError(f"{name}: {one.verdict}: {one.evidence}")


def ran(*words, program="tcptest.py"):
    """The status, and both outputs."""
    done = subprocess.run([sys.executable, str(HERE / program), *words], capture_output=True, text=True, check=False)
    return done.returncode, done.stdout, done.stderr


def refused(words, *said, program="tcptest.py"):
    """The program refuses these words before a row runs, and says why."""
    status, out, fault = ran(*words, program=program)
    same((status, out.count("\n")), (2, 0))
    for one in said:
        if one not in fault or "Traceback" in fault:
            raise AssertionError(f"{words}: {fault}")


@check
def kernel_left_alone():
    """--set changes nothing where the stack isn't Linux in a network namespace of the tester's own."""
    path = "/proc/sys/net/ipv4/tcp_syncookies"
    for stack in "ours", "slirp", "tun:none":
        # The namespace is this test's, so that it harms nobody where the tester does.
        words = f"cat {path}; {HERE}/tcptest.py --stack {stack} --set tcp_syncookies=2 --only MUST-2 2>&1; echo $?; cat {path}"
        done = subprocess.run(["unshare", "--net", "sh", "-c", words], capture_output=True, text=True, check=True).stdout.split("\n")
        same((done[0], done[-3]), (done[-2], "2"))
        same("own" in done[1] and "--set" in done[1], True)
    refused(("--stack", "linux", "--set", "no_such_variable=1", "--only", "MUST-2"), "no_such_variable")
    refused(("--stack", "linux", "--set", "../core/somaxconn=1", "--only", "MUST-2"), "somaxconn")
    refused(("--stack", "linux", "--set", "tcp_syncookies", "--only", "MUST-2"), "NAME=VALUE")


class OwnClock(Child):
    """A stack whose clock isn't the tester's, as far as rows know."""

    has_clock = False


@check
def slow_timeouts():
    """lwIP's first timeout is of 3 s: rows that wait for timeouts see it on a stack with a clock of its own, too."""
    stack = OwnClock("lwIP", building.lwip())
    all_are(verdicts(stack, ("backs_off", "syn_again", "one_after_timeout", "fin_again", "old_within_again", "shut_window_probed",
                             "probes_back_off", "edge_kept", "robust_when_shrunk", "congestion_avoidance")), telling.MET)
    same(verdicts(stack, ["path_mtu"])["path_mtu"].evidence, "then the longest is 1460")
    same([by_timeouts(count) >= 3 * (2**count - 1) for count in (1, 2, 3)], [True] * 3)


@check
def preconditions():
    """Where what a row stands on isn't so, it is not seen: a stack that sends no text is blamed for that alone, and so is one that opens
    nothing."""
    stack = stack_of("ours")
    names = [one.name for one in ROWS if not one.name.startswith("transfer")]
    # Also without a fault.
    blamed = {"time_wait_reopens", "ecn_agreed", "hard_errors_syn", "edge_not_back_scaled", "simultaneous_open"}
    for fault, wanted in (
        (lambda: broken.Says(broken.drops, broken.has_text), blamed | {"sent_without_push", "first_probe", "shut_window_probed"}),
        (lambda: broken.Says(broken.drops, broken.is_syn), {"passive_open", "active_open"}),
    ):
        found = verdicts(stack, names, fault)
        same({name for name, one in found.items() if one.verdict not in (telling.MET, telling.NOT_SEEN)}, wanted)
    one_alone = lambda: broken.Says(broken.drops, broken.has_text, after=1)  # noqa: E731
    all_are(verdicts(stack, ("old_within_again", "one_after_timeout", "nothing_beyond"), one_alone), telling.NOT_SEEN)


@check
def window_control():
    """What a stack sends at once in a window of 30,000 it may send in one of 60,000, however little that is."""
    small = lambda: broken.Hears(broken.sets(window=1000), lambda one: one.window >= 30000)  # noqa: E731
    all_are(verdicts(stack_of("ours"), ["window_unsigned"], small), telling.MET)


class Fragments(Child):
    """A stack whose packets come in fragments, out of order."""

    def read(self):
        return [piece for packet in super().read() for piece in cut(packet, 256)]


def cut(packet, most):
    """The fragments of a packet, of so many bytes of text at most (RFC 791, 3.2), the last one first."""
    head, body = packet[:20], packet[20:]
    made, identity = [], random.randrange(65536)
    for at in range(0, len(body), most):
        piece = body[at : at + most]
        flags = (at + most < len(body)) << 13 | at // 8
        header = head[:2] + struct.pack(">HHH", 20 + len(piece), identity, flags) + head[8:10] + b"\0\0" + head[12:20]
        made.append(header[:10] + struct.pack(">H", 65535 - segments.ones_sum(header)) + header[12:] + piece)
    return made[::-1]


@check
def fragments():
    """A packet that comes in fragments says what it says as a whole."""
    stack = Fragments("in fragments", building.ours())
    found = verdicts(stack, ("checksum_sent", "mss_effective", "half_close", "reserved_bits", "transfer_clean"))
    all_are(found, telling.MET)
    same([one.judge for one in found.values()], [[]] * 5)
    same("in 6 fragments" in "".join(found["checksum_sent"].segments), True)
    pieces = segments.Pieces()
    whole = segments.Segment(1, 2, text=b"t" * 1000).packet()
    same([pieces.whole(one)[1] for one in cut(whole, 200)], [0, 0, 0, 0, 0, 6])
    same(segments.read_packet(pieces.whole(whole)[0]).text, b"t" * 1000)
    for at in range(200):
        same(pieces.whole(cut(segments.Segment(1, 2, text=bytes(1000)).packet(), 200)[at % 5])[0], None)
    same(len(pieces.waiting) <= pieces.MOST + 1, True)


@check
def no_segments():
    """What a stack sends as TCP and is none isn't a fault of the tester's."""

    class Short(Child):
        def read(self):
            return [one[:20] + one[20:32] + b"\xf0" + one[33:40] for one in super().read()]

    found = verdicts(Short("cut", building.ours()), ["checksum_sent"])["checksum_sent"]
    same((found.verdict, "is no segment" in found.evidence), (telling.NOT_MET, True))


class Waits(Child):
    """A program whose connect answers once the handshake is done, or has failed, and which hears nothing before that."""

    withheld = None

    def ask(self, *words):
        if words[0] != "run":
            return super().ask(*words)
        Child.say(self, " ".join(map(str, words)))
        return Child.hear(self, 20)

    def start(self):
        super().start()
        self.withheld = None

    def say(self, line):
        if self.withheld is not None:
            raise AssertionError(f"'{line}' is asked before connect is answered")
        super().say(line)
        if line.startswith("connect"):
            self.withheld = super().hear(20)

    def hear(self, seconds):
        if self.withheld is None:
            return super().hear(seconds)
        handle = self.withheld.split()[1]
        Child.say(self, f"open {handle}")
        is_open = Child.hear(self, 20) == "ok 1"
        Child.say(self, f"receive {handle} 0")
        is_gone = Child.hear(self, 20).startswith("gone")
        if not is_open and not is_gone:
            return None
        answer, self.withheld = self.withheld, None
        return answer if is_open else "no"


@check
def late_connect():
    """A program may answer connect after the handshake: what needs no other call before that is seen all the same."""
    stack = Waits("late", building.ours())
    names = ("active_open", "wrong_ack_refused", "stray_reset_ignored", "user_told_of_refusal", "mss_sent", "options_sent",
             "transfer_opened", "syn_window_plain")
    all_are(verdicts(stack, names), telling.MET)
    found = verdicts(stack, ["syn_again"])["syn_again"]
    same((found.verdict, "connect" in found.evidence), (telling.NOT_SEEN, True))


class Says(Calls):
    """A program that answers so."""

    def __init__(self, answer):
        self.answer = answer

    def say(self, line):
        pass

    def hear(self, seconds):
        return self.answer


@check
def forgotten_connect():
    """What a connect is answered after its row isn't taken for another call's answer."""

    class Slow(Says):
        said = ()

        def hear(self, seconds):
            return self.said.pop(0)

    program = Slow("")
    program.said = [None, "no", "ok"]
    program.connect(1, 2)
    program.finish_opening()
    same(program.ask("forget"), ["ok"])
    program.said = [None, None]
    program.connect(1, 2)
    try:
        program.finish_opening()
        raise AssertionError("it passes")
    except Misspoken as why:
        same("connect" in str(why), True)


@check
def answers():
    """What a program answers otherwise than README.md says is told in words."""
    calls = (("receive", 1), ("send", 1, b"a"), ("accept", 1), ("connect", 1, 2), ("is_open", 1), ("close", 1), ("listen", 1), ("abort", 1))
    for name, *words in calls:
        try:
            getattr(Says("unknown"), name)(*words)
            raise AssertionError(f"{name}: 'unknown' passes")
        except NotSeen as why:
            same("unknown" in str(why), True)
        for answer in "", "hello", "ok one", "text", "ok 1 2", None:
            if name == "connect" and answer is None:
                continue
            try:
                getattr(Says(answer), name)(*words)
                raise AssertionError(f"{name}: {answer!r} passes")
            except Misspoken as why:
                same("program" in str(why), True)
    same(Says("gone timeout").receive(1), "timeout")


@check
def ended():
    """A program that ends, or babbles, has no verdict, and words say so."""
    found = run_row(Child("gone", "/bin/false"), row("half_close"))
    same((found.verdict, "has ended" in found.evidence), (telling.BROKEN, True))

    class Babbles(Child):
        def hear(self, seconds):
            return super().hear(seconds) + " and so on"

    found = run_row(Babbles("babbles", building.ours()), row("half_close"))
    same((found.verdict, "and not by" in found.evidence), (telling.BROKEN, True))


@check
def words():
    """What can't be done is said before a row runs."""
    refused(("--stack", "ours", "--only", "half_close,no_such_row"), "no_such_row")
    refused(("--list", "--only", "MUST-999"), "MUST-999")
    refused(("--stack", "ours", "--only", "half_close", "--json", "/no/such/folder/file"), "/no/such/folder/file")
    refused(("--stack", "ours", "--only", "half_close", "--junit", "/proc/none"), "/proc/none")
    refused(("--stack", "ours", "--only", "half_close", "--pcap", "/proc/none"), "/proc/none")
    refused(("--stack", "no_such_stack"), "no_such_stack")
    refused(("--stack", "tun:no_such", "--control", "/no/such/socket"), "no_such")
    refused(("--stack", "no_such_stack"), "no_such_stack", program="packetdrill.py")
    refused(("--stack", "ours", "--export", "no_such_row"), "no_such_row", program="packetdrill.py")


@check
def statuses():
    """The last line says what the status is, and why."""
    status, out, _ = ran("--stack", "ours", "--only", "half_close,MUST-10")
    same((status, out.split("\n")[-2]), (1, "status 1: not met: simultaneous_open (MUST-10)"))
    status, out, _ = ran("--stack", "ours", "--only", "half_close,ecn_agreed")
    same((status, out.split("\n")[-2][:9]), (0, "status 0:"))
    status, out, _ = ran("--stack", "ours", "--only", "time_to_live")
    same((status, out.split("\n")[-2]), (2, "status 2: nothing could be seen of this stack"))
    finding = telling.Finding("a", "MUST-1", "1", "asks", telling.BROKEN, "it ended")
    same(telling.status_of([finding])[0], 2)


@check
def late():
    """What came late is run again where the clock is the machine's, and only there."""
    for stack, wanted in (OwnClock("ours", building.ours()), ("met", 2)), (stack_of("ours"), ("not met", 1)):
        turns = []

        def slow(lab, turns=turns):
            turns.append(lab)
            if len(turns) == 1:
                raise TooLate("late")
            return "in time"

        found = run_row(stack, Row("slow", (), (), "1", "be in time", "MUST", slow, broken.Fault))
        same((found.verdict, len(turns)), wanted)
    same(run_row(stack, Row("given", (), (), "1", "asks", "MUST", lambda lab: given(False, "no"), broken.Fault)).verdict, telling.NOT_SEEN)


@check
def rows_look():
    """Rows find what they name: faults that leave all else as it is."""

    def reads_on(segment):
        return broken.sets(options=lambda old: old[5:] if old[4:8] == b"\0\2\4\3" else old)(segment)

    faults = {
        "basic_options": lambda: broken.Hears(reads_on, broken.is_syn),
        "initial_numbers_clock": lambda: broken.Says(broken.sets(seq=lambda _: random.getrandbits(32)), broken.is_syn),
    }
    for name, fault in faults.items():
        found = run_row(stack_of("ours"), row(name), fault())
        same(found.verdict in (telling.NOT_MET, telling.SHOULD_NOT), True)
    # The SYNs behind the first have no options.
    silent = lambda: broken.Hears(broken.drops, lambda one: broken.is_syn(one) and not one.options)  # noqa: E731
    all_are(verdicts(stack_of("ours"), ["challenges_limited"], silent), telling.NOT_SEEN)


@check
def citations():
    """What shows a requirement has to stand in its file as a whole, and a test's function has to be called."""
    same(conformance.is_cited("c/tcpcore/tests/connection.c: it expires after 1, 3 and 7 s, and then the path is suspect"), True)
    same(conformance.is_cited("c/tcpcore/tests/connection.c: after 1, 3 and 7 s, and then the path is suspect"), False)
    same(conformance.is_cited("c/tcpcore/tests/connection.c: static void user_timeouts(void)"), True)
    same(conformance.is_cited("c/tcpcore/tests/connection.c: static void user_timeouts(void"), False)
    same(conformance.is_cited("docs/RULES.md: is the field shifted by the peer's shift"), False)
    with tempfile.NamedTemporaryFile("w", suffix=".c", dir=HERE / "out") as file:
        file.write("static void never(void)\n{\n}\n")
        file.flush()
        path = pathlib.Path(file.name).relative_to(conformance.TOP)
        same(conformance.is_cited(f"{path}: static void never(void)"), False)
        file.write("int main(void)\n{\n    never();\n}\n")
        file.flush()
        same(conformance.is_cited(f"{path}: static void never(void)"), True)


@check
def admissions():
    """What isn't met is told, by number; and what is told to be not met isn't met."""
    shown = {number: how for number, _, how in conformance.requirements()}
    number = "RFC 7323, 2.4 (3)"
    made = {one.name: telling.Finding(one.name, "", "", "", telling.MET, "") for one in ROWS}
    same(conformance.state(number, shown[number], made, set())[1], False)
    made["new_text_in_window_late"].verdict = telling.NOT_MET
    same(conformance.state(number, shown[number], made, set()), ("**not met** in part, as docs/RULES.md has it", True))
    same(conformance.state(number, "", made, set())[1], False)
    same(conformance.state(number, "not met, docs/RULES.md: no such words", made, set())[1], False)
    same(conformance.state("MUST-46", shown["MUST-46"], made, set())[0], "the caller's, as c/tcpcore/tcpcore.h says")
    same(conformance.state("MUST-20", "", made, set())[1], False)


@check
def scripts():
    """A file that is no script is refused, with its line."""
    with tempfile.TemporaryDirectory() as name:
        folder = pathlib.Path(name)
        path = folder / "one.pkt"
        good = "0 socket(..., SOCK_STREAM, IPPROTO_TCP) = 3\n+0 listen(3, 1) = 0\n"
        good += "+.1 < S 0:0(0) win 32792 <mss 1000>\n+0 > S. 0:0(0) ack 1 <...>\n"
        wrong = ("hello world", "line 1"), ("0 hello world", "line 1"), ("", "no event")
        last = "+0 hello(3) = 0", "+.1 < S 0:0(", "+.1 < . 1:3(9) ack 1 win 5", "listen(3, 1) = 0"
        wrong += tuple((good + one, "line 5") for one in last)
        for text, said in wrong:
            path.write_text(text + "\n")
            status, out, _ = ran("--stack", "ours", str(path), program="packetdrill.py")
            same((status, "REFUSED" in out and said in out), (2, True))
        path.write_text(good + "+0 < icmp unreachable frag_needed mtu 1200 [0:0(0)]\n+0 getsockopt(3, ...) = 0\n+0 `true`\n")
        status, out, _ = ran("--stack", "ours", str(path), program="packetdrill.py")
        same((status, out.count("passed over")), (0, 3))
    same(ran("--stack", "ours", "/no/such.pkt", program="packetdrill.py")[0], 2)


def main():
    building.lwip()
    failed = 0
    for run in CHECKS:
        try:
            run()
        except Exception as why:  # each check is told
            failed += 1
            print(f"FAILED: {run.__name__}: {type(why).__name__}: {why}", flush=True)
    print(f"{len(CHECKS)} checks, {failed} failed")
    return int(failed > 0)


if __name__ == "__main__":
    sys.exit(main())
