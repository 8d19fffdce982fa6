"""The user calls of a stack in a program of its own, as lines of text and their answers (README.md, "Another stack")."""

from segments import TESTER


class NotSeen(Exception):
    """What a row asks for can't be asked of this stack, or can't be seen."""


class Gone(str):
    """What a receive answers once the connection has failed: the user's error."""


def dotted(address):
    return ".".join(map(str, address))


class Misspoken(Exception):
    """A program doesn't answer a call, or otherwise than README.md says."""


class Opening:
    """A connection whose `connect` its program hasn't answered yet: it waits for the handshake (README.md, "Another stack")."""

    def __init__(self):
        self.handle, self.is_answered = None, False


# What each call is answered by: a word, and how many words follow it.
ANSWERS = {
    "forget": {"ok": 0}, "run": {"ok": 0}, "listen": {"ok": 0}, "accept": {"ok": 1, "no": 0}, "connect": {"ok": 1, "no": 0},
    "send": {"ok": 1, "gone": 1}, "receive": {"text": 1, "nothing": 0, "end": 0, "gone": 1}, "close": {"ok": 0}, "leave": {"ok": 0},
    "abort": {"ok": 0}, "open": {"ok": 1}, "wish": {"ok": 0},
}
# How long an answer is waited for, in seconds; that to a connect before the handshake; that to a connect once it may be done; and that
# to one whose peer has gone, which stacks give up after two minutes.
PATIENCE, BEFORE, AFTER, FOR_NOBODY = 20.0, 0.1, 0.05, 130.0


class Calls:
    """The user calls as lines of text over a socket: what a program of its own answers (README.md, "Another stack")."""

    has_clock = False
    opening = None

    def say(self, line):
        """Sends a line to the program."""
        raise NotImplementedError

    def hear(self, seconds):
        """The program's next answer, and None where it says nothing for so long."""
        raise NotImplementedError

    def ask(self, *words):
        """What the program answers, in words."""
        if self.settled() is None:
            raise NotSeen("the program answers connect once the handshake is done, and no other call before that")
        line = " ".join(map(str, words))
        self.say(line)
        answer = self.hear(PATIENCE)
        if answer is None:
            raise Misspoken(f"the program doesn't answer '{line[:60]}' within {PATIENCE:.0f} s")
        return self.understood(words[0], line, answer)

    def understood(self, call, line, answer):
        """The words of an answer, which has to be one that README.md has."""
        words = answer.split()
        if words == ["unknown"]:
            raise NotSeen(f"the stack has no such call: '{line[:60]}' is answered by 'unknown'")
        forms = ANSWERS[call]
        if not words or words[0] not in forms or (words[0] != "gone" and len(words) != 1 + forms[words[0]]):
            known = " or ".join(f"'{word}{' ..' if more else ''}'" for word, more in forms.items())
            raise Misspoken(f"the program answers '{line[:60]}' by '{answer[:60]}', and not by {known}")
        if words[0] == "ok" and forms["ok"] and not words[1].isdecimal():
            raise Misspoken(f"the program answers '{line[:60]}' by '{answer[:60]}', which has no number")
        return words

    def settled(self):
        """Whether a connect that wasn't answered is by now: None where it isn't, else True."""
        opening = self.opening
        if opening is None:
            return True
        answer = self.hear(AFTER)
        if answer is None:
            return None
        words = self.understood("connect", "connect", answer)
        opening.handle, opening.is_answered, self.opening = int(words[1]) if words[0] == "ok" else None, True, None
        return True

    def finish_opening(self):
        """Waits for the answer to a connect that a row has left. Its SYN was reset, if it has sent one."""
        if self.opening is not None and self.hear(FOR_NOBODY) is None:
            raise Misspoken(f"the program doesn't answer the connect of an earlier row within {FOR_NOBODY:.0f} s")
        self.opening = None

    def number(self, one):
        """The handle of a connection: None where its connect isn't answered yet; Gone where it was refused."""
        if not isinstance(one, Opening):
            return one
        if not one.is_answered and self.settled() is None:
            return None
        return Gone("refused") if one.handle is None else one.handle

    def listen(self, port, **wishes):
        self.ask("listen", port, *wished(wishes))

    def connect(self, port, to, address=TESTER, **wishes):
        """A handle. A program may answer it once the handshake is done, or has failed: then it is an Opening."""
        if self.settled() is None:
            raise NotSeen("the program answers connect once the handshake is done, and no other call before that")
        line = " ".join(map(str, ("connect", port, dotted(address), to, *wished(wishes))))
        self.say(line)
        answer = self.hear(PATIENCE if self.has_clock else BEFORE)
        if answer is None:
            self.opening = Opening()
            return self.opening
        words = self.understood("connect", line, answer)
        return int(words[1]) if words[0] == "ok" else None

    def accept(self, port):
        answer = self.ask("accept", port)
        return int(answer[1]) if answer[0] == "ok" else None

    def wish(self, one, **wishes):
        self.ask("wish", self.known(one), *wished(wishes))

    def known(self, one):
        """The handle of a connection that is there."""
        number = self.number(one)
        if number is None or isinstance(number, Gone):
            raise NotSeen("the program hasn't answered connect" if number is None else "the connection was refused")
        return number

    def send(self, one, text, urgent=False):
        """How many bytes are taken. A message has room for a part of a long text."""
        number = self.number(one)
        if urgent:
            raise NotSeen("the stack has no call for urgent data")
        if number is None or isinstance(number, Gone):
            return 0 if number is None else number
        taken = 0
        while taken < len(text):
            answer = self.ask("send", number, text[taken : taken + 16384].hex())
            if answer[0] == "gone":
                return Gone(" ".join(answer[1:]))
            taken += int(answer[1])
            if int(answer[1]) == 0:
                break
        return taken

    def receive(self, one, most=1 << 16):
        number = self.number(one)
        if number is None or isinstance(number, Gone):
            return number
        answer = self.ask("receive", number, min(most, 1 << 14))
        if answer[0] == "text":
            return bytes.fromhex(answer[1])
        return Gone(" ".join(answer[1:])) if answer[0] == "gone" else {"nothing": None, "end": b""}[answer[0]]

    def urgent(self, one):
        raise NotSeen("the stack has no call for urgent data")

    def is_open(self, one):
        number = self.number(one)
        return number is not None and not isinstance(number, Gone) and self.ask("open", number)[1] == "1"

    def close(self, one):
        self.ask("close", self.known(one))

    def leave(self, one):
        self.ask("leave", self.known(one))

    def abort(self, one):
        self.ask("abort", self.known(one))


def wished(wishes):
    """Wishes as words: keep=1000,1000."""
    return [f"{name}={','.join(map(str, value)) if isinstance(value, tuple) else value}" for name, value in wishes.items()]


def say(control, line, title):
    try:
        control.send(line.encode())
    except OSError as fault:
        raise OSError(f"{title}: the program has ended ({fault.strerror})") from fault


def heard(control, seconds, title):
    """The next answer on a program's socket, and None where none comes for so long."""
    control.settimeout(seconds)
    try:
        answer = control.recv(1 << 17)
    except TimeoutError:
        return None
    except OSError as fault:
        raise OSError(f"{title}: the program has ended ({fault.strerror})") from fault
    if not answer:
        raise OSError(f"{title}: the program has ended")
    return answer.decode(errors="replace")
