"""The form of a script of `tcpkit replay` (docs/FORMATS.md), and what an end can be made from: the first fault of a text.

The second program of checks/differential/ reads scripts without faults alone.
"""

import re

# A word that is a number, and its greatest value; and the words that are no number, as expressions.
RANGES = {"BYTE": 255, "WORD": 65535, "NUMBER": 4294967295, "ROOM": 1048576, "LIMIT": 9223372036854775807}
WORDS = {"SIDE": r"[AB]", "HEX": r"(?:-|(?:[0-9A-Fa-f]{2})+)"}
EVENTS = [
    "(?:connect|listen|close|abort|emit) SIDE",
    "send SIDE HEX",
    "receive SIDE ROOM",
    "timer SIDE (?:retransmit|reorder|timewait)",
    "deliver SIDE NUMBER",
    "damage SIDE NUMBER NUMBER BYTE",
]
SETTINGS = [
    "config SIDE (?:isn|send|recv) NUMBER",
    "config SIDE mss WORD",
    "config SIDE shift (?:none|BYTE)",
    "config SIDE sack (?:on|off)",
]
# Beside these in version 2, and beside those in version 3.
SETTINGS_2 = ["config life NUMBER", "config SIDE limit LIMIT"]
SETTINGS_3 = ["config SIDE runs WORD"]
LIVES, TURNS, RUNS = range(2, (1 << 31) + 1), range(1, (1 << 20) + 1), range(1, 4097)
# Of an end: the fault's number, the keys, what they may be, and in words.
ENDS = [
    (21, ("send", "recv"), range(1, (1 << 20) + 1), "a capacity isn't from 1 to 1048576"),
    (23, ("mss",), range(64, 1461), "the mss isn't from 64 to 1460"),
    (24, ("shift",), range(15), "the shift isn't from 0 to 14"),
    (25, ("limit",), range(1, (1 << 62) + 1), "the limit isn't from 1 to 4611686018427387904"),
]


def compiled(form):
    """The expression of a form, with a group named after its range for each number."""
    names = iter(range(9))
    for name, word in WORDS.items():
        form = form.replace(name, word)
    number = lambda found: f"(?P<{found[0]}_{next(names)}>0|[1-9][0-9]*)"
    return re.compile(re.sub("|".join(RANGES), number, form))


EVENTS, SETTINGS, SETTINGS_2, SETTINGS_3 = (
    [compiled(form) for form in forms] for forms in (EVENTS, SETTINGS, SETTINGS_2, SETTINGS_3)
)


def fits(forms, line):
    """Whether a line has one of these forms, with each number in its range."""
    for form in forms:
        found = form.fullmatch(line)
        if found:
            return all(value is None or int(value) <= RANGES[name[:-2]] for name, value in found.groupdict().items())
    return False


def is_repeat(line):
    """Whether it is `repeat N EVENT`, and the last turn's number can be named."""
    word, count, event = (line.split(" ", 2) + ["", ""])[:3]
    if word != "repeat" or not re.fullmatch("[1-9][0-9]*", count) or int(count) not in TURNS or not fits(EVENTS, event):
        return False
    kind, _, *numbers = event.split(" ")
    return kind not in ("deliver", "damage") or int(numbers[0]) + int(count) - 1 <= RANGES["NUMBER"]


def is_setting(line, version):
    if not fits(SETTINGS + SETTINGS_2 * (version >= 2) + SETTINGS_3 * (version == 3), line):
        return False
    _, key, *rest = line.split(" ")
    if key == "life":
        return int(rest[0]) in LIVES
    return rest[0] != "runs" or int(rest[1]) in RUNS


def bad_line(data):
    """The number of the first line that has no form, or None."""
    above = next((place for place, byte in enumerate(data) if byte > 0x7F), None)
    if above is not None:
        return 1 + data[:above].count(b"\n")
    lines = data.decode("ascii").split("\n")
    version, has_event = {"tcpkit 2": 2, "tcpkit 3": 3}.get(lines[0], 1), False
    for number, line in list(enumerate(lines, 1))[version > 1 :]:
        if line and not line.startswith("#"):
            is_event = fits(EVENTS, line) or (version > 1 and is_repeat(line))
            if not is_event and (has_event or not is_setting(line, version)):
                return number
            has_event |= is_event
    return None


def bad_end(data):
    """The side, the number and the words of the first end that can't be made, or None."""
    settings = {"A": {}, "B": {}}
    for line in data.decode("ascii").split("\n"):
        if line.startswith("config ") and not line.startswith("config life "):
            _, side, key, value = line.split(" ")
            settings[side][key] = value
    for side, keys in settings.items():
        for number, names, range_, words in ENDS:
            if any(keys[name].isdigit() and int(keys[name]) not in range_ for name in names if name in keys):
                return side, number, words
    return None


def first_fault(data):
    """What `tcpkit replay` says of these bytes behind its name, and why; None where it replays them."""
    line = bad_line(data)
    if line is not None:
        return f"41 line {line}: it has no form of a script's lines"
    end = bad_end(data)
    return None if end is None else f"config {end[0]} {end[1]}: {end[2]}"
