"""What a header promises to programs that were built with an older one: python3 older.py OLDER.h HEADER.h prints each answer, bound, field
and call of OLDER.h that HEADER.h has otherwise, and ends with 1 where there is one. TCPCORE_VERSION may grow, and so may bounds of the
stack; fields may take the place of reserved words. TCPCORE_MEMORY may grow: the library gives older programs ends of 11 runs (older_ends.c), which
have to fit into what it was. The C compiler (CC, else cc) tells where fields lie.
"""

import os
import pathlib
import re
import subprocess
import sys
import tempfile

# Capacities of which the room of an end is compared.
CAPACITIES = [(1, 1), (15, 17), (64, 1460), (65535, 65535), (1 << 20, 1 << 20)]
MAY_GROW = {"TCPCORE_VERSION", "TCPCORE_STACK", "TCPCORE_PORTABLE_STACK"}
# The fields that have another name since version 9.
FIELDS = {
    ("struct tcpcore_status", "una"): "snd_una",
    ("struct tcpcore_status", "next"): "rcv_position",
    ("struct tcpcore_status", "nxt"): "snd_nxt",
    ("struct tcpcore_rest", "seq"): "snd_nxt",
    ("struct tcpcore_rest", "next"): "rcv_nxt",
    ("struct tcpcore_rest", "window"): "rcv_wnd",
}


def without_comments(text):
    return re.sub(r"/\*.*?\*/", " ", text, flags=re.S)


def old_names(header):
    """The names that the macros beside a header give others: (old, new) each. A call and a struct that had one name have two."""
    beside = pathlib.Path(header).with_name("tcpcore_old_names.h")
    text = beside.read_text() if beside.exists() else ""
    calls = re.findall(r"^#define (\w+)\(.*\) (tcpcore_\w+)\(", text, re.M)
    return calls + re.findall(r"^#define (\w+) (\w+)$", text, re.M)


def calls(text, names=()):
    """The prototypes without their parameters' names, with one blank between words, and with the old names of these."""
    for old, new in names:
        text = re.sub(rf"\b{new}\b", old, text)
    found = re.findall(r"^(?:uint32_t|size_t|const char \*)\s*tcpcore_\w+\([^;{]*\);", text, re.M)
    bare = (re.sub(r"(?<=[ *])\w+(?=[,)])", "", call) for call in found)
    return {re.search(r"tcpcore_\w+", call)[0]: " ".join(call.split()) for call in bare}


def fields(text):
    """Each field, as (type, field), reserved and unnamed ones left out; and each type."""
    found = []
    for tag, body in re.findall(r"\bstruct (tcpcore_\w+) \{(.*?)\}", text, re.S):
        names = re.findall(r"\b(\w+)(?:\[\w+\])?\s*;", re.sub(r":\s*\d+", "", body))
        found += [(f"struct {tag}", name) for name in names if name not in ("reserved", "int")]
    return found


def numbers(text):
    """The enumerators and the macros that are numbers."""
    named = re.findall(r"\b(TCPCORE_\w+)\s*=\s*\d+", text)
    bounds = re.findall(r"^#define (TCPCORE_\w+) (?:\d+|UINT64_C\(\d+\))\s*$", text, re.M)
    return [it for it in named + bounds if it not in MAY_GROW]


def told_with(header, lines):
    """What a program of these lines prints with a header, line by line."""
    with tempfile.TemporaryDirectory() as folder:
        place = pathlib.Path(folder)
        (place / "tcpcore.h").write_text(pathlib.Path(header).read_text())
        beside = pathlib.Path(header).with_name("tcpcore_old_names.h")
        (place / beside.name).write_text(beside.read_text() if beside.exists() else "")
        (place / "values.c").write_text("\n".join(['#include "tcpcore.h"', "#include <stdio.h>", "int main(void)", "{", *lines, "    return 0;", "}", ""]))
        subprocess.run([os.environ.get("CC", "cc"), "-std=c11", f"-I{place}", place / "values.c", "-o", place / "values"], check=True)
        return subprocess.run([place / "values"], check=True, capture_output=True, text=True).stdout.splitlines()


def rooms(header, macro):
    """What a macro of two capacities says."""
    calls_of = [macro.replace("@1", str(send)).replace("@2", str(recv)) for send, recv in CAPACITIES]
    return [int(line) for line in told_with(header, [f'    printf("%zu\\n", (size_t){call});' for call in calls_of])]


def values(header, older, fields_now):
    """What the compiler makes of the older header's names with a header; `fields_now` has those of fields that have another name."""
    lines = [f'    printf("{name} %llu\\n", (unsigned long long)({name}));' for name in numbers(older)]
    for kind, field in fields(older):
        now = fields_now.get((kind, field), field)
        lines.append(f'    printf("{kind} {field} %zu %zu\\n", offsetof({kind}, {now}), sizeof(({kind} *)0)->{now});')
    for kind in sorted({kind for kind, _ in fields(older)}):
        lines.append(f'    printf("{kind} %zu\\n", sizeof({kind}));')
    return told_with(header, lines)


def main():
    older, newer = (without_comments(pathlib.Path(name).read_text()) for name in sys.argv[1:3])
    if not calls(older) or not fields(older) or len(numbers(older)) < 10:
        sys.exit("older.py: no header was read")
    before, now = values(sys.argv[1], older, {}), values(sys.argv[2], older, FIELDS if old_names(sys.argv[2]) else {})
    newer_calls = calls(newer, old_names(sys.argv[2]))
    wrong = [f"{name} is {found!r}, and was {wanted!r}" for name, wanted in calls(older).items() if (found := newer_calls.get(name)) != wanted]
    wrong += [f"'{found}', and was '{wanted}'" for wanted, found in zip(before, now) if found != wanted]
    # An end of 11 runs, which older programs get, fits into the blocks that they have.
    for capacities, had, needs in zip(CAPACITIES, rooms(sys.argv[1], "TCPCORE_MEMORY(@1, @2)"), rooms(sys.argv[2], "TCPCORE_MEMORY_RUNS(@1, @2, 11)")):
        if needs > had:
            wrong.append(f"ends of {capacities} need {needs} bytes, and have {had}")
    for line in wrong:
        print(f"older.py: {line}")
    print(f"older.py: {len(calls(older))} calls and {len(before)} values looked at, {len(wrong)} of them are not as they were")
    sys.exit(bool(wrong))


if __name__ == "__main__":
    main()
