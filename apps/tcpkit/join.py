"""Puts a program together as one C file: python3 join.py MODULE.c PROGRAM OUT [LIBRARIES], PROGRAM being tcpkit or tcpjudge. MODULE.c is
what wasm2c makes of crates/tcp_web, with 32-bit addresses. OUT has the memory of c/portable/memory.c, wasm2c's functions, what the module
has in memory from the start, and translated.c, common.c and program.c or judge.c around them; so it is put together as the portable file
of the C library is (c/portable/join.py). With LIBRARIES it has the machine code of LIBRARIES/MACHINE/libtcp_web.a, too, with native.c in
the place of translated.c, which is taken where it fits (c/machine/choice.py). What tcpjudge prints when asked for help is the text of the
proved program.
"""

import pathlib
import re
import sys

HERE = pathlib.Path(__file__).resolve().parent
PORTABLE = HERE.parents[1] / "c/portable"
sys.path.insert(0, str(PORTABLE))

import join  # noqa: E402, which finds the next, too
import choice  # noqa: E402
import quicker  # noqa: E402

HEAD = """\
/*
 * NAME.c: the program NAME for any machine with a C99 compiler: cc -O2 NAME.c -o NAME. The proved WHAT, FORM, and around it the
 * program's words, its file and its output. Made by apps/tcpkit/build.sh: change nothing here.
 * docs/TRUST.md says what is proved of such a file, and what isn't.
 */
"""
IN_C = "as wasm2c has translated it\n * from WebAssembly"
IN_BOTH = "as machine code, and as wasm2c\n * has translated it from WebAssembly"
INCLUDES = """\
#include <inttypes.h>
#include <stdint.h>
#include <stdio.h>
#include <stdlib.h>
#include <string.h>

#define PROGRAM "NAME"

"""
MEMORY = """\
#define TCPCORE_STOP() abort()
/* What memory.c has compiled into its callers. */
#define STEP static inline

/* The module's constants are in its memory, as translated.c puts them there. */
enum { TABLE_AT = 0 };
#define TABLE_SIZE 0

"""

# Of each program: what of it is proved, the file of its words and its output, and the calls that it makes.
PROGRAMS = {"tcpkit": ("replay and listing", "program.c", ["tcp_web_list", "tcp_web_replay"]), "tcpjudge": ("judge", "judge.c", ["tcp_web_judge", "tcp_web_capture"])}
JUDGE = HERE.parents[1] / "crates/tcpjudge/src/program.rt"


def help_of():
    """What the proved tcpjudge prints when asked for help, as C."""
    lines = "".join(re.findall(r'^const \w*HELP: &str = "(.*?)^";', JUDGE.read_text(), re.M | re.S)).splitlines()
    return "#define HELP \\\n" + " \\\n".join(f'    "{line}\\n"' for line in lines) + "\n\n"


def needed(declared, body, calls):
    """Of the module's functions and their declarations these, and those that they call."""
    parts = re.split(r"(?m)^(?=static (?:u32|u64|void) w2c_)", body)
    bodies = {re.match(r"static \w+ (w2c_\w+)\(", part)[1]: part for part in parts if part.startswith("static ")}
    names, found = {f"w2c_{call}" for call in calls}, set()
    while names:
        name = names.pop()
        if name in bodies and name not in found:
            found.add(name)
            names |= set(re.findall(r"\b(w2c_\w+)\(", bodies[name]))
    lines = [line for line in declared.splitlines(keepends=True) if not (named := re.match(r"static \w+ (w2c_\w+)\(", line)) or named[1] in found]
    return "".join(lines), parts[0] * (not parts[0].startswith("static ")) + "".join(part for name, part in bodies.items() if name in found)


def first_of(text, name):
    """What a global begins with."""
    return re.search(rf"^  instance->w2c_{name} = (\d+)ull;", text, re.M)[1]


def main():
    name, out, libraries = sys.argv[2], pathlib.Path(sys.argv[3]), sys.argv[4:]
    what, program, calls = PROGRAMS[name]
    text = pathlib.Path(sys.argv[1]).read_text()
    join.KNOWN |= {"I32_ROTL", "I64_ROTL", "I64_CLZ", "I64_CTZ", "i32_load8_s"}
    declared, body = needed(*join.functions(text, "tcp_web"), calls)
    body, loops, summed, pieces = quicker.quicker(body)
    at, _, data = join.table_of(text)
    places = f"enum {{ STACK = {first_of(text, '__stack_pointer')}, HEAP_BASE = {first_of(text, '__heap_base')}, AT_DATA = {at} }};\n"
    bytes_of = f"static const u8 DATA[] = {{\n{data}\n}};\n\n"
    module = "/* THE MODULE: crates/tcp_web and those below it, function by function, as wasm2c has written them. */\n"
    head = HEAD.replace("FORM", IN_BOTH if libraries else IN_C) + (choice.CHOICE if libraries else "") + INCLUDES
    head = head.replace("NAME", name).replace("WHAT", what) + (help_of() if name == "tcpjudge" else "")
    memory = (PORTABLE / "memory.c").read_text()
    in_c = [join.QUIET, MEMORY, memory, (HERE / "machine.c").read_text(), places, bytes_of, module, declared, body, join.LOUD]
    in_c.append((HERE / "translated.c").read_text())
    if libraries:
        code = choice.code(libraries[0], "libtcp_web.a", calls)
        in_c = ["#ifdef MACHINE_CODE\n\n", (HERE / "native.c").read_text(), code, "#else\n\n", *in_c, "#endif\n\n"]
    whole = "".join([head, *in_c, (HERE / "common.c").read_text(), "\n", (HERE / program).read_text()])
    out.write_text(whole)
    print(f"{out}: {len(whole.splitlines())} lines, {loops} loops that copy, {summed} that sum and {pieces} pieces made quicker")


if __name__ == "__main__":
    main()
