"""Puts the portable file together: python3 join.py MODULE.c OUT [LIBRARIES OUT]

MODULE.c is what wasm2c makes of crates/tcp_c, with 32-bit addresses. OUT has the text of c/tcpcore/tcpcore.c and layout.h, the
memory of memory.c, wasm2c's functions and the files of calls. Of wasm2c's file nothing but its functions is kept: what else it is taken to
have is looked at, and anything unforeseen stops this script. No line of a function is changed but the words of RENAMED, and what
quicker.py has made quicker. The second OUT is the same with the machine code of LIBRARIES/MACHINE/libtcp_c.a in it, which is taken where
it fits (c/machine/choice.py).
"""

import collections
import pathlib
import re
import sys

import quicker

HERE = pathlib.Path(__file__).resolve().parent
sys.path.insert(0, str(HERE.parent / "machine"))

import choice  # noqa: E402

LAYER = HERE.parent / "tcpcore"
# Z_NAME_instance_t, of the module's name, is renamed, too.
RENAMED = [("  FUNC_PROLOGUE;\n", ""), ("  FUNC_EPILOGUE;\n", "")]
INCLUDES = '#include "layout.h"\n#include "tcpcore.h"\n\n#include <string.h>\n'
HAS_HOSTS = "/* The library has hosts, whatever the compiler is asked for. */\n#define TCPCORE_HAS_HOSTS 1\n\n"
INCLUDES_HERE = """\
#include "tcpcore.h"

#if defined(__STDC_HOSTED__) && __STDC_HOSTED__ == 0
/* No C library: the program has these three. */
void *memcpy(void *, const void *, size_t);
void *memmove(void *, const void *, size_t);
void *memset(void *, int, size_t);
#else
#include <string.h>
#endif
"""
# What wasm2c's functions may name beside each other and themselves: what memory.c has.
KNOWN = set(re.findall(r"\b(?:LOAD|STORE)\((\w+),", (HERE / "memory.c").read_text())) | {
    "memory_copy", "memory_fill", "REM_U", "DIV_U", "I32_ROTR", "UNREACHABLE", "if", "u8", "u16", "u32", "u64", "s32", "s64"}
HEAD = """\
/*
 * NAME: tcpcore.h for any machine with a C99 compiler that has uint8_t, uint16_t, uint32_t, uint64_t and uintptr_t.
 * One file: the layer of the C library, and behind it the proved crates WHAT. Made by
 * c/portable/build.sh: change nothing here. Nothing in it is global and variable; it asks the linker for memcpy, memmove and
 * memset. docs/TRUST.md tells what is proved of it, and what isn't.
 *
 * -DTCPCORE_UNCHECKED leaves out the test of each access. -DTCPCORE_STOP()=.. names what a test that fails calls before it stays in
 * a loop for ever: a trap, a reset. No test is known to fail.
 */
"""

# Around what was translated: not each function of it is called in each file, and not each needs the instance that all are given.
QUIET = """\
#ifdef __GNUC__
#pragma GCC diagnostic push
#pragma GCC diagnostic ignored "-Wunused-function"
#pragma GCC diagnostic ignored "-Wunused-parameter"
#endif

"""
LOUD = """\

#ifdef __GNUC__
#pragma GCC diagnostic pop
#endif

"""

# What the layer calls, and what it says of it. A call of a host may reach the block of any of its connections, for which the windows of
# memory.c are too few: so there are hosts in machine code alone.
IN_C = """\
#define MODULE static
#undef TCPCORE_HAS_HOSTS
#ifndef TCPCORE_PORTABLE
#define TCPCORE_PORTABLE
#endif
#ifdef TCPCORE_UNCHECKED
#define TCPCORE_BUILD "portable C, unchecked"
#else
#define TCPCORE_BUILD "portable C"
#endif
"""
OF_MACHINE = """\
#define MODULE extern __attribute__((visibility("hidden")))
#define TCPCORE_HAS_HOSTS 1
#define TCPCORE_BUILD MACHINE_CODE
"""


def stop(why):
    sys.exit(f"join.py: {why}")


def layer():
    """tcpcore.c and layout.h in one, in C99, with the library's calls for this file's own."""
    text, layout = (LAYER / "tcpcore.c").read_text(), (LAYER / "layout.h").read_text()
    native = re.compile(r'^_Static_assert\(sizeof\(size_t\) == 8 && .*\n', re.M)
    if len(native.findall(text)) != 1 or text.count(HAS_HOSTS + INCLUDES) != 1:
        stop("tcpcore.c isn't as it was")
    fields = layout[layout.index("#define FIELD") : layout.index("#endif", layout.index("#undef FIELD"))]
    holds = "/* Where the fields lie, on this machine too. */\n#define HOLDS(condition) extern const char tcpcore_holds[(condition) ? 1 : -1]\n"
    text = native.sub("", text).replace(HAS_HOSTS + INCLUDES, INCLUDES_HERE + "\n" + holds + fields)
    text = re.sub(r'_Static_assert\((.*), (?:#field )?".*"\)(;?)$', r"HOLDS(\1)\2", text, flags=re.M)
    text, calls = re.subn(r"^((?:uint32_t|size_t) tcp_c_\w+\()", r"MODULE \1", text, flags=re.M)
    # All calls of the header but these are the library's.
    of_layer = {"tcpcore_strerror", "tcpcore_version", "tcpcore_build", "tcpcore_new_at"}
    wanted = len(set(re.findall(r"^[a-z].* \**(tcpcore_\w+)\(", (LAYER / "tcpcore.h").read_text(), re.M)) - of_layer)
    if "_Static_assert" in text or calls != wanted:
        stop(f"the layer has {calls} calls of the library, or an assertion of another form")
    return text


def made_of(text, instance, what):
    """What wasm2c's function that makes a module's globals or memories does."""
    return re.search(rf"^static void init_{what}\({instance} instance\) \{{\n(.*?)^\}}\n", text, re.M | re.S)


def table_of(text):
    """What is in the module's memory from the start: where, how many bytes, and their text; nothing where there is none."""
    place = re.findall(r"LOAD_DATA\(instance->w2c_memory, (\d+)u, (data_segment_data_\w+), (\d+)\);", text)
    if not place:
        return 0, 0, ""
    at, name, length = place[0]
    found = re.search(rf"^static const u8 {name}\[\] = \{{\n(.*?)\n\}};", text, re.M | re.S)[1]
    if len(place) != 1 or len(found.split(",")) - found.rstrip().endswith(",") != int(length):
        stop("the module's data isn't one table, or has another length")
    return int(at), int(length), found


def reached(declared, body, roots):
    """The functions that these need, and their declarations: of those of hosts nothing is called."""
    form = r"^static (?:u32|u64|void) (w2c_\w+)\([^;{]*\) \{\n.*?^\}\n\n?"
    each = {it[1]: it[0] for it in re.finditer(form, body, re.M | re.S)}
    if missing := roots - each.keys():
        stop(f"the module has no {sorted(missing)}")
    found, left = set(), list(roots)
    while left:
        name = left.pop()
        if name not in found:
            found.add(name)
            left += set(re.findall(r"\b(w2c_\w+)\(", each[name])) & each.keys()
    lines = [line for line in declared.splitlines(keepends=True) if not (it := re.match(r"static \w+ (w2c_\w+)\(", line)) or it[1] in found]
    return "".join(lines), "".join(text for name, text in each.items() if name in found)


def functions(text, module, roots=None):
    """wasm2c's functions of a module, or those that these need, and their declarations. What is in its memory from the start is `table_of`'s."""
    instance = f"Z_{module}_instance_t\\*"
    globals_of, memories = (made_of(text, instance, what) for what in ("globals", "memories"))
    named = re.findall(r"instance->(\w+) = (\w+);\n", globals_of[1])
    if [name for name, _ in named] != ["w2c___stack_pointer", "w2c_in_call", "w2c___heap_base"] or named[1][1] != "0u":
        stop(f"the module's globals are {named}")
    memory = r"  wasm_rt_allocate_memory\(&instance->w2c_memory, \d+, \d+\);\n"
    if not re.fullmatch(memory + r"(?:  LOAD_DATA\(instance->w2c_memory, \d+u, \w+, \d+\);\n)?", memories[1]):
        stop(f"the module's memory has {memories[1]}")
    if "CALL_INDIRECT(table" in text[memories.end() :] or "w2c_T" in text[memories.end() :]:
        stop("the module has a table")
    declared = text[text.index("static u32 w2c___rattle_enter(") : globals_of.start()]
    start = re.search(rf"^static u32 w2c___rattle_enter\({instance} instance\)", text, re.M).start()
    body = text[start : text.index("/* export: ")]
    if roots is not None:
        declared, body = reached(declared, body, roots)
    names = set(re.findall(rf"^static (?:u32|u64|void) (w2c_\w+)\({instance}", declared, re.M))
    unknown = set(re.findall(r"\b([A-Za-z_]\w*)\(", body)) - names - KNOWN
    # REM_U of memory.c is of 32 bits, DIV_U of 64, which are enough for 32.
    if unknown or re.search(r"\b(?:f32|f64|memory_init|funcref|REM_U\(w2c_j)\b", body):
        stop(f"the functions name {sorted(unknown)}")
    for old, new in [(f"Z_{module}_instance_t*", "Machine *"), *RENAMED]:
        declared, body = declared.replace(old, new), body.replace(old, new)
    # The names of instances of generic functions end in a checksum: it goes where another isn't named so.
    shorter = {name: re.sub(r"____[0-9a-f]{16}_$", "", name) for name in names}
    shared = {short for short, count in collections.Counter(shorter.values()).items() if count > 1}
    shorter = {name: name if short in shared else short for name, short in shorter.items()}
    for name, short in shorter.items():
        declared, body = (re.sub(rf"\b{name}\b", short, it) for it in (declared, body))
    return declared, body


def stack_of(body):
    """How many bytes of its own stack the module takes at most: the deepest chain of calls, in which none comes twice; and the 16
    below which it stops."""
    frames, calls = {}, {}
    for name, text in re.findall(r"^static (?:u32|u64|void) (w2c_\w+)\(Machine \*[^;{]*\{\n(.*?)^\}\n", body, re.M | re.S):
        taken = re.findall(r"w2c_j0 = instance->w2c___stack_pointer;\n\s*w2c_j1 = (\d+)ull;\n\s*w2c_j0 -= w2c_j1;\n", text)
        kept = re.findall(r"w2c_j0 = instance->w2c___stack_pointer;\n\s*(w2c_l\d+) = w2c_j0;\n", text)
        stores = re.findall(r"w2c_j0 = (w2c_l\d+);\n\s*instance->w2c___stack_pointer = w2c_j0;\n", text)
        reads, writes = (len(re.findall(rf"instance->w2c___stack_pointer{it}", text)) for it in (";", " ="))
        # Where nothing is taken, what is put back is what was read.
        same = len(kept) == 1 and set(stores) == set(kept) and len(stores) == writes and len(re.findall(rf"\b{kept[0]} = w2c", text)) == 1
        if reads > 1 or len(taken) > 1 or (writes > 0 and not taken and not same):
            stop(f"{name} takes its stack in another form")
        frames[name], calls[name] = int(taken[0]) if taken else 0, set(re.findall(r"\b(w2c_\w+)\(instance", text))
    known = {}

    def depth(name, above=()):
        if name in above:
            stop(f"{name} calls itself")
        if name not in known:
            known[name] = frames[name] + max((depth(callee, (*above, name)) for callee in calls[name]), default=0)
        return known[name]

    return 16 + max(depth(name) for name in frames)


def head_of(name, what):
    return HEAD.replace("NAME", name).replace("WHAT", what)


def with_machine_code(libraries, out, in_c):
    """Writes the file that has both."""
    roots = sorted(set(re.findall(r"^MODULE \w+ (tcp_c_\w+)\(", layer(), re.M)))
    head = head_of("tcpcore.c", "as machine code,\n * and as wasm2c has translated them from WebAssembly")
    either = f"#ifdef MACHINE_CODE\n{OF_MACHINE}#else\n{IN_C}#endif\n\n"
    code = f"#ifdef MACHINE_CODE\n\n{choice.code(libraries, 'libtcp_c.a', roots)}#else\n\n"
    text = "".join([head, choice.CHOICE, either, layer(), code, in_c, "\n#endif\n"])
    out.write_text(text)
    print(f"{out}: {len(text.splitlines())} lines, {len(roots)} functions of the machine code")


def main():
    text = pathlib.Path(sys.argv[1]).read_text()
    calls = [(HERE / name).read_text() for name in ("calls.c", "time_wait_calls.c", "connection_calls.c")]
    declared, body = functions(text, "tcp_c", set(re.findall(r"\b(w2c_tcp_c_\w+)\(", "".join(calls))))
    at, size, constants = table_of(text)
    stack = (stack_of(body) + 15) // 16 * 16
    body, loops, summed, pieces = quicker.quicker(body)
    if loops < 10 or summed < 1 or pieces < 5:
        stop(f"{loops} loops that copy, {summed} that sum and {pieces} pieces of code could be made quicker: wasm2c or the compiler writes"
             " them in other forms")
    own = f"\n/* The module's own stack: what its deepest chain of calls takes. */\nenum {{ MODULE_STACK = {stack} }};\n\n"
    table = f"/* The module's constants, and where they lie. */\nenum {{ TABLE_AT = {at} }};\n#define TABLE_SIZE {size}\n"
    table += f"static const unsigned char TABLE[] = {{\n{constants}\n}};\n\n" if size > 0 else "\n"
    module = "/* THE MODULE: crates/tcp_c and those below it, function by function, as wasm2c has written them. */\n"
    parts = [QUIET, table, (HERE / "memory.c").read_text(), own, module, declared, body, LOUD, *calls]
    text = "".join([head_of("tcpcore_portable.c", "as wasm2c has translated them from WebAssembly"), IN_C, layer(), *parts])
    pathlib.Path(sys.argv[2]).write_text(text)
    print(f"{sys.argv[2]}: {len(text.splitlines())} lines, {declared.count(';')} functions, {stack} bytes of the module's stack,"
          f" {loops} loops that copy, {summed} that sum and {pieces} pieces made quicker")
    if len(sys.argv) > 3:
        with_machine_code(sys.argv[3], pathlib.Path(sys.argv[4]), "".join(parts))


if __name__ == "__main__":
    main()
