"""Writes machine code as text that a C compiler assembles to the same bytes: python3 as_text.py LIBRARY NAME ROOT..

LIBRARY is a static library or an object (ELF of 64 bits for x86-64 or aarch64, little-endian). Of it goes to standard output what the
functions ROOT need, as strings of one `__asm__` statement: each section's bytes, the symbols in it by their own names and sizes, so that
debuggers and profilers show them, and each relocation as the library has it. NAME is in the sections' names and in labels. What the
library has in another form than is written here stops this script. compare.py finds whether an assembler has made the same of it.
"""

import pathlib
import re
import struct
import sys

X86_64, AARCH64 = 62, 183
RELOCATIONS = {
    X86_64: {1: "R_X86_64_64", 2: "R_X86_64_PC32", 4: "R_X86_64_PLT32", 24: "R_X86_64_PC64"},
    AARCH64: {257: "R_AARCH64_ABS64", 260: "R_AARCH64_PREL64", 261: "R_AARCH64_PREL32", 275: "R_AARCH64_ADR_PREL_PG_HI21",
              277: "R_AARCH64_ADD_ABS_LO12_NC",
              278: "R_AARCH64_LDST8_ABS_LO12_NC", 282: "R_AARCH64_JUMP26", 283: "R_AARCH64_CALL26", 284: "R_AARCH64_LDST16_ABS_LO12_NC",
              285: "R_AARCH64_LDST32_ABS_LO12_NC", 286: "R_AARCH64_LDST64_ABS_LO12_NC", 299: "R_AARCH64_LDST128_ABS_LO12_NC"}}
# A call, and a jump, of what the library doesn't have itself: the relocation's type and addend, and the instruction, as bytes and as text.
# It is an instruction, since a linker that works on clang's own form of code (-flto) doesn't see a name that `.reloc` alone has.
OUTSIDE = {
    X86_64: {(4, -4, bytes.fromhex("e800000000")): "call {}", (4, -4, bytes.fromhex("e900000000")): "jmp {}"},
    AARCH64: {(283, 0, bytes.fromhex("00000094")): "bl {}", (282, 0, bytes.fromhex("00000014")): "b {}"}}
OPCODE = {X86_64: 1, AARCH64: 0}  # the bytes of it before those that the relocation is for
PROGBITS, NOBITS, SYMTAB, RELA = 1, 8, 2, 4
WRITE, ALLOC, EXECUTABLE, MERGE, STRINGS = 1, 2, 4, 16, 32
SECTION, FUNCTION, OBJECT = 3, 2, 1
# What tells how a stack is unwound, which features a linker may take for granted, and what a linker may fold: none of it runs.
LEFT_OUT = (".eh_frame", ".note", ".llvm_addrsig")


def stop(why):
    sys.exit(f"as_text.py: {why}")


def string_at(data, at):
    return data[at : data.index(b"\0", at)].decode()


def members(data):
    """The objects of a static library, or the object itself."""
    if not data.startswith(b"!<arch>\n"):
        return [data]
    found, at = [], 8
    while at < len(data):
        name, size = data[at : at + 16], int(data[at + 48 : at + 58])
        if not name.startswith((b"/ ", b"// ", b"/SYM64/")):
            found.append(data[at + 60 : at + 60 + size])
        at += 60 + size + size % 2
    return found


class Symbol:
    def __init__(self, name, info, other, section, value, size):
        self.name, self.kind, self.is_global, self.section, self.value, self.size = name, info & 15, info >> 4 != 0, section, value, size
        self.is_undefined = section == 0


class Section:
    """A section that is loaded: its place among the object's, what it holds, its symbols and its relocations."""

    def __init__(self, name, head, content):
        self.name, self.kind, self.flags, self.alignment, self.size = name, head[1], head[2], max(1, head[8]), head[5]
        self.content, self.symbols, self.relocations, self.number = content, [], [], None

    def is_executable(self):
        return bool(self.flags & EXECUTABLE)


def read_object(data):
    """The machine, the loaded sections by their index, and the symbols, of an object."""
    machine = struct.unpack_from("<H", data, 18)[0]
    if data[:6] != b"\x7fELF\x02\x01" or machine not in RELOCATIONS or struct.unpack_from("<H", data, 16)[0] != 1:
        stop("a member is no object of these machines")
    offset = struct.unpack_from("<Q", data, 40)[0]
    size, count, names = struct.unpack_from("<HHH", data, 58)
    heads = [struct.unpack_from("<IIQQQQIIQQ", data, offset + i * size) for i in range(count)]
    name = [string_at(data, heads[names][4] + head[0]) for head in heads]
    sections = {}
    for i, head in enumerate(heads):
        if head[2] & ALLOC and not name[i].startswith(LEFT_OUT):
            if head[1] not in (PROGBITS, NOBITS) or head[2] & ~(WRITE | ALLOC | EXECUTABLE | MERGE | STRINGS):
                stop(f"section {name[i]} is of another form")
            sections[i] = Section(name[i], head, b"" if head[1] == NOBITS else data[head[4] : head[4] + head[5]])
    table = next(head for head in heads if head[1] == SYMTAB)
    symbols = []
    for at in range(table[4], table[4] + table[5], 24):
        start, info, other, section, value, length = struct.unpack_from("<IBBHQQ", data, at)
        symbols.append(Symbol(string_at(data, heads[table[6]][4] + start), info, other, section, value, length))
    for symbol in symbols:
        if symbol.section in sections:
            sections[symbol.section].symbols.append(symbol)
    for head in heads:
        if head[1] == RELA and head[7] in sections:
            for at in range(head[4], head[4] + head[5], 24):
                place, info, addend = struct.unpack_from("<QQq", data, at)
                sections[head[7]].relocations.append((place, info & 0xFFFFFFFF, symbols[info >> 32], addend))
    return machine, sections


class Library:
    """All objects of a library as one."""

    def __init__(self, data):
        self.sections, self.exported, self.machine = [], {}, None
        self.of_symbol = {}
        for member in members(data):
            machine, sections = read_object(member)
            if self.machine not in (None, machine):
                stop("the members are of two machines")
            self.machine = machine
            for section in sections.values():
                self.sections.append(section)
                for symbol in section.symbols:
                    self.of_symbol[symbol] = section
                    if symbol.is_global:
                        self.exported[symbol.name] = symbol

    def target(self, symbol):
        """The section of a symbol and its value there; None where the library doesn't have it."""
        symbol = self.exported.get(symbol.name, symbol) if symbol.is_undefined else symbol
        if symbol.is_undefined:
            return None
        if symbol not in self.of_symbol:
            stop(f"{symbol.name} is in a section that isn't loaded")
        return self.of_symbol[symbol], symbol.value

    def needed(self, roots):
        """The sections that these functions need, in the library's order."""
        missing = [root for root in roots if root not in self.exported]
        if missing:
            stop(f"the library has no {missing}")
        found, left = set(), [self.of_symbol[self.exported[root]] for root in roots]
        while left:
            section = left.pop()
            if section not in found:
                found.add(section)
                targets = [self.target(symbol) for _, _, symbol, _ in section.relocations]
                left += [target[0] for target in targets if target]
        return [section for section in self.sections if section in found]


def numbers(data):
    """Lines of directives for bytes."""
    lines, whole = [], len(data) // 16 * 16
    words = [f"{int.from_bytes(data[i : i + 16], 'little'):#x}" for i in range(0, whole, 16)]
    lines += [".octa " + ",".join(words[i : i + 3]) for i in range(0, len(words), 3)]
    rest = data[whole:]
    for size, directive in (8, ".quad"), (4, ".long"), (2, ".short"), (1, ".byte"):
        if len(rest) >= size:
            lines.append(f"{directive} {int.from_bytes(rest[:size], 'little'):#x}")
            rest = rest[size:]
    return lines


def instructions(data):
    """The same of instructions of aarch64, so that what is assembled is marked as such."""
    words = [f"{int.from_bytes(data[i : i + 4], 'little'):#x}" for i in range(0, len(data), 4)]
    return [".inst " + ",".join(words[i : i + 10]) for i in range(0, len(words), 10)]


class Writer:
    def __init__(self, library, name, roots):
        self.library, self.name, self.roots = library, name, roots
        self.sections = library.needed(roots)
        for number, section in enumerate(self.sections):
            section.number = number
        self.lines = []

    def label(self, section):
        return f".L{self.name}{section.number}"

    def of_section(self, section):
        """Its bytes, with the symbols before what they name, and what calls the outside in its place."""
        machine, label = self.library.machine, self.label(section)
        flags = "a" + ("w" if section.flags & WRITE else "") + ("x" if section.is_executable() else "")
        self.lines += [f".section {section_name(section, self.name)},\"{flags}\",%{'nobits' if section.kind == NOBITS else 'progbits'}",
                       f".balign {section.alignment}", f"{label}:"]
        points = {}
        for symbol in section.symbols:
            if symbol.kind != SECTION and not symbol.name.startswith((".L", "$")):
                points.setdefault(symbol.value, []).extend(self.of_symbol(symbol))
        calls, relocated = {}, []
        for place, kind, symbol, addend in section.relocations:
            target = self.library.target(symbol)
            if target:
                type_name = RELOCATIONS[machine].get(kind) or stop(f"a relocation is of type {kind}")
                value = target[1] + addend
                relocated.append(f".reloc {label}+{place},{type_name},{self.label(target[0])}{value:+d}")
            else:
                start = place - OPCODE[machine]
                form = OUTSIDE[machine].get((kind, addend, section.content[start : place + 4]))
                calls[start] = form.format(symbol.name) if form else stop(f"{symbol.name} is named in another form, of type {kind}")
        at = 0
        for point in sorted({*points, *calls, section.size}):
            self.of_bytes(section, at, point)
            self.lines += points.get(point, [])
            at = point
            if point in calls:
                self.lines.append(calls[point])
                at += OPCODE[machine] + 4
        self.lines += relocated

    def of_bytes(self, section, at, end):
        if section.kind == NOBITS:
            self.lines += [f".zero {end - at}"] * (end > at)
        elif section.is_executable() and self.library.machine == AARCH64:
            self.lines += instructions(section.content[at:end])
        else:
            self.lines += numbers(section.content[at:end])

    def of_symbol(self, symbol):
        name = f'"{symbol.name}"' if re.search(r"\W", symbol.name) else symbol.name
        # As hidden ones, so that whatever a compiler has kept apart from this finds them, and nothing else does.
        lines = [f".globl {name}", f".hidden {name}"] if symbol.name in self.roots else []
        if symbol.kind in (FUNCTION, OBJECT):
            lines += [f".type {name},%{'function' if symbol.kind == FUNCTION else 'object'}", f".size {name},{symbol.size}"]
        return [*lines, f"{name}:"]

    def text(self):
        """The whole, which leaves the assembler where it was."""
        self.lines = [".pushsection .text"]
        for section in self.sections:
            self.of_section(section)
        self.lines.append(".popsection")
        return self.lines


def section_name(section, name):
    """One of its own for each section, by its number, that a linker puts where the section itself would go. None may be merged: the
    linker would move what an offset from a label is meant for."""
    front = next((front for front in (".data.rel.ro", ".text", ".rodata", ".data", ".bss") if section.name.startswith(front)), None)
    return f"{front}.{name}.{section.number}" if front else stop(f"a section is named {section.name}")


def statement(library, name, roots):
    """The text as a C statement."""
    lines = Writer(Library(pathlib.Path(library).read_bytes()), name, roots).text()
    return "__asm__(\n" + "".join('    "' + line.replace("\\", "\\\\").replace('"', '\\"') + '\\n"\n' for line in lines) + ");\n"


if __name__ == "__main__":
    sys.stdout.write(statement(sys.argv[1], sys.argv[2], sys.argv[3:]))
