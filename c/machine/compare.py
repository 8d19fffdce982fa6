"""Whether an assembler has made of machine code as text what a library has: python3 compare.py LIBRARY NAME OBJECT ROOT..

OBJECT is what a compiler has made of a C file with the text that as_text.py wrote of these words. Each section that the functions ROOT need
has to be there with the same bytes, alignment and kind, the same relocations (what each is of, where, and what it leads to) and the same
symbols with their sizes, and nothing else may be in sections of this name. It reads both with pyelftools, and shares nothing with
as_text.py.
"""

import io
import sys

from elftools.elf.elffile import ELFFile

KINDS = {"STT_FUNC", "STT_OBJECT"}
# Of a section's flags what a linker has to know: writable, loaded, executable.
FLAGS = 7


def objects_of(path):
    """The members of an archive, or the file itself."""
    with open(path, "rb") as file:
        data = file.read()
    if not data.startswith(b"!<arch>\n"):
        return [ELFFile(io.BytesIO(data))]
    found, at = [], 8
    while at < len(data):
        size = int(data[at + 48 : at + 58])
        if data[at] != ord("/") or data[at + 1 : at + 2].isdigit():
            found.append(ELFFile(io.BytesIO(data[at + 60 : at + 60 + size])))
        at += 60 + size + size % 2
    return found


class Side:
    """The sections of some objects, each as (object, index), and what is known of each."""

    def __init__(self, path):
        self.files = objects_of(path)
        self.machine = {file["e_machine"] for file in self.files}
        self.sections, self.symbols, self.relocations, self.globals = {}, {}, {}, {}
        for number, file in enumerate(self.files):
            self.read(number, file)

    def read(self, number, file):
        table = file.get_section_by_name(".symtab")
        entries = list(table.iter_symbols())
        for index, section in enumerate(file.iter_sections()):
            if section["sh_flags"] & 2:
                self.sections[number, index] = section
        for symbol in entries:
            if symbol["st_info"]["bind"] == "STB_GLOBAL" and isinstance(symbol["st_shndx"], int):
                self.globals[symbol.name] = (number, symbol["st_shndx"], symbol["st_value"])
            if isinstance(symbol["st_shndx"], int):
                self.symbols.setdefault((number, symbol["st_shndx"]), []).append(symbol)
        for section in file.iter_sections():
            if section["sh_type"] == "SHT_RELA":
                of = self.relocations.setdefault((number, section["sh_info"]), [])
                for entry in section.iter_relocations():
                    of.append((entry["r_offset"], entry["r_info_type"], number, entries[entry["r_info_sym"]], entry["r_addend"]))

    def lead(self, number, symbol, addend):
        """Where a relocation leads: a section and a place there, or a name of the outside."""
        if isinstance(symbol["st_shndx"], int):
            return (number, symbol["st_shndx"]), symbol["st_value"] + addend
        if symbol.name in self.globals:
            there, index, value = self.globals[symbol.name]
            return (there, index), value + addend
        return symbol.name, addend

    def leads(self, key):
        """The relocations of a section, in the order of their places."""
        entries = self.relocations.get(key, [])
        found = ((place, kind, *self.lead(number, symbol, addend)) for place, kind, number, symbol, addend in entries)
        return sorted(found, key=lambda it: it[:2])

    def named(self, key):
        """The symbols that a debugger shows in a section."""
        return sorted((symbol["st_value"], symbol.name, symbol["st_size"], symbol["st_info"]["type"])
                      for symbol in self.symbols.get(key, []) if symbol["st_info"]["type"] in KINDS and not symbol.name.startswith(".L"))


def reached(side, roots):
    """The sections that the functions need, in the order in which the library has them."""
    found, left = set(), [side.globals[root][:2] for root in roots]
    while left:
        key = left.pop()
        if key not in found:
            found.add(key)
            left += [to for _, _, to, _ in side.leads(key) if isinstance(to, tuple)]
    return [key for key in side.sections if key in found]


def differences(proved, made, name, roots):
    wanted = reached(proved, roots)
    found = {}
    for key, section in made.sections.items():
        parts = section.name.rsplit(".", 2)
        if len(parts) == 3 and parts[1] == name:
            found[int(parts[2])] = key
    if sorted(found) != list(range(len(wanted))) or proved.machine != made.machine:
        yield f"there are {len(found)} sections for {len(wanted)}"
        return
    same = {key: found[number] for number, key in enumerate(wanted)}
    for key, there in same.items():
        one, other = proved.sections[key], made.sections[there]
        if (one["sh_type"], one["sh_flags"] & FLAGS, one["sh_addralign"], one["sh_size"]) != (
                other["sh_type"], other["sh_flags"] & FLAGS, other["sh_addralign"], other["sh_size"]) or other["sh_flags"] & ~FLAGS:
            yield f"{one.name} is of another kind, size or alignment"
        if one["sh_type"] != "SHT_NOBITS" and one.data() != other.data():
            yield f"{one.name} has other bytes"
        if [(place, kind, same.get(to, to), value) for place, kind, to, value in proved.leads(key)] != made.leads(there):
            yield f"{one.name} has other relocations"
        if proved.named(key) != made.named(there):
            yield f"{one.name} has other symbols"
    for root in roots:
        number, index, value = proved.globals[root]
        if made.globals.get(root) != (*same[number, index], value):
            yield f"{root} is elsewhere"


def main():
    library, name, path, *roots = sys.argv[1:]
    proved, made = Side(library), Side(path)
    found = list(differences(proved, made, name, roots))
    if found:
        sys.exit("\n".join(f"compare.py: {path}: {line}" for line in found[:20]))
    keys = reached(proved, roots)
    size, count = sum(proved.sections[key]["sh_size"] for key in keys), sum(len(proved.leads(key)) for key in keys)
    print(f"compare.py: {path}: {len(keys)} sections of {size} bytes and {count} relocations as the library has them")


if __name__ == "__main__":
    main()
