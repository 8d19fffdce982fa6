#!/usr/bin/env python3
"""Makes what repeats the records of crates/tcp_c/src/records.rt: layout.h, the fields of the structs in tcpcore.h with their
comments, those of tcpcore.py's _library, and those of the Rust crate. A field of a record is written by hand in records.rt alone. The structs
that C alone has (tcpcore_piece, tcpcore_lent, tcpcore_parts, tcpcore_train, and that of an end) stand in tcpcore.h and in each
binding.

layout.py writes them anew; layout.py --check changes nothing, and fails where one isn't what it would write.
"""

from __future__ import annotations

import pathlib
import re
import sys
import textwrap
from typing import NamedTuple

TOP = pathlib.Path(__file__).resolve().parents[2]
RECORDS = TOP / "crates/tcp_c/src/records.rt"
HEADER, LAYOUT, PYTHON = (TOP / "c/tcpcore" / name for name in ("tcpcore.h", "layout.h", "_library.py"))
RUST = TOP / "c/bindings/rust/src/sys.rs"
RUST_WIDTH = int(re.findall(r"max_width = (\d+)", (TOP / "c/bindings/rust/rustfmt.toml").read_text())[0])


class Kind(NamedTuple):
    """A type of records.rt: its size and alignment in bytes, and its name elsewhere."""

    size: int
    align: int
    c: str
    python: str
    rust: str


WORD = Kind(8, 8, "uint64_t", "ctypes.c_uint64", "u64")
KINDS = {
    "u8": Kind(1, 1, "uint8_t", "ctypes.c_uint8", "u8"),
    "u16": Kind(2, 2, "uint16_t", "ctypes.c_uint16", "u16"),
    "u32": Kind(4, 4, "uint32_t", "ctypes.c_uint32", "u32"),
    "u64": WORD,
    "usize": WORD,
    "*const u8": WORD,
    "[u8; 4]": Kind(4, 1, "uint8_t", "ctypes.c_uint8", "[u8; 4]"),
    "CAddr": Kind(4, 1, "tcpcore_addr", "AddrStruct", "Addr"),
    "CHostId": Kind(16, 8, "struct tcpcore_host_id", "", ""),
}


class Struct(NamedTuple):
    """A record's struct: its type in C, its bytes in every version of the interface (0: no more than its fields take), whether
    records alone have it, which tcpcore.c translates, and whether the languages' bindings have it."""

    c: str
    size: int = 0
    inner: bool = False
    bound: bool = True


STRUCTS = {
    "CAddr": Struct("tcpcore_addr"),
    "CConfig": Struct("tcpcore_config"),
    "CStatus": Struct("struct tcpcore_status", 128),
    "CArriveReport": Struct("struct tcpcore_arrive_report", 64),
    "CIntake": Struct("struct tcpcore_intake", 32),
    "CTransmit": Struct("struct tcpcore_transmit", 64),
    "CTrain": Struct("struct train", inner=True),
    "CTimeWait": Struct("struct tcpcore_time_wait"),
    "CLent": Struct("struct lent", inner=True),
    "CParts": Struct("struct parts", inner=True),
    "CConnectionRules": Struct("struct tcpcore_connection_rules", 128, bound=False),
    "CCongestion": Struct("struct tcpcore_congestion", 64, bound=False),
    "CPolicy": Struct("struct tcpcore_policy", 64, bound=False),
    "CKeepAlive": Struct("struct tcpcore_keep_alive", 32, bound=False),
    "CConnectionSegment": Struct("struct tcpcore_connection_segment", 64, bound=False),
    "CHostId": Struct("struct tcpcore_host_id", bound=False),
    "CHostArrived": Struct("struct tcpcore_host_arrived", 64, bound=False),
    "CHostSent": Struct("struct tcpcore_host_sent", 96, bound=False),
    "CHostTold": Struct("struct tcpcore_host_told", 64, bound=False),
}
LAYOUT_HEAD = """\
/*
 * Where each field of the library's structs lies, and how many bytes it takes (crate tcp_c, src/records.rt), on any machine.
 * tcpcore.c alone includes it. Made by layout.py: change nothing here.
 */
#ifndef TCPCORE_LAYOUT_H
#define TCPCORE_LAYOUT_H

#include "tcpcore.h"

#define FIELD(type, field, at, size) \\
    _Static_assert(offsetof(type, field) == (at) && sizeof((type){0}.field) == (size), #field " isn't the library's")

"""
LAYOUT_FOOT = """\

#undef FIELD

#endif
"""


class Field(NamedTuple):
    """A field: its name, its type in records.rt, its comment, and where it lies."""

    name: str
    type: str
    comment: str
    at: int

    @property
    def kind(self) -> Kind:
        return KINDS[self.type]

    @property
    def behind(self) -> int:
        return self.at + self.kind.size


def fields_of(body: str) -> list[Field]:
    """The fields of a record, each behind the last one at a multiple of its alignment."""
    fields, comment, at = [], [], 0
    for line in map(str.strip, body.splitlines()):
        if line.startswith("///"):
            comment.append(line[3:].strip())
        else:
            name, kind = re.fullmatch(r"pub (\w+): (.+),", line).groups()  # type: ignore[union-attr]
            align = KINDS[kind].align
            field = Field(name, kind, " ".join(comment), (at + align - 1) // align * align)
            fields.append(field)
            comment, at = [], field.behind
    return fields


def comments() -> dict[str, str]:
    """What records.rt says of each record."""
    form = r"^/// ([^\n]*)\n#\[repr\(C\)\]\n#\[derive\(Clone, Copy\)\]\npub struct (C\w+) "
    return {name: text for text, name in re.findall(form, RECORDS.read_text(), re.M)}


def records() -> dict[str, list[Field]]:
    """The records by their names."""
    found = re.findall(r"pub struct (C\w+) \{\n(.*?)^\}", RECORDS.read_text(), re.M | re.S)
    if {name for name, _ in found} != set(STRUCTS):
        sys.exit(f"layout.py: records.rt has {[name for name, _ in found]}, and not {list(STRUCTS)}")
    return {name: fields_of(body) for name, body in found}


def size_of(fields: list[Field]) -> int:
    """The bytes of a record."""
    align = max(field.kind.align for field in fields)
    return (fields[-1].behind + align - 1) // align * align


def reserved(name: str, fields: list[Field]) -> tuple[int, int]:
    """Where the struct's reserved words begin, and how many there are."""
    at = (fields[-1].behind + 3) // 4 * 4
    return at, max(0, STRUCTS[name].size - at) // 4


def gaps(fields: list[Field]) -> dict[int, int]:
    """Bytes between two fields, and behind the last one, by where they begin."""
    ends = [(field.behind, after.at) for field, after in zip(fields, fields[1:])] + [(fields[-1].behind, size_of(fields))]
    return {at: end - at for at, end in ends if end > at}


def commented(text: str) -> list[str]:
    """A comment of C above a field."""
    text = re.sub(r"\btcp_c_", "tcpcore_", text)
    lines = textwrap.wrap(text, 118, break_long_words=False, break_on_hyphens=False)
    if len(lines) == 1:
        return [f"    /* {lines[0]} */"]
    return [f"    /* {lines[0]}", *(f"       {line}" for line in lines[1:-1]), f"       {lines[-1]} */"]


def unnamed(length: int) -> list[str]:
    """Bytes without a name, so that all machines have what follows at the same place."""
    odd = [f"    unsigned int : {length % 4 * 8};"] if length % 4 else []
    return odd + ["    unsigned int : 32;"] * (length // 4)


def in_header(name: str, fields: list[Field]) -> list[str]:
    """The struct's lines between its braces."""
    lines, between = [], gaps(fields) if STRUCTS[name].size == 0 else {}
    for field in fields:
        count = "[4]" if field.type == "[u8; 4]" else ""
        lines += [*commented(field.comment), f"    {field.kind.c} {field.name}{count};", *unnamed(between.get(field.behind, 0))]
    _, words = reserved(name, fields)
    if words:
        lines += ["    /* 0. Fields of later versions take their place from here: the struct's size stays. */"]
        lines += [f"    uint32_t reserved[{words}];"]
    return lines


def in_layout(name: str, fields: list[Field]) -> list[str]:
    """The lines of layout.h on a struct; and the struct itself, where records alone have it."""
    struct, lines = STRUCTS[name], []
    if struct.inner:
        pointers = " An address has 64 bits on any machine." if any(field.type.startswith("*") for field in fields) else ""
        lines += ["", f"/* {comments()[name]}{pointers} */", f"{struct.c} {{"]
        lines += [f"    {field.kind.c} {field.name};" for field in fields]
        if size_of(fields) > fields[-1].behind:
            lines += ["    uint32_t padding; /* where a number of 64 bits is aligned to 4 bytes, too */"]
        lines += ["};"]
    lines += [f"FIELD({struct.c}, {field.name}, {field.at}, {field.kind.size});" for field in fields]
    at, words = reserved(name, fields)
    if words:
        lines += ["/* The library writes nothing behind these. */", f"FIELD({struct.c}, reserved, {at}, {words * 4});"]
    return [*lines, f'_Static_assert(sizeof({struct.c}) == {struct.size or size_of(fields)}, "the size of {struct.c}");']


def in_python(name: str, fields: list[Field]) -> list[str]:
    """The lines of `_fields_`."""
    between = gaps(fields) if STRUCTS[name].size == 0 else {}
    lines = []
    for field in fields:
        count = " * 4" if field.type == "[u8; 4]" else ""
        lines.append(f'        ("{field.name}", {field.kind.python}{count}),')
        if field.behind in between:
            lines.append(f'        ("unnamed_{field.behind}", ctypes.c_uint8 * {between[field.behind]}),')
    _, words = reserved(name, fields)
    return lines + [f'        ("reserved", ctypes.c_uint32 * {words}),'] * (words > 0)


def in_rust(name: str, fields: list[Field]) -> list[str]:
    """The struct's lines between its braces."""
    between = gaps(fields) if STRUCTS[name].size == 0 else {}
    lines = []
    for field in fields:
        lines.append(f"    pub {field.name}: {field.kind.rust},")
        if field.behind in between:
            lines.append(f"    pub unnamed_{field.behind}: [u8; {between[field.behind]}],")
    _, words = reserved(name, fields)
    return lines + [f"    pub reserved: [u32; {words}],"] * (words > 0)


def places(name: str, fields: list[Field]) -> list[str]:
    """The lines of the Rust crate's test that compares the struct with the C compiler's, as rustfmt has them."""
    struct, (_, words) = STRUCTS[name].c, reserved(name, fields)
    tag = struct if struct.startswith("struct ") else f"struct {struct}"
    shown = [name[1:], f'"{tag}"', *(field.name for field in fields), *["reserved"] * (words > 0)]
    line = f"            places!({', '.join(shown)}),"
    if len(line) <= RUST_WIDTH:
        return [line]
    return ["            places!(", ",\n".join(f"                {word}" for word in shown), "            ),"]


def put(text: str, begins: str, ends: str, lines: list[str]) -> str:
    """The text with these lines between the line that begins and the next that ends."""
    found = re.findall(rf"^{re.escape(begins)}\n(?:.*\n)*?{re.escape(ends)}$", text, re.M)
    if len(found) != 1:
        sys.exit(f"layout.py: '{begins}' isn't there once")
    return text.replace(found[0], "\n".join([begins, *lines, ends]))


def made() -> dict[pathlib.Path, str]:
    """All files as they are to be."""
    header, python, rust = HEADER.read_text(), PYTHON.read_text(), RUST.read_text()
    layout, compared = [], []
    for name, fields in records().items():
        struct, short = STRUCTS[name], name[1:]
        layout += in_layout(name, fields)
        if struct.inner:
            continue
        typedef = not struct.c.startswith("struct ")
        begins, ends = (f"typedef struct {struct.c} {{", f"}} {struct.c};") if typedef else (f"{struct.c} {{", "};")
        header = put(header, begins, ends, in_header(name, fields))
        if not struct.bound:
            continue
        python = put(python, f"class {short}Struct(ctypes.Structure):\n    _fields_ = [", "    ]", in_python(name, fields))
        rust = put(rust, f"pub struct {short} {{", "}", in_rust(name, fields))
        compared += places(name, fields)
    rust = put(rust, "        let all = [", '            places!(End, "struct tcpcore_end", opaque),', compared)
    return {HEADER: header, LAYOUT: LAYOUT_HEAD + "\n".join(layout) + "\n" + LAYOUT_FOOT, PYTHON: python, RUST: rust}


def main() -> None:
    checks = sys.argv[1:] == ["--check"]
    if sys.argv[1:] and not checks:
        sys.exit("usage: layout.py [--check]")
    wrong = [path for path, text in made().items() if path.read_text() != text]
    for path in wrong:
        if checks:
            print(f"layout: {path.relative_to(TOP)} isn't what layout.py makes")
        else:
            path.write_text(made()[path])
            print(f"layout: made {path.relative_to(TOP)}")
    if checks and wrong:
        sys.exit(1)
    print(f"layout: {len(STRUCTS)} records, {sum(map(len, records().values()))} fields")


if __name__ == "__main__":
    main()
