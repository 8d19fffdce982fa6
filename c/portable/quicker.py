"""Makes wasm2c's functions quicker where they go byte by byte: join.py calls `quicker`. Two forms are looked for, line by line as wasm2c
writes them, and nothing else is touched; what isn't found stays as it is, and is right as well.

A loop that copies four bytes a turn gets a line before it: `copied_ahead` of memory.c does all turns but the last at once, and the loop
does that one, so that each variable is behind it what it was. Where that can't be done it does nothing.

Loads from one address and small distances from it, in one piece of code without labels, jumps, calls or stores, look once that all of it
lies in its window, and then load.
"""

import re

import sums

LEAST = 4
MEMORY = "&instance->w2c_memory"
BASE = re.compile(r" *w2c_j(\d) = (w2c_[lp]\d+);")
NARROWED = re.compile(r" *w2c_i(\d) = \(u32\)\(w2c_j(\d)\);")
LOAD = re.compile(r"( *)(w2c_[ij]\d) = i(?:32|64)_load(8|16|32|)(?:_u)?\(&instance->w2c_memory, \(u64\)\(w2c_i(\d)\)(?: \+ (\d+)u)?\);")


def copy_loop():
    """One loop of the first form, with its names: ONE and TWO are where a byte goes to, THREE and FOUR where it comes from."""
    at = r" *w2c_j0 = (?P<one>\w+);\n *w2c_j1 = (?P<two>\w+);\n *w2c_j0 \+= w2c_j1;\n *(?P<to>\w+) = w2c_j0;\n *w2c_i0 = \(u32\)\(w2c_j0\);\n"
    at += r" *w2c_j1 = (?P<three>\w+);\n *w2c_j2 = (?P<four>\w+);\n *w2c_j1 \+= w2c_j2;\n *(?P<from>\w+) = w2c_j1;\n *w2c_i1 = \(u32\)\(w2c_j1\);\n"
    byte = r" *w2c_i1 = i32_load8_u\(&instance->w2c_memory, \(u64\)\(w2c_i1\)\);\n"
    byte += r" *i32_store8\(&instance->w2c_memory, \(u64\)\(w2c_i0\), w2c_i1\);\n"
    text = at + byte
    for i in (1, 2, 3):
        text += rf" *w2c_j0 = (?P=to);\n *w2c_j1 = {i}ull;\n *w2c_j0 \+= w2c_j1;\n *w2c_i0 = \(u32\)\(w2c_j0\);\n"
        text += rf" *w2c_j1 = (?P=from);\n *w2c_j2 = {i}ull;\n *w2c_j1 \+= w2c_j2;\n *w2c_i1 = \(u32\)\(w2c_j1\);\n" + byte
    text += r" *w2c_j0 = (?P<end>\w+);\n *w2c_j1 = (?P<place>\w+);\n *w2c_j2 = 4ull;\n *w2c_j1 \+= w2c_j2;\n *(?P=place) = w2c_j1;\n"
    text += r" *w2c_i0 = w2c_j0 != w2c_j1;\n *if \(w2c_i0\) \{goto (?P=label);\}\n"
    return re.compile(r"(?P<space> *)(?P<label>w2c_L\d+): \n" + text)


def ahead(loop):
    """A loop, behind the line that does most of it."""
    place, pairs = loop["place"], ((loop["one"], loop["two"]), (loop["three"], loop["four"]))
    kept = {name for pair in pairs for name in pair} | {loop["end"]}
    if any(place not in pair or pair[0] == pair[1] for pair in pairs) or {loop["to"], loop["from"]} & kept or loop["end"] == place:
        return loop[0]
    to, source = (f"{one} + {two}" for one, two in pairs)
    return f"{loop['space']}{place} += copied_ahead({MEMORY}, {to}, {source}, {loop['end']} - {place});\n{loop[0]}"


def loads_of(lines, start):
    """The loads of the second form from a line on, as (line, base, distance, bytes), up to where code may go elsewhere."""
    found, base, narrow = [], {}, {}
    for number in range(start, len(lines)):
        line = lines[number]
        if re.search(r"^\s*\w+:|\bgoto\b|\bswitch\b|\breturn\b|^\}|_store|memory_|\b(?!i\d\d_load)w2c_\w+\(|stop\(|UNREACHABLE", line):
            return found, number
        if it := LOAD.match(line):
            if narrow.get(it[4]):
                size = int(it[3] or line[line.index("_load") - 2 :][:2]) // 8
                found.append((number, narrow[it[4]], int(it[5] or 0), size))
        if it := BASE.match(line):
            base[it[1]], it_is_base = it[2], True
        else:
            it_is_base = False
        if it := NARROWED.match(line):
            narrow[it[1]] = base.get(it[2])
            continue
        for kind, digit in re.findall(r"^ *w2c_([ij])(\d) (?:\S*)=", line):
            if not (kind == "j" and it_is_base):
                (base if kind == "j" else narrow).pop(digit, None)
        if it := re.match(r" *(w2c_[lp]\d+) \S*= ", line):
            # What is behind a change of the base is another address.
            for names in (base, narrow):
                for digit in [digit for digit, name in names.items() if name == it[1]]:
                    del names[digit]
            if any(name == it[1] for _, name, _, _ in found):
                return found, number
    return found, len(lines)


def spanned(lines):
    """The lines, with one look at the window for loads beside each other; and how many of these there are."""
    out, number, count = [], 0, 0
    while number < len(lines):
        found, end = loads_of(lines, number)
        bases = {base for _, base, _, _ in found}
        piece = lines[number : end + 1]
        for base in sorted(bases):
            here = [it for it in found if it[1] == base]
            if len(here) < LEAST:
                continue
            first, least, most = here[0][0], min(it[2] for it in here), max(it[2] + it[3] for it in here)
            near = f"near{count}"
            for line, _, distance, size in here:
                piece[line - number] = LOAD.sub(rf"\1\2 = get{8 * size}({near} + {distance - least});", piece[line - number])
            space = re.match(r" *", lines[first])[0]
            look = f"{space}{near} = read_place({MEMORY}, (u32){base} + {least}u, {most - least});\n"
            piece[first - number] = look + piece[first - number]
            count += 1
        out += piece
        number = end + 1
    return out, count


def quicker(text):
    """wasm2c's functions, and how many loops that copy, loops that sum and pieces of code were found."""
    text, loops = copy_loop().subn(ahead, text)
    text, summed = sums.ahead_of_sums(text)
    functions, pieces = re.split(r"(?<=^\}\n)", text, flags=re.M), 0
    for i, function in enumerate(functions):
        lines, count = spanned(function.splitlines(keepends=True))
        if count > 0:
            head = next(n for n, line in enumerate(lines) if line.endswith("{\n"))
            lines.insert(head + 1, "".join(f"  const u8 *near{k};\n" for k in range(count)))
            functions[i], pieces = "".join(lines), pieces + count
    return "".join(functions), loops, summed, pieces
