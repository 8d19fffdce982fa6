"""Makes the checksum's loop of wasm2c's functions quicker: quicker.py calls `ahead_of_sums`. A turn of that loop adds words of 16 bits
that lie side by side, each to a sum of its own, and their high bytes to others. It gets lines before it: `summed_ahead` of memory.c takes
all turns but the last at once, and the loop does that one, so that each variable is behind it what it was. Where that can't be done it
does nothing.

A loop isn't found by its text. One turn is gone through with names for what its variables hold before it, and the loop is taken where
each variable holds behind it what the sums, the place and the count have to hold, and where nothing else is read. What has any other
line in it, a store, a call or a jump, stays as it is, and is right as well.
"""

import re

LANES, TURN = 16, 32
LOOP = re.compile(r"(?P<space> *)(?P<label>w2c_L\d+): \n(?P<turn>(?: *w2c_[ijlp]\d+ .*\n)+) *if \((?P<test>w2c_i\d)\) \{goto (?P=label);\}\n")
NAME = r"w2c_[ijlp]\d+"
IS = re.compile(rf" *({NAME}) = (?:({NAME})|(\d+)u(?:ll)?);")
ADDED = re.compile(rf" *({NAME}) \+= ({NAME});")
SHIFTED = re.compile(r" *(w2c_i\d) >>= \((w2c_i\d) & 31\);")
NARROWED = re.compile(r" *(w2c_i\d) = \(u32\)\((w2c_j\d)\);")
LOADED = re.compile(r" *(w2c_i\d) = i32_load16_u\(&instance->w2c_memory, \(u64\)\((w2c_i\d)\)(?: \+ (\d+)u)?\);")
DIFFERS = re.compile(r" *(w2c_i\d) = (w2c_j\d) != (w2c_j\d);")


def after(turn):
    """What each variable holds behind a turn, as ("before", name), ("is", number) or a step and what it is made of, and all words that were
    loaded; nothing where a line is of another form."""
    held, loaded = {}, set()

    def of(name):
        return held.get(name, ("before", name))

    for line in turn.splitlines():
        if it := IS.fullmatch(line):
            held[it[1]] = of(it[2]) if it[2] else ("is", int(it[3]))
        elif it := ADDED.fullmatch(line):
            # Of two summands the one that was there before stands first.
            held[it[1]] = ("sum", *sorted((of(it[1]), of(it[2]))))
        elif it := SHIFTED.fullmatch(line):
            held[it[1]] = ("shifted", of(it[1]), of(it[2]))
        elif it := NARROWED.fullmatch(line):
            held[it[1]] = ("narrowed", of(it[2]))
        elif it := LOADED.fullmatch(line):
            held[it[1]] = ("word", of(it[2]), int(it[3] or 0))
            loaded.add(held[it[1]])
        elif it := DIFFERS.fullmatch(line):
            held[it[1]] = ("differs", of(it[2]), of(it[3]))
        else:
            return {}, loaded
    return held, loaded


def before_in(value):
    """The variables whose value before the turn is in a value."""
    if value[0] == "before":
        return {value[1]}
    return {name for part in value[1:] if isinstance(part, tuple) for name in before_in(part)}


def parts_of(held, loaded, test):
    """Of a turn: the variable of the place, that of the count, and those of the sums of words and of high bytes, by where a word lies;
    nothing where it isn't such a loop."""
    moved = {name for name, value in held.items() if name[4] in "lp" and value == ("sum", ("before", name), ("is", TURN))}
    counts = {name for name in moved if held.get(test) == ("differs", held[name], ("is", 0))}
    if len(moved) != 2 or len(counts) != 1:
        return None
    (count,), (place,) = counts, moved - counts
    lanes = [("word", ("narrowed", ("before", place)), 2 * k) for k in range(LANES)]
    words, highs = ([name for lane in lanes for name, value in held.items() if value == ("sum", ("before", name), made(lane))]
                    for made in (lambda lane: lane, lambda lane: ("shifted", lane, ("is", 8))))
    # What else a turn writes, the next one writes before it reads it.
    read = {name for value in held.values() for name in before_in(value)}
    is_all = len(words) == len(highs) == LANES and loaded == set(lanes) and read == {place, count, *words, *highs}
    return (place, count, words, highs) if is_all else None


def ahead(loop):
    """A loop, behind the lines that do most of it."""
    held, loaded = after(loop["turn"])
    parts = held and parts_of(held, loaded, loop["test"])
    if not parts:
        return loop[0]
    place, count, words, highs = parts
    lines = ["{", f"  struct sums ahead = summed_ahead(&instance->w2c_memory, {place}, 0 - {count});"]
    lines += [f"  {name} += ahead.length;" for name in (place, count)]
    lines += [f"  {name} += word_of(&ahead, {k});" for k, name in enumerate(words)]
    lines += [f"  {name} += high_of(&ahead, {k});" for k, name in enumerate(highs)]
    return "".join(f"{loop['space']}{line}\n" for line in [*lines, "}"]) + loop[0]


def ahead_of_sums(text):
    """wasm2c's functions, and how many such loops were found."""
    text = LOOP.sub(ahead, text)
    return text, text.count(" = summed_ahead(")
