"""What sums.py takes for the checksum's loop, and what it leaves as it is: the loop as wasm2c writes it gets lines before it, and none of
the loops that differ from it in one place do, in which something else would be done ahead than the loop does.

python3 sums_test.py MODULE.c looks at the loop in what wasm2c has written, of which there is one.
"""

import pathlib
import re
import sys

sys.path.insert(0, str(pathlib.Path(__file__).resolve().parents[1]))
import sums

# In a line of the loop the first pattern, where it stands this often at least, becomes the second.
OTHERS = {
    "a word from another place": (r"\(w2c_i0\) \+ 6u\);", "(w2c_i0) + 7u);"),
    "a word from beyond the turn": (r"\(w2c_i0\) \+ 30u\);", "(w2c_i0) + 32u);"),
    "a byte for a word": (r"i32_load16_u\(", "i32_load8_u("),
    "another shift": (r"= 8u;", "= 7u;"),
    "a subtraction": (r"(w2c_i0) \+= (w2c_i1);", r"\1 -= \2;"),
    "a place that moves otherwise": (r"= 32ull;\n(.*\n *PLACE = )", r"= 34ull;\n\1"),
    "a count that moves otherwise": (r"= 32ull;\n(.*\n *COUNT = )", r"= 16ull;\n\1"),
    "another end": (r"= 0ull;\n( *w2c_i0 = w2c_j0 !=)", r"= 32ull;\n\1"),
    "another test": (r"w2c_j0 != w2c_j1", "w2c_j0 < w2c_j1"),
    "a store": (r"\n( *)(if \()", r"\n\1i32_store8(&instance->w2c_memory, (u64)(w2c_i0), w2c_i1);\n\1\2"),
    "a word more": (r"\n( *)(PLACE = )", r"\n\1w2c_i0 = i32_load16_u(&instance->w2c_memory, (u64)(w2c_i0));\n\1\2"),
    "a call": (r"\n( *)(PLACE = )", r"\n\1w2c_i0 = w2c_some(instance, w2c_i0);\n\1\2"),
    "a way out": (r"\n( *)(PLACE = )", r"\n\1if (w2c_i0) {goto w2c_B0;}\n\1\2"),
    "a sum that is read elsewhere": (r"\n( *)(PLACE = )", r"\n\1w2c_l99 = FIRST;\n\1w2c_i1 = w2c_l98;\n\1\2"),
    "a sum that is set anew": (r"\n( *)(PLACE = )", r"\n\1w2c_i1 = 0u;\n\1FIRST = w2c_i1;\n\1\2"),
    "a word that is added twice": (r"\n( *)(PLACE = )", r"\n\1w2c_i0 = SECOND;\n\1w2c_i1 = FIRST;\n\1w2c_i0 += w2c_i1;\n\1SECOND = w2c_i0;\n\1\2"),
}


def is_found(loop):
    return sums.ahead_of_sums(loop)[1] == 1


def main():
    text = pathlib.Path(sys.argv[1]).read_text()
    loops = [loop for loop in sums.LOOP.finditer(text) if is_found(loop[0])]
    if len(loops) != 1:
        sys.exit(f"sums_test: {len(loops)} loops were found")
    loop, wrong = loops[0], []
    place, count, words, highs = sums.parts_of(*sums.after(loop["turn"]), loop["test"])
    names = {"PLACE": place, "COUNT": count, "FIRST": words[0], "SECOND": highs[1]}
    for what, (old, new) in OTHERS.items():
        for name, it in names.items():
            old, new = old.replace(name, it), new.replace(name, it)
        other, made = re.subn(old, new, loop[0], count=1)
        if not made or is_found(other):
            wrong.append(f"{what} {'is taken for the loop' if made else 'was made nowhere'}")
    for line in wrong:
        print(f"sums_test: {line}")
    print(f"sums_test: one loop was found, and {len(OTHERS)} others looked at")
    sys.exit(bool(wrong))


if __name__ == "__main__":
    main()
