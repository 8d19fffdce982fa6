"""Compares `tcpkit replay` with the second program on random scripts: python3 checks/differential/replay.py [COUNT]

Two thirds of the scripts are of version 2 or 3, with lifetimes from 2 up, limits and repeated events; those of version 3
have numbers of runs, too, and some make one run more than the number. It tells how often each phase, each ending and each
rare rule came.
"""

import collections
import random

from draw import random_config, random_words, setting
from end import HALF
from program import compare
from script import LONG_LIMIT, World

HANDSHAKE = ["listen B", "connect A", "emit A", "deliver A 0", "emit B", "deliver B 0", "emit A", "deliver A 1"]


def repeated(rng, words):
    """The event's words, now and then with a count of turns."""
    return f"repeat {rng.choice([1, 2, 3, 5, 12])} {words}" if rng.random() < 0.15 else words


def random_settings(rng, version, has_gaps):
    settings = {side: random_config(rng, has_gaps) for side in "AB"}
    for side in "AB" if version > 1 else "":
        if rng.random() < 0.3:
            settings[side]["limit"] = rng.choice([1, 2, 30, 500, 5000, HALF, LONG_LIMIT])
    for side in "AB" if version == 3 else "":
        settings[side]["runs"] = rng.choice([1, 2, 3, 16, 300, 4096])
    return settings


def crowding(rng, most):
    """After the handshake A sends bytes, one a segment, of which every second arrives, in any order, and B answers each: one
    run more than the number, or two."""
    count = most + rng.choice([1, 2])
    for _ in range(2 * count):
        yield from ("send A 61", "emit A")
    arriving = [2 * k + 3 for k in range(count)]
    if rng.random() < 0.7:
        rng.shuffle(arriving)
    for answer, k in enumerate(arriving, 1):
        yield from (f"deliver A {k}", "emit B", f"deliver B {answer}")
    yield from ("timer A reorder", "emit A", "emit A", f"deliver A {2 * count + 3}", "deliver A 2", "emit B")


def begun(version, settings, life):
    """The world of these settings, and the first lines of its script."""
    script = [f"config {side} {key} {setting(value)}" for side in "AB" for key, value in settings[side].items()]
    if version > 1:
        settings = {side: {"limit": LONG_LIMIT} | keys for side, keys in settings.items()}
        script = [f"tcpkit {version}", f"config life {life}", *script]
    return World(settings, lambda name: seen.update([name]), life), script


def case(seed):
    rng = random.Random(seed)
    version = rng.choice([1, 2, 3])
    return crowded_case(rng) if version == 3 and rng.random() < 0.3 else usual_case(rng, version)


def crowded_case(rng):
    settings = {side: {"runs": rng.choice([1, 1, 2, 2, 16, 300])} for side in "AB"}
    opening = [*HANDSHAKE, *crowding(rng, settings[rng.choice("AB")]["runs"])]
    world, script = begun(3, settings, HALF)
    return played(world, script, opening, len(opening) + 60, lambda: random_words(rng, world, 20, False))


def usual_case(rng, version):
    # Gaps want room, short texts and many events.
    has_gaps = rng.random() < 0.3
    settings = random_settings(rng, version, has_gaps)
    life = rng.choice([2, 3, 4, 7, 20, 70, 300, 2000, HALF]) if version > 1 else HALF
    world, script = begun(version, settings, life)
    count, longest = (600, 3) if has_gaps else (rng.choice([20, 60, 200]), rng.choice([3, 20, 250]))
    opening = [words for words in HANDSHAKE if rng.random() < 0.995] if rng.random() < 0.9 else []

    def drawn():
        words = random_words(rng, world, longest, has_gaps)
        return repeated(rng, words) if version > 1 else words

    return played(world, script, opening, count, drawn)


def played(world, script, opening, count, drawn):
    """The script, its report and its status: the opening, and then events that are drawn one by one."""
    report, status = "", 0
    for number in range(1, count + 1):
        words = opening[number - 1] if number <= len(opening) else drawn()
        script.append(words)
        told, refused = world.line(words)
        report += f"{number} {told}\n"
        status = 1 if refused else status
    return "\n".join(script) + "\n", report + world.last_lines(), status


seen = collections.Counter()
if __name__ == "__main__":
    compare("replay", case)
    print("how often each phase, ending and rare rule came:")
    print(", ".join(f"{name} {times}" for name, times in sorted(seen.items())))
