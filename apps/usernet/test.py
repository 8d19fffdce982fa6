"""Real clients in a namespace, real servers on the host's side, usernet between them: test.py [--short] [--only WORD]

Each client (clients.py) runs once as it is and once with one percent of the packets lost, one percent doubled and one percent late; then
the program is started with words of its own (starts.py). All stands in two namespaces that are made here: "servers" is the host of
usernet.
"""

import argparse
import signal
import time

import world
from clients import CLIENTS, MIB, download_past_all_numbers, flows_go, killed_program, many, sent_to_many, stalled
from paths import PATHS
from publishing import PUBLISHING
from spaces import SPACES
from ipv6 import IPV6
from mappings import MAPPINGS
from names import NAMES
from starts import STARTS
from world import need


def take_too_long(*_):
    raise AssertionError(f"it took more than {world.LIMIT} seconds")


def run(place, name, call, *words):
    began = time.monotonic()
    signal.alarm(world.LIMIT)
    call(place, *words)
    signal.alarm(0)
    print(f"{name:<44} {time.monotonic() - began:6.1f} s", flush=True)


def main():
    parser = argparse.ArgumentParser()
    parser.add_argument("--short", action="store_true")
    parser.add_argument("--only")
    words = parser.parse_args()
    signal.signal(signal.SIGALRM, take_too_long)
    count = 0
    with world.World(16 * MIB if words.short else 1024 * MIB) as place:
        for fault in 0, 1:
            more = [] if words.short else ["--connections", 12000, "--memory", 4096]  # of `many`
            with place.usernet(fault, *more):
                calls = [(call, ()) for call in CLIENTS]
                calls.append((many, ((2000, 1000) if words.short else (10000, 100000)) if fault == 0 else (200, 200)))
                if fault == 0 and not words.short:
                    calls.append((download_past_all_numbers, ()))
                if fault == 0:
                    calls += [(stalled, ()), (flows_go, ()), (sent_to_many, ())]
                calls.append((killed_program, ()))
                for call, rest in calls:
                    if not words.only or words.only in call.__name__:
                        name = call.__name__ + (", faults" if fault else "")
                        run(place, name, call, *rest)
                        count += 1
        for call in STARTS + SPACES + NAMES + MAPPINGS + PUBLISHING + PATHS + IPV6:
            if not words.only or words.only in call.__name__:
                run(place, call.__name__, call)
                count += 1
    need("tests", count > 0, True)
    print(f"usernet: {count} passed")


if __name__ == "__main__":
    main()
