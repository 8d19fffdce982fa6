"""The test of when tcpcore.End frees its end: behind `with`, and when nothing refers to it."""

import os
import resource
import sys

sys.path.insert(0, f"{os.path.dirname(os.path.realpath(__file__))}/..")

from tcpcore import BAD_CAPACITY, NO_END, Config, End, Refused  # noqa: E402

MIB = 1 << 20
COUNT = 300


def config(capacity=MIB):
    return Config(bytes([10, 0, 0, 1]), 7, 1, 1460, capacity, capacity, None, True)


def refusal(call, *args):
    """The answer with which the call is refused, or None."""
    try:
        call(*args)
    except Refused as refused:
        return refused.args[0]
    return None


def main():
    with End(config()) as end:
        end.listen()
        print(f"within: {end.status().phase}")
    print(f"behind it: answer {refusal(end.status)} of {NO_END}")
    with End(config()) as freed:
        freed.free()
    print(f"freed within: answer {refusal(freed.free)} of {NO_END}")
    fault = None
    try:
        with End(config()) as end:
            raise ValueError("a fault of the user's")
    except ValueError as found:
        fault = found
    print(f"behind {fault}: answer {refusal(end.status)} of {NO_END}")
    print(f"never made: answer {refusal(End, config(0))} of {BAD_CAPACITY}")
    for _ in range(COUNT):
        End(config())
        with End(config()):
            pass
    # In KiB. Kept they would be 1,200 MiB.
    most = resource.getrusage(resource.RUSAGE_SELF).ru_maxrss
    print(f"{2 * COUNT} ends of {2 * MIB} bytes: {'freed' if most < 200 * 1024 else f'{most} KiB resident'}")


if __name__ == "__main__":
    main()
