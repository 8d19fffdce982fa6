"""Boqtilen's library against this machine's Linux kernel over a TUN device: python3 checks/live/live.py [--second] [--only WORD]"""

import argparse
import os
import sys
import time
import traceback

HERE = os.path.dirname(os.path.realpath(__file__))
sys.path.insert(0, f"{HERE}/../../c/tcpcore")

import cases  # noqa: E402
from host import Host  # noqa: E402
from session import Lab  # noqa: E402
from wire import KERNEL, OURS, enter_namespace, open_tun, set_kernel  # noqa: E402


def words():
    parser = argparse.ArgumentParser(description=__doc__)
    parser.add_argument("--second", action="store_true", help="the second program of checks/differential/ in the library's place")
    parser.add_argument("--only", default="", help="the cases whose names have this in them")
    parser.add_argument("--small", type=int, default=0, help="bytes a direction, in the place of each case's own")
    return parser.parse_args()


def new_lab(options):
    """A network of this process's own, with the kernel's settings that the cases rest on."""
    if options.second:
        from second import End
    else:
        from tcpcore import End
    enter_namespace()
    # The congestion control that each kernel has; no metrics of one case for the next; no reset ends its TIME-WAIT; no timeout
    # is above a second (kernels before 6.15 don't have this one).
    set_kernel("tcp_congestion_control", "reno")
    set_kernel("tcp_no_metrics_save", 1)
    set_kernel("tcp_rfc1337", 1)
    set_kernel("tcp_rto_max_ms", 1000)
    # The second program takes seconds for what the library does in one of their thousandths: the kernel doesn't give it up.
    if options.second:
        set_kernel("tcp_retries2", 255)
    return Lab(open_tun(), End, options.small)


def line(name, session, seconds):
    """A row of the table."""
    ours, kernels = session.relay.sides[OURS], session.relay.sides[KERNEL]
    to_kernel, to_us = session.theirs.got, session.host.traffic.got
    return (
        f"{name:38} {to_kernel:>9} {to_us:>9} {ours.segments:>7} {kernels.segments:>7} "
        f"{ours.resent:>6} {kernels.resent:>6} {seconds:>6.2f} {session.note}".rstrip()
    )


def run_case(lab, name, case):
    """Whether the case passed. Its row, or what it found, is printed."""
    began = time.monotonic()
    lab.session = None
    try:
        session = case(lab)
        print(line(name, session, time.monotonic() - began), flush=True)
        session.free()
        return True
    except Exception as fault:
        print(f"{name}: FAILED: {fault}", flush=True)
        traceback.print_exc()
        if lab.session is not None:
            print(lab.session.relay.trace())
        return False


def main():
    options = words()
    lab = new_lab(options)
    head = f"{'case':38} {'bytes to':>9} {'from':>9} {'segments':>7} {'':>6} {'resent':>7} {'':>5} {'time':>7}"
    print(head)
    print(f"{'':38} {'kernel':>9} {'kernel':>9} {'ours':>7} {'kernel':>7} {'ours':>6} {'kernel':>6} {'s':>6}")
    results = [run_case(lab, name, case) for name, case in cases.all_cases() if options.only in name]
    if not options.second:
        print(f"live: {Host.came} segments of the kernel's came past the guard; a case of which it kept one out has failed")
    print(f"live: {sum(results)} passed, {len(results) - sum(results)} failed")
    return 0 if results and all(results) and (options.second or Host.came > 0) else 1


if __name__ == "__main__":
    sys.exit(main())
