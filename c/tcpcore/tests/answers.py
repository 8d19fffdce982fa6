"""The test answers.c over ctypes: it prints the same. python3 answers.py"""

import os
import sys

sys.path.insert(0, os.path.dirname(os.path.dirname(os.path.realpath(__file__))))
import tcpcore  # noqa: E402

NAMES = """
    DONE TOO_SHORT TOO_LONG BAD_CHECKSUM BAD_OFFSET BAD_OPTION BAD_PADDING
    NOT_OPEN ALREADY_OPEN CLOSING ENDED STREAM_FULL NOT_CONNECTED BAD_CAPACITY NO_MEMORY BAD_MSS BAD_SHIFT BAD_LIMIT BAD_ADDR BAD_PORT
    BAD_RUNS BAD_RULES
    NO_END IN_USE ROOM NO_TIMER NULL LENGTH COPIED OVERLAP NO_TIME_WAIT
    NOTHING END_OF_STREAM NOT_DUE NO_RULE DROPPED NOT_MINE NOT_TIME_WAIT EMIT_FIRST WITHHELD
    TAKEN GONE BACKLOG_FULL NOBODY
""".split()


def main():
    for name in NAMES:
        number = getattr(tcpcore, name)
        print(f"{number} {name}: {tcpcore.strerror(number)}")
    known = [number for number in range(1000) if tcpcore.strerror(number) != "unknown answer"]
    print(f"{len(known)} answers, version {tcpcore.version()}")


if __name__ == "__main__":
    main()
