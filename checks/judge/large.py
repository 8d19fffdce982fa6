"""A large capture made of the stored ones, and what judging it costs beside tshark.

    python3 checks/judge/large.py --write MEGABYTES FILE
    python3 checks/judge/large.py TCPJUDGE [MEGABYTES [TURNS]]

The capture has copies of data/*.pcap, one behind the other, each from another address and port; the checksums stay right, since the port
falls by as much as the address grows. Prints for each program, in turns, the processor time and the most memory that it took of one file in
the folder for temporary files, which is deleted then: `tcpjudge`, and `tshark -q -z expert`. MEGABYTES is 1,000 if it isn't told.
docs/JUDGE.md, *What it costs*, has its figures.
"""

import os
import pathlib
import struct
import subprocess
import sys
import tempfile

HEADER, RAW, ETHERNET = 24, 101, 1
# So many copies have addresses and ports of their own.
MOST = 30000


class Stored:
    """A stored capture's records, without links, and when its last one was seen."""

    def __init__(self, path):
        data = path.read_bytes()
        order = "<" if data[0] == 0xD4 else ">"
        (link,) = struct.unpack_from(f"{order}I", data, 20)
        self.packets, at, begin = [], HEADER, None
        while at < len(data):
            seconds, micros, count, _ = struct.unpack_from(f"{order}IIII", data, at)
            begin = seconds * 10**6 + micros if begin is None else begin
            packet = bytearray(data[at + 16 + (14 if link == ETHERNET else 0) : at + 16 + count])
            self.packets.append((seconds * 10**6 + micros - begin, packet))
            at += 16 + count
        self.opener = bytes(self.packets[0][1][12:16])
        self.size = sum(16 + len(packet) for _, packet in self.packets)

    def copy(self, number, begin):
        """The records of a copy, from this microsecond on."""
        made = bytearray()
        for time, packet in self.packets:
            changed = bytearray(packet)
            source, port = (14, 0) if changed[12:16] == self.opener else (18, 2)
            port += changed[0] % 16 * 4
            add(changed, source, number)
            add(changed, port, -number)
            # the header's own sum
            add(changed, 4, -number)
            made += struct.pack("<IIII", *divmod(begin + time, 10**6), len(changed), len(changed)) + changed
        return made

    def length(self):
        return self.packets[-1][0] + 1000


def add(packet, at, number):
    """Adds to a word as checksums add: modulo 65,535."""
    (word,) = struct.unpack_from(">H", packet, at)
    struct.pack_into(">H", packet, at, (word + number - 1) % 65535 + 1)


def write(path, megabytes):
    """Writes the capture, and returns how many packets and connections it has."""
    stored = [Stored(name) for name in sorted((pathlib.Path(__file__).parent / "data").glob("*.pcap"))]
    left, number, begin, packets, connections = megabytes * 10**6, 0, 1700000000 * 10**6, 0, 0
    with open(path, "wb") as file:
        file.write(struct.pack("<IHHiIII", 0xA1B2C3D4, 2, 4, 0, 0, 262144, RAW))
        while left > 0 and number < MOST:
            for one in stored:
                file.write(one.copy(number, begin))
                left, begin = left - one.size, begin + one.length()
                packets, connections = packets + len(one.packets), connections + 1
            number += 1
    return packets, connections


def cost(words):
    """The seconds of processor time and the megabytes of memory that a program took, and its status."""
    with subprocess.Popen(words, stdout=subprocess.DEVNULL, stderr=subprocess.DEVNULL) as running:
        _, status, usage = os.wait4(running.pid, 0)
        running.returncode = os.waitstatus_to_exitcode(status)
    return usage.ru_utime + usage.ru_stime, usage.ru_maxrss / 1000, running.returncode


def main():
    if sys.argv[1] == "--write":
        print("packets {}, connections {}".format(*write(sys.argv[3], int(sys.argv[2]))))
        return 0
    megabytes, turns = (int(word) for word in (sys.argv[2:] + ["1000", "3"][len(sys.argv) - 2 :])[:2])
    with tempfile.NamedTemporaryFile(suffix=".pcap") as file:
        packets, connections = write(file.name, megabytes)
        print(f"{os.path.getsize(file.name) / 10**6:.0f} MB, {packets:,} packets, {connections:,} connections; load {os.getloadavg()[0]:.1f}")
        programs = {"tcpjudge": [sys.argv[1], file.name], "tshark": ["tshark", "-q", "-z", "expert", "-r", file.name]}
        for _ in range(turns):
            for name, words in programs.items():
                seconds, memory, status = cost(words)
                print(f"{name}: {seconds:.2f} s of processor time, {memory:.0f} MB, status {status}", flush=True)
    return 0


if __name__ == "__main__":
    sys.exit(main())
