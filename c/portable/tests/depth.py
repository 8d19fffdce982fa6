"""The stack that calls of the portable file take at most on this machine, by gcc's own list of its functions and what each calls:
depth.py BOUND OF_CONNECTIONS FILE.ci.., where the files are what gcc -fcallgraph-info=su has written.

The deepest sum over the functions tcpcore_* is printed for each file, of those of a connection apart: without what memcpy, memmove and
memset take. It has to be at most BOUND, and OF_CONNECTIONS. A list tells that only where each function's frame has a greatest size, none is
called through a pointer, and none again below itself: all three are tested."""

import re
import sys

# What a call writes beside the frame of what is called, in bytes: where it returns to.
LINK = 8
# Not followed: functions that the program brings.
OUTSIDE = {"memcpy", "memmove", "memset"}
NODE = re.compile(r'node: \{ title: "([^"]+)" label: "([^"]*)"')
EDGE = re.compile(r'edge: \{ sourcename: "([^"]+)" targetname: "([^"]+)"')
FRAME = re.compile(r"\\n(\d+) bytes \((static|dynamic|dynamic,bounded)\)")


def fail(text):
    sys.exit(f"depth: {text}")


class Calls:
    def __init__(self, file):
        self.frames, self.calls, self.depths = {}, {}, {}
        with open(file, encoding="utf-8") as lines:
            for line in lines:
                if node := NODE.match(line):
                    self.note(*node.groups())
                elif edge := EDGE.match(line):
                    self.calls.setdefault(edge[1], set()).add(edge[2])

    def note(self, name, label):
        frame = FRAME.search(label)
        if frame and frame[2] == "dynamic":
            fail(f"the frame of {name} may be of any size")
        if frame:
            self.frames[name] = int(frame[1])

    def depth(self, name, above=()):
        """What a call of the function takes, and the chain that takes it."""
        if name in above:
            fail(f"{name} is called again below itself")
        if name in OUTSIDE:
            return 0, ()
        if name not in self.frames:
            fail(f"nothing is known of {name}, which {above[-1] if above else 'nobody'} calls")
        if name not in self.depths:
            below = max((self.depth(it, (*above, name)) for it in self.calls.get(name, ())), default=(0, ()))
            self.depths[name] = LINK + self.frames[name] + below[0], (name, *below[1])
        return self.depths[name]


def main():
    bound, of_connections = int(sys.argv[1]), int(sys.argv[2])
    sys.setrecursionlimit(10_000)
    for file in sys.argv[3:]:
        calls = Calls(file)
        ends = [it for it in calls.frames if re.fullmatch(r"tcpcore_(?!connection_)\w+", it)]
        connections = [it for it in calls.frames if it.startswith("tcpcore_connection_")]
        if len(ends) < 40 or len(connections) < 20:
            fail(f"{file} has no list of the calls")
        found = []
        for names, most in ((ends, bound), (connections, of_connections)):
            depth, chain = max(calls.depth(it) for it in names)
            if depth > most:
                fail(f"{file}: {depth} bytes, more than {most}: {' > '.join(chain)}")
            found.append(depth)
        print(f"depth: {file}: {found[0]} bytes of stack at most, and {found[1]} of a connection")


main()
