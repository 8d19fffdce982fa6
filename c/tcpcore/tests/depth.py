"""The stack that a call of the library takes at most, by its disassembly: depth.py OBJDUMP BOUND OF_MAKING OF_RECOVERY MEASURED FILE..

The files are the static library and the layer's object, for x86-64 or aarch64. A function's own bytes are read from
what it does to the stack pointer, and the calls make a graph. That tells the depth only where nothing is called but by
its name, nothing is called again below itself, and the stack pointer moves by constants: all three are tested. An
address of a function may stand nowhere but in a call or a jump, and in the jump table of the function itself; so what
jumps through a register stays within its function.

The deepest sum over the functions tcpcore_* is printed, without what memcpy, memmove and memset take. It has to be at
most BOUND, and at least MEASURED less the frame of the test and what memset takes. That of the calls that make a
connection is printed apart, and has to be at most OF_MAKING. What runs on a connection that has a recovery alone isn't
followed for either: with that the calls of a connection, and all those of a host, have to take at most OF_RECOVERY. A
host's go down the trees of its tables, by functions that call themselves for a node one level down: a tree of LEVELS
levels is the deepest that is counted.
"""

import re
import subprocess
import sys

# Not followed: functions that the program brings.
OUTSIDE = {"memcpy", "memmove", "memset", "__stack_chk_fail"}
# They carry a whole end from call to call.
MAKERS = {"tcpcore_connection_connect", "tcpcore_connection_listen"}
# What gives a connection its recovery, and what runs where it has one alone.
RECOVERY = "tcpcore_connection_set_recovery"
RECOVERING = re.compile(r"tcp_repair::repairing::Repairing::(arrive|arrive_vouched|emit|emit_train)_repairing\b")
HOST = "tcpcore_host_"
# What goes down a tree. A tree with one level more has 2 * 6^LEVELS - 1 keys at least, some three million: a node has six edges or more,
# and the root two.
DOWN = re.compile(r"std_collections::btree::node::Node::")
LEVELS = 8
# What a measurement counts beside: the frame of the test, and what memset takes.
BESIDE = 256
HEAD = re.compile(r"^[0-9a-f]+ <(?P<name>.+)>:$")
LINE = re.compile(r"^ +[0-9a-f]+:\t(?P<word>\S+)[ \t]*(?P<rest>.*)$")
PLACE = re.compile(r"<(?P<name>.+?)(?P<offset>\+0x[0-9a-f]+)?>$")
RELOCATION = re.compile(r"^\s+[0-9a-f]+: (?P<kind>R_\S+)\s+(?P<name>.+)$")
TABLE = re.compile(r"^RELOCATION RECORDS FOR \[(?P<section>.+)\]:$")
ROW = re.compile(r"^[0-9a-f]{16} R_\S+ +(?P<name>.+)$")


class Fault(Exception):
    """The disassembly doesn't tell the depth."""


class X86:
    link, below = 8, 128  # bytes: what a call writes, and what a function that calls none may use below its frame
    call, jump, through = re.compile(r"call"), re.compile(r"j"), re.compile(r"\*")

    @staticmethod
    def moved(word, rest):
        """By how many bytes an instruction moves the stack pointer down, or None where that can't be said."""
        if word.startswith("push"):
            return 8
        if not rest.endswith(",%rsp") or word.startswith(("cmp", "test")):
            return 0
        if found := re.match(r"\$(-?)0x([0-9a-f]+),", rest):
            value = -int(found[2], 16) if found[1] else int(found[2], 16)
            value -= (1 << 64) * (value >= 1 << 63)
            return {"sub": max(value, 0), "add": max(-value, 0), "and": -value - 1}.get(word.rstrip("q"))
        # The frame is given up, in part or back to a frame pointer.
        return 0 if re.match(r"(0x[0-9a-f]+\(%rsp\)|-?0x[0-9a-f]+\(%rbp\)|%rbp),", rest) else None


class Aarch64:
    link, below = 0, 0
    call, jump, through = re.compile(r"blr?$"), re.compile(r"(b|br|b\..*|cbn?z|tbn?z)$"), re.compile(r"x\d+$")

    @staticmethod
    def moved(word, rest):
        if found := re.search(r"\[sp, #-(\d+)\]!$", rest):
            return int(found[1])
        if not re.match(r"sp, ", rest):
            return 0
        if found := re.match(r"sp, sp, #(0x[0-9a-f]+|\d+)(, lsl #12)?$", rest):
            value = int(found[1], 0) << (12 if found[2] else 0)
            return {"sub": value, "add": 0}.get(word)
        return 0 if re.match(r"sp, x29", rest) else None


class Function:
    def __init__(self, frame):
        self.frame, self.calls = frame, set()


def plain(name):
    """The function that a relocation names: by its own name, or by its section's (another where it seldom runs)."""
    return re.sub(r"^\.text\.(unlikely\.)?", "", re.sub(r"[-+]0x[0-9a-f]+$", "", name))


class Reader:
    """The functions of a disassembly."""

    def __init__(self, text):
        self.functions = {}
        self.machine = X86 if "elf64-x86-64" in text else Aarch64
        self.name = self.goes = None
        # What the last instruction calls, unless a relocation behind it tells otherwise.
        self.called = None
        for line in text.split("\n"):
            if found := HEAD.match(line):
                self.end_call()
                self.name = found["name"]
                self.functions.setdefault(self.name, Function(self.machine.link))
            elif found := LINE.match(line):
                rest, _, place = found["rest"].partition(" # ")
                self.instruction(found["word"], re.sub(r" +// .*", "", rest).strip(), place)
            elif found := RELOCATION.match(line):
                self.relocation(plain(found["name"]))
        self.end_call()

    def end_call(self):
        if self.called:
            self.functions[self.name].calls.add(self.called)
        self.called = None

    def instruction(self, word, rest, told):
        machine, function = self.machine, self.functions[self.name]
        self.end_call()
        moved = machine.moved(word, rest)
        if moved is None:
            raise Fault(f"{self.name} moves the stack pointer by '{word} {rest}'")
        function.frame += moved
        is_call = machine.call.match(word)
        self.goes = is_call or machine.jump.match(word)
        if is_call and machine.through.match(rest):
            raise Fault(f"{self.name} calls through a register: '{word} {rest}'")
        # An address in the same section has no relocation; with one the instruction names its own place, or page 0.
        place = PLACE.search(told if word != "adr" and not self.goes else rest)
        if place and not self.goes and (place["name"] != self.name or not place["offset"]):
            raise Fault(f"{self.name} takes the address of {place['name']}")
        # A local label (.L) stands in the function's own section.
        if place and self.goes and not place["name"].startswith(".L") and (is_call or place["name"] != self.name):
            self.called = place["name"]

    def relocation(self, name):
        if self.goes:
            # Until it is filled in the instruction itself names its own place.
            self.called = name
        elif name in self.functions or name == ".text":
            raise Fault(f"{self.name} takes the address of {name}")


def check_tables(text, functions):
    """In data the address of code may only stand in the jump table of its own function."""
    section = ""
    for line in text.split("\n"):
        if found := TABLE.match(line):
            section = found["section"]
        elif (found := ROW.match(line)) and section.startswith((".rodata", ".data")):
            name = plain(found["name"])
            if (name in functions or found["name"].startswith(".text")) and section not in (f".rodata.{name}", f".rodata.unlikely.{name}"):
                raise Fault(f"{section} has the address of {name}")


def depth(functions, machine, name, recovers, levels=0, above=()):
    """The bytes of the deepest chain from here on, and the chain; with what a recovery does, or without it; and down so many levels."""
    if name in OUTSIDE or not recovers and RECOVERING.match(name):
        return 0, ()
    if name not in functions:
        raise Fault(f"{name} isn't here, and {above[-1]} calls it")
    if levels and DOWN.match(name) and name in functions[name].calls:
        levels -= 1
        calls = sorted(call for call in functions[name].calls if levels or call not in functions or call not in functions[call].calls)
    elif name in above:
        raise Fault(f"{name} is called again below itself, by {above[-1]}")
    else:
        calls = sorted(functions[name].calls)
    bytes_, chain = max((depth(functions, machine, call, recovers, levels, (*above, name)) for call in calls), default=(machine.below, ()))
    return functions[name].frame + bytes_, (name, *chain)


def main():
    objdump, bound, of_making, of_recovery, measured, files = sys.argv[1], *map(int, sys.argv[2:6]), sys.argv[6:]
    functions = {}
    for file in files:
        words = [[objdump, "-d", "-r", "--no-show-raw-insn", file], [objdump, "-r", "-w", file]]
        told = [subprocess.run(word, check=True, capture_output=True, text=True).stdout for word in words]
        reader = Reader(told[0])
        functions.update(reader.functions)
        check_tables(told[1], reader.functions)
    hosts = [name for name in functions if name.startswith(HOST)]
    entries = [name for name in functions if name.startswith("tcpcore_") and name not in MAKERS and name not in hosts]

    def deepest_of(names, recovers, levels=0):
        return max(depth(functions, reader.machine, name, recovers, levels) for name in names)

    made, making = deepest_of(MAKERS, False)
    print(f"depth: {made} bytes of {of_making}: {' > '.join(making)}")
    if made > of_making:
        raise Fault(f"the depth of what makes a connection has to be at most {of_making}")
    recovered, recovering = deepest_of(entries, True)
    print(f"depth: {recovered} bytes of {of_recovery} with a recovery: {' > '.join(recovering)}")
    if not any(map(RECOVERING.match, recovering)) or recovered > of_recovery:
        raise Fault(f"the depth of what finds losses by time has to be at most {of_recovery}")
    of_host, going = deepest_of(hosts, True, LEVELS)
    down = deepest_of([name for name in hosts if name.endswith(("_free", "_remove", "_open"))], True, LEVELS)[1]
    print(f"depth: {of_host} bytes of {of_recovery} of a host: {' > '.join(going)}")
    if sum(map(bool, map(DOWN.match, down))) < LEVELS or of_host > of_recovery:
        raise Fault(f"the depth of a host's calls has to be at most {of_recovery}, and to go down its trees")
    deepest, chain = deepest_of([name for name in entries if name != RECOVERY], False)
    print(f"depth: {deepest} bytes of {bound}, {measured} measured: {' > '.join(chain)}")
    if len(entries) < 13 or not measured - BESIDE <= deepest <= bound:
        raise Fault(f"{len(entries)} entries; the depth has to be from {measured - BESIDE} to {bound}")


if __name__ == "__main__":
    try:
        main()
    except Fault as fault:
        print(f"depth: {fault}")
        sys.exit(1)
