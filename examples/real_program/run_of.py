#!/usr/bin/env python3
"""Makes an image and a run file of what QEMU's user emulator executed of a program.

Usage: run_of.py PROGRAM LOG DEPTH IMAGE RUN

PROGRAM is an ELF file for AArch64 that is linked statically, and LOG is what this wrote of it:

    qemu-aarch64 -singlestep -d exec,nochain -D LOG PROGRAM

Newer releases of QEMU have -one-insn-per-tb in place of -singlestep. The instructions of PROGRAM are written to IMAGE as an image,
and to RUN a run file of the speculation depth DEPTH. `etm trace IMAGE <RUN` writes a trace of that run, and
`etm path --depth DEPTH IMAGE` reads it.

The log has a line for each instruction. Where a branch went is told by the next line alone, so the instruction of the last line is
left out. An SVC is a plain step, and behind it stands an exception that goes on where QEMU went on: the log has nothing of what the
system executed.

Where a line can't follow the one before, that is told on standard error, and the status is 1; RUN has what was executed before it.
So it is where a second thread runs, where a signal interrupts, and where an option above is left out.
"""
import collections
import itertools
import re
import struct
import sys

STREAM, CONTEXT = "10", "el0 ns 0 0"
CALL = 2  # the type of exception that an SVC is
DEEPEST, WINDOW = 4096, 65535  # how many P0 steps and how many steps may be held
SPACE = 1 << 64

# docs/FORMATS.md, "Instruction classes", and SVC: mask, value, class, and the lowest bit of an offset and how many it has
CLASSES = [
    (0xFF000010, 0x54000000, "conditional", 5, 19),  # B.cond
    (0xFF000010, 0x54000010, "not read", 0, 0),      # BC.cond
    (0xFFFFF0FF, 0xD50330DF, "barrier", 0, 0),       # ISB
    (0xFFFFFC1F, 0xD61F0000, "indirect", 0, 0),      # BR
    (0xFFFFFC1F, 0xD63F0000, "indirect", 0, 0),      # BLR
    (0xFFFFFC1F, 0xD65F0000, "indirect", 0, 0),      # RET
    (0xFFFFF81F, 0xD61F081F, "indirect", 0, 0),      # BRAAZ, BRABZ
    (0xFFFFF81F, 0xD63F081F, "indirect", 0, 0),      # BLRAAZ, BLRABZ
    (0xFFFFFBFF, 0xD65F0BFF, "indirect", 0, 0),      # RETAA, RETAB
    (0xFFFFF800, 0xD71F0800, "indirect", 0, 0),      # BRAA, BRAB
    (0xFFFFF800, 0xD73F0800, "indirect", 0, 0),      # BLRAA, BLRAB
    (0xFE000000, 0xD6000000, "not read", 0, 0),      # all others, and ERET, which no program of a user executes
    (0xFC000000, 0x14000000, "branch", 0, 26),       # B
    (0xFC000000, 0x94000000, "branch", 0, 26),       # BL
    (0x7E000000, 0x34000000, "conditional", 5, 19),  # CBZ, CBNZ
    (0x7E000000, 0x36000000, "conditional", 5, 14),  # TBZ, TBNZ
    (0xFFE0001F, 0xD4000001, "call", 0, 0),          # SVC
]


class Refused(Exception):
    """Why the program or the log can't be used."""


# ---- the program ------------------------------------------------------------

Segment = collections.namedtuple("Segment", "type flags offset address physical size in_memory align")
Part = collections.namedtuple("Part", "address bytes")
LITTLE_64, AARCH64 = b"\x7fELF\x02\x01", 183
HERE, ANYWHERE = 2, 3  # types of files: where they stand in memory
LOADED, INTERPRETER = 1, 3  # types of segments
EXECUTABLE = 1  # a flag of a segment


def segments_of(data):
    """The type of an ELF file, its first address, and its segments."""
    if not data.startswith(LITTLE_64) or len(data) < 64:
        raise Refused("the program is no ELF file of 64 bits, low bytes first")
    kind, machine, _, entry, table, _, _, _, size, count = struct.unpack_from("<HHIQQQIHHH", data, 16)
    if machine != AARCH64 or kind not in (HERE, ANYWHERE):
        raise Refused("the program is none for AArch64")
    if size != 56 or table + size * count > len(data):
        raise Refused("the program has no table of segments")
    return kind, entry, [Segment._make(struct.unpack_from("<IIQQQQQQ", data, table + size * k)) for k in range(count)]


def parts_of(data, first):
    """The instructions of an ELF file, at their addresses in a run that began at `first`."""
    kind, entry, segments = segments_of(data)
    if any(segment.type == INTERPRETER for segment in segments):
        raise Refused("the program is linked dynamically, and most of what it executes is in other files: link it with -static")
    distance = first - entry
    if distance and (kind == HERE or distance % 4):
        raise Refused(f"the program begins at {entry:x}, and the log at {first:x}")
    parts = []
    for segment in segments:
        if segment.type == LOADED and segment.flags & EXECUTABLE:
            front = -segment.address % 4
            held = data[segment.offset + front:segment.offset + segment.size]
            parts.append(Part((segment.address + front + distance) % SPACE, held[:len(held) // 4 * 4]))
    return parts


def image_of(parts):
    """The lines of the image."""
    for part in parts:
        yield f"@{part.address:x}\n"
        for at in range(0, len(part.bytes), 64):
            yield part.bytes[at:at + 64].hex() + "\n"


# ---- instructions -------------------------------------------------------------

def class_of(word, address):
    """The class of the instruction at an address, and where it goes if it is a branch with an offset."""
    for mask, value, kind, lowest, bits in CLASSES:
        if word & mask == value:
            offset = word >> lowest & (1 << bits) - 1
            sign = 1 << bits >> 1
            return kind, (address + 4 * ((offset ^ sign) - sign)) % SPACE if bits else None
    return "plain", None


# why an instruction has no event
WITHOUT_EVENTS = {
    "missing": "{:x} is no instruction of the program's file, but of the system, as the vDSO is, or made in memory",
    "not read": "the branch at {:x} is one that etm does not read",
}


def instruction_at(parts, address):
    """The same of an address alone; its class is "missing" where the program has none there."""
    for part in parts:
        at = address - part.address
        if 0 <= at < len(part.bytes) and at % 4 == 0:
            return class_of(int.from_bytes(part.bytes[at:at + 4], "little"), address)
    return "missing", None


def events_of(kind, target, address, after):
    """The event lines of an instruction, and of each whether it is of a P0 step; or None where `after` can't follow it."""
    behind = (address + 4) % SPACE
    if kind == "call":
        return [("step", False), (f"exc {CALL} {after:x} {CONTEXT}", True)]
    if kind == "indirect":
        return [(f"to {after:x}", True)]
    if after == target:
        return [("taken", True)]
    if after != behind or kind == "branch":
        return None
    return [("not", True)] if kind == "conditional" else [("step", kind == "barrier")]


# ---- the run --------------------------------------------------------------------

# The processor, the base of a code segment, which A64 does not have, and the address
EXECUTED = re.compile(r"(?:Trace|Chain) (\d+): \S+ \[[0-9a-f]+/([0-9a-f]+)[/\]]")
TAKEN_BACK = "Stopped execution of TB chain before"  # the instruction of the line before was not executed


def executed_in(log):
    """The instructions that a log tells: their lines, counted from 1, and their addresses."""
    held = thread = None
    for number, line in enumerate(log, 1):
        if line.startswith(TAKEN_BACK):
            held = None
        found = EXECUTED.match(line)
        if found and thread not in (None, found[1]):
            raise Refused(f"log, line {number}: a second thread runs")
        if found:
            if held:
                yield held
            thread, held = found[1], (number, int(found[2], 16))
    if held:
        yield held


class Run:
    """A run file that is written. All steps that are held are retired where one more would be too many."""

    def __init__(self, out, depth, first):
        self.out, self.depth = out, depth
        self.plain = self.held = self.held_traced = 0
        out.write(f"etm 1\ndepth {depth}\nstream {STREAM}\non {first:x} {CONTEXT}\n")

    def add(self, line, is_traced):
        if self.held == WINDOW or (is_traced and self.held_traced == self.depth > 0):
            self.retire()
        self.held += 1
        self.held_traced += is_traced
        if line == "step":
            self.plain += 1
        else:
            self.put_plain()
            self.out.write(line + "\n")

    def put_plain(self):
        if self.plain:
            self.out.write(f"step {self.plain}\n")
        self.plain = 0

    def retire(self):
        """At depth 0 each step is retired as it is executed."""
        self.put_plain()
        if self.depth and self.held:
            self.out.write(f"retire {self.held}\n")
        self.held = self.held_traced = 0


def follow(parts, executed, run):
    """Gives a run the events of all instructions but the last."""
    known = {}
    for (number, address), (number_after, after) in itertools.pairwise(executed):
        if address not in known:
            known[address] = instruction_at(parts, address)
        kind, target = known[address]
        if kind in WITHOUT_EVENTS:
            raise Refused(f"log, line {number}: {WITHOUT_EVENTS[kind].format(address)}")
        events = events_of(kind, target, address, after)
        if events is None:
            raise Refused(f"log, line {number_after}: {after:x} can't follow {address:x}: a line is missing, as without nochain, or "
                          "without -singlestep or -one-insn-per-tb; or a signal came; or another program ran")
        for line, is_traced in events:
            run.add(line, is_traced)


def make(program, log_name, depth, image, out):
    with open(log_name, errors="replace") as log, open(program, "rb") as file:
        executed = executed_in(log)
        begun = next(executed, None)
        if begun is None:
            raise Refused("the log has no line `Trace ..` of an instruction, as `-d exec` writes them")
        parts = parts_of(file.read(), begun[1])
        with open(image, "w") as text:
            text.writelines(image_of(parts))
        with open(out, "w") as text:
            run = Run(text, depth, begun[1])
            try:
                follow(parts, itertools.chain([begun], executed), run)
            finally:
                run.retire()


def main(words):
    if len(words) != 5 or not re.fullmatch("[0-9]{1,4}", words[2]) or int(words[2]) > DEEPEST:
        sys.exit(__doc__)
    try:
        make(words[0], words[1], int(words[2]), words[3], words[4])
    except (Refused, OSError) as why:
        sys.exit(f"run_of.py: {why}")


if __name__ == "__main__":
    main(sys.argv[1:])
