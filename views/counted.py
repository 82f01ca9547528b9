"""What the views of counts share: the counts, the program that was counted, and where its instructions stand in the source."""
import argparse
import bisect
import collections
import functools
import os
import re
import subprocess
import sys

SPACE = 1 << 64
HEADER, AARCH64 = b"\x7fELF\x02\x01", b"\xb7\x00"  # an ELF file of 64 bits, low bytes first; its machine

Counts = collections.namedtuple("Counts", "at taken to")  # of each address; of branches; of branches to registers, with their targets
Instruction = collections.namedtuple("Instruction", "kind target")
Function = collections.namedtuple("Function", "start end name")
Frame = collections.namedtuple("Frame", "function file line")
UNKNOWN = Frame("", "", 0)
CONDITIONAL, JUMP, CALL, POINTER_JUMP, POINTER_CALL, PLAIN = "conditional", "jump", "call", "pointer jump", "pointer call", "plain"
NO_INSTRUCTION = Instruction(PLAIN, None)
KINDS = [(CONDITIONAL, r"bc?\.\w+|cbn?z|tbn?z"), (JUMP, "b"), (CALL, "bl"), (POINTER_JUMP, "br|bra[ab]z?"), (POINTER_CALL, "blr|blra[ab]z?")]
LISTED = re.compile(r"^ *([0-9a-f]+):\s+(?:[0-9a-f]{8}|(?:[0-9a-f]{2} ){4})\s+(\S+)(?:.*?\b(?:0x)?([0-9a-f]+) <.*)?", re.MULTILINE)
SYMBOL = re.compile(r"^ *\d+: ([0-9a-f]+) +(\w+) (?:FUNC|IFUNC) +(\w+) +\w+ +(?:\[.*?\] +)?(?!UND)\w+ (\S+)", re.MULTILINE)
COUNTED = re.compile(r"(?:(at|taken) ([0-9a-f]{1,16})|(to) ([0-9a-f]{1,16}) ([0-9a-f]{1,16})) ([0-9]+)")
PASSED_OVER = re.compile(r"(?:(?:to more|on|\?|gap|stop|exc \S+|frame cut) [0-9]+|[0-6][0-9a-f] (?:end|nosync|cut [0-9]+|fault .*))?")


class Refused(Exception):
    """Why a file can't be used."""


def run(words, given=""):
    """What a tool prints."""
    try:
        done = subprocess.run(words, input=os.fsencode(given), capture_output=True, check=False)
    except OSError as why:
        raise Refused(f"{words[0]}: {why.strerror}") from None
    if done.returncode:
        raise Refused((os.fsdecode(done.stderr).strip() or f"{words[0]}: status {done.returncode}").splitlines()[-1])
    return os.fsdecode(done.stdout)


def counts_of(lines, moved):
    """The counts of a program that stands `moved` behind the addresses of its file. The same line of several captures is added."""
    at, taken, to = (collections.Counter() for _ in Counts._fields)
    if not any(lines):
        raise Refused("there are no counts")
    for number, line in enumerate(lines, 1):
        found = COUNTED.fullmatch(line)
        if found:
            addresses = tuple((int(word, 16) - moved) % SPACE for word in found.group(2, 4, 5) if word)
            if found[3]:
                to[addresses] += int(found[6])
            else:
                {"at": at, "taken": taken}[found[1]][addresses[0]] += int(found[6])
        elif not PASSED_OVER.fullmatch(line):
            raise Refused(f"line {number} of the counts has no meaning")
    return Counts(at, taken, to)


@functools.cache
def kind_of(name):
    return next((kind for kind, names in KINDS if re.fullmatch(names, name)), PLAIN)


def frame_of(name, place):
    """What addr2line tells; without DWARF it names a file all the same, but no folder."""
    file, _, number = re.sub(r" \(discriminator \d+\)$", "", place).rpartition(":")
    line = int(number) if number.isdecimal() else 0
    return Frame(name, os.path.normpath(file) if line or os.path.isabs(file) else "", line)


class Program:
    """An ELF file: its instructions and functions, by their addresses."""

    def __init__(self, elf):
        with open(elf, "rb") as file:
            header = file.read(20)
        if not header.startswith(HEADER) or header[18:] != AARCH64:
            raise Refused(f"{elf} is no ELF file for AArch64")
        self.elf = os.path.abspath(elf)
        if not re.search(r" \.z?debug_line ", run(["readelf", "-SW", self.elf])):
            raise Refused(f"{elf} has no DWARF: compile it with -g, and do not strip it")
        listed = run([os.environ.get("OBJDUMP") or "aarch64-linux-gnu-objdump", "-d", "-z", self.elf])
        self.instructions = {int(at, 16): Instruction(kind_of(name), int(target, 16) if target else None) for at, name, target in LISTED.findall(listed)}
        named = {}
        for start, size, binding, name in SYMBOL.findall(run(["readelf", "-sW", self.elf])):
            preferred = (binding != "GLOBAL", len(name), name, int(size, 0))
            named[int(start, 16)] = min(preferred, named.get(int(start, 16), preferred))
        self.functions = [Function(start, start + size, name) for start, (_, _, name, size) in sorted(named.items())]
        self.starts = [function.start for function in self.functions]

    def function_at(self, address):
        """The function that has an address. What stands between two functions is one whose name is its address, as a table of calls is."""
        place = bisect.bisect(self.starts, address) - 1
        if place >= 0 and address < self.functions[place].end:
            return self.functions[place]
        start = self.functions[place].end if place >= 0 else 0
        return Function(start, self.starts[place + 1] if place + 1 < len(self.starts) else SPACE, f"{start:#x}")

    def check(self, counts):
        """The counts may be those of this program."""
        lacks = [f"instruction at {address:x}" for address in counts.at if address not in self.instructions]
        lacks += [f"branch at {address:x} that was taken {count} times" for address, count in counts.taken.items()
                  if self.kind_at(address) != CONDITIONAL or count > counts.at[address]]
        lacks += [f"branch to a register at {address:x}" for address, _ in counts.to if self.kind_at(address) not in (POINTER_JUMP, POINTER_CALL)]
        if lacks:
            raise Refused(f"{self.elf} has no {lacks[0]}: it is another file, or was moved")

    def kind_at(self, address):
        return self.instructions.get(address, NO_INSTRUCTION).kind

    def calls(self, function, counts):
        """How often a function was entered: its first instruction, less the branches back to it."""
        back = 0
        for address in range(function.start, function.end, 4):
            kind, target = self.instructions.get(address, NO_INSTRUCTION)
            if target == function.start and kind in (CONDITIONAL, JUMP):
                back += counts.taken[address] if kind == CONDITIONAL else counts.at[address]
        return max(counts.at[function.start] - back, 0)

    def frames(self, addresses):
        """Where each address stands in the source: what is inlined there first, and the function that it is in last."""
        given, frames = "".join(f"{address:x}\n" for address in sorted(set(addresses))), {}
        for line in run(["addr2line", "-a", "-i", "-f", "-e", self.elf], given).splitlines():
            if re.fullmatch("0x[0-9a-f]+", line):
                at, name = int(line, 16), None
            elif name is None:
                name = line
            else:
                frames.setdefault(at, []).append(frame_of(name, line))
                name = None
        return frames


def main(name, usage, view):
    """Prints the lines of a view of a program and its counts."""
    words = argparse.ArgumentParser(prog=name, description=usage, formatter_class=argparse.RawDescriptionHelpFormatter, allow_abbrev=False)
    words.add_argument("--moved", metavar="HEX", default="0", type=lambda text: int(text, 16))
    words.add_argument("elf", metavar="ELF")
    given = words.parse_args()
    try:
        if sys.stdin is None or sys.stdout is None:
            raise Refused("the input or the output is closed")
        counts, program = counts_of(sys.stdin.buffer.read().decode("latin-1").split("\n"), given.moved), Program(given.elf)
        program.check(counts)
        sys.stdout.buffer.write(os.fsencode("".join(line + "\n" for line in view(program, counts))))
        sys.stdout.buffer.flush()
    except (Refused, OSError) as why:
        os.dup2(os.open(os.devnull, os.O_RDWR), 1)  # what is left to write goes nowhere
        said = f"{why.filename or 'output'}: {why.strerror}" if isinstance(why, OSError) else str(why)
        print(f"{name}: {said}", file=sys.stderr)
        sys.exit(3)
