"""Files of perf that lack something, or have a fault: what perf/perf_of says of them, and that it ends as it may on any bytes."""
import contextlib
import io
import os
import random
import re
import shutil
import struct
import time
from typing import NamedTuple

from perf_data import ETMV4, AuxFlag, Kind, Misc, Sample, Unit, Written

BY_CPU = Sample.TID | Sample.TIME | Sample.CPU | Sample.IDENTIFIER
BARRIER = b"\xff\xff\xff\x7f" * 4
FRAMES = bytes(range(0x21, 0x31)) * 6  # of which nothing is read here
PROCESS, OTHER = 1000, 1001
BUILD_ID = bytes(range(20))
HERE = 0x400000
SEED, SECONDS = 20261129, 5
STATUSES = (0, 1, 3)


class Wrong(Exception):
    """What perf_of does wrong."""


class Fault(NamedTuple):
    """A file, the words beside it, and what perf_of must say: its status, a line, and how many commands it prints."""
    name: str
    data: bytes
    status: int
    said: str
    commands: int = 1
    words: tuple = ()
    first: str = ""  # in the first command


class Files:
    """Files of one process with some frames of CPU 0, below a folder with its program."""

    def __init__(self, room):
        self.root = room / "root"
        self.root.mkdir()
        self.program, self.large = "/program", "/large"
        (self.root / "program").write_bytes(elf_file(BUILD_ID))
        (self.root / "other").write_bytes(elf_file(None))
        with open(self.root / "large", "wb") as file:
            file.truncate(20 << 20)
        (room / "secret").write_bytes(b"\x1f\x20\x03\xd5" * 64)
        (self.root / "link").symlink_to("../secret")
        os.mkfifo(self.root / "fifo")

    def begun(self, units=None, **others):
        out = Written(BY_CPU)
        out.info(units or [unit()], **others)
        return out

    def mapped(self, out=None, name=None, **others):
        out = out or self.begun()
        out.map(PROCESS, HERE, 0x1000, 0, name or self.program, **others)
        return out

    def traced(self, out, offset=0, flags=0, data=FRAMES, cpu=0):
        out.trace(data, offset, cpu=cpu)
        out.aux(offset, len(data), flags, cpu)
        return out

    def whole(self, **others):
        return self.traced(self.mapped(), **others)


def unit(cpu=0, source=0x10, depth=16, vmid=1, cid=4, config=0):
    return Unit(cpu, config, source, depth, vmid, cid)


def elf_file(build_id):
    """An ELF file with a note of its build ID, and some instructions."""
    note = struct.pack("<III4s", 4, len(build_id), 3, b"GNU\0") + build_id if build_id else b""
    header = b"\x7fELF\x02\x01" + bytes(10) + struct.pack("<HHIQQQIHHHHHH", 2, 183, 1, HERE, 64, 0, 0, 64, 56, 1, 0, 0, 0)
    segment = struct.pack("<IIQQQQQQ", 4, 4, 120, HERE + 120, HERE + 120, len(note), len(note), 4)
    code = bytes.fromhex("1f2003d5 40000054 1f2003d5 fdffff17")
    return (header + segment + note).ljust(256, b"\0") + code * 16


# ---- what is left out ---------------------------------------------------------------

def of_trace(files):
    """Faults of AUX records and their trace."""
    for flag, word in ((AuxFlag.TRUNCATED, "truncated"), (AuxFlag.PARTIAL, "partial"), (AuxFlag.COLLISION, "collision")):
        yield Fault(f"trace that is {word}", files.whole(flags=flag).file(), 0, f"cpu 0, AUX record at 0: trace was lost: {word}")
    two = files.traced(files.whole(), offset=len(FRAMES) + 32)
    yield Fault("a hole between records", two.file(), 0, f"cpu 0: 32 bytes at {len(FRAMES):x} are in no AUX record, or were lost", 2)
    two = files.traced(files.whole(), offset=len(FRAMES) - 32)
    yield Fault("records that overlap", two.file(), 0, f"cpu 0, AUX record at {len(FRAMES) - 32:x}: it overlaps the one before; left out")
    more = files.mapped()
    more.trace(FRAMES * 2, 0, cpu=0)
    more.aux(16, len(FRAMES), cpu=0)
    yield Fault("trace before a record", more.file(), 0, "cpu 0: 16 bytes at 0 are in no AUX record, or were lost")
    yield Fault("trace behind a record", more.file(), 0, f"cpu 0: {len(FRAMES) - 16} bytes at {len(FRAMES) + 16:x} are in no AUX record, or were lost")
    more.aux(16 + len(FRAMES), 2 * len(FRAMES), cpu=0)
    yield Fault("trace that ends before its record", more.file(), 0, f"cpu 0, AUX record at {len(FRAMES) + 16:x}: .* bytes are not in the file", 2)
    more = files.whole()
    more.aux(0, 64, cpu=3)
    yield Fault("a record without trace", more.file(), 0, "cpu 3, thread -1: an AUX record of 64 bytes at 0, and no trace of it")
    lost = files.whole(data=BARRIER + FRAMES + BARRIER + FRAMES + BARRIER)
    yield Fault("a barrier packet", lost.file(), 0, f"cpu 0: the sink lost trace before {len(FRAMES) + 16:x}", 2)
    yield Fault("trace of a form to come", files.whole(flags=0x200).file(), 1, "cpu 0, AUX record at 0: its form 2 is not known; left out", 0)
    yield Fault("no trace", files.mapped().file(), 1, "it has no trace", 0)
    yield Fault("no trace unit", files.traced(Written(BY_CPU)).file(), 3, ".* is refused: it does not tell of its trace units", 0)


def of_maps(files):
    """Maps that are replaced, inherited, or not of a process."""
    again = files.mapped(files.mapped(), "/other")
    yield Fault("a map that is replaced", files.traced(again).file(), 0, "process 1000: /other replaced /program at 400000; .* the wrong code")
    earlier = files.mapped(files.mapped(time=2), "/other", time=1)
    yield Fault("maps out of order", files.traced(earlier).file(), 0, "process 1000: /program replaced /other at 400000; .* the wrong code")
    begun = files.mapped()
    begun.comm(PROCESS, "other", is_exec=True)
    yield Fault("another program", files.traced(begun).file(), 1, "process 1000: it began another program; the maps of .* left out")
    shared = files.mapped()
    shared.map(OTHER, HERE, 0x1000, 0, "/other")
    yield Fault("processes that share addresses", files.traced(shared).file(), 0, "process 1001: /other at 400000, where process 1000 has /program: .*")
    yield Fault("one of these processes", files.traced(shared).file(), 0, "cpu 0: .*", 1, ("--pid", "1001"))
    child = files.mapped()
    child.add(Kind.FORK, struct.pack("<4IQ", OTHER, PROCESS, OTHER, PROCESS, 0))
    yield Fault("a child's maps", files.traced(child).file(), 0, "cpu 0: .*", 1, ("--pid", "1001"))
    child.add(Kind.FORK, struct.pack("<4IQ", OTHER, 7, OTHER, 7, 0))
    yield Fault("a number that is given again", files.traced(child).file(), 0, "process 1001: its number was given to another process; .* left out")
    yield Fault("a process without maps", files.whole().file(), 1, "process 7 has no map of code", 1, ("--pid", "7"))
    kernel = files.mapped()
    kernel.add(Kind.MMAP, struct.pack("<iIQQQ", -1, 0, 0xFFFF800008000000, 0x1000, 0) + b"[kernel.kallsyms]_text\0", 1)
    yield Fault("code of the kernel", files.traced(kernel).file(), 0, "code of the kernel is left out, .*")
    older = files.begun()
    older.add(Kind.MMAP, struct.pack("<IIQQQ", PROCESS, PROCESS, HERE, 0x1000, 0) + b"/program\0", Misc.USER)
    yield Fault("a map of the older kind", files.traced(older).file(), 0, "cpu 0: .*")
    older.add(Kind.MMAP, struct.pack("<IIQQQ", PROCESS, PROCESS, HERE, 0x1000, 0) + b"/other\0", Misc.USER | Misc.DATA)
    yield Fault("a map of data", files.traced(older).file(), 1, "process 1000: /other replaced /program at 400000; .*")


def of_images(files):
    """Maps of which an image has nothing, or not all."""
    for name in ("[vdso]", "//anon", "/fifo", "/gone", "/", "relative"):
        yield Fault(f"a map of {name}", files.traced(files.mapped(name=name)).file(), 1, f"process 1000: {re.escape(name)} at 400000: left out: .*")
    for name in ("/../secret", "/link", "/gone/../../secret"):
        yield Fault(f"a map of {name}", files.traced(files.mapped(name=name)).file(), 1, f".* {name} at 400000: left out: outside of .*")
    yield Fault("no code", files.traced(files.begun()).file(), 1, "no code of what was traced was found")
    wide = files.mapped()
    wide.map(PROCESS, (1 << 64) - 16, 32, 0, "/program")
    yield Fault("a map behind the last address", files.traced(wide).file(), 0, "process 1000: /program at fffffffffffffff0: 32 bytes can't .*")
    behind = files.mapped()
    behind.map(PROCESS, 0x500000, 0x1000, 0x1000, "/program")
    yield Fault("a map behind its file", files.traced(behind).file(), 0, "process 1000: /program at 500000: left out: behind the end of its file")
    large = files.mapped()
    large.map(PROCESS, 0x500000, 20 << 20, 0, "/large")
    yield Fault("a map that is too large", files.traced(large).file(), 0, "process 1000: /large at 500000: left out: an image has at most .*")
    many = files.begun()
    for place in range(65):
        many.map(PROCESS, HERE + place * 0x10000, 0x1000, 0, "/program")
    yield Fault("more maps than an image has", files.traced(many).file(), 0, "process 1000: /program at 800000: left out: an image has at most .*")


def of_build_ids(files):
    told = struct.pack("<IHHI20s4s", 67, 0x8002, 44, PROCESS, BUILD_ID[::-1], b"\x14") + b"/program\0".ljust(12, b"\0")
    told = struct.pack("<IHH", 67, 0x8002, len(told)) + told[8:]
    differs = f"process 1000: /program at 400000: left out: its build ID is {BUILD_ID[::-1].hex()}, and that of .* {BUILD_ID.hex()}"
    yield Fault("a build ID that differs", files.traced(files.mapped(build_id=BUILD_ID[::-1])).file(), 1, differs)
    yield Fault("a build ID that differs, told at the end", files.whole().file(features=[(2, told)]), 1, differs)
    data = files.whole().file(features=[(2, told)])
    yield Fault("build IDs that are cut", data[:-8 - len(told)], 0, "its build IDs: .*")
    yield Fault("the right build ID", files.traced(files.mapped(build_id=BUILD_ID)).file(), 0, "cpu 0: .*")
    none = files.traced(files.mapped(name="/other", build_id=BUILD_ID)).file()
    yield Fault("a file without a build ID", none, 1, "process 1000: /other .* is none")


def ids_told(files, name, ids, settings):
    """A newer kernel tells the IDs of two units when the trace begins."""
    newer = files.traced(files.mapped(files.begun([unit(0, 0x8000007F), unit(1, 0x8000007F, depth=0)])))
    for cpu, told in enumerate(ids):
        newer.add(Kind.AUX_OUTPUT_HW_ID, struct.pack("<Q", told), tail=(0, 0, 0, cpu))
    return Fault(name, newer.file(), 0, f"cpu 1: stream {ids[1] & 0xFF:02x}, depth 0, .*", first=settings)


def of_units(files):
    """Faults of trace units."""
    def of(*units):
        return files.traced(files.mapped(files.begun(list(units)))).file()
    for bits, word in ((1 << 1, "preset"), (1 << 4, "cycacc"), (1 << 8, "preset"), (1 << 13, "preset"), (1 << 16, "preset")):
        yield Fault(f"TRCCONFIGR {bits:x}", of(unit(config=bits)), 1, f"cpu 0: etm does not read its .*; record without the word {word}")
    yield Fault("cycle counts of one CPU", of(unit(config=16), unit(1, 0x12)), 0, "cpu 0: etm does not read its cycle counts; .*")
    yield Fault("two CPUs of one ID", of(unit(), unit(1)), 3, ".* is refused: CPUs 0 and 1 have the one stream 10", 0)
    for fault, said in ((unit(depth=16385), "TRCIDR8 is 16385"), (unit(vmid=3), "VMIDSIZE is 3"), (unit(cid=2), "CIDSIZE is 2")):
        yield Fault(said, of(fault), 3, f".* is refused: cpu 0: {said}", 0)
    yield ids_told(files, "IDs that are told later", (0x2A, 0x2B), "2a:16:1:4,2b:0:1:4")
    yield ids_told(files, "one ID in two sinks", (1 << 56 | 0x52A, 1 << 56 | 0x62A), "--settings 2a:16:1:4 ")
    yield Fault("one ID in one sink", ids_told(files, "", (1 << 56 | 0x52A,) * 2, "").data, 3, ".* is refused: CPUs 0 and 1 have the one stream 2a", 0)
    info = files.whole().file()
    for name, old, new, said in (
            ("ETMv3", struct.pack("<Q", ETMV4), b"\x30" * 8, "the trace unit of CPU 0 is ETMv3, and not ETMv4"),
            ("ETE", struct.pack("<Q", ETMV4), b"\x50" * 8, "the trace unit of CPU 0 is ETE, and not ETMv4"),
            ("Intel PT", struct.pack("<IHHII", 70, 0, 120, 3, 0), struct.pack("<IHHII", 70, 0, 120, 1, 0), "its trace is that of Intel PT, .*"),
            ("metadata of version 2", struct.pack("<QQ", 1, 8 << 32 | 1), struct.pack("<QQ", 2, 8 << 32 | 1), ".* has version 2"),
            ("few registers", struct.pack("<QQQ", ETMV4, 0, 7), struct.pack("<QQQ", ETMV4, 0, 5), "it has 5 registers of .* CPU 0")):
        if info.count(old) != 1:
            raise ValueError(name)
        yield Fault(name, info.replace(old, new), 3, f".* is refused: {said}", 0)


def compressed(files, kind, is_last=0):
    """A file whose maps are in a zstd stream, of one block as it stands."""
    out = files.mapped()
    maps, _ = out.records.pop()
    stream = b"\x28\xb5\x2f\xfd\0\x58" + (len(maps) << 3 | is_last).to_bytes(3, "little") + maps
    body = struct.pack("<Q", len(stream)) + stream + bytes(-len(stream) % 8) if kind == Kind.COMPRESSED2 else stream
    out.records.append((struct.pack("<IHH", kind, 0, 8 + len(body)) + body, b""))
    return files.traced(out).file()


def of_files(files):
    """Faults of the file as a whole."""
    whole = files.whole()
    data, piped = whole.file(), whole.piped()
    for name, front in (("the other byte order", b"2ELIFREP"), ("the first version", b"PERFFILE")):
        yield Fault(name, front + data[8:], 3, ".* is refused: it is of the other byte order, or .*", 0)
    yield Fault("no perf.data", b"\x7fELF" + data[4:], 3, ".* is refused: it is no perf.data", 0)
    yield Fault("an empty file", b"", 3, ".* is refused: it is no perf.data", 0)
    yield Fault("a header of another size", data[:8] + struct.pack("<Q", 96) + data[16:], 3, ".* is refused: its header has 96 bytes", 0)
    yield Fault("a file that perf did not end", data[:48] + bytes(8) + data[56:72] + bytes(32) + data[104:len(data) - 40], 0, "perf did not end the file, .*")
    yield Fault("a piped file that is cut in trace", piped[:-100], 0, "the last .* bytes of trace, which are cut", 1)
    yield Fault("a record without a size", piped[:22] + b"\0\0" + piped[24:], 3, ".* is refused: a record has a size of 0 bytes", 0)
    yield Fault("what is compressed", compressed(files, Kind.COMPRESSED), 0, "cpu 0: .*")
    yield Fault("what is compressed, and ended", compressed(files, Kind.COMPRESSED, is_last=1), 0, "cpu 0: .*")
    yield Fault("what is compressed, in the newer record", compressed(files, Kind.COMPRESSED2), 0, "cpu 0: .*")
    broken = files.mapped()
    broken.records.append((struct.pack("<IHH", Kind.COMPRESSED, 0, 24) + bytes(16), b""))
    yield Fault("what is compressed and broken", files.traced(broken).file(), 0, "what is compressed has a fault: .*")


def faults(files):
    for kind in (of_trace, of_maps, of_images, of_build_ids, of_units, of_files):
        yield from kind(files)


# ---- what perf_of does of it --------------------------------------------------------

class Said(NamedTuple):
    status: int
    commands: list
    lines: list


def said_of(of, words):
    """What perf_of, as a module, prints of some words."""
    out, err = io.StringIO(), io.StringIO()
    with contextlib.redirect_stdout(out), contextlib.redirect_stderr(err):
        try:
            status = of.main([str(word) for word in words])
        except SystemExit as ended:
            status = ended.code
    return Said(status, out.getvalue().splitlines(), err.getvalue().splitlines())


def said_of_data(of, files, data, room, words=()):
    """The same of the bytes of a file. What it writes stands in room/out."""
    shutil.rmtree(room / "out", ignore_errors=True)
    (room / "fault.data").write_bytes(data)
    return said_of(of, [*words, "--root", files.root, room / "fault.data", room / "out"])


def fault_of(of, files, fault, room):
    """Why perf_of does not say a fault, or None."""
    said = said_of_data(of, files, fault.data, room, fault.words)
    if said.status != fault.status:
        return f"status {said.status}, not {fault.status}: {said.lines}"
    if not any(re.fullmatch(f"perf_of: {fault.said}", line) for line in said.lines):
        return f"it does not say {fault.said}, but {said.lines}"
    if len(said.commands) != fault.commands:
        return f"{len(said.commands)} commands, not {fault.commands}"
    if fault.first and fault.first not in said.commands[0]:
        return f"{fault.first} is not in {said.commands[0]}"
    return None


def words_of_faults(room):
    """Words that have no meaning, or name what is not there."""
    file, out = room / "fault.data", room / "none"
    return [[], [file], [file, out, "more"], ["--pid", "x", file, out], ["--roo", "/", file, out], ["--root", file, file, out], [room / "gone", out],
            [room, out], [file, room], [file, room / "gone" / "out"]]


def check_faults(of, room):
    files = Files(room)
    told = list(faults(files))
    for fault in told:
        why = fault_of(of, files, fault, room)
        if why:
            raise Wrong(f"{fault.name}: {why}")
    (room / "fault.data").write_bytes(files.whole().file())
    wrong = words_of_faults(room)
    for words in wrong:
        said = said_of(of, words)
        if said.status != 2 or said.commands or not said.lines:
            raise Wrong(f"words {words}: {said}")
    return f"{len(told)} files, {len(wrong)} lists of words"


# ---- files that are changed ---------------------------------------------------------

EXTREMES = (b"\0" * 8, b"\xff" * 8, b"\xff" * 7 + b"\x7f", b"\x01" + b"\0" * 7, b"\0" * 7 + b"\x80", b"\xff\xff\xff\xff\0\0\0\0")


def change(rng, data):
    """A file of which some bytes are changed, left out, or doubled."""
    data = bytearray(data)
    for _ in range(rng.choice((1, 1, 1, 2, 4, 16))):
        at, size = rng.randrange(len(data)), rng.choice((1, 2, 4, 8, 8, 40))
        match rng.randrange(8):
            case 0 | 1 | 2:
                data[at] ^= 1 << rng.randrange(8)
            case 3:
                data[at] = rng.randrange(256)
            case 4 | 5:
                at = at // 8 * 8
                data[at:at + 8] = rng.choice(EXTREMES)
            case 6:
                del data[at:at + size]
            case 7:
                data[at:at] = data[at:at + size]
        if not data:
            break
    return bytes(data[:rng.randrange(len(data))] if rng.random() < 0.1 else data)


def bases(files, packed):
    """The files that are changed: above all one without a fault, piped and compressed too, and those of which a fault is told."""
    whole = files.whole(data=FRAMES + BARRIER + FRAMES)
    whole.add(Kind.FORK, struct.pack("<4IQ", OTHER, PROCESS, OTHER, PROCESS, 0))
    whole.map(OTHER, HERE + 64, 0x100, 0, "/other")
    whole.comm(OTHER, "other", is_exec=True)
    yield from [whole.file(), whole.piped(), packed(whole)] * 20
    yield from (fault.data for fault in faults(files) if 100 < len(fault.data) < 3000)


def is_of_programs(image, programs):
    """Whether the bytes of an image may stand where they do, and stand in the programs, open files by their names, where it says."""
    address, name, offset = None, None, 0
    for line in image.read_text().splitlines():
        if line.startswith("@"):
            address = int(line[1:], 16)
        elif line.startswith("#"):
            name, offset = re.fullmatch(r"# /(\w+), from byte (\d+) on", line).groups()
            offset = int(offset)
        else:
            code = bytes.fromhex(line)
            if address % 4 or len(code) % 4 or os.pread(programs[name], len(code), offset) != code:
                return False
            address, offset = address + len(code), offset + len(code)
    return True


def wrong_of(said, data, programs, room):
    """What is wrong in what perf_of did of a file, or None."""
    if said.status not in STATUSES or not all(line.startswith("perf_of: ") for line in said.lines):
        return f"status {said.status}, {said.lines}"
    if said.status and not said.lines or bool(said.commands) != (room / "out").exists():
        return f"status {said.status}, {len(said.commands)} commands, {said.lines}"
    if not said.commands:
        return None
    names = sorted(os.listdir(room / "out"))
    if len(names) != len(said.commands) + 1 or not all(re.fullmatch(r"\d{3,}\.(frames|raw)|image\.txt", name) for name in names):
        return f"it wrote {names}"
    for name in names[:-1]:
        if (room / "out" / name).read_bytes() not in data:
            return f"{name} has other bytes than the file"
    if not is_of_programs(room / "out" / "image.txt", programs):
        return "the image has other bytes than the programs"
    return None


def check_changed(of, packed, count, room, tried=lambda command: None):
    """perf_of ends as it may on so many files; some of its commands are tried."""
    files, rng, ended = Files(room), random.Random(SEED), [0] * 4
    whole = list(bases(files, packed))
    programs = {name: os.open(files.root / name, os.O_RDONLY) for name in ("program", "other", "large")}
    before = {*os.listdir(room), "out", "fault.data", "bin"}
    for number in range(count):
        data, began = change(rng, whole[number % len(whole)]), time.monotonic()
        said = said_of_data(of, files, data, room)
        why = wrong_of(said, data, programs, room)
        if not why and time.monotonic() - began > SECONDS:
            why = f"it takes {time.monotonic() - began:.0f} seconds"
        if not why and set(os.listdir(room)) - before:
            why = "it writes elsewhere"
        if not why and said.commands and number % 40 == 0:
            why = tried(said.commands[-1])
        if why:
            raise Wrong(f"changed file {number}: {why}")
        ended[said.status] += 1
    return f"{count} files, of which {ended[0]} are read, {ended[1]} have nothing to decode, and {ended[3]} are refused"
