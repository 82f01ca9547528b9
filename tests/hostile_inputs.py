#!/usr/bin/env python3
"""Runs a program on hostile inputs, a process for each, and looks at how each of them ends.

Usage: hostile_inputs.py PROGRAM [COUNT [WORKERS [MINUTES]]]
       hostile_inputs.py --keep NUMBER FOLDER

Streams, captures in frames, images, ELF files and run files are taken from the stored cases beside this script and from examples/, and are
changed: bits are flipped, parts cut, repeated, moved, joined with those of another or written over, and lines and words of texts
likewise, and fields and headers of ELF files. Others are packets in a row that mostly fit their image, captures that a formatter may write
of such streams, and run files that go on by some events and weaves more. Some captures are read as a ring, from any frame on, and some as a
trace port sends them, with synchronisation packets among the frames; of some traces the last frames alone are written, and some are written
as for a port. Each input comes of its number and a fixed seed, so it is the same whatever is run before it; --keep writes the one of a
number, with its words and its image, into a folder.

COUNT inputs are run, 40,000 where it is left out, of which every second one has an ELF file, by WORKERS processes, 4 where it is left out,
for so many MINUTES at most. Of each it is checked that the program

- ends by itself, within ten seconds;
- ends with a status that such an input may have: 0, 2 or 4 with `path`, 0 or 4 with `packets` and `times`, 0, 2 or 3 with `trace` and
  `retired`, and with `--elf` 9 in place of 2;
- writes nothing to standard error;
- takes no more than 64 MiB of memory, or than this script did, since the system tells no less; and no more than 256 MiB of addresses;
- prints lines of docs/FORMATS.md alone, in their order: those of streams, or of counts, then one for the end of each stream, by their IDs,
  then one for a frame that is cut; or the one line of a bad image, ELF file or run file; or whole frames, no more than were asked for, with
  synchronisation packets where they were asked for and nowhere else. What is printed fits the status; of `times` the numbers of a stream
  begin with 0 and grow, and each has another time than the one before, and the addresses of counts ascend.

Before them captures are run that hold as much as may be held: of all 111 IDs, each at the greatest depth by a list of settings, and as many
atoms of each as its queue has room for, or one more, by themselves or each behind an address. `path` reads them in 90 MiB of memory and 96 MiB of
addresses; in 82 MiB of addresses memory is refused, and nothing is printed. So does `times`, which has room for a timestamp beside each atom, in
90 MiB and 124 MiB, and in 110 MiB not.

Prints how many were run, how often each status came, and the most memory and time, and the most memory of the queues that are full.
Where one is answered otherwise it ends with 1 and standard error says which and how, and so it does where a status that may come never did.
"""
import collections
import itertools
import multiprocessing
import os
import pathlib
import random
import re
import resource
import signal
import sys
import tempfile
import time

import capture_cases
import elf_cases
import path_cases
import speculation_cases
import sync_cases
from packet_cases import SPELLINGS, SYNC
from run_stored_cases import cases_of

HERE = pathlib.Path(__file__).resolve().parent
EXAMPLES = HERE.parent / "examples"
SEED = "hostile inputs"
COUNT, WORKERS = 40_000, 4
AT_ONCE = 250  # inputs that a worker takes at a time
SECONDS = 10
MOST_MEMORY, MOST_ADDRESSES, MOST_OUTPUT = 64 << 10, 256 << 20, 256 << 20  # KiB, and bytes
MOST_INPUT, MOST_BESIDE_AN_IMAGE, MOST_IMAGE, MOST_PROGRAM = 8192, 1024, 4096, 1 << 16
MOST_FRAMES, MOST_EVERY = 65536, 65535  # that --wrap and --last tell, and --sync
DEEPEST = 16384
LIMITED = ["/bin/sh", "-c", 'ulimit -v "$0" && exec "$@"']  # a program with so many KiB of addresses
FRAME, DATA = 16, 14  # bytes of a frame, and those of a stream in one that has its ID in front
ENVIRONMENT = dict(os.environ)

DUE = {"path": (0, 2, 4), "packets": (0, 4), "times": (0, 4), "trace": (0, 2, 3), "retired": (0, 2, 3),
       "path --elf": (0, 4, 9), "trace --elf": (0, 3, 9), "retired --elf": (0, 3, 9)}

Stored = collections.namedtuple("Stored", "words image given")
Case = collections.namedtuple("Case", "words image given")
Ended = collections.namedtuple("Ended", "status out err memory seconds")


# ---- what is stored ----------------------------------------------------------

def stored_blocks(name):
    """The cases of a file that tests/run_stored_cases.py runs."""
    for case in cases_of((HERE / name).read_text()):
        yield Stored(case.words, case.image, case.given)


def stored_traces():
    """The run files of tests/cases_of_traces."""
    for block in (HERE / "cases_of_traces" / "cases.txt").read_text().split("\n\n"):
        texts = {key: "".join(line[len(key) + 1:] + "\n" for line in block.splitlines() if line.startswith(key + " "))
                 for key in ("image", "run")}
        if texts["run"]:
            yield Stored(["trace", "IMAGE"], texts["image"].encode(), texts["run"].encode())


def stored_folders():
    """The folders of tests/cases."""
    for folder in sorted((HERE / "cases").iterdir()):
        lines = (folder / "input.hex").read_text().splitlines()
        image = folder / "image.txt"
        words = ["IMAGE" if word == "image.txt" else word for word in (folder / "words").read_text().splitlines()]
        yield Stored(words, image.read_bytes() if image.exists() else b"", bytes.fromhex(" ".join(line.split("#")[0] for line in lines)))


def stored_examples():
    for name, words in (("first", ["path", "--raw", "--depth", "0"]), ("interrupt", ["path", "--raw", "--depth", "0"]),
                        ("speculation", ["path", "--raw"]), ("capture", ["path", "--depth", "0"])):
        folder = EXAMPLES / name
        yield Stored([*words, "IMAGE"], (folder / "image.txt").read_bytes(), (folder / "capture.bin").read_bytes())
    for name in ("run.txt", "interrupt.txt", "two_cores.txt", "two_units.txt"):
        yield Stored(["retired", "IMAGE"], (EXAMPLES / "run" / "image.txt").read_bytes(), (EXAMPLES / "run" / name).read_bytes())
    yield Stored(["path", "--elf", "--raw", "--depth", "0", "IMAGE"], (EXAMPLES / "elf" / "program").read_bytes(), SYNC)


class Corpus:
    """What is stored: streams, captures, run files and ELF files, each with the words and what else belongs to it."""

    def __init__(self):
        names = ["cases_of_packets/cases.txt", "cases_of_paths/cases.txt", "cases_of_speculation/cases.txt", "cases_of_captures/cases.txt",
                 "cases_of_opencsd/raw.txt", "cases_of_opencsd/framed.txt", "cases_of_opencsd/raw_at_targets.txt",
                 "cases_of_opencsd/framed_at_targets.txt", "cases_of_opencsd/framed_listed.txt", "cases_of_runs/cases.txt",
                 "cases_of_runs/worked.txt", "cases_of_syncs/cases.txt", "cases_of_elf/cases.txt", "cases_of_times/cases.txt"]
        every = [*stored_folders(), *stored_examples(), *stored_traces()]
        every += [case for name in names for case in stored_blocks(name)]
        self.programs = [case for case in every if "--elf" in case.words and 0 < len(case.image) <= MOST_PROGRAM]
        every = [case for case in every if 0 < len(case.given) <= MOST_INPUT and "--elf" not in case.words]
        self.runs = [case for case in every if case.words[0] in ("trace", "retired")]
        self.streams = [case for case in every if "--raw" in case.words]
        self.captures = [case for case in every if case.words[0] in ("path", "packets", "times") and "--raw" not in case.words]
        self.imaged = [case for case in every if 0 < len(case.image) <= MOST_IMAGE and len(case.given) <= MOST_BESIDE_AN_IMAGE]


# ---- bytes that are changed ----------------------------------------------------

def part(rng, given, most=64):
    """The place and the end of some part."""
    place = rng.randrange(len(given) + 1)
    return place, min(len(given), place + rng.choice([1, 1, 2, 3, rng.randrange(1, most)]))


def bits_flipped(rng, given, other):
    changed = bytearray(given)
    for _ in range(rng.choice([1, 1, 2, 8])):
        changed[rng.randrange(len(changed))] ^= 1 << rng.randrange(8)
    return bytes(changed)


def bytes_put(rng, given, other):
    place = rng.randrange(len(given) + 1)
    return given[:place] + rng.randbytes(rng.choice([1, 1, 2, 5, 30])) + given[place:]


def part_dropped(rng, given, other):
    place, end = part(rng, given)
    return given[:place] + given[end:]


def cut(rng, given, other):
    place = rng.randrange(len(given))
    return given[place:] if rng.random() < 0.3 else given[:place]


def part_repeated(rng, given, other):
    place, end = part(rng, given)
    return given[:end] + given[place:end] * rng.choice([1, 1, 2, 5, 40]) + given[end:]


def part_moved(rng, given, other):
    place, end = part(rng, given)
    rest = given[:place] + given[end:]
    there = rng.randrange(len(rest) + 1)
    return rest[:there] + given[place:end] + rest[there:]


def joined(rng, given, other):
    return given[:rng.randrange(len(given) + 1)] + other[rng.choice([0, rng.randrange(len(other))]):]


def part_of_another(rng, given, other):
    place, end = part(rng, other)
    there = rng.randrange(len(given) + 1)
    return given[:there] + other[place:end] + given[there:]


def written_over(rng, given, other):
    place, end = part(rng, given, 24)
    over = rng.choice([None, 0x00, 0x80, 0xFF, 0xF7, 0x7F])
    return given[:place] + (rng.randbytes(end - place) if over is None else bytes([over]) * (end - place)) + given[end:]


def packet_put(rng, given, other):
    place = rng.randrange(len(given) + 1)
    return given[:place] + rng.choice(SPELLINGS)(rng) + given[place:]


def any_bytes(rng, given, other):
    return rng.randbytes(rng.choice([1, 4, 16, 64, 300]))


CHANGES = [bits_flipped, bits_flipped, bits_flipped, bytes_put, part_dropped, cut, part_repeated, part_moved, joined, part_of_another,
           written_over, packet_put]


def changed(rng, given, other, changes=None):
    """Bytes that some changes are made to, one after the other."""
    for _ in range(rng.choice([1, 1, 1, 2, 4])):
        change = rng.choice(changes or CHANGES) if rng.random() > 0.01 else any_bytes
        given = change(rng, given or b"\x00", other or b"\x00")
    return given


# ---- texts that are changed ----------------------------------------------------

NUMBERS = ["0", "1", "2", "3", "15", "16", "31", "32", "70", "4096", "4097", "16383", "16384", "16385", "65535", "65536", "1048576",
           "1048577", "4294967295", "4294967296", "9999999999", "00000000001", "10000000000", "ffffffff", "100000000", "fffffffffffffffc", "ffffffffffffffff",
           "10000000000000000", "-1", "+1", "0x10", "1.5", "g", "ff", "01:1", "6f:1048576", "el3", "el4", "s", "ns"]
LINES = ["", "#", "@", "@0", "@2", "@1000", "@fffffffffffffffc", "@ffffffffffffffff", "@10000000000000000", "1f2003d5", "1f2003d", "10000054",
         "etm 1", "etm 2", "etm 3", "depth 0", "depth 4096", "depth 16384", "vmid 0", "cid 0", "stack 0", "stream 01", "stream 6f",
         "stream 70", "stream 02 depth 0", "stream 6e depth 16384 vmid 4 cid 0 stack 15", "stream 01 stack 16",
         "stream 01 depth 1 depth 1", "stream 01 cid", "on 1000 el0 s 0 0",
         "step", "step 65535", "taken", "not", "to 1000", "eret 1000 el1 ns 0 0", "exc 14 1000 el1 ns 0 0", "exc 31 fffffffffffffffc el3 s 0 0",
         "context el0 s 0 0", "retire 1", "cancel 1", "retire 65535", "cancel 65535", "flip", "sync", "overflow", "off", "weave 01:1", "\t \t",
         "weave 01:1 01:1048576"]
BYTES = [b"\x00", b"\xff", b"\xc3", b"\xed\xa0\x80", b"\r", b"\r\n", b"\n", b"\x0b", b"\xc2\xa0", b"\xef\xbb\xbf", b" ", b"\t", b"#"]


def line_dropped(rng, lines, other):
    place, end = part(rng, lines, 8)
    return lines[:place] + lines[end:]


def lines_repeated(rng, lines, other):
    place, end = part(rng, lines, 16)
    return lines[:end] + lines[place:end] * rng.choice([1, 1, 2, 8, 30]) + lines[end:]


def lines_moved(rng, lines, other):
    place, end = part(rng, lines, 8)
    rest = lines[:place] + lines[end:]
    there = rng.randrange(len(rest) + 1)
    return rest[:there] + lines[place:end] + rest[there:]


def lines_of_another(rng, lines, other):
    place, end = part(rng, other, 16)
    there = rng.randrange(len(lines) + 1)
    return lines[:there] + other[place:end] + lines[there:]


def line_put(rng, lines, other):
    there = rng.randrange(len(lines) + 1)
    return lines[:there] + [rng.choice(LINES).encode()] + lines[there:]


def word_changed(rng, lines, other):
    place = rng.randrange(len(lines))
    words = lines[place].split(b" ")
    words[rng.randrange(len(words))] = rng.choice(NUMBERS).encode()
    return lines[:place] + [b" ".join(words)] + lines[place + 1:]


def word_dropped_or_doubled(rng, lines, other):
    place = rng.randrange(len(lines))
    words = lines[place].split(b" ")
    chosen = rng.randrange(len(words))
    words[chosen:chosen + 1] = [words[chosen]] * rng.choice([0, 0, 2, 3])
    return lines[:place] + [b" ".join(words)] + lines[place + 1:]


def bytes_in_a_line(rng, lines, other):
    place = rng.randrange(len(lines))
    at = rng.randrange(len(lines[place]) + 1)
    return lines[:place] + [lines[place][:at] + rng.choice(BYTES) + lines[place][at:]] + lines[place + 1:]


LINE_CHANGES = [line_dropped, lines_repeated, lines_moved, lines_of_another, line_put, line_put, word_changed, word_changed, word_changed,
                word_dropped_or_doubled, bytes_in_a_line]
TEXT_BYTE_CHANGES = [bits_flipped, bytes_put, part_dropped, cut, part_repeated, written_over]


def changed_text(rng, text, other):
    """A text that some changes are made to, mostly by lines."""
    if rng.random() < 0.2:
        return changed(rng, text, other, TEXT_BYTE_CHANGES)
    lines, others = text.split(b"\n"), other.split(b"\n")
    for _ in range(rng.choice([1, 1, 1, 2, 4])):
        lines = rng.choice(LINE_CHANGES)(rng, lines or [b""], others)
    return b"\n".join(lines)


# ---- ELF files that are changed ----------------------------------------------------

# places and sizes in bytes of the fields of a file's header and of the header of a segment
FILE_FIELDS = [(0, 4), (4, 1), (5, 1), (16, 2), (18, 2), (24, 8), (32, 8), (40, 8), (52, 2), (54, 2), (56, 2), (56, 2)]
SEGMENT_FIELDS = [(0, 4), (4, 4), (8, 8), (8, 8), (16, 8), (16, 8), (24, 8), (32, 8), (32, 8), (40, 8), (48, 8)]
FEW_HEADERS, MANY_HEADERS = 8, 600


def number_at(file, at, size):
    return int.from_bytes(file[at:at + size], "little")


def put_number(file, at, size, number):
    """The file with a number at a place, where it has that place."""
    if at + size > len(file):
        return file
    return file[:at] + (number % (1 << 8 * size)).to_bytes(size, "little") + file[at + size:]


def headers_of(file):
    """The places of the headers of segments, of few of them."""
    table, count = number_at(file, 32, 8), number_at(file, 56, 2)
    return [table + elf_cases.HEADER.size * number for number in range(min(count, FEW_HEADERS))]


def any_number(rng, file):
    near = rng.choice([0, 4, 16, 56, 64, len(file), 0x1000, 1 << 16, 1 << 24, 1 << 28, 1 << 32, 1 << 63, 1 << 64])
    return near + rng.choice([0, 0, -1, 1, -4, 4, -8, 2, -56, rng.randrange(-64, 64)])


def field_changed(rng, file, other):
    """A field with another number, one near the one that it has, or one of another field."""
    headers = headers_of(file)
    here, (at, size) = (0, rng.choice(FILE_FIELDS)) if not headers or rng.random() < 0.25 else (rng.choice(headers), rng.choice(SEGMENT_FIELDS))
    there, (from_at, _) = (rng.choice(headers), rng.choice(SEGMENT_FIELDS)) if headers else (0, (32, 8))
    found = number_at(file, here + at, size)
    return put_number(file, here + at, size, rng.choice([any_number(rng, file), any_number(rng, file), found + rng.choice([1, -1, 2, 4, -4, 16]),
                                                         found ^ 1 << rng.randrange(8 * size), number_at(file, there + from_at, size)]))


def header_moved(rng, file, other):
    """A header in the place of another, or the two the other way round."""
    headers = headers_of(file)
    if not headers or headers[-1] + elf_cases.HEADER.size > len(file):
        return field_changed(rng, file, other)
    (one, two), size = rng.choices(headers, k=2), elf_cases.HEADER.size
    first, second = file[one:one + size], file[two:two + size]
    changed_file = file[:two] + first + file[two + size:]
    return changed_file[:one] + second + changed_file[one + size:] if rng.random() < 0.5 else changed_file


def headers_added(rng, file, other):
    """More headers like those that are there, mostly at other addresses, in a table behind the file."""
    size, headers = elf_cases.HEADER.size, headers_of(file)
    table = [file[at:at + size] for at in headers if at + size <= len(file)]
    if not table:
        return field_changed(rng, file, other)
    step = rng.choice([0, 4, 16, 0x1000, 1 << 20])
    more = [put_number(rng.choice(table), 16, 8, number_at(table[0], 16, 8) + step * number) for number in range(1, rng.choice([2, 5, 80, MANY_HEADERS]))]
    file = put_number(put_number(file, 32, 8, len(file)), 56, 2, len(table) + len(more))
    return file + b"".join(table + more)


PROGRAM_CHANGES = [field_changed] * 10 + [header_moved] * 2 + [headers_added, bits_flipped, bytes_put, part_dropped, cut, part_repeated,
                                                               part_moved, joined, part_of_another, written_over]


# ---- run files that go on ----

PLAIN_EVENTS = (b"step", b"taken", b"not", b"to", b"eret", b"exc", b"flip", b"retire", b"cancel", b"context", b"sync", b"on")
BEHIND_AN_EVENT = ["sync", "sync", "# more", "", "flip", "off", "overflow", "exc 14 8000 el1 s 0 0", "cancel 1"]


def event_put(rng, lines):
    """An event behind another one; mostly it may come there."""
    places = [place for place, line in enumerate(lines) if line.split()[:1] and line.split()[0] in PLAIN_EVENTS]
    place = rng.choice(places) + 1 if places else len(lines)
    return lines[:place] + [rng.choice(BEHIND_AN_EVENT).encode()] + lines[place:]


def weaves_put(rng, lines):
    ids = [line.split()[1] for line in lines if line.startswith(b"stream ") and line.count(b" ") == 1] or [b"01"]
    words = [b"%b:%d" % (rng.choice(ids), rng.choice([1, 1, 2, 7, 30, 1 << 20])) for _ in range(rng.choice([1, 2, 10, 100]))]
    return [*lines, b"weave " + b" ".join(words)]


def setting_put(rng, lines):
    depth = rng.choice([0, 1, 4, 64, 4096, 16384])
    name, number = rng.choice([(b"stack", rng.randrange(17)), (b"depth", depth), (b"vmid", 4), (b"cid", 0)])
    return lines[:1] + [b"%b %d" % (name, number)] + [line for line in lines[1:] if not line.startswith(name)]


def own_settings_put(rng, lines):
    """Settings behind the IDs of some streams; mostly they may stand there."""
    numbers = {b"depth": [0, 1, 4, 16384, 16384, 16385], b"vmid": [0, 1, 4, 3], b"cid": [0, 4, 4], b"stack": [0, 1, 15]}
    def own(line):
        names = rng.sample(sorted(numbers), rng.choice([0, 1, 1, 2, 4]))
        return b" ".join([line, *(b"%b %d" % (name, rng.choice(numbers[name])) for name in names)])
    headed = [b"etm 2" if line == b"etm 1" else line for line in lines]
    return [own(line) if line.startswith(b"stream ") and line.count(b" ") == 1 else line for line in headed]


def going_on(rng, text):
    """A run file with some lines more, which mostly stays one."""
    lines = text.rstrip(b"\n").split(b"\n")
    for _ in range(rng.choice([1, 1, 2, 5])):
        lines = rng.choice([event_put, event_put, event_put, weaves_put, setting_put, own_settings_put])(rng, lines)
    return b"\n".join(lines) + b"\n"


# ---- packets in a row ------------------------------------------------------------

def sizes_of(rng):
    return speculation_cases.Sizes(rng.choice([0, 0, 1, 2, 4, 16, 64, 16384]), rng.choice([0, 1, 1, 2, 4]), rng.choice([0, 4, 4]))


def sequence(rng, places, sizes):
    """Packets that mostly fit: branches of the image, what may be held, and seldom something else."""
    given, held = speculation_cases.begun(rng, places, sizes), 0
    for _ in range(rng.choice([1, 5, 20, 60])):
        given += speculation_cases.packet(rng, places, sizes, held)
        held = max(0, min(sizes.depth, held + rng.choice([-1, 0, 1, 1])))
    return changed(rng, given, SYNC) if rng.random() < 0.5 else given


def program(rng):
    """The text of an image, and the places in it."""
    parts = speculation_cases.loop(rng) if rng.random() < 0.3 else path_cases.program(rng)
    text = "".join(line + "\n" for line in path_cases.image_lines(rng, parts))
    return text.encode(), path_cases.places_of(parts)


def framed(rng, streams):
    """Frames that a formatter may write of streams, each with its ID."""
    return capture_cases.framed_freely(rng, capture_cases.woven(rng, streams))


# ---- inputs ----------------------------------------------------------------------

def listed(rng, layout=()):
    """The sizes of single IDs, of few or of all. The one of a stream without frames is among them."""
    ids = rng.sample(range(1, 0x70), rng.choice([1, 2, 5, 111]))
    ids = ids if not layout or 1 in ids else [*ids[1:], 1]
    return ",".join("%02x:%d:%d:%d" % (source, *sizes_of(rng)) for source in ids)


def options_of(rng, words, layout=()):
    """The sizes that the words tell, or any, and at times those of single IDs."""
    options = [word for word in words[1:] if word not in ("--raw", "--count", "IMAGE")]
    if rng.random() < 0.2:
        sizes = sizes_of(rng)
        options = ["--depth", f"{sizes.depth}", "--vmid", f"{sizes.vmid}", "--cid", f"{sizes.cid}"]
    if rng.random() < 0.2 and not any(word.startswith("--settings") for word in options):
        options += ["--settings", listed(rng, layout)]
    return options


def oldest_told(rng, options):
    """The options, and at times the place of the oldest frame, if none is told."""
    if rng.random() < 0.8 or any(word.startswith(("--wrap", "--sync")) for word in options):
        return options
    return [*options, "--wrap", str(rng.choice([0, 1, 2, 3, 5, 8, rng.randrange(64), MOST_FRAMES]))]


def without_depth(options):
    return [word for place, word in enumerate(options)
            if not word.startswith("--depth") and (place == 0 or options[place - 1] != "--depth")]


def words_of(rng, layout, options):
    kind = rng.random()
    if kind < 0.3:
        return ["packets", *layout, *without_depth(options)]
    if kind < 0.5 and not any(word.startswith(("--wrap", "--sync")) for word in [*layout, *options]):
        return ["times", *layout, *options]
    return ["path", *layout, *options, *["--count"] * (kind > 0.8), "IMAGE"]


def of_streams(rng, corpus):
    chosen, other = rng.choice(corpus.streams), rng.choice(corpus.streams)
    image = chosen.image or rng.choice(corpus.imaged).image
    return Case(words_of(rng, ["--raw"], options_of(rng, chosen.words, ["--raw"])), image, changed(rng, chosen.given, other.given))


def of_captures(rng, corpus):
    chosen, other = rng.choice(corpus.captures), rng.choice(corpus.captures)
    image = chosen.image or rng.choice(corpus.imaged).image
    options = oldest_told(rng, options_of(rng, chosen.words))
    return Case(words_of(rng, [], options), image, changed(rng, chosen.given, other.given))


def of_ports(rng, corpus):
    """A capture as a port sends it, or one that was sent and stored."""
    chosen, other = rng.choice(corpus.captures), rng.choice(corpus.captures)
    image, options = chosen.image or rng.choice(corpus.imaged).image, options_of(rng, chosen.words)
    options = [word for place, word in enumerate(options)
               if word != "--sync" and not word.startswith("--wrap") and (place == 0 or options[place - 1] != "--wrap")]
    given = chosen.given
    if "--sync" not in chosen.words:
        given = sync_cases.junk(rng, given) + sync_cases.FULL + sync_cases.sprinkled(rng, given)
    if rng.random() < 0.3:
        given = sync_cases.misplaced(rng, given)
    elif rng.random() < 0.7:
        given = changed(rng, given, other.given)
    return Case(words_of(rng, ["--sync"], options), image, given)


def of_sequences(rng, corpus):
    sizes = sizes_of(rng)
    options = ["--depth", f"{sizes.depth}", "--vmid", f"{sizes.vmid}", "--cid", f"{sizes.cid}"]
    image, places = program(rng)
    if rng.random() < 0.5:
        return Case(words_of(rng, ["--raw"], options), image, sequence(rng, places, sizes))
    ids = rng.sample(range(1, 0x70), rng.choice([1, 2, 3, 6, 111] if rng.random() < 0.02 else [1, 2, 3]))
    frames = framed(rng, [(source, sequence(rng, places, sizes)) for source in ids])
    given = changed(rng, frames, frames) if rng.random() < 0.3 else frames
    return Case(words_of(rng, [], oldest_told(rng, options)), image, given)


def of_images(rng, corpus):
    chosen, other = rng.choice(corpus.imaged), rng.choice(corpus.imaged)
    words = [word for word in chosen.words if word != "IMAGE"]
    if words[0] in ("packets", "times"):
        words = ["path", *words[1:]]
    elif words[0] in ("trace", "retired"):
        words = [rng.choice(["trace", "retired"])]
    return Case([*words, "IMAGE"], changed_text(rng, chosen.image, other.image)[:MOST_IMAGE], chosen.given)


def of_run_files(rng, corpus):
    chosen, other = rng.choice(corpus.runs), rng.choice(corpus.runs)
    given = going_on(rng, chosen.given) if rng.random() < 0.5 else changed_text(rng, chosen.given, other.given)
    last = ["--last", str(rng.choice([1, 2, 3, rng.randrange(1, 64), MOST_FRAMES]))]
    sync = ["--sync", str(rng.choice([1, 1, 2, 3, rng.randrange(1, 64), MOST_EVERY]))]
    words = rng.choice([["retired"], ["retired"], ["trace"], ["trace", *last], ["trace", *sync], ["trace", *sync, *last]])
    return Case([*words, "IMAGE"], chosen.image, given)


def of_programs(rng, corpus):
    chosen, other = rng.choice(corpus.programs), rng.choice(corpus.programs)
    return Case(chosen.words, changed(rng, chosen.image, other.image, PROGRAM_CHANGES)[:MOST_PROGRAM], chosen.given)


KINDS = {"streams": of_streams, "captures": of_captures, "ports": of_ports, "sequences": of_sequences, "images": of_images,
         "run files": of_run_files}


def case_of(number, corpus):
    """The input of a number."""
    rng = random.Random(f"{SEED} {number}")
    case = of_programs(rng, corpus) if number % 2 else list(KINDS.values())[number // 2 % len(KINDS)](rng, corpus)
    return case._replace(given=case.given[:MOST_INPUT])


# ---- how the program ends ----------------------------------------------------------

class Room:
    """Files for the input, the image and what is written, and the program over them."""

    def __init__(self, program, folder):
        self.program, self.image = program, os.path.join(folder, "image")
        self.given, self.out, self.err = (os.path.join(folder, name) for name in ("given", "out", "err"))
        written = os.O_WRONLY | os.O_CREAT | os.O_TRUNC
        self.files = [(os.POSIX_SPAWN_OPEN, 0, self.given, os.O_RDONLY, 0), (os.POSIX_SPAWN_OPEN, 1, self.out, written, 0o600),
                      (os.POSIX_SPAWN_OPEN, 2, self.err, written, 0o600)]

    def run(self, case, before=()):
        """Runs the program over a case, with some words before its own."""
        for name, content in ((self.image, case.image), (self.given, case.given)):
            with open(name, "wb", buffering=0) as file:
                file.write(content)
        words = [self.image if word == "IMAGE" else word for word in case.words]
        begun = time.monotonic()
        status, memory = self.ended([*before, self.program, *words])
        seconds = time.monotonic() - begun
        return Ended(status, self.content(self.out), self.content(self.err), memory, seconds)

    def ended(self, words):
        """The status, less than 0 for a signal and None where the time is over, and the most memory in KiB."""
        child = os.posix_spawn(words[0], words, ENVIRONMENT, file_actions=self.files, setsigdef=[signal.SIGPIPE, signal.SIGXFSZ])
        signal.setitimer(signal.ITIMER_REAL, SECONDS)
        try:
            _, status, used = os.wait4(child, 0)
        except TimeoutError:
            os.kill(child, signal.SIGKILL)
            os.wait4(child, 0)
            return None, 0
        finally:
            signal.setitimer(signal.ITIMER_REAL, 0)
        return os.waitstatus_to_exitcode(status), used.ru_maxrss

    @staticmethod
    def content(name):
        with open(name, "rb", buffering=0) as file:
            return file.read()


# ---- what is printed -----------------------------------------------------------------

ID, HEX, DECIMAL, BYTE = b"(?:0[1-9a-f]|[1-6][0-9a-f])", b"(?:0|[1-9a-f][0-9a-f]{0,15})", b"(?:0|[1-9][0-9]*)", b"[0-9a-f]{2}"
SHORT = b"(?:0|[1-9a-f][0-9a-f]{0,7})"
CONTEXT = b"ctx el[0-3] n?s %b %b" % (SHORT, SHORT)
TOLD_CONTEXT = b"ctx el[0-3] n?s (?:-|%b) (?:-|%b)" % (SHORT, SHORT)
EXCEPTION = (b"exc (?:reset|debug-halt|call|trap|system-error|inst-debug|data-debug|alignment|inst-fault|data-fault|irq|fiq"
             b"|[589]|13|1[6-9]|2[0-9]|3[01]) %b" % HEX)
TIME = b"(?:event (?:[1-9]|1[0-5])|p0 %b) (?:-|%b)" % (DECIMAL, DECIMAL)
ITEM = b"(?:on|gap|stop|\\?|%b|%b|%b)" % (HEX, CONTEXT, EXCEPTION)
FEW = b"(?:-|E|EE|N)"
FORM = b"(?:match [0-2]|(?:short1|short2|long32|long64) %b)" % HEX
PACKET = b"%b (?:%b)" % (DECIMAL, b"|".join([
    b"async|discard|overflow|on|ignore", b"info (?:-|0)(?: -| %b){3}" % DECIMAL, b"event [1-9][0-9]?", b"time [1-9][0-9]? %b" % DECIMAL,
    b"exc %b(?: target)?" % DECIMAL, b"commit %b" % DECIMAL, b"cancel %b(?: mispredict)?" % DECIMAL, b"(?:mispredict|cancel2) " + FEW, b"cancel3 [-E] [2-5]",
    b"ctx same", TOLD_CONTEXT, b"addr %b(?: %b)?" % (FORM, TOLD_CONTEXT), b"atoms [EN]{1,24}"]))
PACKET_REASON = b"|".join([
    b"(?:reserved|extension|info-control|exception-two-byte|exception-form|aarch32-context) " + BYTE, b"broken-sync", b"number-too-long",
    b"refused (?:cycle-count|time-cycle|data-sync|conditional|q|m-profile|aarch32-address) " + BYTE, b"info-mode [1-9][0-9]*"])
TIMES_REASON = b"|".join([
    PACKET_REASON, b"address-awaited", b"(?:commit-overrun|cancel-overrun|spec-too-deep) %b %b" % (DECIMAL, DECIMAL), b"no-atom %b" % DECIMAL])
PATH_REASON = b"|".join([TIMES_REASON, b"(?:no-code|odd|bad-atom) %b" % HEX, b"(?:address-mismatch|return-missed) %b %b" % (HEX, HEX)])
RUN_REASON = b"|".join([
    b"header|syntax|id-range|duplicate-id|range|too-long|not-on|already-on|no-branch|context-place|window-full",
    b"(?:wrong-kind|no-code|odd|unaligned) %b" % HEX, b"(?:too-deep|retire-too-many|cancel-too-many) %b %b" % (DECIMAL, DECIMAL)])


ADDRESS_COUNT = b"(?:(?:at|taken) %b|to %b %b) [1-9][0-9]*" % (HEX, HEX, HEX)
OTHER_COUNT = b"(?:to more|on|\\?|gap|stop|exc [a-z0-9-]+) [1-9][0-9]*"


def printed_text(body, reason):
    """What is printed before the lines of the ends of streams, these, and that of a frame that is cut."""
    end = b"(?:end|cut (?:[1-9]|1[0-9]|2[01])|nosync|fault %b (?:%b))" % (DECIMAL, reason)
    return re.compile(b"(?P<body>%b)(?P<ends>(?:%b %b\n)*)(?:frame cut (?P<cut>[0-9]+)\n)?" % (body, ID, end))


def streams_text(line, reason):
    """Lines of streams, and those of their ends."""
    return printed_text(b"(?:%b %b\n)*" % (ID, line), reason)


PRINTED = {"path": streams_text(ITEM, PATH_REASON), "packets": streams_text(PACKET, PACKET_REASON), "times": streams_text(TIME, TIMES_REASON),
           "counts": printed_text(b"(?:%b\n)*(?:%b\n)*" % (ADDRESS_COUNT, OTHER_COUNT), PATH_REASON)}
RETIRED = re.compile(b"(?:%b (?:on|gap|stop|%b|%b|%b)\n)*" % (ID, HEX, CONTEXT, EXCEPTION))
REFUSED = {2: re.compile(b"image line %b: (?:syntax|unaligned|overlap|wraps|too-large|too-long)\n" % DECIMAL),
           3: re.compile(b"bench line %b: (?:%b)\n" % (DECIMAL, RUN_REASON)),
           9: re.compile(b"elf: (?:too-long|header|table|(?:segment|unaligned|wraps|overlap) %b|too-large)\n" % DECIMAL)}


def ids_of(lines):
    return [line[:2] for line in lines.splitlines()]


def kind_of(case):
    """The command, and whether it has an ELF file: what is due goes by both."""
    return case.words[0] + " --elf" * ("--elf" in case.words)


def left_over(case):
    """How many bytes of a frame the input ends with."""
    if "--raw" in case.words:
        return 0
    return len(sync_cases.unsynced(case.given) if "--sync" in case.words else case.given) % FRAME


def wrong_streams(case, ended):
    """What is wrong with the lines of streams, or with those of counts."""
    is_counted = "--count" in case.words
    found = PRINTED["counts" if is_counted else case.words[0]].fullmatch(ended.out)
    if found is None:
        return "lines of no form"
    if is_counted and has_wrong_counts(found["body"]):
        return "counts without order, or of more branches that went somewhere than were executed"
    ends = ids_of(found["ends"])
    if ends != sorted(set(ends)) or not (is_counted or set(ids_of(found["body"])) <= set(ends)):
        return "the streams do not end once each, by their IDs"
    is_raw = "--raw" in case.words
    if is_raw and ends != ([b"01"] if case.given else []):
        return "one stream that is not framed does not end as one"
    if int(found["cut"] or 0) != left_over(case):
        return "the line of a frame that is cut"
    if case.words[0] == "times" and has_wrong_numbers(found["body"]):
        return "numbers of P0 elements, or their times"
    is_faulty = found["cut"] is not None or b" fault " in found["ends"]
    return None if is_faulty == (ended.status == 4) else "lines that do not fit the status"


def has_wrong_counts(body):
    """Whether the addresses do not ascend, or a branch was taken, or went somewhere, more often than it was executed."""
    left, last = 0, -1
    for key, address, *_, number in (line.split() for line in body.splitlines() if line.startswith((b"at ", b"taken ", b"to "))):
        if address == b"more":
            continue
        place, left = int(address, 16), int(number) if key == b"at" else left - int(number)
        if left < 0 or (place <= last if key == b"at" else place != last):
            return True
        last = place
    return False


def has_wrong_numbers(body):
    """Whether the numbers of a stream do not grow from 0 on, or one has the time of the one before."""
    last = {}
    for source, kind, number, stamp in (line.split() for line in body.splitlines()):
        if kind == b"p0":
            number_before, stamp_before = last.get(source, (-1, None))
            if int(number) <= number_before or number_before < 0 < int(number) or stamp == stamp_before:
                return True
            last[source] = int(number), stamp
    return False


def value_of(words, option):
    """The number that the words tell of an option, or None."""
    for word, after in zip(words, [*words[1:], ""]):
        name, _, value = word.partition("=")
        if name == option:
            return int(value or after)
    return None


def wrong_frames(case, ended):
    """What is wrong with the frames of a trace."""
    every, last = value_of(case.words, "--sync"), value_of(case.words, "--last")
    frames = sync_cases.unsynced(ended.out) if every else ended.out
    if len(frames) % FRAME or (every and sync_cases.synced(frames, every) != ended.out):
        return "no whole frames, or other packets among them"
    if not sync_cases.without_packets(frames):
        return "a byte of a frame that begins a packet"
    return "more frames than the last that are asked for" if last and len(frames) > FRAME * last else None


def wrong_output(case, ended):
    """What is wrong with what was printed."""
    if ended.status in REFUSED:
        return None if REFUSED[ended.status].fullmatch(ended.out) else "no line of a refusal"
    if case.words[0] == "retired":
        return None if RETIRED.fullmatch(ended.out) else "lines of no form"
    if case.words[0] == "trace":
        return wrong_frames(case, ended)
    return wrong_streams(case, ended)


def complaint(case, ended):
    """What is wrong with an answer, or None."""
    if ended.status is None:
        return f"it does not end within {SECONDS} seconds"
    if ended.status < 0:
        return f"signal {-ended.status}"
    if ended.status not in DUE[kind_of(case)]:
        return f"status {ended.status}"
    if ended.err:
        return f"standard error has {ended.err[:80]!r}"
    if ended.memory > max(MOST_MEMORY, resource.getrusage(resource.RUSAGE_SELF).ru_maxrss):
        return f"{ended.memory >> 10} MiB of memory"
    wrong = wrong_output(case, ended)
    return wrong and f"{wrong}: {ended.out[-200:]!r}"


# ---- queues that are full --------------------------------------------------------------------

LOOP = b"@1000\n1f2003d5 40000054 1f2003d5 fdffff17\n"  # NOP, B.EQ to 100c, NOP, B to 1000
LOOPED = ["on", "ctx el0 s 0 0", "1000", "1004"]  # what the oldest atom shows
IDS = range(1, 0x70)

# what a command takes, in KiB: its memory, the addresses in which it ends well, and those in which it does not
Takes = collections.namedtuple("Takes", "memory addresses few")
BEGUN = SYNC + bytes.fromhex("010100 04 85 00080000 00000000 10")
# as many atoms as are held, in rows and how often each comes: by themselves, and each with an address before it
HELD = [[(b"\xd4" * DATA, 48), (b"\xd4" * 10 + b"\xcc", 1)],
        [(b"\x95\x00\xf7" * DATA, DEEPEST // DATA), (b"\x95\x00\xf7" * (DEEPEST % DATA), 1)]]
FULL = {"path": Takes(90 << 10, 96 << 10, 82 << 10), "times": Takes(90 << 10, 124 << 10, 110 << 10)}


def whole_rows(packets):
    """The same, behind ignore packets that make their bytes a multiple of those of a frame."""
    return b"\x70" * (-len(packets) % DATA) + packets


def framed_alone(source, packets):
    """The frames of whole rows of bytes of one stream, each with its ID in front."""
    frames = bytearray()
    for at in range(0, len(packets), DATA):
        row = bytes([source << 1 | 1]) + packets[at:at + DATA]
        low_bits = sum((row[place] & 1) << place // 2 for place in range(2, FRAME, 2))
        frames += bytes(byte & 0xFE if place and place % 2 == 0 else byte for place, byte in enumerate(row)) + bytes([low_bits])
    return bytes(frames)


def full_stream(source, held, more):
    """The frames of a stream with as many atoms as a queue holds at the greatest depth, and some more, each of which commits the oldest."""
    packets = [(BEGUN, 1), *held, (b"\xf7" * more, 1)]
    return b"".join(framed_alone(source, whole_rows(row)) * count for row, count in packets)


def full_case(command, held, more):
    """A capture of such a stream for each ID, and what must be printed."""
    settings = ",".join(f"{source:02x}:{DEEPEST}:0:0" for source in IDS)
    items = (LOOPED if command == "path" else ["p0 0 -"]) * more
    shown = [f"{source:02x} {item}" for source in IDS for item in items] + [f"{source:02x} end" for source in IDS]
    frames = b"".join(full_stream(source, held, more) for source in IDS)
    return Case([command, "--settings", settings, *["IMAGE"] * (command == "path")], LOOP, frames), "".join(line + "\n" for line in shown).encode()


def full_queues(room, command):
    """The most memory in KiB that a command takes, and what is wrong, or None."""
    most, takes = 0, FULL[command]
    for held, more in itertools.product(HELD, (0, 1)):
        case, wanted = full_case(command, held, more)
        for addresses, status, printed in ((takes.addresses, 0, wanted), (takes.few, 7, b"")):
            ended = room.run(case, [*LIMITED, str(addresses)])
            most = max(most, ended.memory)
            if (ended.status, ended.out, ended.err) != (status, printed, b""):
                return most, f"{command} in {addresses >> 10} MiB of addresses: status {ended.status}, not {status}, or {ended.out[-80:]!r}"
    most_due = max(takes.memory, resource.getrusage(resource.RUSAGE_SELF).ru_maxrss)
    return most, f"{command} in {most >> 10} MiB of memory" if most > most_due else None


# ---- many of them ----------------------------------------------------------------------

Tally = collections.namedtuple("Tally", "ran statuses memory seconds complaints")
worker = None


class Worker:
    def __init__(self, program, deadline, corpus):
        shared = "/dev/shm"
        self.folder = tempfile.TemporaryDirectory(dir=shared if os.access(shared, os.W_OK) else None)
        self.room, self.deadline, self.corpus = Room(program, self.folder.name), deadline, corpus

    def run(self, numbers):
        """Runs the inputs of these numbers, up to the first that is answered wrongly, or the end of the time."""
        statuses, memory, seconds, ran = collections.Counter(), 0, 0.0, 0
        for number in numbers:
            if time.time() > self.deadline:
                break
            case = case_of(number, self.corpus)
            ended = self.room.run(case)
            wrong = complaint(case, ended)
            if wrong:
                return Tally(ran, statuses, memory, seconds, [f"input {number}, {' '.join(case.words)}: {wrong}"])
            statuses[kind_of(case), ended.status] += 1
            memory, seconds, ran = max(memory, ended.memory), max(seconds, ended.seconds), ran + 1
        return Tally(ran, statuses, memory, seconds, [])


def begin(program, deadline, corpus):
    """Begins a worker. The program has its limits too."""
    global worker

    def late(number, frame):
        raise TimeoutError
    signal.signal(signal.SIGALRM, late)
    resource.setrlimit(resource.RLIMIT_AS, (MOST_ADDRESSES, MOST_ADDRESSES))
    resource.setrlimit(resource.RLIMIT_FSIZE, (MOST_OUTPUT, MOST_OUTPUT))
    worker = Worker(program, deadline, corpus)


def work(numbers):
    return worker.run(numbers)


def work_full(command):
    return full_queues(worker.room, command)


def run_all(program, count, workers, deadline):
    """The sum of all tallies, up to the first that complains, and by each command the most memory of queues that are full, in KiB."""
    chunks, full = [range(first, min(first + AT_ONCE, count)) for first in range(0, count, AT_ONCE)], {}
    total = Tally(0, collections.Counter(), 0, 0.0, [])
    with multiprocessing.get_context("fork").Pool(workers, begin, (program, deadline, Corpus())) as pool:
        for command in FULL:
            full[command], wrong = pool.apply(work_full, [command])
            if wrong:
                return total._replace(complaints=[f"queues that are full: {wrong}"]), full
        for tally in pool.imap_unordered(work, chunks):
            total = Tally(total.ran + tally.ran, total.statuses + tally.statuses, max(total.memory, tally.memory),
                          max(total.seconds, tally.seconds), tally.complaints)
            if total.complaints:
                break
    return total, full


def keep(number, folder):
    """Writes an input, its words and its image into a folder."""
    case, folder = case_of(number, Corpus()), pathlib.Path(folder)
    folder.mkdir(exist_ok=True)
    (folder / "words").write_text("\n".join(case.words) + "\n")
    (folder / "IMAGE").write_bytes(case.image)
    (folder / "given").write_bytes(case.given)


def main(words):
    if len(words) == 3 and words[0] == "--keep":
        return keep(int(words[1]), words[2])
    if not 1 <= len(words) <= 4:
        sys.exit(__doc__)
    numbers = [float(word) for word in words[1:]]
    count, workers, minutes = (numbers + [COUNT, WORKERS, 24 * 60][len(numbers):])
    total, full = run_all(os.path.abspath(words[0]), int(count), int(workers), time.time() + 60 * minutes)
    missing = [f"{command} with status {status}" for command, due in DUE.items() for status in due if not total.statuses[command, status]]
    if total.complaints or missing:
        sys.exit(total.complaints[0] if total.complaints else f"of {total.ran} inputs none was answered by {', '.join(missing)}")
    statuses = ", ".join(f"{command} " + " ".join(f"{total.statuses[command, status]}x{status}" for status in due) for command, due in DUE.items())
    queues = ", ".join(f"{command} in {memory >> 10} MiB" for command, memory in full.items())
    print(f"{total.ran}: {statuses}; at most {total.memory >> 10} MiB and {total.seconds:.2f} s; full queues: {queues}")


if __name__ == "__main__":
    main(sys.argv[1:])
