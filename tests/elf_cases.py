#!/usr/bin/env python3
"""Makes tests/cases_of_elf/cases.txt: ELF files, and what `etm path --elf`, `etm retired --elf` and `etm trace --elf` must print with them.

Usage: elf_cases.py MODEL_DIR

MODEL_DIR is as for tests/packet_cases.py. The first cases were worked out by hand: a file of one or two segments with some bytes changed;
what the model says of them must be what is written down here. Those behind them have the programs of tests/capture_cases.py and
tests/run_cases.py, put into files here by the ELF specification and with a fixed seed: the parts of a program in any order, in the file
and in its table, with headers of other segments among them, with bytes behind the last whole word, and with anything in the fields that
are passed over. In the last files something is wrong, or two things are. The answers come from the model alone; of a file that is
accepted it is what the text of the image gives.

The file has the form of that of tests/sync_cases.py, with the bytes of the ELF file in lines `program`, as in lines `input`.
"""
import collections
import pathlib
import random
import re
import struct
import sys

import capture_cases
import path_cases
import run_cases
from capture_cases import FRAME, LAST_SOURCE, input_lines, stream_of
from reference_model import answered, loaded
from speculation_cases import loop
from sync_cases import FULL, block, frames_lines, inputs, shown, sprinkled, text_of

TOP = pathlib.Path(__file__).resolve().parent.parent
OUT = TOP / "tests" / "cases_of_elf" / "cases.txt"
SEED = 20261130
PATHS, RUNS, WRONG = 90, 40, 120
MOST_LINES = 120
SPACE = 1 << 64
MOST_PARTS = 64

HEAD = """\
# Made by tests/elf_cases.py; tests/sync_cases.py says what the lines of a block are.
"""

# ---- files -------------------------------------------------------------------

IDENT, AARCH64, X86_64 = b"\x7fELF\x02\x01", 183, 62
FILE_HEADER, HEADER = struct.Struct("<6s10sHHIQQQIHHHHHH"), struct.Struct("<IIQQQQQQ")
EXECUTABLE, WRITABLE, READABLE = 1, 2, 4
# kinds of segments: those that are loaded, and others
LOADED, OTHERS = 1, (0, 2, 3, 4, 6, 7, 0x6474E550, 0x6474E551, 0x6474E552, 0x70000001)

Header = collections.namedtuple("Header", "kind flags offset vaddr paddr filesz memsz align")
Fields = collections.namedtuple("Fields", "ident machine phoff phentsize phnum", defaults=[IDENT, AARCH64, 64, HEADER.size, 0])


def file_header(fields, others=(b"\0" * 10, 0, 0, 0, 0, 0, 0, 0, 0, 0)):
    """The 64 bytes of a header, with what is passed over."""
    rest, kind, version, entry, shoff, flags, ehsize, shentsize, shnum, shstrndx = others
    return FILE_HEADER.pack(fields.ident, rest, kind, fields.machine, version, entry, fields.phoff, shoff, flags, ehsize,
                            fields.phentsize, fields.phnum, shentsize, shnum, shstrndx)


def loaded_at(offset, vaddr, filesz, flags=READABLE | EXECUTABLE):
    return Header(LOADED, flags, offset, vaddr, 0, filesz, filesz, 0)


def file_of(headers, code):
    """A file whose table stands behind its header, and the bytes of its segments behind that."""
    return file_header(Fields(phnum=len(headers))) + b"".join(HEADER.pack(*header) for header in headers) + code


# ---- worked out by hand ----------------------------------------------------------

CODE = bytes.fromhex("1f2003d5400000541f2003d5fdffff17")  # NOP, B.EQ to 100c, NOP, B to 1000
LOOP = ["@1000", CODE.hex()]
BASE = file_of([Header(LOADED, READABLE | EXECUTABLE, 120, 0x1000, 0, 16, 16, 0)], CODE)
PATH = ["path", "--elf", "--raw", "--depth", "0", "IMAGE"]
CAPTURE = (TOP / "examples" / "first" / "capture.bin").read_bytes()
SHOWN = ["01 on", "01 ctx el1 ns 0 0", "01 1000", "01 1004", "01 100c", "01 1000", "01 1004", "01 end"]
SHORTER = [*SHOWN[:4], "01 fault 27 no-code 100c"]
NO_CODE = ["01 fault 26 no-code 1000"]


def edited(file, edits):
    """A file with some bytes changed: words AT:HEX, or :SIZE for its first bytes."""
    for edit in edits.split():
        at, _, given = edit.partition(":")
        if not at:
            file = file[:int(given)]
            continue
        new = bytes.fromhex(given)
        file = file[:int(at)] + new + file[int(at) + len(new):]
    return file


HEADER_LINE = ["elf: header"]
# what is shown, the edits, and what must be printed
EDITS = [
    ("one segment", "", SHOWN),
    ("no byte", ":0", HEADER_LINE),
    ("a byte less than a header", ":63", HEADER_LINE),
    ("other first bytes", "0:7e", HEADER_LINE),
    ("32 bits", "4:01", HEADER_LINE),
    ("the highest byte first", "5:02", HEADER_LINE),
    ("another machine", "18:3e", HEADER_LINE),
    ("another machine by the higher byte", "19:01", HEADER_LINE),
    ("headers of another size", "54:40", HEADER_LINE),
    ("no headers, of any size", "54:40 56:00", NO_CODE),
    ("no headers, and a table behind the file", "56:00 32:ffffffffffffffff", NO_CODE),
    ("a table that ends behind the file", "56:02", ["elf: table"]),
    ("a table whose end wraps", "32:ffffffffffffffff", ["elf: table"]),
    ("a table that begins in the header", "32:3f", NO_CODE),
    ("a file that ends in its table", ":119", ["elf: table"]),
    ("another machine, and a table that ends behind the file", "18:3e 56:03", HEADER_LINE),
    ("a segment that ends behind the file", "96:11", ["elf: segment 0"]),
    ("a file that ends in its segment", ":130", ["elf: segment 0"]),
    ("a segment whose end wraps", "72:f8ffffffffffffff", ["elf: segment 0"]),
    ("a segment that ends behind the file at an address that is no multiple", "96:11 80:02", ["elf: segment 0"]),
    ("a segment whose last bytes, which are no word, end behind the file", "96:13", ["elf: segment 0"]),
    ("a segment at an address that is no multiple", "80:02", ["elf: unaligned 0"]),
    ("three words and three bytes", "96:0f", SHORTER),
    ("less than a word, at an address that is no multiple", "96:03 80:02", NO_CODE),
    ("another size in memory", "104:0010", SHOWN),
    ("no size in memory", "104:00", SHOWN),
    ("a segment that is not executable", "68:04", NO_CODE),
    ("a segment that is not executable, and ends behind the file", "68:04 96:11", NO_CODE),
    ("a segment that is not loaded", "64:02", NO_CODE),
    ("executable alone", "68:01", SHOWN),
    ("executable, and other flags", "68:f10000", SHOWN),
    ("a kind whose lowest byte is that of a loaded one", "65:01", NO_CODE),
    ("past the last address", "80:f4ffffffffffffff", ["elf: wraps 0"]),
    ("up to the last address", "80:f0ffffffffffffff", NO_CODE),
    ("past the last address, at one that is no multiple", "80:f6ffffffffffffff", ["elf: unaligned 0"]),
]


def two(first, second, more=b""):
    """A file of two segments, of the same bytes unless more are there."""
    (one, size), (other, other_size) = first, second
    return file_of([loaded_at(176, one, size), loaded_at(176, other, other_size)], CODE + more)


def many(count, *more):
    """A file of so many segments of the same bytes, and more headers."""
    at = 64 + HEADER.size * (count + len(more))
    return file_of([*(loaded_at(at, 0x1000 + 0x100 * number, 16) for number in range(count)), *more], CODE)


def worked_files():
    """What is shown, the file, and what must be printed."""
    yield from ((what, edited(BASE, edits), lines) for what, edits, lines in EDITS)
    yield "an address of an earlier segment", two((0x1000, 16), (0x100C, 16)), ["elf: overlap 1"]
    yield "the same bytes at two addresses, the higher one first", two((0x2000, 16), (0x1000, 16)), SHOWN
    yield "a segment behind the last whole word of another", two((0x1000, 19), (0x1010, 16), bytes(4)), SHOWN
    yield "past the last address, and one of an earlier segment", two((SPACE - 16, 16), (SPACE - 12, 16)), ["elf: wraps 1"]
    note = Header(4, READABLE, 0, 0, 0, 0, 0, 0)
    yield "a header that is passed over counts", file_of([note, loaded_at(176, 0x1002, 16)], CODE), ["elf: unaligned 1"]
    yield "the first segment that has a fault", two((0x1002, 16), (0x1000, 1 << 40)), ["elf: unaligned 0"]
    yield "64 segments", many(64), SHOWN
    yield "65 segments", many(65), ["elf: too-large"]
    yield "65 segments, the last of which has a fault", many(64, loaded_at(64, 0x9002, 16)), ["elf: unaligned 64"]
    yield "64 segments and one of less than a word", many(64, loaded_at(64, 0x9002, 3)), SHOWN
    large = file_of([loaded_at(176, 0x100000, 1 << 24), loaded_at(176, 0x4000000, 4)], bytes(1 << 24))
    yield "a word more than 16 MiB", large, ["elf: too-large"]


def status_of(lines):
    return 9 if lines[0].startswith("elf:") else 4 if " fault " in lines[-1] else 0


def programs(file):
    return [f"program {line}" for line in input_lines(file)]


def elf_block(name, file, given, answers, what=None):
    return block(name, [], [*programs(file), *given], answers, what)


PREDICTED = ["etm 1", "depth 4", "vmid 0", "cid 0", "stream 01", "on 1000 el1 ns 0 0", "step", "taken", "taken", "step", "not", "cancel 3",
             "flip", "step", "taken", "retire 4"]
FRAMES = bytes.fromhex("03000000000000000000000080010080000484000800000000000031da2d0202")
RETIRED = ["01 on", "01 ctx el1 ns 0 0", "01 1000", "01 1004", "01 1008", "01 100c"]


def worked_blocks(model):
    for number, (what, file, lines) in enumerate(worked_files()):
        found = answered(model, PATH, file, CAPTURE)
        assert found == (status_of(lines), text_of(lines)), f"{what}: {found}"
        yield elf_block(f"worked_{number}", file, inputs(CAPTURE), [(PATH, status_of(lines), shown(lines))], what)
    line = ["image line 1: syntax"]
    words = [word for word in PATH if word != "--elf"]
    assert answered(model, words, BASE, CAPTURE) == (2, text_of(line))
    yield elf_block("worked_without_the_word", BASE, inputs(CAPTURE), [(words, 2, shown(line))], "a file that is read as a text")
    assert answered(model, PATH, text_of(LOOP), CAPTURE) == (9, text_of(HEADER_LINE))
    yield elf_block("worked_text", text_of(LOOP), inputs(CAPTURE), [(PATH, 9, shown(HEADER_LINE))], "a text that is read as a file")
    for name, file, retired, trace in (("good", BASE, (0, RETIRED), (0, FRAMES)),
                                       ("of_another_machine", edited(BASE, "18:3e"), (9, HEADER_LINE), (9, text_of(HEADER_LINE)))):
        run = text_of(PREDICTED)
        assert answered(model, ["retired", "--elf", "IMAGE"], file, run) == (retired[0], text_of(retired[1]))
        assert answered(model, ["trace", "--elf", "IMAGE"], file, run) == trace
        yield elf_block(f"worked_run_{name}", file, [f"run {line}" for line in PREDICTED],
                        [(["retired", "--elf", "IMAGE"], retired[0], shown(retired[1])),
                         (["trace", "IMAGE", "--elf"], trace[0], shown(retired[1]) if trace[0] else frames_lines(trace[1]))])


# ---- files that are made ------------------------------------------------------------

def number(rng):
    return rng.choice([0, 1, 4, 0x1000, 0x10000, SPACE - 4, SPACE - 1, rng.randrange(SPACE), rng.randrange(1 << 20)])


def passed_over(rng):
    """What stands in the fields of the file's header that are passed over."""
    return (rng.randbytes(10), rng.choice([2, 3, 0xFFFF]), 1, number(rng), number(rng), rng.randrange(1 << 32),
            *(rng.choice([64, 0, 0xFFFF]) for _ in range(4)))


def code_header(rng, vaddr, size):
    """The header of a part of a program; where it stands in the file is told later."""
    flags = EXECUTABLE | rng.choice([READABLE, READABLE, 0, READABLE | WRITABLE, 0xF1000004, 0xFFFFFFFF])
    return Header(LOADED, flags, None, vaddr, number(rng), size, number(rng), number(rng))


def other_header(rng):
    """One that is not chosen."""
    kind = rng.randrange(3)
    numbers = [number(rng) for _ in range(6)]
    if kind == 0:
        return Header(rng.choice(OTHERS), rng.choice([READABLE | EXECUTABLE, 0xFFFFFFFF]), *numbers)
    if kind == 1:
        return Header(LOADED, rng.choice([READABLE, READABLE | WRITABLE, 0xFFFFFFFE]), *numbers)
    numbers[3] = rng.randrange(4)
    return Header(LOADED, READABLE | EXECUTABLE, *numbers)


class Draft:
    """A file that is not put together yet: headers, and the bytes of those that have no offset yet, by their place."""

    def __init__(self, rng, parts):
        self.rng, self.headers, self.code, self.fields = rng, [], {}, {}
        chosen = [(start, b"".join(word.to_bytes(4, "little") for word in words) + rng.randbytes(rng.choice([0, 0, 0, 1, 3])))
                  for start, words in parts.items()]
        for start, code in rng.sample(chosen, len(chosen)):
            while rng.random() < 0.4:
                self.headers.append(other_header(rng))
            self.code[len(self.headers)] = code
            self.headers.append(code_header(rng, start, len(code)))
        self.headers += [other_header(rng) for _ in range(rng.choice([0, 0, 1, 2]))]

    def change(self, place, **fields):
        """Changes a header, by its place."""
        self.headers[place] = self.headers[place]._replace(**fields)

    def file(self):
        """The file, with its table and its segments in any order."""
        pieces = [("table", HEADER.size * len(self.headers)), *((place, len(code)) for place, code in self.code.items())]
        at, offsets = FILE_HEADER.size, {}
        for name, size in self.rng.sample(pieces, len(pieces)):
            at += self.rng.choice([0, 0, 1, 8, 24])
            offsets[name] = at
            at += size
        file = bytearray(self.rng.randbytes(at) if self.rng.random() < 0.5 else bytes(at))
        fields = Fields(**{"phoff": offsets["table"], "phnum": len(self.headers), **self.fields})
        file[:FILE_HEADER.size] = file_header(fields, passed_over(self.rng))
        for place, code in self.code.items():
            file[offsets[place]:offsets[place] + len(code)] = code
            if self.headers[place].offset is None:
                self.change(place, offset=offsets[place])
        for place, header in enumerate(self.headers):
            start = offsets["table"] + HEADER.size * place
            file[start:start + HEADER.size] = HEADER.pack(*header)
        return bytes(file)


def parts_of(words):
    """The parts of a program, by their first addresses, from its words by theirs."""
    parts = {}
    for address in sorted(words):
        start = next((start for start, some in parts.items() if start + 4 * len(some) == address), None)
        parts.setdefault(address if start is None else start, []).append(words[address])
    return parts


def path_words(rng, sizes, layout):
    """The command line, with its options in any order."""
    options = [["--elf"], *([word] for word in layout), ["--depth", f"{sizes.depth}"], [f"--vmid={sizes.vmid}"], ["--cid", f"{sizes.cid}"]]
    return ["path", *(word for option in rng.sample(options, len(options)) for word in option), "IMAGE"]


def given_of(rng, model, lines, places, sizes):
    """An input, and the words that say how it is laid out."""
    ids = rng.sample(range(1, LAST_SOURCE + 1), rng.choice([1, 2, 3]))
    streams = [(source, stream_of(rng, model, lines, places, sizes, [sizes])[:400]) for source in ids]
    kind = rng.randrange(4)
    if kind < 2:
        return streams[0][1], ["--raw"]
    frames = capture_cases.capture(rng, model, streams)
    if kind == 2:
        return frames, []
    return FULL + sprinkled(rng, frames[:len(frames) // FRAME * FRAME]), ["--sync"]


def path_case(rng, model):
    """A draft of a file, the lines of its image, the command line, and an input in its lines."""
    parts = loop(rng) if rng.random() < 0.3 else path_cases.program(rng)
    lines, places = path_cases.image_lines(rng, parts), path_cases.places_of(parts)
    sizes = capture_cases.any_sizes(rng)
    given, layout = given_of(rng, model, lines, places, sizes)
    return Draft(rng, parts), lines, [path_words(rng, sizes, layout)], given, inputs(given)


def run_case(rng, model):
    """The same of a run file."""
    draft = run_cases.own_draft_of(rng, model) if rng.random() < 0.3 else run_cases.draft_of(rng, model)
    run = [" ".join(words) for words in run_cases.lines_of(rng, draft)]
    trace = rng.choice([["trace", "--elf", "IMAGE"], ["trace", "--last", "2", "--elf", "IMAGE"], ["trace", "IMAGE", "--sync=1", "--elf"]])
    lines = run_cases.image_of(rng, draft.image)
    return (Draft(rng, parts_of(draft.image.words)), lines, [["retired", "--elf", "IMAGE"], trace], text_of(run),
            [f"run {line}" for line in run])


def answers_of(model, commands, file, given):
    """The answer to each command: its words, its status and its bytes."""
    return [(words, *answered(model, words, file, given)) for words in commands]


def in_lines(answers):
    return [(words, status, frames_lines(printed) if words[0] == "trace" and status == 0 else shown(printed.decode().splitlines()))
            for words, status, printed in answers]


def is_short(answers):
    return all(printed.count(b"\n") <= MOST_LINES for words, _, printed in answers if words[0] != "trace")


def good_blocks(rng, model, counts):
    for name, count, make in (("path", PATHS, path_case), ("run", RUNS, run_case)):
        made = 0
        while made < count:
            draft, lines, commands, given, given_lines = make(rng, model)
            file = draft.file()
            answers = answers_of(model, commands, file, given)
            without = [[word for word in words if word != "--elf"] for words in commands]
            assert [found[1:] for found in answers] == [found[1:] for found in answers_of(model, without, text_of(lines), given)]
            if not is_short(answers):
                continue
            counts.update(f"good: {what}" for what in seen_good(draft, answers))
            yield elf_block(f"{name}_{made}", file, given_lines, in_lines(answers))
            made += 1


def seen_good(draft, answers):
    """What a file has that is accepted."""
    chosen = sorted(draft.code)
    first = [draft.headers[place] for place in chosen]
    found = {
        "several segments": len(chosen) > 1, "a header before the first segment": chosen[0] > 0,
        "segments that stand in another order than their addresses": [one.vaddr for one in first] != sorted(one.vaddr for one in first),
        "bytes behind the last word": any(one.filesz % 4 for one in first), "the table behind a segment": min(one.offset for one in first) == 64,
        "an instruction": any(re.search(rb"^[0-9a-f]{2} [0-9a-f]+$", printed, re.MULTILINE) for words, _, printed in answers if words[0] == "path"),
    }
    yield from (name for name, there in found.items() if there)
    yield from (f"{words[0]} with {words[1]}" if words[0] == "trace" else words[0] for words, _, _ in answers)
    yield from (f"path with {layout}" for words, _, _ in answers for layout in ("--raw", "--sync") if layout in words)


GOOD_DUE = [f"good: {what}" for what in (
    "several segments", "a header before the first segment", "segments that stand in another order than their addresses",
    "bytes behind the last word", "the table behind a segment", "an instruction", "path", "retired", "trace with --elf", "trace with --last",
    "path with --raw", "path with --sync")]


# ---- files in which something is wrong ------------------------------------------------

def wrong_header(rng, draft):
    kind = rng.randrange(3)
    if kind == 0:
        at = rng.randrange(len(IDENT))
        draft.fields["ident"] = IDENT[:at] + bytes([IDENT[at] ^ 1 << rng.randrange(8)]) + IDENT[at + 1:]
    elif kind == 1:
        draft.fields["machine"] = rng.choice([X86_64, 40, 0, AARCH64 ^ 1, AARCH64 + 256, 0xFFFF])
    else:
        draft.fields["phentsize"] = rng.choice([0, 32, 55, 57, 64, 0xFFFF])


def wrong_table(rng, draft):
    kind = rng.choice(["phoff", "phnum"])
    draft.fields[kind] = rng.choice([SPACE - 1, SPACE - HEADER.size, 1 << 32, 1 << 63]) if kind == "phoff" else rng.choice([100, 0xFFFF])


def wrong_segment(rng, draft, place):
    size = draft.headers[place].filesz
    kind = rng.randrange(3)
    if kind == 0:
        draft.change(place, offset=rng.choice([SPACE - size, SPACE - 1, SPACE - 4, 1 << 32]))
    elif kind == 1:
        draft.change(place, filesz=rng.choice([SPACE - 1, SPACE - 64, 1 << 24, 1 << 63]))
    else:
        draft.code[place] = draft.code[place][:rng.randrange(len(draft.code[place]))]


def wrong_address(rng, draft, place):
    draft.change(place, vaddr=(draft.headers[place].vaddr + rng.choice([1, 2, 3, 6])) % SPACE)


def wrong_end(rng, draft, place):
    words = draft.headers[place].filesz // 4
    draft.change(place, vaddr=SPACE - 4 * rng.randrange(1, max(2, words)))


def wrong_place(rng, draft, place):
    """Over an address of another segment, mostly."""
    other = rng.choice([one for one in draft.code if one != place] or [place])
    words = draft.headers[other].filesz // 4
    draft.change(place, vaddr=(draft.headers[other].vaddr + 4 * rng.randrange(-2, max(1, words))) % SPACE)


def too_many(rng, draft):
    first = draft.headers[min(draft.code)]
    code = draft.code[min(draft.code)][:4]
    for number in range(MOST_PARTS + 1 - len(draft.code) + rng.choice([-1, 0, 0, 1])):
        draft.code[len(draft.headers)] = code
        draft.headers.append(first._replace(offset=None, vaddr=0x7000000 + 16 * number, filesz=4))


OF_FILES, OF_SEGMENTS = (wrong_header, wrong_table, too_many), (wrong_segment, wrong_address, wrong_end, wrong_place)


def put_wrong(rng, draft):
    change = rng.choice(OF_SEGMENTS if rng.random() < 0.75 else OF_FILES)
    change(rng, draft, *[rng.choice(sorted(draft.code))] * (change in OF_SEGMENTS))


def wrong_blocks(rng, model, counts):
    made = 0
    while made < WRONG:
        draft, _, commands, given, given_lines = (path_case if rng.random() < 0.7 else run_case)(rng, model)
        faults = rng.choice([1, 1, 2])
        for _ in range(faults):
            put_wrong(rng, draft)
        file = draft.file()
        if rng.random() < 0.15:
            file = file[:rng.randrange(len(file))]
        commands = [rng.choice(commands)]
        answers = answers_of(model, commands, file, given)
        [(_, status, printed)] = answers
        if status != 9 or len(file) > 4000 and rng.random() < 0.7:
            continue
        counts.update(f"wrong: {what}" for what in seen_wrong(draft, commands[0], faults, printed.decode()))
        yield elf_block(f"wrong_{made}", file, given_lines, in_lines(answers))
        made += 1


def seen_wrong(draft, words, faults, line):
    """What a file has that is refused."""
    _, why, *place = line.split()
    yield why
    yield words[0]
    if place:
        chosen = sorted(draft.code)
        yield from (f"{why} {what}" for what, there in {
            "behind a good segment": chosen.index(int(place[0])) > 0 if int(place[0]) in chosen else False,
            "behind a header that is passed over": int(place[0]) in chosen and int(place[0]) > chosen.index(int(place[0])),
        }.items() if there)
    if faults > 1:
        yield f"{why}, of two changes"


WRONG_DUE = [f"wrong: {what}" for what in (
    "header", "table", "too-large", "path", "trace", "retired",
    *(f"{why}{more}" for why in ("segment", "unaligned", "wraps", "overlap") for more in ("", " behind a good segment",
                                                                                        " behind a header that is passed over",
                                                                                        ", of two changes")))]


# ---- the file ----------------------------------------------------------------

def main(words):
    if len(words) != 1:
        sys.exit(__doc__)
    model, counts = loaded(words[0]), collections.Counter()
    blocks = [*worked_blocks(model), *good_blocks(random.Random(SEED), model, counts), *wrong_blocks(random.Random(SEED + 1), model, counts)]
    print(*(f"{count:6} {name}" for name, count in sorted(counts.items())), sep="\n")
    missing = [name for name in (*GOOD_DUE, *WRONG_DUE) if not counts[name]]
    assert not missing, f"no case has {missing}"
    OUT.parent.mkdir(exist_ok=True)
    OUT.write_text("\n".join([HEAD, *blocks]))
    print(f"{len(blocks)} blocks, {OUT.stat().st_size} bytes")


if __name__ == "__main__":
    main(sys.argv[1:])
