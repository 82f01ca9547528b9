#!/usr/bin/env python3
"""Makes tests/cases_of_times/cases.txt: streams and captures with timestamps and events, and what `etm times` must print of them.

Usage: times_cases.py MODEL_DIR

MODEL_DIR is as for tests/packet_cases.py. The first cases were worked out by hand; what the model says of them must be what is written
down here. Behind them stands a stream with every packet that tells P0 elements or takes them back, read at several depths. The others are
made of the stored cases that `path` and `packets` read, with a fixed seed: timestamps and events are put between the packets of streams,
which are then read at several depths, alone or in frames under a list of settings; and stored cases as they are, for the faults that no case
before them has. Of streams whose path has no `?`, gap, stop or fault of the walk the path is stored too, and its lines with the time that
held when their P0 element was traced, which tests/times_beside_paths compares. The answers come from the model alone.

The file has the form of that of tests/capture_cases.py. Lines `beside` have what `examples/times/beside` must print of a path and its times.
"""
import collections
import pathlib
import random
import re
import sys

import capture_cases
import path_cases
import speculation_cases
from capture_cases import LAST_SOURCE, block, list_of
from packet_cases import SYNC, timestamp
from reference_model import PROFILE, REACH, answer, loaded
from run_stored_cases import cases_of
from speculation_cases import Sizes, spelled

HERE = pathlib.Path(__file__).resolve().parent
OUT = HERE / "cases_of_times" / "cases.txt"
SEED = 20261130
STORED = ["packets", "paths", "speculation", "captures"]
MARKED, FRAMED, BESIDE = 90, 40, 40
DEPTHS = [0, 1, 4, 16, 64, 16384]
MOST_LINES, MOST_BYTES, PIECE = 60, 1500, 4096
MOST_OF_A_PIECE = 12000

HEAD = """\
# Made by tests/times_cases.py; tests/capture_cases.py says what the lines of a block are.
"""


# ---- worked out by hand --------------------------------------------------------

BEGUN = SYNC + bytes.fromhex("010100")  # a trace info
NAMES = {"SYNC": SYNC, "HEAD": BEGUN, "LONGEST": b"\x02" + b"\xff" * 9,
         "PLACED": BEGUN + bytes.fromhex("04 85 0008000000000000 31")}  # and trace on, and an address with its context


def bytes_in(text):
    """The bytes of a text in hex, with names for some."""
    return b"".join(NAMES.get(word) or bytes.fromhex(word) for word in text.split())


# what is shown, the depth, the stream, and the lines before `01 end`, or with another end
WORKED = [
    ("atoms of one packet have one time, and a cancel takes the newest with its own", 4, "HEAD 02 05 f7 f7 2e 02 02 09 f7 f7 2d 02", "p0 0 9"),
    ("what is cancelled has no number", 4, "HEAD 02 05 f7 02 06 f7 02 07 f7 2e 02 f7 f7 2d 03", "p0 0 5, p0 1 7"),
    ("the time of a cancelled element stays for the next", 4, "HEAD 02 05 f7 02 06 f7 2e 01 f7 2d 02", "p0 0 5, p0 1 6"),
    ("a mispredict keeps the times of both", 4, "HEAD 02 05 f7 02 06 f7 30 2d 02", "p0 0 5, p0 1 6"),
    ("a mispredict behind a timestamp keeps the time", 4, "HEAD 02 05 f7 02 06 30 2d 01", "p0 0 5"),
    ("equal times with another between them that was cancelled", 4, "HEAD 02 05 f7 02 06 f7 2e 01 02 05 f7 2d 02", "p0 0 5"),
    ("an overflow keeps the timestamp, and a gap has no number", 4, "HEAD 02 05 f7 f7 2d 01 00 05 f7 2d 01", "p0 0 5"),
    ("a discard keeps the timestamp, and a stop has no number", 4, "HEAD 02 05 f7 f7 2d 01 00 03 02 06 f7 2d 01", "p0 0 5, p0 1 6"),
    ("an exception has the time of its address", 0, "HEAD 02 05 06 03 02 06 95 00 f7", "p0 0 6"),
    ("a trace info takes the timestamp away, not the times of what is held", 4, "HEAD 02 05 f7 f7 2d 01 HEAD f7 2d 02", "p0 0 5, p0 2 -"),
    ("none, and others behind it", 0, "HEAD f7 02 05 f7 f7 02 05 f7 02 06 f7", "p0 0 -, p0 1 5, p0 4 6"),
    ("elements from before the first trace info have no number", 4, "SYNC 01 05 00 02 02 05 f7 2d 01 2d 01 2d 01", "p0 0 5"),
    ("nor have they where they are cancelled", 4, "SYNC 01 05 00 02 2e 01 02 05 f7 2d 02", "p0 0 5"),
    ("nor where they leave for want of room", 2, "SYNC 01 05 00 02 02 05 f7 f7 f7", "p0 0 5"),
    ("64 bits, and eight lower ones", 0, "HEAD LONGEST f7 02 05 f7", "p0 0 18446744073709551615, p0 1 18446744073709551493"),
    ("14 bits, and 7 lower ones", 0, "HEAD 02 81 01 f7 02 05 f7", "p0 0 129, p0 1 133"),
    ("7 bits, 14 and the lower 7 again", 0, "HEAD 02 7f f7 02 80 01 f7 02 00 f7", "p0 0 127, p0 1 128"),
    ("a timestamp of 0 is another than none", 0, "HEAD f7 02 00 f7", "p0 0 -, p0 1 0"),
    ("an event before the first trace info, and a timestamp", 0, "SYNC 71 02 05 01 01 00 71 f7", "event 1 -, p0 0 -"),
    ("events with the time at their packet", 0, "HEAD 71 02 05 72 f7 7f", "event 1 -, event 2 5, p0 0 5, event 15 5"),
    ("events are not held, and not taken back", 4, "HEAD 02 05 f7 02 06 71 2e 01 02 07 f7 72 2d 01", "event 1 6, event 2 7, p0 0 7"),
    ("an event between an exception and its address", 0, "HEAD 02 05 06 03 71 02 06 95 00", "event 1 5, p0 0 6"),
    ("a ring of one, and a cancel between", 1, "HEAD 02 05 f7 02 06 f7 2e 01 02 07 f7 2d 01", "p0 0 5, p0 1 7"),
    ("a ring of one", 1, "HEAD 02 05 f7 02 06 f7 02 07 f7", "p0 0 5, p0 1 6"),
    ("nothing behind a fault of a cancel", 4, "HEAD 02 05 f7 f7 2d 01 2e 09 71 02 06 f7 2d 01", "p0 0 5, fault 21 cancel-overrun 9 1"),
    ("lines of a packet before its fault", 1, "HEAD 02 05 f7 02 06 f7 36 2d 01", "p0 0 5, p0 1 6, fault 21 no-atom 0"),
    ("nothing behind a fault of a mispredict", 4, "HEAD 71 30 72", "event 1 -, fault 16 no-atom 0"),
    ("an atom where an address is awaited", 4, "HEAD 06 03 f7", "fault 17 address-awaited"),
    ("what faults in every path", 0, "PLACED 02 07 f7 f7 f7 f7 f7", "p0 0 7"),
    ("a stream that is cut in a timestamp", 0, "HEAD 02 07 f7 02 88", "p0 0 7, cut 2"),
    ("a stream without an A-sync", 0, "01 01 00 02 05 f7", "nosync"),
]

# the same of captures: what is shown, the words, the parts of the streams in turn, and all lines
OLD = "04 70 70 02 85 01 85 0020000000000000 b0 01010000 f7 81 b0 02010000 75 f7 SYNC 01 05 00 02 85 0020000000000000 b0 02010000 f7 2d 03"
TWO = [(0x10, "HEAD 02 05 f7"), (0x11, "HEAD 02 06 f7 71"), (0x10, "02 07 f7 2d 02"), (0x11, "2d 01")]
WORKED_CAPTURES = [
    ("two units", "", [(0x10, "HEAD " + OLD), (0x11, "PLACED f7 f7 f6 2d 03")], "10 event 5 133, 10 p0 0 133, 10 p0 2 -, 11 p0 0 -, 10 end, 11 end"),
    ("two units in turn", "--depth 4", TWO, "11 event 1 6, 10 p0 0 5, 10 p0 1 7, 11 p0 0 6, 10 end, 11 end"),
    ("two units of which one has a fault", "--depth 4 --settings 11:0:0:0", TWO,
     "11 p0 0 6, 11 event 1 6, 10 p0 0 5, 10 p0 1 7, 10 end, 11 fault 19 commit-overrun 1 0"),
    ("nothing", "", [], ""),
]


def status_of(lines):
    return 4 if any(" fault " in line or line.startswith("frame cut") for line in lines) else 0


def listed_lines(text):
    return text.split(", ") if text else []


def worked(model):
    """What is shown, the words, the bytes and the lines."""
    for what, depth, given, text in WORKED:
        lines = ["01 " + line for line in listed_lines(text)]
        has_end = re.fullmatch("01 (fault|cut|nosync)( .*)?", lines[-1])
        yield what, f"times --raw --depth {depth}", bytes_in(given), lines if has_end else [*lines, "01 end"]
    for what, options, parts, text in WORKED_CAPTURES:
        pairs = [(source, byte) for source, given in parts for byte in bytes_in(given)]
        yield what, f"times {options}", model.frames.framed(pairs) if pairs else b"", listed_lines(text)
    yield "a frame that is cut", "times", bytes.fromhex("0102"), ["frame cut 2"]
    yield "nothing without frames", "times --raw", b"", []


def worked_blocks(model, counts):
    for number, (what, words, given, lines) in enumerate(worked(model)):
        found = answer(model, words.split(), [], given)
        assert found == (status_of(lines), lines), f"{what}: {found}"
        counts.update(seen(lines))
        yield f"# {what}\n" + block(f"worked_{number}", [], given, [(words.split(), found)])


# ---- every packet of P0 elements -------------------------------------------------

def packets_of_p0():
    """Every packet that tells P0 elements; behind atoms those that take some back, too."""
    addresses = ["90", "9500", "958000", "9a00000000", "9d0000000000000000", "820000000010", "85000000000000000010"]
    for kind in range(32):
        for form in (0x01, 0x40):
            yield bytes([0x06, kind << 1 | form]) + bytes.fromhex(addresses[kind % len(addresses)])
    yield from (bytes([atoms]) for atoms in range(0xC0, 0x100))
    for taken in [*(bytes([some]) for some in range(0x30, 0x40)), b"\x2e\x03", b"\x2f\x02", b"\x2d\x02"]:
        yield b"\xc3"
        yield taken


def every_packet(model):
    """Each of them behind a timestamp of its own, and at the end a commit of all that is held."""
    given = NAMES["PLACED"]
    for number, packet in enumerate(packets_of_p0()):
        between = b"\x02" + spelled(number) if number % 3 else b""
        given += (packet[:2] + between + packet[2:] if packet[0] == 0x06 else between + packet)
    outlook = model.path.Resolving(16384)
    for _, element in model.path.elements(model.path.parsed(model.base.Settings(16384, 1, 4), given, PROFILE)[0])[0]:
        outlook.take(element)
    return given + b"\x02" + spelled(1 << 20) + b"\x2d" + spelled(outlook.held())


def every_block(model, counts):
    given = every_packet(model)
    commands = [["times", "--raw", "--depth", f"{depth}"] for depth in (16384, 64, 6, 4, 0)]
    answers = [answer(model, words, [], given) for words in commands]
    assert answers[0][1][-1] == "01 end"
    for _, lines in answers:
        counts.update(seen(lines))
    yield block("every_packet", [], given, zip(commands, answers))


# ---- stored cases ------------------------------------------------------------

Stream = collections.namedtuple("Stream", "image sizes given")  # the lines of the image, or none


def sizes_told(model, words):
    """The sizes of each ID that words tell, as the model reads them."""
    table = model.top.meaning(words, PROFILE, REACH)["table"]
    told = {source: table.get(source) for source in range(1, LAST_SOURCE + 1)}
    return {source: Sizes(of.depth, of.vmid_bytes, of.cid_bytes) for source, of in told.items()}


def stored(model):
    """The stored cases that `path` and `packets` read, but those of rings."""
    for kind in STORED:
        for case in cases_of((HERE / f"cases_of_{kind}" / "cases.txt").read_text()):
            if not any(word.startswith("--wrap") for word in case.words) and case.status in (0, 4):
                yield case


def streams_of(model, cases):
    """The streams without frames among them that have a trace info, each once."""
    found = {}
    for case in cases:
        if "--raw" in case.words and len(case.given) < MOST_BYTES and SYNC + b"\x01" in case.given:
            image = case.image.decode().splitlines() if case.words[0] == "path" else []
            found.setdefault(case.given, Stream(image, sizes_told(model, case.words)[1], case.given))
    return list(found.values())


# ---- timestamps and events between packets --------------------------------------

class Clock:
    """Puts timestamps and events between the packets of a stream."""

    def __init__(self, rng):
        self.rng, self.share, self.ticks = rng, rng.choice([0.15, 0.5, 0.9]), 0

    def packet(self):
        kind = self.rng.randrange(12)
        if kind < 6:
            self.ticks += self.rng.choice([0, 1, 1, 1, 2, 100])
            return b"\x02" + spelled(self.ticks)
        if kind < 8:
            return timestamp(self.rng)
        if kind < 9:
            return b"\x02\x00"
        return bytes([self.rng.randrange(0x71, 0x80)])

    def marked(self, model, stream):
        """The stream with packets put behind some of its own."""
        packets, _ = model.path.parsed(model.base.Settings(*stream.sizes), stream.given, PROFILE)
        given, at = b"", 0
        for place, _ in packets[1:]:
            given += stream.given[at:place]
            at = place
            while self.rng.random() < self.share * 0.8:
                given += self.packet()
        return given + stream.given[at:]


def times_words(rng, layout, sizes, own=None):
    """The command line, with its options in any order; those that give the default may be left out."""
    options = [[name, f"{value:0{rng.choice([1, 1, 1, 10])}}"] for name, value, default in
               (("--depth", sizes.depth, 16), ("--vmid", sizes.vmid, 1), ("--cid", sizes.cid, 4)) if value != default or rng.random() < 0.4]
    options = [option if rng.random() < 0.8 else ["=".join(option)] for option in options] + layout
    if own:
        options.append(["--settings", list_of(rng, own)])
    return ["times", *(word for option in rng.sample(options, len(options)) for word in option)]


def marked_blocks(rng, model, streams, counts):
    """Streams at their own depth and at others."""
    number = 0
    for stream in rng.sample(streams, len(streams)):
        given = Clock(rng).marked(model, stream)
        depths = [stream.sizes.depth, *rng.sample([depth for depth in DEPTHS if depth != stream.sizes.depth], 2)]
        commands = [times_words(rng, [["--raw"]], stream.sizes._replace(depth=depth)) for depth in depths]
        answers = [answer(model, words, [], given) for words in commands]
        own = answers[0][1]
        if max(len(lines) for _, lines in answers) > MOST_LINES or len(own) < 4 or number == MARKED:
            continue
        for _, lines in answers:
            counts.update(seen(lines))
        counts.update(f"at its depth, {name}" for name in speculation_cases.seen(model, model.base.Settings(*stream.sizes), given))
        yield block(f"marked_{number}", [], given, zip(commands, answers))
        number += 1


def framed_blocks(rng, model, streams, counts):
    """Streams in frames, each with its own sizes, or with those of another."""
    number = 0
    while number < FRAMED:
        chosen = rng.sample(streams, rng.choice([1, 2, 2, 3, 5]))
        ids = rng.sample([1, 0x10, LAST_SOURCE, *range(2, 0x10)], len(chosen))
        sizes = chosen[0].sizes
        own = {source: stream.sizes for source, stream in zip(ids, chosen) if stream.sizes != sizes}
        pairs = [(source, Clock(rng).marked(model, stream)) for source, stream in zip(ids, chosen)]
        given = capture_cases.capture(rng, model, pairs)
        commands = [times_words(rng, [], sizes, own), times_words(rng, [], sizes)]
        commands = commands[:1 + bool(own)]
        answers = [answer(model, words, [], given) for words in commands]
        if max(len(lines) for _, lines in answers) > MOST_LINES or len(given) > MOST_OF_A_PIECE:
            continue
        for _, lines in answers:
            counts.update(seen(lines))
        counts["more than one piece"] += len(given) > PIECE
        counts["a list that changes what is printed"] += len({tuple(lines) for _, lines in answers}) > 1
        yield block(f"framed_{number}", [], given, zip(commands, answers))
        number += 1


# ---- as they are stored ------------------------------------------------------

def as_stored_blocks(rng, model, cases, counts):
    """Stored cases with a line that no case before has, of a fault mostly."""
    number = 0
    for case in cases:
        if len(case.given) > MOST_BYTES:
            continue
        told = sizes_told(model, case.words)
        sizes = collections.Counter(told.values()).most_common(1)[0][0]
        own = {source: of for source, of in told.items() if of != sizes}
        words = times_words(rng, [["--raw"]] if "--raw" in case.words else [], sizes, own)
        status, lines = answer(model, words, [], case.given)
        new = [name for name in seen(lines) if not counts[name]]
        if not new or len(lines) > MOST_LINES:
            continue
        counts.update(seen(lines))
        yield block(f"stored_{number}", [], case.given, [(words, (status, lines))])
        number += 1


# ---- beside a path -------------------------------------------------------------

def beside(model, image, sizes, given):
    """The lines of a path, each with the time of its entry, or None where it has no walk, or strays."""
    path, settings = model.path, model.base.Settings(*sizes)
    packets, end = path.parsed(settings, given, PROFILE)
    informed, stamp, making, marks, state = False, None, path.ElemState(), [], path.Resolving(sizes.depth)
    for _, packet in packets:
        informed = informed or type(packet).__name__ == "Info"
        stamp = path.stamp_after(stamp, informed, packet)
        elements = path.elements_of(making, packet)
        if elements is None or any(state.fault_of(element) or state.take(element) for element in elements):
            return None
        marks += [stamp] * len(elements)
    walking, shown, lines = path.Walking(), None, []
    for thing, source in zip(state.all[:state.done], state.src):
        found = path.walk_entry(image, walking, thing) if isinstance(thing, path.Entry) else None
        if found is None or isinstance(found, path.Fault):
            return None
        items, walking = found[:2]
        for item in items:
            told, shown = path.item_lines(1, item, shown)
            lines += [(line, path.stamp_text(marks[source])) for line in told]
    if any(line[3:] == "?" for line, _ in lines):
        return None
    timed = [f"{line:40}{time}" if line[3:6] not in ("on", "ctx") else line for line, time in lines]
    return [*timed, path.end_line(1, end)]


def beside_blocks(rng, model, streams, counts):
    """Streams whose path does not stray."""
    number = 0
    for stream in rng.sample(streams, len(streams)):
        given = Clock(rng).marked(model, stream)
        if not stream.image or number == BESIDE:
            continue
        image = model.image.image_of("".join(line + "\n" for line in stream.image).encode(), PROFILE)
        joined = beside(model, image, stream.sizes, given)
        commands = [["path", *times_words(rng, [["--raw"]], stream.sizes)[1:], "IMAGE"], times_words(rng, [["--raw"]], stream.sizes)]
        answers = [answer(model, words, stream.image, given) for words in commands]
        if joined is None or len(answers[1][1]) < 4 or len(joined) > MOST_LINES:
            continue
        assert [line[:40].rstrip() for line in joined] == answers[0][1], f"beside_{number}: {joined}"
        counts["a path with its times"] += 1
        counts["an exception with its time"] += any(" exc " in line for line in joined)
        yield block(f"beside_{number}", stream.image, given, zip(commands, answers)) + "".join(f"beside {line}\n" for line in joined)
        number += 1


# ---- what must occur -------------------------------------------------------

def reasons():
    v, n, some = "[0-9a-f]+", "[0-9]+", "[1-9][0-9]*"
    yield from (f"commit-overrun {n} 0", f"commit-overrun {n} {some}", f"cancel-overrun {n} 0", f"cancel-overrun {n} {some}", "no-atom 0",
                f"no-atom {some}", f"spec-too-deep {n} {n}", "address-awaited", "broken-sync", "number-too-long", f"info-mode {n}")
    yield from (f"{name} {v}" for name in ("reserved", "extension", "exception-two-byte", "exception-form", "info-control", "aarch32-context"))
    yield from (f"refused {kind} {v}" for kind in ("cycle-count", "time-cycle", "data-sync", "conditional", "q", "m-profile", "aarch32-address"))


FORMS = ["p0 0 -", "p0 0 0", "p0 0 [1-9][0-9]*", "p0 [1-9][0-9]* -", "p0 [1-9][0-9]* 0", "p0 [1-9][0-9]* [1-9][0-9]{0,9}",
         "p0 [1-9][0-9]* [1-9][0-9]{10,}", *(f"event {number} {stamp}" for number in range(1, 16) for stamp in ("-", "[0-9]+")),
         "end", "cut [0-9]+", "nosync", *(f"fault [0-9]+ {reason}" for reason in reasons())]
PATTERNS = [(re.compile(f"[0-9a-f]{{2}} {form}"), form) for form in FORMS] + [(re.compile(f"frame cut {count}"), f"frame cut {count}")
                                                                             for count in range(1, 16)]


def seen(lines):
    """The forms of lines, each once; every line has one."""
    found = set()
    for line in lines:
        names = [name for pattern, name in PATTERNS if pattern.fullmatch(line)]
        assert len(names) == 1, f"{line!r} has the forms {names}"
        found.update(names)
    return found


DUE = [*(name for _, name in PATTERNS), *(f"at its depth, {name}" for name in speculation_cases.EVENTS),
       "more than one piece", "a list that changes what is printed", "a path with its times", "an exception with its time"]


# ---- the file ----------------------------------------------------------------

def main(words):
    if len(words) != 1:
        sys.exit(__doc__)
    model, counts = loaded(words[0]), collections.Counter()
    cases = list(stored(model))
    streams = streams_of(model, cases)
    blocks = [*worked_blocks(model, counts), *every_block(model, counts), *marked_blocks(random.Random(SEED), model, streams, counts),
              *framed_blocks(random.Random(SEED + 1), model, streams, counts), *beside_blocks(random.Random(SEED + 2), model, streams, counts),
              *as_stored_blocks(random.Random(SEED + 3), model, cases, counts)]
    print(*(f"{count:6} {name}" for name, count in sorted(counts.items())), sep="\n")
    missing = [name for name in DUE if not counts[name]]
    assert not missing, f"no case has {missing}"
    OUT.parent.mkdir(exist_ok=True)
    OUT.write_text("\n".join([HEAD, *blocks]))
    print(f"{len(blocks)} blocks, {OUT.stat().st_size} bytes")


if __name__ == "__main__":
    main(sys.argv[1:])
