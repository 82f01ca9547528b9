#!/usr/bin/env python3
"""Makes tests/cases_of_syncs/cases.txt: captures of a trace port, and what `etm path --sync` and `etm packets --sync` must print of
them; and run files, and what `etm trace --sync` must write of them.

Usage: sync_cases.py MODEL_DIR

MODEL_DIR is as for tests/packet_cases.py. A port sends the frames of a formatter with synchronisation packets among them: full ones,
`ff ff ff 7f`, between two frames, and half ones, `ff 7f`, at any even place of a frame. The first cases were worked out by hand; what the
model says of them must be what is written down here. For those behind them frames of tests/capture_cases.py are sent here, with a fixed
seed: with packets at the places where they may stand, behind bytes of any kind, and with an end that may be cut off. In some captures the
bytes of a packet stand where it may not, or it stands in a frame that has such bytes itself. Behind these are run files, made as those of
tests/run_cases.py, whose frames are written with full packets among them, all or the last ones, and captures of what was written. The
answers come from the model alone.

The file has the form of that of tests/capture_cases.py. Of a run file with frames the answer stands in lines `frames`, in hex.
"""
import collections
import pathlib
import random
import re
import sys

import capture_cases
from capture_cases import FRAME, LAST_SOURCE, NULL, PIECE, id_behind, input_lines, listed_words, own_sizes, program_of, stream_of
from reference_model import answer, answered, loaded

OUT = pathlib.Path(__file__).resolve().parent / "cases_of_syncs" / "cases.txt"
SEED = 20261129
SENT, WRITTEN = 180, 50  # captures that are sent, and run files that are written
MANY = 30  # streams of few bytes
MOST_LINES, MOST_BYTES = 160, 6000
MOST_EVERY, MOST_LAST = 65535, 65536
FULL, HALF = bytes.fromhex("ffffff7f"), bytes.fromhex("ff7f")

HEAD = """\
# Made by tests/sync_cases.py; tests/capture_cases.py says what the lines of a block are.
"""


# ---- what a port sends -------------------------------------------------------

Part = collections.namedtuple("Part", "kind place bytes")  # "full", "half" or "kept", and the place in a frame


def parts_of(given):
    """What stands behind the first full packet of a capture, by docs/FORMATS.md ("Synchronisation packets")."""
    at, place = given.find(FULL), 0
    at = len(given) if at < 0 else at + len(FULL)
    while at < len(given):
        if place == 0 and given.startswith(FULL, at):
            part = Part("full", place, FULL)
        elif given.startswith(HALF, at):
            part = Part("half", place, HALF)
        else:
            part = Part("kept", place, given[at:at + 2])
            place = (place + len(part.bytes)) % FRAME
        yield part
        at += len(part.bytes)


def unsynced(given):
    """The frames of a capture, and what is left of one."""
    return b"".join(part.bytes for part in parts_of(given) if part.kind == "kept")


def synced(frames, every):
    """Frames with a full packet before the first, and before each one of so many behind it."""
    return b"".join(FULL * (at % (FRAME * every) == 0) + frames[at:at + FRAME] for at in range(0, len(frames), FRAME))


def without_packets(frames):
    """Whether no byte at an even place begins a packet, as in all that a formatter writes for trace sources."""
    return 0xFF not in frames[::2]


# ---- worked out by hand --------------------------------------------------------

LOOP = ["@1000", "1f2003d5 40000054 1f2003d5 fdffff17"]  # NOP, B.EQ to 100c, NOP, B to 1000
FIRST, SECOND = bytes.fromhex("03000000000000000000000080010080"), bytes.fromhex("000484000800000000000031da2d0202")
PATH = "path --sync --depth 4 --vmid 0 --cid 0 IMAGE"
PACKETS = "packets --sync"
SHOWN = ["01 on", "01 ctx el1 ns 0 0", "01 1000", "01 1004", "01 1008", "01 100c", "01 end"]


def sent(*parts):
    """Bytes, each part in hex or as they are."""
    return b"".join(bytes.fromhex(part) if isinstance(part, str) else part for part in parts)


TWELVE_ZEROS = "00" * 12
COUNTED = bytes(range(0, 32, 2))  # a frame that tells no ID

# what is shown, the command line, the capture, and what must be printed; `frame cut N` is printed with status 4
WORKED = [
    ("packets of both kinds between frames and in one, behind other bytes", PATH,
     sent("0011", FULL, FIRST[:2], HALF, FIRST[2:], FULL, FULL, SECOND), SHOWN),
    ("a packet that begins in one piece of the input and ends in the next", PATH,
     sent(FULL, FIRST, HALF * ((PIECE - 2 - len(FULL) - FRAME) // 2), FULL, SECOND), SHOWN),
    ("no packet", PATH, sent("0300"), []),
    ("frames without a packet", PATH, sent(FIRST, SECOND), []),
    ("half packets alone", PACKETS, sent(HALF * 3, COUNTED), []),
    ("three bytes that may begin a packet", PATH, sent(FULL, "ffffff"), ["frame cut 3"]),
    ("one such byte behind frames", PATH, sent(FULL, FIRST, SECOND, "ff"), [*SHOWN, "frame cut 1"]),
    ("three such bytes behind frames", PATH, sent(FULL, FIRST, SECOND, "ffffff"), [*SHOWN, "frame cut 3"]),
    ("one such byte", PACKETS, sent(FULL, "ff"), ["frame cut 1"]),
    ("two such bytes", PACKETS, sent(FULL, "ffff"), ["frame cut 2"]),
    ("a half packet behind a byte ff that is one of a frame", PACKETS, sent(FULL, "ffffff7e", HALF), ["frame cut 4"]),
    ("two bytes ff that begin no packet, and the place behind them", PACKETS, sent(FULL, "ffffff00", TWELVE_ZEROS, FULL, "05"), ["frame cut 1"]),
    ("a full packet at an odd place", PACKETS, sent(FULL, "ff", FULL, "01"), ["frame cut 6"]),
    ("ff 7f at an odd place", PACKETS, sent(FULL, "00", HALF, "01"), ["frame cut 4"]),
    ("a full packet in a frame, of which ff ff is kept", PACKETS, sent(FULL, "0102", FULL, "0304"), ["frame cut 6"]),
    ("ff ff in front of the first frame, in which a full packet stands", PACKETS,
     sent(FULL, FIRST[:4], FULL, FIRST[4:], SECOND), ["01 nosync", "frame cut 2"]),
    ("four bytes ff before the first packet ends", PACKETS, sent("ff", FULL, "0102"), ["frame cut 2"]),
    ("what is nearly a full packet in front of one", PACKETS, sent("ffff7f", FULL, "05"), ["frame cut 1"]),
    ("three bytes ff and another in front of one", PACKETS, sent("ffffff00", FULL, "0a"), ["frame cut 1"]),
    ("packets one behind the other", PACKETS, sent(FULL, FULL, HALF, FULL, "01"), ["frame cut 1"]),
    ("a half packet at the last place, and a full one behind the frame", PACKETS,
     sent(FULL, COUNTED[:14], HALF, COUNTED[14:], HALF, FULL, "aabb"), ["frame cut 2"]),
    ("a byte ff of a stream, and the ID 3f behind it", PACKETS,
     sent(FULL, "7f000000000000000000000080700300", "0000000000000000000000802cff7f40", "0371010f", TWELVE_ZEROS[2:], "03"),
     ["3f 0 async", "3f 12 ignore", "01 0 async", "3f 13 event 1", "01 12 commit 2047", "01 end", "3f end"]),
]


def block(name, image, given, answers, what=None):
    """A block; `given` has its lines."""
    lines = [f"# {what}"] if what else []
    lines += [f"case {name}", *(f"image {line}" for line in image), *given]
    for command, status, printed in answers:
        lines += ["words " + " ".join(command), f"status {status}", *printed]
    return "\n".join(lines) + "\n"


def shown(lines):
    return ["  " + line for line in lines]


def worked_blocks(model):
    for number, (what, words, given, lines) in enumerate(WORKED):
        status = 4 if any(line.startswith("frame cut") for line in lines) else 0
        found = answer(model, words.split(), LOOP, given)
        assert found == (status, lines), f"{what}: {found}"
        yield block(f"worked_{number}", LOOP, inputs(given), [(words.split(), status, shown(lines))], what)


def inputs(given):
    return [f"input {line}" for line in input_lines(given)]


# ---- captures that are sent ----------------------------------------------------

def junk(rng, others):
    """Bytes in front of the first full packet, among them such as end in a front of one."""
    kind = rng.randrange(7)
    front = [b"", b"", rng.randbytes(rng.randrange(1, 40)), HALF * rng.randrange(1, 4), others[-rng.randrange(1, 60):],
             b"\xff" * rng.randrange(1, 4), rng.randbytes(rng.randrange(9)) + rng.choice([b"\xff", b"\xff\xff", b"\xff\xff\x7f"])][kind]
    return front if (front + FULL).find(FULL) == len(front) else b""


def sprinkled(rng, frames):
    """Frames as a port sends them: full packets between frames, by count or by chance, and half ones at any even place."""
    every, fulls, halves = rng.choice([0, 0, 1, 2, 3, 8]), rng.choice([0, 0.1, 0.5]), rng.choice([0, 0.02, 0.1, 0.4])
    given = bytearray()
    for at in range(0, len(frames) + 1, 2):
        if at and every and at % (FRAME * every) == 0:
            given += FULL
        while rng.random() < (max(fulls, halves) if at % FRAME == 0 else halves):
            given += FULL if at % FRAME == 0 and rng.random() < 0.5 else HALF
        given += frames[at:at + 2]
    return bytes(given)


def misplaced(rng, given):
    """A capture with the bytes of packets anywhere."""
    for _ in range(rng.choice([1, 1, 2, 5])):
        place = rng.randrange(len(given) + 1)
        given = given[:place] + rng.choice([FULL, FULL, HALF, b"\xff", b"\xff\xff", b"\xff\xff\xff"]) + given[place:]
    return given


Sent = collections.namedtuple("Sent", "frames is_apart given")  # is_apart: no packet stands where it may not


def sent_capture(rng, model, streams):
    """A capture of a port."""
    frames = b""
    while len(frames) < FRAME:
        frames = capture_cases.capture(rng, model, streams)
        frames = frames[:len(frames) // FRAME * FRAME]
    given = junk(rng, sprinkled(rng, frames)) + FULL + sprinkled(rng, frames)
    if without_packets(frames):
        assert model.frames.unsynced(given) == frames and model.frames.is_synced(frames, given)
    is_apart, kind = without_packets(frames), rng.randrange(10)
    if kind < 2:
        given, is_apart = misplaced(rng, given), False
    if kind == 2:
        given = sprinkled(rng, frames).replace(FULL, HALF)
    if rng.random() < 0.4:
        given = given[:len(given) - rng.randrange(1, min(len(given), 60))]
    elif rng.random() < 0.15:
        given += FULL[:rng.randrange(1, 4)]
    return Sent(frames, is_apart, given)


def sent_case(rng, model):
    """The sizes of the options, those of a list or none, the lines of an image, and a capture."""
    (lines, places), sizes = program_of(rng), capture_cases.any_sizes(rng)
    count = rng.choice([1, 2, 2, 3, 4, 6]) if rng.random() < 0.9 else rng.choice([MANY, LAST_SOURCE])
    ids = rng.sample(range(1, LAST_SOURCE + 1), count)
    ids = [0x3F if source == ids[0] and 0x3F not in ids and rng.random() < 0.2 else source for source in ids]
    others = [source for source in range(1, LAST_SOURCE + 1) if source not in ids]
    own = own_sizes(rng, ids, others) if count < MANY and rng.random() < 0.2 else {}
    streams = [(source, stream_of(rng, model, lines, places, own.get(source, sizes), [sizes, *own.values()])[:800 if count < MANY else 20])
               for source in ids]
    return sizes, own, lines, sent_capture(rng, model, streams)


def sent_blocks(rng, model, counts):
    """The cases, and in `counts` what they have."""
    number = 0
    while number < SENT:
        sizes, own, lines, port = sent_case(rng, model)
        commands = [listed_words(rng, command, ["--sync"], sizes, own) for command in ("path", "packets")]
        answers = [answer(model, command, lines, port.given) for command in commands]
        if max(len(printed) for _, printed in answers) > MOST_LINES or len(port.given) > MOST_BYTES:
            continue
        counts.update(f"sent: {name}" for name in seen_sent(port, answers[0][1]))
        yield block(f"sent_{number}", lines, inputs(port.given), [(command, status, shown(printed)) for command, (status, printed)
                    in zip(commands, answers)])
        number += 1


def seen_places(port):
    """Where packets stand in a capture, and where bytes of one do that is none."""
    parts = list(parts_of(port.given))
    yield from (f"a half packet before byte {part.place}" for part in parts if part.kind == "half")
    kinds = [part.kind for part in parts]
    follow = list(zip(kinds, kinds[1:], kinds[2:]))
    yield from (name for name, there in {
        "a full packet behind a frame": ("kept", "full", "kept") in follow, "a full packet and a half one": ("full", "half", "kept") in follow,
        "a half packet and a full one": ("half", "full", "kept") in follow, "a packet behind the last frame": kinds[-1:] in (["full"], ["half"]),
        "two full packets": ("full", "full", "kept") in follow,
    }.items() if there)
    pairs = [part for part in parts if part.kind == "kept"]
    for part, after in zip(pairs, pairs[1:]):
        if part.bytes[-1:] + after.bytes[:1] == HALF and len(part.bytes) == 2:
            yield "ff 7f at an odd place"
        if part.bytes == b"\xff\xff" and part.place:
            yield "ff ff in a frame"


def seen_sent(port, lines):
    """What a capture has."""
    given, frames = port.given, unsynced(port.given)
    front, behind = given.find(FULL), len(frames) % FRAME
    held = len(given) - len(given.rstrip(b"\xff")) if front >= 0 else 0
    yield from seen_places(port)
    yield from (name for name, there in {
        "no full packet": front < 0, "bytes in front": front > 0, "bytes in front that end in ff": front > 0 and given[front - 1] == 0xFF,
        "a half packet in front": 0 <= given.find(HALF) < front - 1, "more than one piece": len(given) > PIECE,
        "frames that begin packets themselves": not without_packets(port.frames), "packets anywhere": not port.is_apart,
        "an ID that ends a packet": 0x7F in frames[::2], f"{MANY} streams or more": len({line[:2] for line in lines}) >= MANY,
        "an ID goes on": id_behind(frames[:len(frames) // FRAME * FRAME]) not in (None, NULL),
        "an instruction": any(re.fullmatch("[0-9a-f]{2} [0-9a-f]+", line) for line in lines),
        f"{behind} bytes of a frame": behind, f"{held} bytes at the end that may begin a packet": 0 < held < 4,
        "nothing": not lines,
    }.items() if there)
    yield from {line.split()[1] for line in lines} & {"fault", "end", "cut", "nosync"}


SENT_DUE = [f"sent: {what}" for what in (
    *(f"a half packet before byte {place}" for place in range(0, FRAME, 2)), *(f"{count} bytes of a frame" for count in range(1, FRAME)),
    *(f"{count} bytes at the end that may begin a packet" for count in (1, 2, 3)),
    "a full packet behind a frame", "a full packet and a half one", "a half packet and a full one", "two full packets",
    "a packet behind the last frame", "ff 7f at an odd place", "ff ff in a frame", "no full packet", "bytes in front",
    "bytes in front that end in ff", "a half packet in front", "more than one piece",
    "frames that begin packets themselves", "packets anywhere", "an ID that ends a packet", f"{MANY} streams or more", "an ID goes on",
    "an instruction", "nothing", "fault", "end", "cut", "nosync")]


# ---- frames that are written ----------------------------------------------------

TOLD = ["etm 1", "depth 4", "vmid 0", "cid 0"]
PREDICTED = ["stream 01", "on 1000 el1 ns 0 0", "step", "taken", "taken", "step", "not", "cancel 3", "flip", "step", "taken", "retire 4"]
SYNCED = ["stream 01", "on 1000 el0 s 0 0", "step", "taken", "sync", "flip", "step", "taken", "retire 4"]


def frames_lines(given):
    return [f"frames {given[at:at + 3 * FRAME].hex()}" for at in range(0, len(given), 3 * FRAME)]


def worked_traces(model):
    """What is shown, the run file, words behind `trace`, and what must be written."""
    run = TOLD + SYNCED
    whole = answered(model, ["trace", "IMAGE"], text_of(LOOP), text_of(run))[1]
    first, second, third, fourth = (whole[at:at + FRAME] for at in range(0, 4 * FRAME, FRAME))
    yield "before each frame", TOLD + PREDICTED, "--sync 1", FULL + FIRST + FULL + SECOND
    yield "before the first frame and the third", run, "--sync 2", FULL + first + second + FULL + third + fourth
    yield "before the first frame and the last", run, "--sync=0000000003", FULL + first + second + third + FULL + fourth
    yield "before the first frame alone", run, "--sync 65535", FULL + whole
    yield "among the frames that are left", run, "--sync 3 --last 2", FULL + third + fourth
    yield "before each frame that is left", run, "--last=3 --sync=1", FULL + second + FULL + third + FULL + fourth
    yield "no stream", ["etm 1"], "--sync 1", b""
    yield "no event", ["etm 1", "stream 01"], "--sync 1", b""


def text_of(lines):
    return "".join(line + "\n" for line in lines).encode()


def worked_trace_blocks(model):
    for number, (what, run, options, written) in enumerate(worked_traces(model)):
        words = ["trace", *options.split(), "IMAGE"]
        found = answered(model, words, text_of(LOOP), text_of(run))
        assert found == (0, written), f"{what}: {found}"
        yield block(f"worked_trace_{number}", LOOP, [f"run {line}" for line in run], [(words, 0, frames_lines(written))], what)
    bad = ["etm 1", "stream 01", "step"]
    words, line = ["trace", "--sync", "1", "IMAGE"], ["bench line 3: not-on"]
    assert answer(model, words, LOOP, text_of(bad)) == (3, line)
    yield block("worked_trace_refused", LOOP, [f"run {line}" for line in bad], [(words, 3, shown(line))], "a run file that is refused")


def trace_words(rng, every, last):
    """The command line, with its options in any order."""
    options = [["--sync", f"{every}"] if rng.random() < 0.7 else [f"--sync={every:0{rng.choice([1, 10])}}"]]
    options += [["--last", f"{last}"]] * bool(last)
    return ["trace", *(word for option in rng.sample(options, len(options)) for word in option), "IMAGE"]


def written_blocks(rng, model, counts):
    """Run files that are written in two ways, and what is read of the first way; and in `counts` what they have."""
    import run_cases
    from trace_cases import options_of
    number = 0
    while number < WRITTEN:
        draft = run_cases.own_draft_of(rng, model) if rng.random() < 0.4 else run_cases.draft_of(rng, model)
        run = [" ".join(words) for words in run_cases.lines_of(rng, draft)]
        image = run_cases.image_of(rng, draft.image)
        whole = answered(model, ["trace", "IMAGE"], text_of(image), text_of(run))[1]
        count = len(whole) // FRAME
        every = min(max(1, rng.choice([1, 1, 2, 2, 3, count - 1, count, count + 1, MOST_EVERY])), MOST_EVERY)
        last = rng.choice([1, 2, max(1, count // 2), count, count + 1, MOST_LAST])
        ways = [(every, 0), (rng.choice([1, 2, 3]), last)]
        answers = [(words, *answered(model, words, text_of(image), text_of(run))) for words in (trace_words(rng, *way) for way in ways)]
        for (every, last), (_, status, written) in zip(ways, answers):
            frames = whole[-FRAME * last:] if last else whole
            assert (status, written) == (0, synced(frames, every)) and model.frames.unsynced(written) == frames
            counts.update(f"written: {name}" for name in seen_written(frames, every, last, count))
        yield block(f"written_{number}", image, [f"run {line}" for line in run],
                    [(words, status, frames_lines(written)) for words, status, written in answers])
        words, given = ["path", *options_of("\n".join(run)), "IMAGE"], answers[0][2]
        told = answer(model, [words[0], "--sync", *words[1:]], image, given)
        assert told == answer(model, words, image, whole), f"written_{number} is not read as it was written"
        yield block(f"read_{number}", image, inputs(given), [([words[0], "--sync", *words[1:]], told[0], shown(told[1]))])
        number += 1


def seen_written(frames, every, last, count):
    """What was written of so many frames."""
    left = len(frames) // FRAME
    found = {
        "nothing": not left, "a packet before each frame": every == 1 < left, "a packet before each second frame": every == 2 < left,
        "a last packet before the last frame": every > 1 and left % every == 1, "one packet": every >= left > 1,
        "as many frames as from one packet to the next": 1 < every == left, "the last frames": 0 < last < count,
        "the last frames, and a packet before some of them": 0 < last < count and 1 < every < left, "more last frames than there are": last > count,
    }
    return [name for name, there in found.items() if there]


WRITTEN_DUE = [f"written: {what}" for what in (
    "a packet before each frame", "a packet before each second frame", "a last packet before the last frame", "one packet",
    "as many frames as from one packet to the next", "the last frames", "the last frames, and a packet before some of them",
    "more last frames than there are")]


# ---- the file ----------------------------------------------------------------

def main(words):
    if len(words) != 1:
        sys.exit(__doc__)
    model, counts = loaded(words[0]), collections.Counter()
    blocks = [*worked_blocks(model), *worked_trace_blocks(model), *sent_blocks(random.Random(SEED), model, counts),
              *written_blocks(random.Random(SEED + 1), model, counts)]
    print(*(f"{count:6} {name}" for name, count in sorted(counts.items())), sep="\n")
    missing = [name for name in (*SENT_DUE, *WRITTEN_DUE) if not counts[name]]
    assert not missing, f"no case has {missing}"
    OUT.parent.mkdir(exist_ok=True)
    OUT.write_text("\n".join([HEAD, *blocks]))
    print(f"{len(blocks)} blocks, {OUT.stat().st_size} bytes")


if __name__ == "__main__":
    main(sys.argv[1:])
