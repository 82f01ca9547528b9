#!/usr/bin/env python3
"""Makes tests/cases_of_captures/cases.txt: captures in frames, and what `etm path` and `etm packets` must print of them.

Usage: capture_cases.py MODEL_DIR

MODEL_DIR is as for tests/packet_cases.py. The streams are those of tests/speculation_cases.py, streams with bytes changed, and
any bytes, of one to six IDs. They are put into frames here, by docs/FORMATS.md ("Frames") and with a fixed seed: as the trace
formatter of this project writes them, or as any other may, which repeats an ID, tells one late, or has bytes before the first.
Bytes of the null ID and of reserved IDs stand between, some captures have frames of any bytes or barrier packets, and some end
in a frame. Behind those whose streams all have the sizes of the options are captures, and streams without frames, that are read
under a list of settings for single IDs: some streams have theirs, some those of the options, and some those of another. Behind these
are buffers that were written round: the whole frames of a capture, stored with the oldest at some place and with some bytes of a frame
behind them, or a buffer that was not filled. They are read from that place on, mostly, and else from another place, or from behind the
last frame. The answers come from the model alone.

The file has the form of that of tests/path_cases.py, but that a block has two command lines, each with its answer behind it.
A line `input` may end with ` x` and how often its bytes stand there.
"""
import collections
import itertools
import pathlib
import random
import re
import sys

import frame_cases
import path_cases
from packet_cases import SYNC
from path_cases import changed
from reference_model import PROFILE, answer, loaded
from speculation_cases import Outlook, Sizes, begun, grown, loop

OUT = pathlib.Path(__file__).resolve().parent / "cases_of_captures" / "cases.txt"
CAPTURES = 300
LISTED, LISTED_RAW = 120, 60  # read under a list of settings: captures, and streams without frames
WRAPPED = 160  # buffers that were written round
MOST_WRAPPED = 65536
MOST_LINES = 160
PIECE = 4096
FRAME = 16
BARRIER = bytes.fromhex("ffffff7f") * 4
NULL, RESERVED, LAST_SOURCE = 0x00, range(0x70, 0x80), 0x6F

HEAD = """\
# Made by tests/capture_cases.py; tests/packet_cases.py and tests/path_cases.py say what the lines of a block are.
"""


# ---- streams ---------------------------------------------------------------

def stream(rng, model, lines, places, sizes):
    """The bytes of a stream: packets that fit the image, such with a byte changed, or any bytes."""
    kind = rng.randrange(10)
    if kind == 0:
        return rng.randbytes(rng.randrange(1, 40))
    if kind == 1:
        return model.randoms.random_bytes(rng, model.base.Settings(*sizes), rng.randrange(1, 60), PROFILE)
    given = grown(rng, Outlook(model, lines, sizes), begun(rng, places, sizes), places, sizes)
    if kind == 2:
        return SYNC + given
    return changed(rng, given) if kind < 6 else given


def woven(rng, streams):
    """The bytes of the streams in turn, as (ID, byte), and bytes of IDs that are no sources between them."""
    left, found, others = dict(streams), [], rng.choice([0, 0, 0.1, 0.5])
    while left:
        source = rng.choice(sorted(left))
        count = rng.choice([1, 1, 2, 3, 7, 14, 15, 30, 60])
        found += [(source, byte) for byte in left[source][:count]]
        left[source] = left[source][count:]
        left = {source: rest for source, rest in left.items() if rest}
        if rng.random() < others:
            other = rng.choice([NULL, rng.choice(RESERVED)])
            found += [(other, byte) for byte in rng.randbytes(rng.choice([1, 1, 2, 5, 20]))]
    return found


# ---- frames ----------------------------------------------------------------

class Frames:
    """Frames, place by place. A cell is a byte of data, or an ID with its auxiliary bit."""

    def __init__(self):
        self.cells = []

    @property
    def place(self):
        return len(self.cells) % (FRAME - 1)

    def put_data(self, byte):
        self.cells.append((byte if self.place % 2 else byte & 0xFE, 0 if self.place % 2 else byte & 1))

    def put_id(self, source, late):
        self.cells.append((source << 1 | 1, late))

    def bytes_of(self):
        while self.place:
            self.put_data(0)
        frames = bytearray()
        for at in range(0, len(self.cells), FRAME - 1):
            cells = self.cells[at:at + FRAME - 1]
            frames += bytes(byte for byte, _ in cells)
            frames.append(sum(bit << place // 2 for place, (_, bit) in enumerate(cells)))
        return bytes(frames)


def framed_freely(rng, given):
    """Frames that another formatter may write. Where the ID changes is told where it must be, and at times where it need not."""
    frames, current, again, at = Frames(), None, rng.choice([0, 0.05, 0.3]), 0
    for byte in rng.randbytes(rng.choice([0, 0, 2, 6, 15, 20, 30])):
        frames.put_data(byte)
    while frames.place % 2:
        frames.put_data(0)
    while at < len(given):
        source, byte = given[at]
        follows = given[at + 1][0] if at + 1 < len(given) else source
        is_last, tells_again = frames.place == FRAME - 2, rng.random() < again
        if is_last and (source != current or tells_again):
            frames.put_id(source, rng.randrange(2))
            current = source
            continue
        if frames.place % 2 == 0 and not is_last and source == current and (follows != current or tells_again):
            frames.put_id(follows, 1)
            current = follows
        elif frames.place % 2 == 0 and source != current:
            frames.put_id(source, 0)
            current = source
        frames.put_data(byte)
        at += 1
    if frames.place % 2 == 0 and rng.random() < 0.7:
        frames.put_id(NULL, 0)
    assert data_of(frames.bytes_of())[:len(given)] == given
    return frames.bytes_of()


def data_of(frames):
    """The data bytes of whole frames, as (ID, byte)."""
    found, current = [], None
    for at in range(0, len(frames), FRAME):
        pairs, current = frame_cases.unpack(frames[at:at + FRAME], current)
        found += pairs
    return found


def noise(rng):
    """Frames of any bytes, with IDs of few sources."""
    frames, sources = bytearray(rng.randbytes(FRAME * rng.randrange(1, 4))), rng.sample(range(0x80), 3)
    for at in range(0, len(frames), 2):
        if at % FRAME != FRAME - 2 and rng.random() < 0.4:
            frames[at] = rng.choice(sources) << 1 | 1
        elif rng.random() < 0.8:
            frames[at] &= 0xFE
    return bytes(frames)


def capture(rng, model, streams):
    bytes_in_turn = woven(rng, streams)
    frames = model.frames.framed(bytes_in_turn) if rng.random() < 0.4 else framed_freely(rng, bytes_in_turn)
    kind = rng.randrange(12)
    if kind == 0:
        frames = BARRIER * rng.randrange(1, 3) + frames
    elif kind == 1:
        middle = FRAME * rng.randrange(len(frames) // FRAME)
        frames = frames[:middle] + rng.choice([BARRIER, noise(rng)]) + frames[middle:]
    elif kind == 2:
        frames = noise(rng) + frames
    elif kind == 3:
        idle = model.frames.framed([(rng.choice([NULL, rng.choice(RESERVED)]), 0)] * (PIECE + rng.choice([0, 1, 9, 4000])))
        middle = FRAME * rng.randrange(len(frames) // FRAME)
        frames = frames[:middle] + idle + frames[middle:]
    return frames[:len(frames) - rng.randrange(1, len(frames))] if rng.random() < 0.25 else frames


def case(rng, model):
    """The sizes, the lines of the image, and a capture."""
    sizes = Sizes(rng.choice([0, 0, 1, 3, 16, 16, 64]), rng.choice([1, 1, 0, 2, 4]), rng.choice([4, 4, 0]))
    parts = loop(rng) if rng.random() < 0.4 else path_cases.program(rng)
    lines, places = path_cases.image_lines(rng, parts), path_cases.places_of(parts)
    ids = rng.sample([1, 2, 0x10, LAST_SOURCE, *range(3, 0x10), *range(0x11, LAST_SOURCE)], rng.randrange(1, 7))
    streams = [(source, stream(rng, model, lines, places, sizes)) for source in ids]
    return sizes, lines, capture(rng, model, streams)


# ---- captures under a list of settings ----------------------------------------

def list_of(rng, sizes_by_id):
    """The word of a list, with its IDs in any order."""
    def word(source):
        spelled = f"{source:02x}" if rng.random() < 0.7 else f"{source:02X}"
        return ":".join([spelled, *(f"{value:0{rng.choice([1, 1, 1, 10])}}" for value in sizes_by_id[source])])
    return ",".join(map(word, rng.sample(sorted(sizes_by_id), len(sizes_by_id))))


def any_sizes(rng):
    return Sizes(rng.choice([0, 0, 1, 3, 16, 64, 16384]), rng.choice([1, 0, 2, 4]), rng.choice([4, 0]))


def program_of(rng):
    """The lines of an image, and its places."""
    parts = loop(rng) if rng.random() < 0.4 else path_cases.program(rng)
    return path_cases.image_lines(rng, parts), path_cases.places_of(parts)


def own_sizes(rng, ids, others):
    """By the IDs, the sizes of those that have their own: some or all of them, and at times IDs without a stream."""
    chosen = rng.sample(ids, rng.randrange(len(ids) + 1)) + rng.sample(others, rng.choice([0, 0, 1, 3]))
    return {source: any_sizes(rng) for source in chosen or ids[:1]}


def stream_of(rng, model, lines, places, sizes, others):
    """A stream by its own sizes, or seldom by those of another one."""
    return stream(rng, model, lines, places, rng.choice(others) if rng.random() < 0.15 else sizes)


def listed_case(rng, model):
    """The sizes of the options, those of the list, the lines of an image, and a capture."""
    (lines, places), sizes = program_of(rng), any_sizes(rng)
    ids = rng.sample(range(1, LAST_SOURCE + 1), rng.choice([1, 2, 2, 3, 4]))
    own = own_sizes(rng, ids, [source for source in range(1, LAST_SOURCE + 1) if source not in ids])
    others = [sizes, *own.values()]
    streams = [(source, stream_of(rng, model, lines, places, own.get(source, sizes), others)) for source in ids]
    return sizes, own, lines, capture(rng, model, streams)


def listed_raw_case(rng, model):
    """The same of a stream without frames, which has the sizes of the ID 01."""
    (lines, places), sizes = program_of(rng), any_sizes(rng)
    own = own_sizes(rng, [1, 2], [3, 0x10, LAST_SOURCE])
    return sizes, own, lines, stream_of(rng, model, lines, places, own.get(1, sizes), [sizes, *own.values()])


def listed_words(rng, command, layout, sizes, own):
    """The command line, with its options in any order."""
    _, *words = words_of(command, sizes)
    options = [words[place:place + 2] for place in range(0, len(words) - len(words) % 2, 2)]
    if own:
        options.append(["--settings", list_of(rng, own)] if rng.random() < 0.5 else ["--settings=" + list_of(rng, own)])
    options += [layout] * bool(layout)
    return [command, *(word for option in rng.sample(options, len(options)) for word in option), *["IMAGE"] * (command == "path")]


def listed_blocks(rng, model, counts):
    """The cases, and in `counts` what they have."""
    for kind, count, make, layout in (("listed", LISTED, listed_case, []), ("listed_raw", LISTED_RAW, listed_raw_case, ["--raw"])):
        number = 0
        while number < count:
            sizes, own, lines, given = make(rng, model)
            commands = [listed_words(rng, command, layout, sizes, own) for command in ("path", "packets")]
            answers = [answer(model, command, lines, given) for command in commands]
            if max(len(printed) for _, printed in answers) > MOST_LINES:
                continue
            counts.update(seen_listed(model, layout, sizes, own, lines, given, answers))
            yield block(f"{kind}_{number}", lines, given, zip(commands, answers))
            number += 1


# ---- buffers that were written round ------------------------------------------

Buffer = collections.namedtuple("Buffer", "frames oldest told given")  # in their order, the place of the oldest, K, and what is stored


def buffer(rng, model, streams):
    """The frames of a capture as a ring has them, mostly with its oldest frame told."""
    whole = capture(rng, model, streams)
    while len(whole) < FRAME:
        whole = capture(rng, model, streams)
    count = len(whole) // FRAME
    whole = whole[:count * FRAME]
    oldest = rng.choice([0, 1, count - 1, rng.randrange(count), rng.randrange(count)]) % count
    begun = rng.randbytes(rng.randrange(1, FRAME)) if rng.random() < 0.4 else b""
    seam = len(whole) - FRAME * oldest
    kind = rng.randrange(8)
    if kind == 0:
        told = rng.choice([count, count + 1, MOST_WRAPPED])
    elif kind == 1:
        told = rng.choice([oldest + 1, max(0, oldest - 1), rng.randrange(count + 1)])
    else:
        told = oldest
    return Buffer(whole, oldest, told, whole[seam:] + whole[:seam] + begun)


def wrapped_case(rng, model):
    """The sizes of the options, those of a list or none, the lines of an image, and a buffer."""
    (lines, places), sizes = program_of(rng), any_sizes(rng)
    ids = rng.sample(range(1, LAST_SOURCE + 1), rng.choice([1, 2, 2, 3, 4]))
    others = [source for source in range(1, LAST_SOURCE + 1) if source not in ids]
    own = own_sizes(rng, ids, others) if rng.random() < 0.2 else {}
    streams = [(source, stream_of(rng, model, lines, places, own.get(source, sizes), [sizes, *own.values()])) for source in ids]
    return sizes, own, lines, buffer(rng, model, streams)


def wrapped_blocks(rng, model, counts):
    """The cases, and in `counts` what they have."""
    number = 0
    while number < WRAPPED:
        sizes, own, lines, ring = wrapped_case(rng, model)
        wrap = [f"--wrap={ring.told}"] if rng.random() < 0.3 else ["--wrap", f"{ring.told:0{rng.choice([1, 1, 1, 10])}}"]
        commands = [listed_words(rng, command, wrap, sizes, own) for command in ("path", "packets")]
        answers = [answer(model, command, lines, ring.given) for command in commands]
        if max(len(printed) for _, printed in answers) > MOST_LINES:
            continue
        counts.update(seen_wrapped(model, sizes, own, lines, ring, answers))
        yield block(f"wrapped_{number}", lines, ring.given, zip(commands, answers))
        number += 1


# ---- what must occur -------------------------------------------------------

def id_behind(frames):
    """The ID that holds behind frames."""
    current = None
    for at in range(0, len(frames), FRAME):
        _, current = frame_cases.unpack(frames[at:at + FRAME], current)
    return current


def seen_wrapped(model, sizes, own, lines, ring, answers):
    """What a buffer has, and what its path depends on."""
    def path(given, told):
        listed = ["--settings", ",".join(f"{source:02x}:{of.depth}:{of.vmid}:{of.cid}" for source, of in own.items())]
        return answer(model, [*words_of("path", sizes)[:-1], *["--wrap", f"{told}"], *listed * bool(own), "IMAGE"], lines, given)
    count, begun, seam = len(ring.frames) // FRAME, len(ring.given) % FRAME, FRAME * ring.told
    is_round = 0 < ring.told == ring.oldest < count
    found = {
        "the oldest frame in front": ring.told == ring.oldest == 0, "no frame of the number told": ring.told >= count,
        "one frame": count == 1, "a list of settings": own,
        "a frame told that is not the oldest": ring.told != ring.oldest and ring.told < count,
        "a ring with bytes of a frame behind it": is_round and begun,
        "one frame kept": is_round and ring.told == 1, "all frames kept but one": is_round and ring.told == count - 1 > 1,
        "more than one piece": is_round and len(ring.given) > PIECE,
        "an ID that holds round the end": is_round and not ring.given[0] & 1
            and id_behind(ring.given[seam:len(ring.given) - begun]) not in (None, NULL, *RESERVED),
        f"{begun} bytes of a frame": begun,
        "a path that is another from the first frame on": is_round and path(ring.given, 0) != answers[0],
        "a path that is another from the next frame on": is_round and path(ring.given, ring.told + 1) != answers[0],
        "a path that is that of the frames in their order": is_round and not begun and path(ring.frames, 0) == answers[0],
        "a path with instructions": is_round and any(re.fullmatch("[0-9a-f]{2} [0-9a-f]+", line) for line in answers[0][1]),
    }
    yield from (f"wrapped: {name}" for name, there in found.items() if there)
    yield from (f"wrapped: {name}" for name in ("fault", "end", "cut", "nosync") if any(line.split()[1] == name for line in answers[0][1]))


WRAPPED_DUE = [f"wrapped: {what}" for what in (
    "the oldest frame in front", "no frame of the number told", "one frame", "a list of settings", "a frame told that is not the oldest",
    "a ring with bytes of a frame behind it", "one frame kept", "all frames kept but one", "more than one piece",
    "an ID that holds round the end", "a path that is another from the first frame on", "a path that is another from the next frame on",
    "a path that is that of the frames in their order", "a path with instructions", "fault", "end", "cut", "nosync",
    *(f"{count} bytes of a frame" for count in range(1, FRAME)))]


def seen_listed(model, layout, sizes, own, lines, given, answers):
    """Which sizes a path depends on: those of the list, and those of the options."""
    def path(sizes, own):
        listed = ["--settings", ",".join(f"{source:02x}:{of.depth}:{of.vmid}:{of.cid}" for source, of in own.items())]
        return answer(model, [*words_of("path", sizes)[:-1], *layout, *listed * bool(own), "IMAGE"], lines, given)
    whole, kind = answers[0], "a stream without frames" if layout else "a capture"
    if path(sizes, {}) != whole:
        yield f"{kind} whose path depends on the list"
    if own and any(path(own[source], {}) != whole for source in own):
        yield f"{kind} whose path depends on more than one of the list"
    if path(Sizes(0, 0, 0), own) != whole and path(Sizes(16384, 4, 4), own) != whole:
        yield f"{kind} whose path depends on the options too"
    if any(path(sizes, {source: of for source, of in own.items() if source != one}) == whole for one in own):
        yield f"{kind} with an ID of the list that changes nothing"
    yield from (f"under a list, {name}" for name in ("fault", "end") if any(line.split()[1] == name for line in whole[1]))


LISTED_DUE = [f"{kind} {what}" for kind in ("a capture", "a stream without frames") for what in (
    "whose path depends on the list", "whose path depends on more than one of the list", "whose path depends on the options too",
    "with an ID of the list that changes nothing")] + ["under a list, fault", "under a list, end"]


def seen(given, ends):
    """What a capture has."""
    frames = [given[at:at + FRAME] for at in range(0, len(given) - FRAME + 1, FRAME)]
    told = [place for frame in frames for place in range(0, FRAME, 2) if place < FRAME - 1 and frame[place] & 1]
    ids = {frame[place] >> 1 for frame in frames for place in range(0, FRAME - 1, 2) if frame[place] & 1}
    late = any(frame[place] & 1 and frame[FRAME - 1] >> place // 2 & 1 for frame in frames for place in range(0, FRAME - 2, 2))
    found = {
        "the null ID": NULL in ids, "reserved IDs": any(source in RESERVED for source in ids), "an ID told late": late,
        "an ID in byte 14": FRAME - 2 in told, "bytes before the first ID": bool(frames) and not frames[0][0] & 1,
        "a barrier packet": BARRIER in frames, "a barrier packet in front": given.startswith(BARRIER),
        "more than one piece": len(given) > PIECE, "no stream": not ends, f"{len(ends)} streams": ends,
        "faults in two streams": sum(" fault " in line for line in ends) > 1,
        "a stream that ends well beside a fault": {"end", "fault"} <= {line.split()[1] for line in ends},
        f"a frame of {len(given) % FRAME} bytes": len(given) % FRAME,
    }
    return [name for name, there in found.items() if there]


def due():
    yield from ("the null ID", "reserved IDs", "an ID told late", "an ID in byte 14", "bytes before the first ID", "no stream",
                "a barrier packet", "a barrier packet in front", "more than one piece", "faults in two streams",
                "a stream that ends well beside a fault", "end", "cut", "nosync", "fault", "gap", "stop", "exc", "on", "?")
    yield from (f"{count} streams" for count in range(1, 7))
    yield from (f"a frame of {count} bytes" for count in range(1, FRAME))


END_LINE = re.compile("[0-9a-f]{2} (end|cut|nosync|fault)( .*)?")


# ---- the file --------------------------------------------------------------

def input_lines(given):
    """Three frames a line; of equal frames that follow one another, one line."""
    frames, some = [given[at:at + FRAME] for at in range(0, len(given), FRAME)], []
    for frame, equal in itertools.groupby(frames):
        count = len(list(equal))
        if count < 4:
            some += [frame] * count
            continue
        yield from (b"".join(some[at:at + 3]).hex() for at in range(0, len(some), 3))
        yield f"{frame.hex()} x{count}"
        some = []
    yield from (b"".join(some[at:at + 3]).hex() for at in range(0, len(some), 3))


def block(name, image, given, answers):
    lines = [f"case {name}", *(f"image {line}" for line in image), *(f"input {line}" for line in input_lines(given))]
    for command, (status, printed) in answers:
        lines += ["words " + " ".join(command), f"status {status}", *("  " + line for line in printed)]
    return "\n".join(lines) + "\n"


def words_of(command, sizes):
    depth = ["--depth", f"{sizes.depth}"] if command == "path" else []
    return [command, *depth, "--vmid", f"{sizes.vmid}", "--cid", f"{sizes.cid}", *["IMAGE"] * (command == "path")]


def main(words):
    if len(words) != 1:
        sys.exit(__doc__)
    model = loaded(words[0])
    rng, counts, blocks, number = random.Random(29), collections.Counter(), [], 0
    while number < CAPTURES:
        sizes, lines, given = case(rng, model)
        commands = [words_of(command, sizes) for command in ("path", "packets")]
        answers = [answer(model, command, lines, given) for command in commands]
        if max(len(printed) for _, printed in answers) > MOST_LINES:
            continue
        ends = [line for line in answers[0][1] if END_LINE.fullmatch(line)]
        counts.update(seen(given, ends))
        counts.update({line.split()[1] for line in answers[0][1]} & set(due()))
        blocks.append(block(f"capture_{number}", lines, given, zip(commands, answers)))
        number += 1
    blocks += listed_blocks(random.Random(30), model, counts)
    blocks += wrapped_blocks(random.Random(31), model, counts)
    print(*(f"{count:6} {name}" for name, count in sorted(counts.items())), sep="\n")
    missing = [name for name in (*due(), *LISTED_DUE, *WRAPPED_DUE) if not counts[name]]
    assert not missing, f"no capture has {missing}"
    OUT.parent.mkdir(exist_ok=True)
    OUT.write_text("\n".join([HEAD, *blocks]))
    print(f"{len(blocks)} captures, {OUT.stat().st_size} bytes")


if __name__ == "__main__":
    main(sys.argv[1:])
