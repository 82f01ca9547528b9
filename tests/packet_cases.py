#!/usr/bin/env python3
"""Makes tests/cases_of_packets/cases.txt: streams, and what `etm packets --raw` must print for them.

Usage: packet_cases.py MODEL_DIR

MODEL_DIR is the folder of the model that tests/reference_model.py loads. The streams are made here, from the table of
docs/FORMATS.md and with a fixed seed; the answers come from the model alone.

The file is blocks, an empty line between two. A block is a line `case NAME`, then `words` and the words of the command
line, then lines `input` with the bytes in hex (none where the input is empty), then `status N`, and then all the lines
that must be printed, each behind two spaces. A line that begins with # is a comment.
"""
import collections
import itertools
import pathlib
import random
import re
import sys

from reference_model import PROFILE, loaded

OUT = pathlib.Path(__file__).resolve().parent / "cases_of_packets" / "cases.txt"
WORDS = "packets --raw"
SYNC = bytes(11) + b"\x80"
STREAMS = 300
LONGEST_LINE = 48

# The depth, and the bytes of a VMID and of a context ID.
DEPTH, VMID_BYTES, CID_BYTES = 0, 1, 4

HEAD = """\
# Made by tests/packet_cases.py, which says what the lines of a block are; tests/run_stored_cases.py runs them.
"""


# ---- spellings of packets --------------------------------------------------

def number(rng):
    """A number, at times with groups of zeros at its end that say nothing."""
    value = rng.choice([0, 1, 2, 127, 128, 300, 1 << 14, 1 << 21, (1 << 28) - 1, 1 << 28, (1 << 32) - 1,
                        rng.randrange(1 << 32), rng.randrange(8)])
    groups = [value & 0x7F]
    while value := value >> 7:
        groups.append(value & 0x7F)
    if rng.random() < 0.2:
        groups += [0] * rng.randrange(6 - len(groups))
    return bytes(group | 0x80 for group in groups[:-1]) + bytes(groups[-1:])


def info(rng):
    control = rng.randrange(16)
    mode = b"\x00" if rng.random() < 0.8 else b"\x80\x80\x00"
    return bytes([1, control]) + b"".join(
        mode if bit == 0 else number(rng) for bit in range(4) if control >> bit & 1)


def timestamp(rng):
    count = rng.randrange(1, 10)
    groups = bytearray(rng.randrange(128) | 0x80 for _ in range(count))
    groups[-1] = rng.randrange(256) if count == 9 else groups[-1] & 0x7F
    return b"\x02" + bytes(groups)


def context(rng):
    """An info byte of AArch64 with its fields; bits 2 and 3 say nothing."""
    first = rng.randrange(256) | 0x10
    fields = rng.randbytes(VMID_BYTES if first & 0x40 else 0) + rng.randbytes(CID_BYTES if first & 0x80 else 0)
    return bytes([first]) + (bytes(len(fields)) if rng.random() < 0.1 else fields)


def address(rng):
    kind = rng.randrange(6)
    if kind == 0:
        return bytes([0x90 + rng.randrange(3)])
    if kind == 1:
        return bytes([0x95, rng.randrange(128)])
    if kind == 2:
        return bytes([0x95, rng.randrange(128) | 0x80, rng.randrange(256)])
    long = rng.choice([4, 8])
    given = bytes(long) if rng.random() < 0.1 else rng.randbytes(long)
    if kind == 3:
        return bytes([0x82 if long == 4 else 0x85]) + given + context(rng)
    return bytes([0x9A if long == 4 else 0x9D]) + given


SPELLINGS = [
    lambda rng: SYNC,
    lambda rng: b"\x00\x03",
    lambda rng: b"\x00\x05",
    info,
    timestamp,
    lambda rng: b"\x04",
    lambda rng: bytes([0x06, rng.randrange(32) << 1 | rng.choice([0x01, 0x40])]),
    lambda rng: b"\x2d" + number(rng),
    lambda rng: bytes([rng.choice([0x2E, 0x2F])]) + number(rng),
    lambda rng: bytes([rng.randrange(0x30, 0x40)]),
    lambda rng: bytes([rng.randrange(0x70, 0x80)]),
    lambda rng: b"\x80",
    lambda rng: b"\x81" + context(rng),
    address,
    address,
    lambda rng: bytes([rng.randrange(0xC0, 0x100)]),
    lambda rng: bytes([rng.randrange(0xC0, 0x100)]),
]


def packets(rng, most):
    return [rng.choice(SPELLINGS)(rng) for _ in range(rng.randrange(1, most + 1))]


def stream(rng, most=20):
    return SYNC + b"".join(packets(rng, most))


# ---- what is done to a stream ----------------------------------------------

def bit_flipped(rng):
    changed = bytearray(stream(rng))
    place = rng.randrange(len(changed)) if rng.random() < 0.2 else rng.randrange(len(SYNC), len(changed))
    changed[place] ^= 1 << rng.randrange(8)
    return bytes(changed)


def byte_dropped(rng):
    whole = stream(rng)
    place = rng.randrange(len(whole)) if rng.random() < 0.2 else rng.randrange(len(SYNC), len(whole))
    return whole[:place] + whole[place + 1:]


def byte_inserted(rng):
    whole = stream(rng)
    place = rng.randrange(len(SYNC), len(whole) + 1)
    return whole[:place] + rng.randbytes(1) + whole[place:]


def cut_short(rng):
    whole = stream(rng)
    return whole[:rng.randrange(1, len(whole))]


def two_joined(rng):
    first, second = stream(rng, 10), stream(rng, 10)
    return first[:rng.randrange(len(SYNC), len(first) + 1)] + second[rng.choice([0, 0, 0, 1, 5, 11]):]


def rubbish_before(rng):
    """Bytes before the first A-sync, among them beginnings of one."""
    parts = [rng.randbytes(rng.randrange(1, 6)), bytes(rng.randrange(11)), b"\x80", SYNC[1:], bytes(11) + b"\x81"]
    return b"".join(rng.choices(parts, k=rng.randrange(1, 6))) + stream(rng, 10)


def second_sync(rng):
    """A further A-sync, between two packets or inside of one."""
    whole = stream(rng)
    place = rng.randrange(len(SYNC), len(whole) + 1)
    return whole[:place] + SYNC + whole[place:]


def broken_sync(rng):
    """A further A-sync that breaks off."""
    broken = bytearray(SYNC)
    broken[rng.randrange(2, len(SYNC))] = rng.randrange(1, 0x80)
    return stream(rng, 10) + bytes(broken) + b"".join(packets(rng, 4))


def no_sync(rng):
    """No A-sync: each has one zero too few, or another last byte."""
    missing = rng.choice([bytes(10) + b"\x80", bytes(11) + b"\x81", bytes(rng.randrange(12))])
    return missing + b"".join(rng.choice(SPELLINGS[3:])(rng) for _ in range(rng.randrange(6)))


CHANGES = [
    ("whole", lambda rng: stream(rng, 40)),
    ("bit_flipped", bit_flipped),
    ("byte_dropped", byte_dropped),
    ("byte_inserted", byte_inserted),
    ("cut_short", cut_short),
    ("two_joined", two_joined),
    ("rubbish_before", rubbish_before),
    ("second_sync", second_sync),
    ("broken_sync", broken_sync),
    ("no_sync", no_sync),
]


# ---- the cases -------------------------------------------------------------

def headers(rng):
    """Each header behind an A-sync, alone and with small bytes, bytes with bit 7, info bytes and any bytes after it."""
    for header in range(256):
        tails = {
            "alone": b"",
            "small_bytes": bytes([1, 2, 3]),
            "high_bytes": bytes(range(0x81, 0x8C)),
            "info_bytes": bytes([0x10, 0x31, 0x00, 0x72, 0x93, 0xF0, 0x15, 0x3A, 0xD1, 0x51, 0x30, 0x11]),
            "any_bytes": rng.randbytes(24),
        }
        for tail, after in tails.items():
            yield f"header_{header:02x}_{tail}", SYNC + bytes([header]) + after


def zeros():
    """0 to 14 zeros, as the first bytes and behind an A-sync, and what may come behind them."""
    for count, (place, before) in itertools.product(range(15), (("first", b""), ("behind_a_sync", SYNC + b"\xf7"))):
        for name, after in (("end", b""), ("80", b"\x80\xf6"), ("a_number", b"\x03\xf6\x05"), ("atoms", b"\xff\x04")):
            if before or count or after:
                yield f"zeros_{count:02}_{place}_then_{name}", before + bytes(count) + after


def streams(rng):
    for place in range(STREAMS):
        name, make = CHANGES[place % len(CHANGES)]
        yield f"stream_{place:03}_{name}", make(rng)


def chosen():
    """What chance would leave out: all numbers of bytes, and all kinds."""
    yield "empty", b""
    yield "every_atom_byte", SYNC + bytes(range(0xC0, 0x100))
    yield "every_exception", SYNC + b"".join(bytes([6, kind << 1 | form]) for form in (0x01, 0x40) for kind in range(32))
    yield "every_short_header", SYNC + bytes(range(0x30, 0x40)) + bytes(range(0x70, 0x81)) + b"\x90\x91\x92\x04"
    yield "every_timestamp", SYNC + b"".join(b"\x02" + b"\xff" * more + b"\x7f" for more in range(9))
    yield "every_length_of_a_number", SYNC + b"".join(
        bytes([header]) + b"\x80" * more + b"\x0f" for header in (0x2D, 0x2E, 0x2F) for more in range(5))
    fields = [bytes([first]) + b"\xfe" * (first >> 6 & 1) + b"\x01\x02\x03\x84" * (first >> 7)
              for first in range(256) if first & 0x10]
    yield "every_info_byte", SYNC + b"".join(b"\x81" + field for field in fields)
    yield "every_context_with_an_address", SYNC + b"".join(
        header + bytes(range(count)) + field
        for field in fields if not field[0] & 0x0C for header, count in ((b"\x82", 4), (b"\x85", 8)))
    yield "every_trace_info", SYNC + b"".join(
        bytes([1, control]) + b"\x00" * (control & 1) + b"\x85\x01" * bin(control >> 1).count("1")
        for control in range(16))


def bad_values():
    """Numbers, control bytes, exceptions and info bytes that are just wrong or just right, each as the last bytes of the
    input, and with more behind it: a fault is told as soon as the bytes show it."""
    spellings = {"trace_info_with_a_mode_of_five_bytes": b"\x01\x0f\x80\x80\x80\x80\x08"}
    for place in range(4):
        spellings[f"trace_info_whose_number_{place}_is_too_long"] = b"\x01\x0f" + bytes(place) + b"\xff\xff\xff\xff\x10"
    for control in (0x10, 0x20, 0x40, 0x80, 0xF0, 0x1F, 0x8F):
        spellings[f"trace_info_of_control_{control:02x}"] = bytes([1, control])
    for mode in (b"\x01", b"\x02", b"\x10", b"\x7f", b"\x80\x01", b"\x80\x80\x80\x40", b"\xff\xff\xff\xff\x0f"):
        spellings[f"trace_info_of_mode_{mode.hex()}"] = b"\x01\x03" + mode
    for second in (0x00, 0x02, 0x1C, 0x3E, 0x40, 0x5C, 0x7E, 0x41, 0x5D, 0x7F, 0x80, 0x81, 0x9D, 0xC0, 0xC1, 0xDC, 0xFF):
        spellings[f"exception_of_{second:02x}"] = bytes([6, second])
    for header, last in itertools.product((0x2D, 0x2E, 0x2F), (0x0F, 0x10, 0x80, 0xFF)):
        spellings[f"number_of_{header:02x}_that_ends_with_{last:02x}"] = bytes([header, 0x80, 0x80, 0x80, 0x80, last])
    for first in (0x00, 0x0F, 0x23, 0x40, 0x80, 0xC0, 0xEF):
        for name, before in (("81", b"\x81"), ("82", b"\x82" + bytes(4)), ("85", b"\x85" + bytes(8))):
            spellings[f"context_of_{first:02x}_behind_{name}"] = before + bytes([first])
    for name, spelling in spellings.items():
        yield f"{name}_at_the_end", SYNC + spelling
        yield f"{name}_and_more", SYNC + spelling + b"\xff\xff\xff\xff\xff\xff"


def cases():
    rng = random.Random(64)
    return [*chosen(), *bad_values(), *headers(rng), *zeros(), *streams(rng)]


# ---- what must occur -------------------------------------------------------

def contexts():
    """The printed contexts, with and without each field."""
    fields = ("-", "[0-9a-f]+")
    for el, state, vmid, cid in itertools.product(range(4), ("ns", "s"), fields, fields):
        yield f"el{el} {state} {vmid} {cid}"


def atoms():
    """The runs of the atom packets, by the architecture's six formats."""
    yield from ("E", "N")
    yield from map("".join, itertools.product("EN", repeat=2))
    yield from map("".join, itertools.product("EN", repeat=3))
    yield from ("NEEE", "NNNN", "NENE", "ENEN")
    yield from ("NEEEE", "NNNNN", "NENEN", "ENENE")
    for count in range(3, 24):
        yield from ("E" * count + "E", "E" * count + "N")


def forms():
    """Each printed form as a pattern of what stands behind the ID, and behind the offset of a packet."""
    n, v = "[0-9]+", "[0-9a-f]+"
    yield from ("async", "discard", "overflow", "on", "ignore", "ctx same", f"commit {n}", f"cancel {n}",
                f"cancel {n} mispredict", "addr match 0", "addr match 1", "addr match 2", f"addr short1 {v}",
                f"addr short2 {v}", f"addr long32 {v}", f"addr long64 {v}")
    for told in itertools.product((False, True), repeat=4):
        yield "info " + " ".join(("0" if place == 0 else n) if is_told else "-" for place, is_told in enumerate(told))
    yield from (f"event {event}" for event in range(1, 16))
    yield from (f"time {bits} {n}" for bits in (7, 14, 21, 28, 35, 42, 49, 56, 64))
    yield from (f"exc {kind}{target}" for kind in range(32) for target in ("", " target"))
    yield from (f"{name} {few}" for name in ("mispredict", "cancel2") for few in ("-", "E", "EE", "N"))
    yield from (f"cancel3 {first} {count}" for first in "-E" for count in range(2, 6))
    yield from (f"atoms {run}" for run in atoms())
    for told in contexts():
        yield from (f"ctx {told}", f"addr long32 {v} ctx {told}", f"addr long64 {v} ctx {told}")


REFUSED = {"cycle-count": range(0x0C, 0x20), "time-cycle": [0x03], "data-sync": range(0x20, 0x2D),
           "conditional": [*range(0x40, 0x47), *range(0x48, 0x4B), *range(0x4C, 0x4F), *range(0x50, 0x60),
                           *range(0x68, 0x70)],
           "q": [0xA0, 0xA1, 0xA2, 0xA5, 0xA6, 0xAA, 0xAB, 0xAC, 0xAF], "m-profile": [0x05, 0x07],
           "aarch32-address": [0x83, 0x86, 0x96, 0x9B, 0x9E]}
RESERVED = [*range(0x08, 0x0C), 0x47, 0x4B, 0x4F, *range(0x60, 0x68), 0x84, *range(0x87, 0x90), 0x93, 0x94, 0x97, 0x98,
            0x99, 0x9C, 0x9F, 0xA3, 0xA4, 0xA7, 0xA8, 0xA9, 0xAD, 0xAE, *range(0xB0, 0xC0)]


def reasons():
    yield from (f"reserved {header:02x}" for header in RESERVED)
    yield from (f"refused {kind} {header:02x}" for kind, some in REFUSED.items() for header in some)
    yield from ("extension [0-9a-f]{2}", "broken-sync", "info-control [0-9a-f]{2}", "info-mode [1-9][0-9]*",
                "number-too-long", "exception-two-byte [0-9a-f]{2}", "exception-form [0-9a-f]{2}",
                "aarch32-context [0-9a-f]{2}")


def counted(answers):
    """How often each form of a line, each ending and each reason stands in the answers: all must stand there."""
    patterns = {f"01 [0-9]+ {form}": "packet " + form for form in forms()}
    patterns |= {f"01 fault [0-9]+ {reason}": "fault " + reason for reason in reasons()}
    patterns |= {"01 end": "end", "01 cut [1-9][0-9]*": "cut", "01 nosync": "nosync"}
    by_pattern = [(re.compile(pattern), name) for pattern, name in patterns.items()]
    counts, known = collections.Counter(), {}
    for line in itertools.chain.from_iterable(answers):
        if line not in known:
            known[line] = [name for pattern, name in by_pattern if pattern.fullmatch(line)]
            assert len(known[line]) == 1, f"{line!r} has {len(known[line])} forms"
        counts[known[line][0]] += 1
    counts["nothing"] = sum(not lines for lines in answers)
    missing = [name for name in [*patterns.values(), "nothing"] if counts[name] == 0]
    assert not missing, f"no case prints {missing}"
    return counts


def print_counts(counts):
    """The counts, those of one first word together."""
    together = collections.Counter()
    for name, count in counts.items():
        words = name.split()
        together[" ".join(words[:3 if words[:2] == ["fault", "refused"] else 2])] += count
    for name, count in sorted(together.items()):
        print(f"{count:6} {name}")


# ---- the file --------------------------------------------------------------

def answer(model, settings, given):
    """The status and the lines for an input, by the model."""
    if not given:
        return 0, []
    found, end = model.packets.parsed(settings, given, PROFILE)
    lines = [model.packets.packet_line(1, at, packet) for at, packet in found]
    return 4 if end.name == "Fault" else 0, [*lines, model.packets.end_line(1, end)]


def block(name, given, status, lines):
    parts = [given[i:i + LONGEST_LINE].hex() for i in range(0, len(given), LONGEST_LINE)]
    return "\n".join([f"case {name}", f"words {WORDS}", *(f"input {part}" for part in parts), f"status {status}",
                      *("  " + line for line in lines)]) + "\n"


def main(words):
    if len(words) != 1:
        sys.exit(__doc__)
    model = loaded(words[0])
    settings = model.base.Settings(DEPTH, VMID_BYTES, CID_BYTES)
    made = cases()
    assert len({name for name, _ in made}) == len(made), "two cases have one name"
    answers = [answer(model, settings, given) for _, given in made]
    print_counts(counted([lines for _, lines in answers]))
    blocks = [block(name, given, *answered) for (name, given), answered in zip(made, answers)]
    OUT.write_text("\n".join([HEAD, *blocks]))
    print(f"{len(made)} cases, {OUT.stat().st_size} bytes")


if __name__ == "__main__":
    main(sys.argv[1:])
