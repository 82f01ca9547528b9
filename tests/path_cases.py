#!/usr/bin/env python3
"""Makes tests/cases_of_paths/cases.txt: images and streams, and what `etm path --raw --depth 0 IMAGE` must print.

Usage: path_cases.py MODEL_DIR

MODEL_DIR is as for tests/packet_cases.py. Images and streams are made here, from the tables of docs/FORMATS.md and with
a fixed seed. A stream grows by one packet after the other. One behind which the model finds a fault is mostly taken back,
so that paths become long; it has no other say in a stream. The answers come from the model alone.

The file has the form of that of tests/packet_cases.py. Its blocks have lines `image` too, with the lines of the image's
text, each of which ends with LF; the word IMAGE stands for a file of this text.
"""
import collections
import pathlib
import random
import re
import sys

from packet_cases import LONGEST_LINE, SYNC, number, timestamp
from reference_model import answer, loaded

OUT = pathlib.Path(__file__).resolve().parent / "cases_of_paths" / "cases.txt"
WORDS = "path --raw --depth 0 IMAGE"
GOOD, BAD = 260, 40
TRIES = 12

HEAD = """\
# Made by tests/path_cases.py, which says what the lines of a block are; tests/run_stored_cases.py runs them.
"""

# ---- images ----------------------------------------------------------------

NOP, RET, ERET, ISB = 0xD503201F, 0xD65F03C0, 0xD69F03E0, 0xD5033FDF
PLAIN = [NOP, NOP, 0x91000400, 0xF9400000, 0xD5033F9F, 0]
NOT_READ = [0x54000010, 0xD6BF03E0, 0xD65F0BDF]  # BC.EQ, DRPS, and RETAA with X30 in place of 31
STARTS = [0x1000, 0x2004, 0x1FFF0, 0x40000000, 0xFFFF800000080000, (1 << 64) - 0x100]


def to(word, place, bits, here, there):
    """A branch word whose field of so many bits, from a place on, leads from one address to another."""
    return word | ((there - here) // 4 & (1 << bits) - 1) << place


def conditional(rng, here, there):
    register = rng.randrange(32)
    kind = rng.randrange(3)
    if kind == 0:
        return to(0x54000000 | rng.randrange(16), 5, 19, here, there)
    if kind == 1:
        return to(rng.choice([0x34000000, 0x35000000, 0xB4000000, 0xB5000000]) | register, 5, 19, here, there)
    return to(rng.choice([0x36000000, 0x37080000, 0xB6000000]) | register, 5, 14, here, there)


def any_word(rng, here, there):
    kind = rng.randrange(20)
    if kind < 6:
        return rng.choice(PLAIN)
    if kind < 11:
        return conditional(rng, here, there)
    if kind < 16:
        return to(0x14000000 if kind < 13 else 0x94000000, 0, 26, here, there)
    return rng.choice([RET, RET, 0xD61F0000 | rng.randrange(32) << 5, 0xD63F0000 | rng.randrange(32) << 5, ERET, ISB,
                       rng.choice(NOT_READ)])


def function(rng, here, callees):
    """Words of a function: it may pass over its call, calls one of the others, and returns."""
    before = [rng.choice(PLAIN) for _ in range(rng.randrange(2))]
    after = [rng.choice(PLAIN + [ISB]) for _ in range(rng.randrange(3))]
    at = here + 4 * len(before)
    call = to(0x94000000, 0, 26, at + 4, rng.choice(callees))
    return [*before, conditional(rng, at, at + 8), call, *after, RET]


def nest(rng, start):
    """Functions that call one another, and a handler of exceptions behind them."""
    words, starts = [], [start]
    for _ in range(rng.randrange(2, 5)):
        words += function(rng, starts[-1], starts)
        starts.append(start + 4 * len(words))
    return words + [rng.choice(PLAIN), ERET]


def program(rng):
    """The parts of a program: by each address the words from there on."""
    parts, places = {}, []
    for start in rng.sample(STARTS, rng.randrange(1, 4)):
        count = rng.randrange(4, 14)
        places += range(start, start + 4 * count, 4)
        parts[start] = count
    return {start: nest(rng, start) if rng.random() < 0.4 else
            [any_word(rng, start + 4 * k, rng.choice([p for p in places if abs(p - start) < 1 << 14]))
             for k in range(count)] for start, count in parts.items()}


def places_of(parts):
    return [start + 4 * k for start, words in parts.items() for k in range(len(words))]


def image_lines(rng, parts):
    lines = ["# words in the order of memory"] if rng.random() < 0.1 else []
    for start, words in parts.items():
        lines.append(f"@{start:x}" if rng.random() < 0.8 else f"  @{start:016X}\t")
        texts = [word.to_bytes(4, "little").hex() for word in words]
        while texts:
            count = rng.randrange(1, 7)
            line = rng.choice([" ", " ", "", "\t"]).join(texts[:count])
            lines.append(line.upper() if rng.random() < 0.1 else line)
            texts = texts[count:]
        if rng.random() < 0.1:
            lines.append("")
    return lines


def bad_lines(rng, start, words):
    """Lines that have a fault behind a part with this start and so many words."""
    yield from (["1f2003d"], ["1f2003d5 0x00"], ["@"], ["@10 00"], ["@1000 1f2003d5"], [f"@{start + 2:x}"], ["1f20"],
                ["1f2003d5 1f"], ["@" + 17 * "0"], [f"@{start:x}", "1f2003d5"], [f"@{start + 4 * words - 4:x}", 3 * "1f2003d5 "],
                ["@fffffffffffffffc", "1f2003d5" * 2], ["@fffffffffffffff8", "", "# two words and one more", "1f2003d5 " * 3],
                [f"@{0x5000 + 16 * k:x}" for k in range(65)])


def bad_image(rng, choice):
    lines = ["1f2003d5"] if choice % 15 == 14 else []
    start = rng.choice(STARTS)
    words = [rng.choice(PLAIN) for _ in range(rng.randrange(1, 5))]
    lines += [f"@{start:x}", " ".join(word.to_bytes(4, "little").hex() for word in words)]
    lines += list(bad_lines(rng, start, len(words)))[choice % 15 % 14]
    return lines + ["@1002"] * rng.randrange(2)


# ---- streams ---------------------------------------------------------------

def field(rng, size):
    return [rng.randrange(3)] + [0] * (size - 1) if size else []


def context(rng, sizes=(1, 4)):
    """An info byte with its fields, by the bytes of a VMID and of a context ID."""
    first = 0x10 | rng.randrange(4) | 0x20 * rng.randrange(2) | rng.choice([0, 0, 0x40, 0x80, 0xC0])
    vmid, cid = field(rng, sizes[0]), field(rng, sizes[1])
    return bytes([first] + vmid * (first >> 6 & 1) + cid * (first >> 7))


def long_address(place, count):
    return bytes([place >> 2 & 0x7F, place >> 9 & 0x7F, *(place >> shift & 0xFF for shift in range(16, 8 * count, 8))])


def address(rng, places, sizes=(1, 4)):
    place = rng.choice(places)
    kind = rng.randrange(8)
    if kind == 0:
        return bytes([0x90 + rng.randrange(3)])
    if kind == 1:
        return bytes([0x95, place >> 2 & 0x7F])
    if kind == 2:
        return bytes([0x95, place >> 2 & 0x7F | 0x80, place >> 9 & 0xFF])
    count = 4 if place >> 32 == 0 and kind < 5 else 8
    if rng.random() < 0.4:
        return bytes([0x82 if count == 4 else 0x85]) + long_address(place, count) + context(rng, sizes)
    return bytes([0x9A if count == 4 else 0x9D]) + long_address(place, count)


def atoms(rng):
    return bytes([rng.choice([0xF7] * 4 + [0xF6] * 2 + [rng.randrange(0xD5, 0xE0), rng.randrange(0xF8, 0x100),
                                                        rng.randrange(0xC0, 0x100)])])


def exception(rng, places, sizes=(1, 4)):
    between = rng.choice([b"", b"", b"\x70", b"\x7a", SYNC, b"\x80", b"\x81" + context(rng, sizes), b"\x00\x05", b"\x00\x03"])
    kind = rng.choice([0, 2, 3, 6, 10, 12, 14, 14, 15, rng.randrange(32)])
    return bytes([0x06, kind << 1 | rng.choice([0x01, 0x01, 0x40])]) + between + address(rng, places, sizes)


def again(rng, places):
    """A point from which a reader can begin anew."""
    return rng.choice([b"", SYNC]) + b"\x01\x01\x00" + rng.choice([b"", b"\x04", address(rng, places)])


def asks(rng):
    """Asks for what is held, of which there is none."""
    prediction = bytes([rng.randrange(0x30, 0x40)])
    return rng.choice([b"\x2d" + number(rng), b"\x2e" + number(rng), b"\x2f\x00", prediction, prediction, b"\x2d\x00",
                       b"\x2e\x00"])


def without_effect(rng):
    return rng.choice([b"\x70", bytes([rng.randrange(0x71, 0x80)]), timestamp(rng), SYNC])


def wrong(rng):
    return rng.choice([b"\xb0", b"\x0e", b"\x00\x07", b"\x06\x80", b"\x81\x03", b"\x01\x01\x01", b"\x06\x1d\xf7",
                       b"\x06\x1d\x04", *[b"\x2d\x80\x80\x80\x80\x10"] * 3])


def packet(rng, places):
    kind = rng.randrange(40)
    if kind < 17:
        return atoms(rng)
    if kind < 25:
        return address(rng, places)
    if kind < 30:
        return exception(rng, places)
    if kind < 32:
        return rng.choice([b"\x80", b"\x81" + context(rng)])
    if kind < 33:
        return without_effect(rng)
    return [again(rng, places), b"\x04", b"\x00\x05", b"\x00\x03", asks(rng), asks(rng), wrong(rng)][kind - 33]


def begun(rng, places):
    info = rng.choice([b"\x01\x01\x00"] * 5 + [b"\x01\x00", b"\x01\x07\x00\x01\x00", b"", b"\x01\x04\x02"])
    place = rng.choice(places)
    return SYNC + info + rng.choice([b"\x04", b""]) + b"\x85" + long_address(place, 8) + context(rng)


def strays(lines):
    """How many lines say that the place was lost."""
    return sum(line[3:] in ("?", "gap", "stop") for line in lines)


def chance(lines, found, kept):
    """How likely a packet stays in a stream whose lines it changes so."""
    if " fault " in found[-1]:
        return kept
    if strays(found) > strays(lines):
        return 0.15
    return 1 if len(found) > len(lines) else 0.4


def grown(rng, image, places, lines_of):
    """A stream whose packets fit the image, mostly."""
    given, kept = begun(rng, places), rng.choice([0, 0, 0.1])
    lines = lines_of(image, given)
    for _ in range(rng.randrange(1, 80)):
        for _ in range(TRIES):
            longer = given + packet(rng, places)
            found = lines_of(image, longer)
            if rng.random() < chance(lines, found, kept):
                given, lines = longer, found
                break
        if " fault " in lines[-1]:
            return given + rng.choice([b"", b"\xf7\xf7", SYNC])
    return given + rng.choice([b"", b"", wrong(rng), asks(rng)])


def changed(rng, given):
    """A stream with a byte changed, dropped or put in, or cut; most stay as they are."""
    place = rng.randrange(1, len(given))
    at = max(place, len(SYNC)) if rng.random() < 0.9 else place
    kind = rng.randrange(12)
    if kind == 0:
        return given[:at] + bytes([given[at] ^ 1 << rng.randrange(8)]) + given[at + 1:]
    if kind == 1:
        return given[:at] + given[at + 1:]
    if kind == 2:
        return given[:at] + rng.randbytes(1) + given[at:]
    return given[:place] if kind in (3, 4) else given


def good_cases(rng, lines_of):
    for count in range(GOOD):
        parts = program(rng)
        image = image_lines(rng, parts)
        given = grown(rng, image, places_of(parts), lines_of)
        yield f"path_{count}", image, changed(rng, given) if count else b""


def bad_cases(rng):
    for count in range(BAD):
        yield f"bad_image_{count}", bad_image(rng, count), SYNC + b"\x01\x01\x00\x04\xf7"


# ---- what must occur -------------------------------------------------------

def forms():
    v, n = "[0-9a-f]+", "[0-9]+"
    yield from ("on", "gap", "stop", r"\?", v, "end", "nosync", f"cut {n}")
    yield from (f"ctx el{el} {state} {v} {v}" for el in range(4) for state in ("ns", "s"))
    yield from (f"exc {name} {v}" for name in ("reset", "call", "trap", "irq", "fiq", "[a-z-]+", n))
    reasons = (f"no-code {v}", f"odd {v}", f"bad-atom {v}", f"address-mismatch {v} {v}", f"return-missed {v} {v}",
               "address-awaited", f"commit-overrun {n} 0", f"cancel-overrun {n} 0", "no-atom 0", f"spec-too-deep {n} 0",
               f"(reserved|extension|exception-two-byte|exception-form|info-control|aarch32-context) {v}",
               f"refused [a-z0-9-]+ {v}", "broken-sync", f"info-mode {n}", "number-too-long")
    yield from (f"fault {n} {reason}" for reason in reasons)


def counted(answers):
    """How often each form of a line stands in the answers: all must stand there."""
    patterns = [(re.compile("01 " + form), form) for form in forms()]
    patterns += [(re.compile(f"image line [0-9]+: {why}"), "image " + why)
                 for why in ("syntax", "unaligned", "overlap", "wraps", "too-large")]
    counts = collections.Counter()
    for line in (line for lines in answers for line in lines):
        found = [name for pattern, name in patterns if pattern.fullmatch(line)]
        assert found, f"{line!r} has no form"
        counts[found[0]] += 1
    missing = [name for _, name in patterns if counts[name] == 0]
    assert not missing, f"no case prints {missing}"
    return counts


# ---- the file --------------------------------------------------------------

def block(name, image, given, status, lines):
    parts = [given[i:i + LONGEST_LINE].hex() for i in range(0, len(given), LONGEST_LINE)]
    return "\n".join([f"case {name}", f"words {WORDS}", *(f"image {line}" for line in image),
                      *(f"input {part}" for part in parts), f"status {status}", *("  " + line for line in lines)]) + "\n"


def main(words):
    if len(words) != 1:
        sys.exit(__doc__)
    model, rng = loaded(words[0]), random.Random(4)
    made = [*good_cases(rng, lambda image, given: answer(model, WORDS.split(), image, given)[1]), *bad_cases(rng)]
    answers = [answer(model, WORDS.split(), image, given) for _, image, given in made]
    for form, count in sorted(counted([lines for _, lines in answers]).items()):
        print(f"{count:6} {form}")
    OUT.parent.mkdir(exist_ok=True)
    OUT.write_text("\n".join([HEAD, *(block(*case, *answered) for case, answered in zip(made, answers))]))
    print(f"{len(made)} cases, {OUT.stat().st_size} bytes")


if __name__ == "__main__":
    main(sys.argv[1:])
