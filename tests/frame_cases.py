#!/usr/bin/env python3
"""Makes the input of the crate frame_cases, and the output that it must have.

Written from the rules of the CoreSight formatter protocol (Arm IHI 0029), place by place. A frame has bytes 0 to 15.
Byte 15 has an auxiliary bit for each even byte before it. An even byte with bit 0 is an ID byte; the ID that it tells
holds from the next byte on, or from the byte after that where its auxiliary bit is 1. Every other byte is data, and at an
even place its bit 0 is its auxiliary bit. Byte 14 has no byte after it: an ID there holds from the next frame on.

Usage: frame_cases.py FOLDER    writes FOLDER/stdin and FOLDER/stdout
       frame_cases.py --check FOLDER    compares them
"""
import pathlib
import random
import sys

NO_ID = 0x80
GOES_ON = 0x81
RANDOM_FRAMES = 4000


def unpack(frame, current):
    """The data bytes as (ID, byte), and the ID that holds after the frame."""
    holds_from = {}
    for place in range(0, 15, 2):
        if frame[place] & 1:
            late = frame[15] >> place // 2 & 1
            holds_from[min(place + 1 + late, 15)] = frame[place] >> 1
    pairs = []
    for place in range(15):
        current = holds_from.get(place, current)
        if place % 2:
            byte = frame[place]
        elif frame[place] & 1:
            continue
        else:
            byte = frame[place] | frame[15] >> place // 2 & 1
        if current is not None:
            pairs.append((current, byte))
    return pairs, holds_from.get(15, current)


def fnv(data):
    digest = 0x811C9DC5
    for byte in data:
        digest = (digest ^ byte) * 0x01000193 % 2**32
    return digest


def digest_line(frame, before):
    count, data = 0, bytearray()
    for auxiliary in range(256):
        pairs, after = unpack(frame[:15] + bytes([auxiliary]), before)
        count += len(pairs)
        for pair in pairs:
            data += bytes(pair)
        data.append(NO_ID if after is None else after)
    return f"{count} {fnv(data):08x}"


def exhaustive():
    """Every byte 0 with every byte 15, of a frame with ID bytes at even places and data among them."""
    rest = bytes([0x11, 0x22, 0x33, 0x45, 0x66, 0x05, 0x77, 0x88, 0x99, 0xE1, 0xAA, 0x01, 0xBB, 0x0F])
    for before in (NO_ID, 0x55):
        for first in range(256):
            frame = bytes([first]) + rest + bytes(1)
            yield bytes([before]) + frame, digest_line(frame, None if before == NO_ID else before)


def random_frame(rng):
    """A frame with many ID bytes, among them the null ID and those that are no source."""
    frame = bytearray(rng.randbytes(16))
    for place in range(0, 15, 2):
        kind = rng.randrange(6)
        if kind == 0:
            frame[place] &= 0xFE
        elif kind == 1:
            frame[place] = 0x01
        elif kind == 2:
            frame[place] = rng.randrange(0x70, 0x80) << 1 | 1
    return bytes(frame)


def at_random():
    rng = random.Random(2029)
    current = None
    for number in range(RANDOM_FRAMES):
        frame = random_frame(rng)
        if number < 4:
            frame = bytes(b & 0xFE if place % 2 == 0 else b for place, b in enumerate(frame))
        pairs, current = unpack(frame, current)
        words = [f"{i:02x}:{byte:02x}" for i, byte in pairs]
        words += ["then", "none" if current is None else f"{current:02x}"]
        yield bytes([GOES_ON]) + frame, " ".join(words)


def main(words):
    check = words[:1] == ["--check"]
    folder = pathlib.Path(words[-1])
    cases = [*exhaustive(), *at_random()]
    stdin = b"".join(record for record, _ in cases)
    stdout = "".join(line + "\n" for _, line in cases).encode()
    for name, data in (("stdin", stdin), ("stdout", stdout)):
        if not check:
            (folder / name).write_bytes(data)
        elif (folder / name).read_bytes() != data:
            sys.exit(f"{folder / name} is not what frame_cases.py makes")


if __name__ == "__main__":
    main(sys.argv[1:])
