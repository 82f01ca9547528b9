#!/usr/bin/env python3
"""Prints capture.bin: two cores that run the code of image.txt, in the frames of a trace formatter.

The packets are written by hand from the tables of docs/FORMATS.md, and put into frames by its "Frames". path.txt has the
path, with --depth 0. The two trace units write in turn, so a frame may have bytes of both.
"""
import sys

SYNC = bytes.fromhex("00 00 00 00 00 00 00 00 00 00 00 80")
CORE_0, CORE_1 = 0x10, 0x12

# the bytes that come to the formatter, one after the other: which trace unit they are from, and the packet
WRITTEN = [
    (CORE_0, SYNC),
    (CORE_0, bytes.fromhex("01 01 00")),                # trace info
    (CORE_0, bytes.fromhex("02 81 02")),                # timestamp 257
    (CORE_0, bytes.fromhex("04")),                      # trace on
    (CORE_1, SYNC),
    (CORE_1, bytes.fromhex("01 01 00 04")),             # trace info, trace on
    (CORE_0, bytes.fromhex("85 00 08 00 00 00 00 00 00 b0 2a 00 00 00")),   # address 1000, EL0, Non-secure, context ID 2a
    (CORE_0, bytes.fromhex("f7 f7")),                   # E (at 1004), E (at 100c)
    (CORE_1, bytes.fromhex("85 00 08 00 00 00 00 00 00 b0 2b 00 00 00")),   # address 1000, EL0, Non-secure, context ID 2b
    (CORE_1, bytes.fromhex("f6")),                      # N (at 1004)
    (CORE_0, bytes.fromhex("06 1d 95 01")),             # IRQ, which returns to 1004
    (CORE_0, bytes.fromhex("82 00 40 00 00 31")),       # address 8000, EL1, Non-secure
    (CORE_1, bytes.fromhex("f7")),                      # E (at 100c)
    (CORE_0, bytes.fromhex("f7")),                      # E (the ERET at 8004)
    (CORE_0, bytes.fromhex("02 83 02")),                # timestamp 259
    (CORE_0, bytes.fromhex("82 01 08 00 00 b0 2a 00 00 00")),               # address 1004, EL0, Non-secure, context ID 2a
    (CORE_0, bytes.fromhex("f6")),                      # N (at 1004)
    (CORE_1, bytes.fromhex("f7 f7")),                   # E (at 1004), E (at 100c)
]


def cells_of(written):
    """What stands at the places 0 to 14 of the frames, one frame after the other: ("id", ID, its auxiliary bit), or ("data",
    byte, None). An ID byte needs an even place: where the ID changes at an odd one, the byte before it moves behind it. The
    last frame is filled with the null ID and zeros."""
    cells, current = [], None
    for source, byte in [(source, byte) for source, packet in written for byte in packet] + [(0, 0)]:
        place = len(cells) % 15
        if (source, place) == (0, 0):
            break
        if source != current:
            cells.insert(len(cells) - place % 2, ("id", source, place % 2))
        current = source
        if source:
            cells.append(("data", byte, None))
    return cells + [("data", 0, None)] * (-len(cells) % 15)


def frame_of(cells):
    """The 16 bytes of a frame: bit 0 of an even place stands in the last byte, where the place has data."""
    frame = bytearray(16)
    for place, (kind, value, late) in enumerate(cells):
        if kind == "id":
            frame[place], bit = value << 1 | 1, late
        elif place % 2 == 0:
            frame[place], bit = value & 0xFE, value & 1
        else:
            frame[place], bit = value, 0
        frame[15] |= bit << place // 2
    return bytes(frame)


def capture():
    cells = cells_of(WRITTEN)
    return b"".join(frame_of(cells[at:at + 15]) for at in range(0, len(cells), 15))


if __name__ == "__main__":
    sys.stdout.buffer.write(capture())
