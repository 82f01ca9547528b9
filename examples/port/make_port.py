#!/usr/bin/env python3
"""Prints capture.bin: the frames of ../capture/capture.bin as a trace port sends them, in continuous mode.

The probe began in the midst of a frame. Before the first frame and the fifth stands a full synchronisation packet, `ff ff ff 7f`. Where the
cores had nothing to tell, the port sent half ones, `ff 7f`: one in the second frame, two behind the third, and three behind the last.
"""
import pathlib
import sys

FRAMES = pathlib.Path(__file__).resolve().parent.parent / "capture" / "capture.bin"
FRAME, FULL, HALF = 16, bytes.fromhex("ffffff7f"), bytes.fromhex("ff7f")
REST = bytes.fromhex("f6 f7 00 ff")  # of a frame that began before the probe did

# the packets that stand before a byte of the frames
PACKETS = {0: FULL, FRAME + 6: HALF, 3 * FRAME: 2 * HALF, 4 * FRAME: FULL}


def capture(frames):
    sent = b"".join(PACKETS.get(at, b"") + frames[at:at + 2] for at in range(0, len(frames), 2))
    return REST + sent + 3 * HALF


if __name__ == "__main__":
    sys.stdout.buffer.write(capture(FRAMES.read_bytes()))
