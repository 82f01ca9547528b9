#!/usr/bin/env python3
"""Makes tests/cases_of_selftest/cases.txt: numbers, some with how many bytes of their frames are read, and the summary that
`etm selftest` must print of each.

Usage: selftest_cases.py MODEL_DIR

MODEL_DIR is as for tests/packet_cases.py, where the form of the file is told. The summaries come from the model alone: it
makes the texts of a number, traces them and reads the frames again by itself.
"""
import pathlib
import sys

from reference_model import PROFILE, loaded

OUT = pathlib.Path(__file__).resolve().parent / "cases_of_selftest" / "cases.txt"

# They are read in pieces of one byte more than their last three digits say.
NUMBERS = [
    (0, None),
    (1, None),
    (12, None),
    (14, None),  # the pieces are less than a frame, by one byte
    (15, None),  # a frame
    (110, None),  # all streams, one round
    (111, None),  # one stream, two rounds
    (221, None),
    (999, None),  # the largest pieces
    (1000, None),  # a byte at a time
    (1775, None),  # all streams, and the first exception
    (3441, None),
    (7103, None),  # all streams, and the first synchronisation
    (99999, None),  # the highest number
    (0, 0),
    (0, 31),
    (0, 32),  # all of its frames
    (0, 1 << 30),  # more than there are
    (110, 1000),
    (1000, 17),
    (3441, 60),
    (7103, 9999),
]

HEAD = """\
# Made by tests/selftest_cases.py; tests/packet_cases.py says what the lines of a block are; tests/run_stored_cases.py runs them.
"""


def block(number, cut, summary):
    name, words = f"number_{number}", f"selftest {number}"
    if cut is not None:
        name, words = f"{name}_cut_{cut}", f"{words} --cut {cut}"
    return f"case {name}\nwords {words}\nstatus 0\n  {summary}\n"


def main(words):
    if len(words) != 1:
        sys.exit(__doc__)
    top = loaded(words[0]).top
    OUT.parent.mkdir(exist_ok=True)
    OUT.write_text("\n".join([HEAD, *(block(number, cut, top.selftest(number, cut, PROFILE)) for number, cut in NUMBERS)]))
    print(f"{len(NUMBERS)} cases, {OUT.stat().st_size} bytes")


if __name__ == "__main__":
    main(sys.argv[1:])
