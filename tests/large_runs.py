#!/usr/bin/env python3
"""tests/large_runs.py FOLDER: writes run files at the limits of a text, and of the steps that a run may hold.

`image` is their image: 65,536 NOPs from 0 on, and a branch to 0 behind them. The file `names` has the names of the run files.
Beside each stands NAME.out, what `etm retired` prints of it.

- `text` has 64 MiB, nearly all of it comments, and `long` one byte more.
- `late` has 64 MiB too, and its last line is of no form.
- `held` holds as many steps as may be, `full` one more, and `room` one more again behind a retire.
- `whole` retires all NOPs and the branch, and in `closed` a step follows, which is lost as tracing is turned off.
- `back` takes back as many steps as may be held, and `beyond` retires one more.
- `deep` holds as many P0 steps as the greatest depth of a stream has room for, and `deeper` one more.
- `streams` has every stream that there may be, and `one_more` one more.
- `words` has a weave of a million words, and `word` a word of a million letters.
"""
import pathlib
import sys

MEBI = 1 << 20
MOST = 64 * MEBI
NOPS, WINDOW, STREAMS, DEEPEST = 65_536, 65_535, 111, 16_384
NOP, BRANCH = "1f2003d5", (0x14000000 | -NOPS & 0x3FFFFFF).to_bytes(4, "little").hex()
HEADER, ON = "etm 1\n", "on 0 el0 ns 0 0\n"
BEGUN = HEADER + "stream 01\n" + ON
DEEP = f"etm 2\ndepth 4\nstream 01 depth {DEEPEST}\n{ON}"
INTERRUPT = "exc 14 0 el0 ns 0 0\n"
COMMENT = "#" + "-" * 62 + "\n"


def filled(front, back=""):
    """A text of 64 MiB that has comments between its front and its back."""
    comments = COMMENT * ((MOST - len(front) - len(back)) // len(COMMENT))
    rest = MOST - len(front) - len(back) - len(comments)
    return front + comments + ("#" * (rest - 1) + "\n" if rest else "") + back


def path(count):
    """The lines of so many instructions from 0 on."""
    return "01 on\n01 ctx el0 ns 0 0\n" + "".join(f"01 {4 * k:x}\n" for k in range(count))


def run_files():
    """The name of each run file, its text, and what is printed of it."""
    text = filled(HEADER)
    yield "text", text, ""
    yield "long", text + "\n", "bench line 0: too-long\n"
    late = filled(HEADER, "stop\n")
    yield "late", late, f"bench line {late.count(chr(10))}: syntax\n"
    yield "held", BEGUN + f"step {WINDOW}\n", ""
    yield "full", BEGUN + f"step {WINDOW}\nstep\n", "bench line 5: window-full\n"
    yield "room", BEGUN + f"step {WINDOW}\nretire 1\nstep\ntaken\n", "bench line 7: window-full\n"
    whole = f"step {WINDOW}\nretire {WINDOW}\nstep\ntaken\nretire 2\n"
    yield "whole", BEGUN + whole, path(NOPS + 1)
    yield "closed", BEGUN + whole + "step\noff\n", path(NOPS + 1) + "01 stop\n"
    yield "back", BEGUN + f"step {WINDOW}\ncancel {WINDOW}\nstep\nexc 14 0 el0 ns 0 0\nretire 2\n", path(1) + "01 exc irq 4\n"
    yield "beyond", BEGUN + f"step {WINDOW}\nretire {WINDOW + 1}\n", "bench line 5: range\n"
    yield "deep", DEEP + INTERRUPT * DEEPEST + f"retire {DEEPEST}\n", "01 on\n" + "01 exc irq 0\n" * DEEPEST
    yield "deeper", DEEP + INTERRUPT * (DEEPEST + 1), f"bench line {DEEPEST + 5}: too-deep {DEEPEST + 1} {DEEPEST}\n"
    streams = HEADER + "".join(f"stream {i:02x}\n{ON}" for i in range(STREAMS, 0, -1))
    yield "streams", streams, ""
    yield "one_more", streams + "stream 01\n", f"bench line {2 * STREAMS + 2}: duplicate-id\n"
    yield "words", BEGUN + "weave" + " 01:1" * 1_000_000 + "\n", ""
    yield "word", BEGUN + "s" * 1_000_000 + "\n", "bench line 4: syntax\n"


def main(words):
    if len(words) != 1:
        sys.exit(__doc__)
    folder = pathlib.Path(words[0])
    lines = (" ".join([NOP] * 1024) for _ in range(NOPS // 1024))
    (folder / "image").write_text("@0\n" + "\n".join(lines) + "\n" + BRANCH + "\n")
    names = []
    for name, text, printed in run_files():
        (folder / name).write_text(text)
        (folder / f"{name}.out").write_text(printed)
        names.append(name)
    (folder / "names").write_text("\n".join(names) + "\n")


if __name__ == "__main__":
    main(sys.argv[1:])
