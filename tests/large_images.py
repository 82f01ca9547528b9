#!/usr/bin/env python3
"""tests/large_images.py FOLDER: writes texts of images at the limits of a text and of an image.

`most` is 16 MiB of bytes in 64 parts, `more` has four bytes more on a line of their own, and `parts` one part more,
which is empty. `text` has 64 MiB, all of it comments, and `long` one byte more. Beside each stands NAME.out, what
`etm path` prints of it where the input is empty.
"""
import pathlib
import sys

MEBI = 1 << 20
PARTS, LINES, LINE = 64, 16, 16384  # 64 parts of 16 lines of 16 KiB: 16 MiB
NOP = "1f2003d5"
COMMENT = b"#" + b"-" * 62 + b"\n"


def write(folder, name, text, printed):
    (folder / name).write_bytes(text)
    (folder / f"{name}.out").write_text(printed)


def main(words):
    if len(words) != 1:
        sys.exit(__doc__)
    folder = pathlib.Path(words[0])
    line = NOP * (LINE // 4) + "\n"
    most = "".join(f"@{part * MEBI:x}\n" + line * LINES for part in range(PARTS)).encode()
    last = PARTS * (LINES + 1)
    write(folder, "most", most, "")
    write(folder, "more", most + NOP.encode() + b"\n", f"image line {last + 1}: too-large\n")
    write(folder, "parts", most + b"@ffff0000\n", f"image line {last + 1}: too-large\n")
    comments = COMMENT * (64 * MEBI // len(COMMENT))
    assert len(comments) == 64 * MEBI
    write(folder, "text", comments, "")
    write(folder, "long", comments + b"\n", "image line 0: too-long\n")


if __name__ == "__main__":
    main(sys.argv[1:])
