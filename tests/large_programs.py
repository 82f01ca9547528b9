#!/usr/bin/env python3
"""tests/large_programs.py FOLDER: writes ELF files at the limits of a file, of its table and of an image.

The file `names` has their names. Beside each stands NAME.out, what `etm path --elf` prints with it where the input is empty.

- `most` has 16 MiB of code in 64 segments, `more` one word more, and `parts` one segment more.
- `headers` has 65,534 segments of a word each, in the order of their addresses, `backwards` the other way round, `mixed` in no order, and
  `touching` without a word between them. In `overlap` the last one is the first once more.
- `whole` names all of a file of 256 MiB in each of 65,535 headers, at other addresses; all but the headers is a hole in the file.
- `file` has 256 MiB, of which one word is code, and `long` one byte more.
"""
import pathlib
import random
import sys

from elf_cases import HEADER, file_of, loaded_at

MEBI = 1 << 20
SEED = 3
MOST_PARTS, MOST_CODE, MOST_FILE, MOST_HEADERS = 64, 16 * MEBI, 256 * MEBI, 0xFFFF
NOP = bytes.fromhex("1f2003d5")


def words_at(addresses):
    """A file with the same word at each of some addresses."""
    at = 64 + HEADER.size * len(addresses)
    return file_of([loaded_at(at, address, 4) for address in addresses], NOP)


def code(sizes):
    """A file with segments of so many bytes of code each."""
    at, headers = 64 + HEADER.size * len(sizes), []
    for number, size in enumerate(sizes):
        headers.append(loaded_at(at, number * MEBI, size))
        at += size
    return file_of(headers, NOP * (sum(sizes) // 4))


def files():
    """The name of each file, its bytes, its size where it has a hole behind them, and what is printed."""
    too_large = "elf: too-large\n"
    most = [MOST_CODE // MOST_PARTS] * MOST_PARTS
    yield "most", code(most), 0, ""
    yield "more", code([*most[1:], most[0] + 4]), 0, too_large
    yield "parts", code([4] * (MOST_PARTS + 1)), 0, too_large
    addresses = [0x1000 + 8 * number for number in range(MOST_HEADERS - 1)]
    yield "headers", words_at(addresses), 0, too_large
    yield "backwards", words_at(addresses[::-1]), 0, too_large
    yield "mixed", words_at(random.Random(SEED).sample(addresses, len(addresses))), 0, too_large
    yield "touching", words_at([0x1000 + 4 * number for number in range(MOST_HEADERS - 1)]), 0, too_large
    yield "overlap", words_at([*addresses[:-1], addresses[0]]), 0, f"elf: overlap {MOST_HEADERS - 2}\n"
    yield "whole", file_of([loaded_at(0, number * MOST_FILE, MOST_FILE) for number in range(MOST_HEADERS)], b""), MOST_FILE, too_large
    yield "file", words_at([0x1000]), MOST_FILE, ""
    yield "long", words_at([0x1000]), MOST_FILE + 1, "elf: too-long\n"


def main(words):
    if len(words) != 1:
        sys.exit(__doc__)
    folder, names = pathlib.Path(words[0]), []
    for name, content, size, printed in files():
        with open(folder / name, "wb") as file:
            file.write(content)
            file.truncate(max(size, len(content)))
        (folder / f"{name}.out").write_text(printed)
        names.append(name)
    (folder / "names").write_text("\n".join(names) + "\n")


if __name__ == "__main__":
    main(sys.argv[1:])
