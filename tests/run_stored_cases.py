#!/usr/bin/env python3
"""Runs stored cases on a program, a process for each.

Usage: run_stored_cases.py PROGRAM CASES

CASES is a file that one of the tests/*_cases.py made, where the form is told. Prints the number of cases. Where some fail,
it ends with 1, and standard error has how many, and for the first few the name and what differs.
"""
import collections
import concurrent.futures
import difflib
import pathlib
import subprocess
import sys
import tempfile

SHOWN = 3
AT_ONCE = 4  # processes; more than one, since most of the time is spent waiting for the system


class Case(collections.namedtuple("Case", "name words image given status printed")):
    """A command line, the bytes of its image and of its input, and what must come of them: the status, and the bytes that are printed."""

    @property
    def lines(self):
        return self.printed.decode().splitlines()


def bytes_of(line):
    """The bytes of a line in hex, and behind them where they stand more than once ` x` and how often."""
    digits, _, times = line.partition(" x")
    return bytes.fromhex(digits) * int(times or 1)


def text_of(line):
    return line.encode() + b"\n"


# what the lines of a block add to the input, and to the image
INPUT = {"input": bytes_of, "run": text_of}
IMAGE = {"program": bytes_of, "image": text_of}


def cases_of_block(block):
    """The case of a block, or, where it has several command lines over one input, a case for each."""
    found, image, given = collections.defaultdict(list), b"", b""
    for line in block.splitlines():
        key, _, value = line.partition(" ")
        if line.startswith("  "):
            found["printed"][-1] += text_of(line[2:])
        elif key == "frames":
            found["printed"][-1] += bytes_of(value)
        elif key in INPUT:
            given += INPUT[key](value)
        elif key in IMAGE:
            image += IMAGE[key](value)
        elif not line.startswith("#"):
            found[key].append(value)
            if key == "words":
                found["printed"].append(b"")
    [name] = found["case"]
    for number, (words, status, printed) in enumerate(zip(found["words"], found["status"], found["printed"], strict=True)):
        command = words.split()
        yield Case(name if len(found["words"]) == 1 else f"{name}_{number}_{command[0]}", command, image, given, int(status), printed)


def cases_of(text):
    return [case for block in text.split("\n\n") if "\ncase " in "\n" + block for case in cases_of_block(block)]


def what_differs(wanted, printed):
    """Some of the lines that differ. Bytes that are no text are shown in hex, a frame a line."""
    def lines(of):
        try:
            return of.decode("ascii").splitlines()
        except UnicodeDecodeError:
            return [of[at:at + 16].hex() for at in range(0, len(of), 16)]
    return "wrong output: " + " ".join(list(difflib.unified_diff(lines(wanted), lines(printed), n=0, lineterm=""))[3:7])


def difference(program, case, room):
    """What differs, in one line, or None. Input and image are put into files of the folder `room`."""
    given, image = room / case.name, room / f"{case.name}.image"
    given.write_bytes(case.given)
    image.write_bytes(case.image)
    words = [str(image) if word == "IMAGE" else word for word in case.words]
    with open(given, "rb") as stdin:
        done = subprocess.run([program, *words], stdin=stdin, capture_output=True)
    if done.returncode != case.status:
        return f"status {done.returncode}, not {case.status}"
    if done.stderr:
        return "it wrote to standard error"
    return None if done.stdout == case.printed else what_differs(case.printed, done.stdout)


def main(words):
    if len(words) != 2:
        sys.exit(__doc__)
    program, cases = words[0], cases_of(pathlib.Path(words[1]).read_text())
    with tempfile.TemporaryDirectory() as room, concurrent.futures.ThreadPoolExecutor(AT_ONCE) as pool:
        differences = list(pool.map(lambda case: difference(program, case, pathlib.Path(room)), cases))
    failed = [f"{case.name} ({differs})" for case, differs in zip(cases, differences) if differs is not None]
    if failed or not cases:
        print(f"{len(failed)} of {len(cases)}: " + "; ".join(failed[:SHOWN]), file=sys.stderr)
        sys.exit(1)
    print(len(cases))


if __name__ == "__main__":
    main(sys.argv[1:])
