#!/usr/bin/env python3
"""What a run of a program takes; for the scripts of this folder.

Each program is started by a small process of its own. The system counts, as the peak memory of a process, the most memory
that the process had which started it, too; a bench that has made a large image would count that for each program after it.
So some 10 MiB of what is told are the starter's.

`python3 measured.py FD WORDS..` is that starter: it writes what was taken to the file descriptor FD.
"""
import json
import os
import re
import shutil
import subprocess
import sys
import time
import typing

RUNS = 3  # the least of these counts


class Taken(typing.NamedTuple):
    seconds: float  # by the clock
    processor: float  # seconds of processor time
    memory: int  # peak, in bytes


def starter(answer, words):
    began = time.perf_counter()
    child = os.fork()
    if child == 0:
        os.execvp(words[0], words)
    _, status, usage = os.wait4(child, 0)
    seconds = time.perf_counter() - began
    with os.fdopen(answer, "w") as file:
        json.dump([os.waitstatus_to_exitcode(status), seconds, usage.ru_utime + usage.ru_stime, usage.ru_maxrss * 1024], file)


def taken(words, capture, out=subprocess.DEVNULL):
    """What a program takes to read a capture. It must end with 0."""
    answer, end = os.pipe()
    with open(capture, "rb") as given, os.fdopen(answer) as told:
        starting = [sys.executable, "-I", "-S", __file__, str(end), *words]
        subprocess.run(starting, stdin=given, stdout=out, pass_fds=[end], check=True)
        os.close(end)
        status, *figures = json.load(told)
    if status != 0:
        sys.exit(f"{sys.argv[0]}: {words[0]} ended with status {status}")
    return Taken(*figures)


def least(words, capture, runs=RUNS):
    """The fewest seconds of a few runs, and the most memory."""
    each = [taken(words, capture) for _ in range(runs)]
    return Taken(min(t.seconds for t in each), min(t.processor for t in each), max(t.memory for t in each))


def counts_instructions():
    return shutil.which("valgrind") is not None


def instructions(words, capture):
    """How many machine instructions a program takes to read a capture, by valgrind."""
    counting = ["valgrind", "--tool=callgrind", "--callgrind-out-file=/dev/null", *words]
    with open(capture, "rb") as given:
        ran = subprocess.run(counting, stdin=given, stdout=subprocess.DEVNULL, stderr=subprocess.PIPE, text=True)
    found = re.search(r"Collected : (\d+)", ran.stderr)
    if ran.returncode != 0 or found is None:
        sys.exit(f"{sys.argv[0]}: {' '.join(counting)} ended with status {ran.returncode}\n{ran.stderr}")
    return int(found[1])


def writes_of(words, capture, room):
    """The number of write calls to standard output, or None where strace is missing or may not trace."""
    log = os.path.join(room, "calls")
    if shutil.which("strace") is None:
        return None
    with open(capture, "rb") as given:
        traced = subprocess.run(["strace", "-e", "trace=write", "-o", log, *words], stdin=given,
                                stdout=subprocess.DEVNULL, stderr=subprocess.DEVNULL)
    if traced.returncode != 0:
        return None
    with open(log) as calls:
        return sum(call.startswith("write(1,") for call in calls)


def built(crate, *words):
    """Has `rt run` build the program of a crate's folder, and run it with these words. Ends with a line where `rt` is not there."""
    if shutil.which("rt") is None:
        sys.exit(f"{sys.argv[0]}: the toolchain's command rt, which builds {os.path.basename(crate)}, was not found")
    ran = subprocess.run(["rt", "run", *words], cwd=crate, stdin=subprocess.DEVNULL, capture_output=True, text=True)
    if ran.returncode != 0:
        sys.exit(ran.stdout + ran.stderr)


def compiled(name, room, *libraries):
    """The C program of this folder, compiled; or None, and a line, where no compiler is found or a library is missing."""
    compiler = shutil.which("cc")
    program = os.path.join(room, name)
    source = os.path.join(os.path.dirname(os.path.realpath(__file__)), name + ".c")
    if compiler is None or subprocess.run([compiler, "-O2", "-o", program, source, *libraries]).returncode != 0:
        print(f"{sys.argv[0]}: nothing is compared with {name}.c: cc, or what it needs, was not found")
        return None
    return program


def limit(what, value, most):
    """The line of a limit, and whether it was kept."""
    return f"{what} {value:.10g} (limit {most:.10g}: {'kept' if value <= most else 'PASSED'})", value <= most


def goal(what, value, bound, at="most"):
    """The line of a goal, and whether it is met."""
    met = value >= bound if at == "least" else value <= bound
    return f"{what} {value:.10g} (goal: at {at} {bound:.10g}, {'met' if met else 'not met'})", met


if __name__ == "__main__":
    starter(int(sys.argv[1]), sys.argv[2:])
