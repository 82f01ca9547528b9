"""What QEMU's user emulator executes of examples/real_program, as an image and a run file."""
import os
import shutil
import subprocess
import sys

TOP = os.path.dirname(os.path.dirname(os.path.realpath(__file__)))
FOLDER = os.path.join(TOP, "examples", "real_program")
EMULATOR, COMPILER = "qemu-aarch64", "aarch64-linux-gnu-gcc"
PACKAGES = {EMULATOR: "qemu-user", COMPILER: "gcc-aarch64-linux-gnu"}
NEWER_OPTION, OPTION = "one-insn-per-tb", "singlestep"


def missing():
    """What is needed and is not there, or None."""
    for tool, package in PACKAGES.items():
        if shutil.which(tool) is None:
            return f"{tool}, of Debian's package {package}, was not found"
    return None


def ran(words, **others):
    return subprocess.run(words, check=True, stdout=subprocess.PIPE, text=True, **others).stdout


def executed(room):
    """The program, compiled, and the log of its run."""
    program, log = os.path.join(room, "program"), os.path.join(room, "program.log")
    if not os.path.exists(log):
        ran([COMPILER, "-O2", "-static", "-o", program, os.path.join(FOLDER, "program.c")])
        option = NEWER_OPTION if NEWER_OPTION in ran([EMULATOR, "-help"]) else OPTION
        ran([shutil.which(EMULATOR), f"-{option}", "-d", "exec,nochain", "-D", log, program], env={})
    return program, log


def run_at(depth, room):
    """The files of the image and of the run at this depth."""
    image, run_file = os.path.join(room, "program.txt"), os.path.join(room, f"run{depth}.txt")
    program, log = executed(room)
    ran([sys.executable, os.path.join(FOLDER, "run_of.py"), program, log, str(depth), image, run_file])
    return image, run_file
