#!/usr/bin/env python3
"""Adds to the stored run of branch_cases each word that differs in one bit from a branch or ISB.

For one word or more of each encoding (BR, BLR, RET, ERET and those of pointer authentication, ISB, B.cond,
CBZ, CBNZ, TBZ, TBNZ, B, BL) the 32 words with one bit turned are disassembled by llvm-mc, which must be
installed, and what it says is the class that is expected. Words that the run has already are checked against
llvm-mc and stay as they are.

    tests/branch_cases.py [FOLDER]     FOLDER: where stdin and stdout are, crates/branch_cases
"""
import re
import subprocess
import sys
from pathlib import Path

WORDS = [
    0xd61f0000, 0xd61f03c0,              # BR X0, BR X30
    0xd63f0000, 0xd63f03c0,              # BLR X0, BLR X30
    0xd65f0000, 0xd65f03c0,              # RET X0, RET
    0xd69f03e0,                          # ERET
    0xd61f081f, 0xd61f0fdf,              # BRAAZ X0, BRABZ X30
    0xd63f081f, 0xd63f0fdf,              # BLRAAZ X0, BLRABZ X30
    0xd65f0bff, 0xd65f0fff,              # RETAA, RETAB
    0xd69f0bff, 0xd69f0fff,              # ERETAA, ERETAB
    0xd71f081f, 0xd71f0fc1,              # BRAA X0, SP; BRAB X30, X1
    0xd73f081f, 0xd73f0fc1,              # BLRAA X0, SP; BLRAB X30, X1
    0xd5033fdf, 0xd50330df,              # ISB, ISB #0
    0x54000000, 0x547fffe0, 0x5480000f,  # B.EQ to itself, the furthest ahead, and the furthest back
    0x34000000, 0xb5ffffff,              # CBZ W0, CBNZ XZR
    0x36000000, 0xb7ffffff,              # TBZ W0 #0, TBNZ XZR #63
    0x14000000, 0x17ffffff,              # B to itself, and to the word before
    0x94000000, 0x97ffffff,              # BL to itself, and to the word before
]

# what a disassembler calls an instruction, and its class
CLASSES = [
    (r"b\.\w\w|cbn?z|tbn?z", "cond"),
    (r"b", "jump"),
    (r"bl", "jump-link"),
    (r"isb", "isb"),
    (r"br|ret|bra[ab]z?|reta[ab]", "ind"),
    (r"blr|blra[ab]z?", "ind-link"),
    (r"eret|ereta[ab]", "eret"),
    (r"bc\.\w\w|drps", "odd"),
]


def disassembled(word):
    """The instruction as llvm-mc prints it, or None where the word has no allocated encoding."""
    spelled = ",".join(f"0x{byte:02x}" for byte in word.to_bytes(4, "little"))
    command = ["llvm-mc", "-disassemble", "-triple=aarch64", "-mattr=+v8.8a,+hbc,+pauth"]
    run = subprocess.run(command, input=spelled, capture_output=True, text=True, check=True)
    if "invalid instruction encoding" in run.stderr:
        return None
    return run.stdout.split("\n")[1].split()


def expected(word):
    """The class of the word and its offset in bytes, as the program prints them."""
    instruction = disassembled(word)
    if instruction is None:
        # "Unconditional branch (register)" has 1101011 at the top
        return ("odd" if word >> 25 == 0b1101011 else "plain"), "-"
    for pattern, kind in CLASSES:
        if re.fullmatch(pattern, instruction[0]):
            has_offset = kind in ("cond", "jump", "jump-link")
            return kind, instruction[-1].lstrip("#") if has_offset else "-"
    return "plain", "-"


def main():
    folder = Path(sys.argv[1] if len(sys.argv) > 1 else "crates/branch_cases")
    words = (folder / "stdin").read_text().split()
    answers = [tuple(line.split("\t")) for line in (folder / "stdout").read_text().splitlines()]
    run = dict(zip(words, answers, strict=True))
    turned = {word ^ 1 << bit for word in WORDS for bit in range(32)} | set(WORDS)
    for word in sorted(turned):
        answer = expected(word)
        name = f"{word:08x}"
        if run.setdefault(name, answer) != answer:
            sys.exit(f"{word:08x}: {run[name]} stored, {answer} disassembled")
    (folder / "stdin").write_text("".join(f"{word}\n" for word in sorted(run)))
    (folder / "stdout").write_text("".join("\t".join(run[word]) + "\n" for word in sorted(run)))
    print(f"{len(turned)} words, {len(run) - len(words)} of them new; {len(run)} in all")


if __name__ == "__main__":
    main()
