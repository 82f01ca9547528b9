"""Run files of the program that programs.py makes up: its branches of every kind, calls and exceptions, and branches that are
predicted wrongly, with what follows them until it is taken back; with a fixed seed.
"""
import collections
import random

import programs

ID, VMID = "01", "1"
WRONG = 0.05  # of the conditional branches are predicted wrongly
INTERRUPTED = 0.005  # of the blocks
LONGEST_WRONG = 3  # blocks that follow a wrong prediction
ROOM = LONGEST_WRONG + 2  # P0 steps that one block may add
BATCH = 8  # P0 steps that are retired at once


class Walk:
    """A core that runs the program, and the lines that say what it does. As many P0 steps are held as the depth has room for.
    With at_targets exceptions come before the first instruction of a block too."""

    def __init__(self, blocks, depth, at_targets):
        self.first = 0 if at_targets else 1  # of the plain words before which an exception may come
        self.rng, self.blocks, self.depth = random.Random(programs.SEED), blocks, depth
        self.starts = {block.start: block for block in blocks}
        self.at, self.stack, self.task = blocks[0], [], 1
        self.lines = ["etm 1", f"depth {depth}", f"stream {ID}", f"on {self.at.start:x} {self.context(0)}"]
        self.held = collections.deque()  # for each P0 step that is held how many steps it makes, with the plain ones before it
        self.executed = self.instructions = 0  # steps, and those instructions that will be retired

    def context(self, level):
        return f"el{level} ns {VMID} {self.task:x}"

    def add(self, plain, line):
        """Plain steps, and a P0 step behind them."""
        if plain:
            self.lines.append(f"step {plain}")
        self.lines.append(line)
        self.held.append(plain + 1)
        self.executed += plain + 1
        self.instructions += plain + 1

    def retire(self, count):
        self.lines.append(f"retire {sum(self.held.popleft() for _ in range(count))}")

    def interrupt(self):
        """An exception among the plain words of the block, its handler, and the return, to another task at times."""
        back = self.at.start + 4 * self.rng.randrange(self.first, self.at.plain + 1)
        self.add((back - self.at.start) // 4, f"exc 14 {programs.HANDLER:x} {self.context(1)}")
        self.task = self.rng.choice([self.task, self.rng.randrange(1 << 16)])
        self.add(1, f"eret {back:x} {self.context(0)}")
        self.instructions -= 1  # the exception is none
        rest = programs.Block(back, (self.at.branch - back) // 4)
        rest.kind, rest.target, rest.likely = self.at.kind, self.at.target, self.at.likely
        self.at = rest

    def wrong_way(self, block, is_taken):
        """What follows a wrong prediction, until it is taken back."""
        steps = 0
        for _ in range(self.rng.randrange(LONGEST_WRONG + 1)):
            block = block.target if is_taken else self.starts[block.next]
            if block.kind not in ("cond", "b", "bl"):
                break
            is_taken = True
            self.lines += [f"step {block.plain}"] * (block.plain > 0) + ["taken"]
            steps += block.plain + 1
        self.executed += steps
        self.lines += [f"cancel {steps}"] * (steps > 0) + ["flip"]

    def conditional(self, block):
        is_taken = self.rng.random() < block.likely
        is_wrong = self.rng.random() < WRONG
        self.add(block.plain, "taken" if is_taken != is_wrong else "not")
        if is_wrong:
            self.wrong_way(block, not is_taken)
        return block.target if is_taken else self.starts[block.next]

    def indirect(self, block):
        """The block that BR, BLR or RET leads to."""
        may_pop = block.kind != "blr" and len(self.stack) > 0
        if block.kind == "blr":
            self.stack = [*self.stack, block.next][-programs.STACK:]
        following = self.starts[self.stack[-1]] if may_pop and self.rng.random() < 0.9 else self.rng.choice(self.blocks)
        if may_pop and following.start == self.stack[-1]:
            self.stack.pop()
        self.add(block.plain, f"to {following.start:x}")
        return following

    def step(self):
        """A block whole, or an exception in it."""
        block = self.at
        if len(self.held) + ROOM > self.depth:
            self.retire(BATCH)
        if self.rng.random() < INTERRUPTED and self.first <= block.plain:
            self.interrupt()
        elif block.kind == "cond":
            self.at = self.conditional(block)
        elif block.kind in ("ret", "br", "blr"):
            self.at = self.indirect(block)
        elif block.kind == "isb":
            self.add(block.plain, "step")
            self.at = self.starts[block.next]
        else:
            if block.kind == "bl":
                self.stack = [*self.stack, block.next][-programs.STACK:]
            self.add(block.plain, "taken")
            self.at = block.target


def image_and_blocks():
    blocks = programs.blocks_of(random.Random(programs.SEED))
    return programs.image_of(blocks), blocks


def write_run(path, blocks, depth, steps, at_targets=True):
    """A run file of so many executed steps, or a few more: how many, and how many instructions of them are retired."""
    walk = Walk(blocks, depth, at_targets)
    with open(path, "w") as file:
        while walk.executed < steps:
            walk.step()
            if len(walk.lines) > 10_000:
                file.write("\n".join(walk.lines) + "\n")
                walk.lines = []
        while walk.held:
            walk.retire(min(len(walk.held), BATCH))
        file.write("\n".join(walk.lines) + "\n")
    return walk.executed, walk.instructions
