"""A program of blocks of 1 to 20 words with branches of every kind, loops, calls and exceptions, made up and run with a fixed
seed, and what a trace unit writes of the run: atoms of all formats, addresses of all forms, contexts and exceptions.
"""
import random

SEED = 11
BLOCKS, BLOCK_WORDS = 400, 20
RUN_BYTES = 256 << 10  # of trace
BASE, HANDLER = 0xFFFF800008000000, 0xFFFF80000A000000
STACK = 15

SYNC = bytes(11) + b"\x80"
TRACE_INFO, TRACE_ON = b"\x01\x01\x00", b"\x04"
NOP, ISB, RET, ERET = 0xD503201F, 0xD5033FDF, 0xD65F03C0, 0xD69F03E0
COND, B, BL, BR, BLR = 0x54000000, 0x14000000, 0x94000000, 0xD61F0200, 0xD63F0200


# ---- the program ------------------------------------------------------------

class Block:
    """Plain words from an address on, and the branch after them, with its kind and target."""

    def __init__(self, start, plain):
        self.start, self.plain = start, plain
        self.branch = start + 4 * plain
        self.next = self.branch + 4
        self.kind = self.target = self.likely = None


def blocks_of(rng):
    made, at = [], BASE
    for _ in range(BLOCKS):
        made.append(Block(at, rng.randrange(BLOCK_WORDS)))
        at = made[-1].next
    kinds = ["cond"] * 55 + ["b"] * 10 + ["bl"] * 12 + ["ret"] * 12 + ["br"] * 4 + ["blr"] * 4 + ["isb"] * 3
    for block in made[:-1]:
        block.kind = rng.choice(kinds)
        block.target = rng.choice(made)
        block.likely = rng.choice([0.5, 0.5, 0.1, 0.95])  # how often a conditional branch is taken
    made[-1].kind, made[-1].target = "b", made[0]
    return made


def word_of(block):
    """The instruction word of a block's branch."""
    words = (block.target.start - block.branch) // 4
    return {"cond": COND | (words & 0x7FFFF) << 5, "b": B | words & 0x3FFFFFF, "bl": BL | words & 0x3FFFFFF,
            "ret": RET, "br": BR, "blr": BLR, "isb": ISB}[block.kind]


def image_of(blocks):
    def spelled(word):
        return word.to_bytes(4, "little").hex()
    lines = [" ".join([spelled(NOP)] * block.plain + [spelled(word_of(block))]) for block in blocks]
    return "\n".join([f"@{BASE:x}", *lines, f"@{HANDLER:x}", f"{spelled(NOP)} {spelled(ERET)}", ""])


# ---- the trace --------------------------------------------------------------

def table_of_atoms():
    """The byte of each run of atoms, by the formats 1 to 6."""
    table = {"N": 0xF6, "E": 0xF7}
    table.update({run: 0xD8 + n for n, run in enumerate(["NN", "EN", "NE", "EE"])})
    table.update({run: 0xF8 + n for n, run in enumerate(["NNN", "ENN", "NEN", "EEN", "NNE", "ENE", "NEE", "EEE"])})
    table.update({run: 0xDC + n for n, run in enumerate(["NEEE", "NNNN", "NENE", "ENEN"])})
    table.update(zip(["NEEEE", "NNNNN", "NENEN", "ENENE"], [0xF5, 0xD5, 0xD6, 0xD7]))
    for n in range(21):
        table["E" * (n + 4)], table["E" * (n + 3) + "N"] = 0xC0 + n, 0xE0 + n
    return table


ATOMS = table_of_atoms()


class Trace:
    """The bytes that a trace unit writes."""

    def __init__(self):
        self.bytes, self.atoms = bytearray(SYNC + TRACE_INFO + TRACE_ON), ""
        self.history = [0, 0, 0]

    def atom(self, taken):
        self.atoms += "E" if taken else "N"
        if len(self.atoms) >= 24:
            self.put_atoms(1)

    def put_atoms(self, least=0):
        """Writes the atoms held back, the longest runs first, until fewer than 24 are left or none."""
        while self.atoms and (least == 0 or len(self.atoms) >= 24):
            front = next(self.atoms[:n] for n in range(min(24, len(self.atoms)), 0, -1) if self.atoms[:n] in ATOMS)
            self.bytes.append(ATOMS[front])
            self.atoms = self.atoms[len(front):]

    def put_address(self, address, context=None):
        """An address packet in its shortest form; with a context always the long one of 64 bits."""
        newest = self.history[0]
        words = address >> 2
        if context is not None:
            self.bytes += b"\x85" + long_bytes(address, 8) + context
        elif address in self.history:
            self.bytes.append(0x90 + self.history.index(address))
        elif address >> 9 == newest >> 9:
            self.bytes += bytes([0x95, words & 0x7F])
        elif address >> 17 == newest >> 17:
            self.bytes += bytes([0x95, words & 0x7F | 0x80, words >> 7 & 0xFF])
        elif address >> 32 == newest >> 32:
            self.bytes += b"\x9a" + long_bytes(address, 4)
        else:
            self.bytes += b"\x9d" + long_bytes(address, 8)
        self.history = [address, *self.history[:2]]


def long_bytes(address, count):
    rest = (address >> 16).to_bytes(6, "little")[:count - 2]
    return bytes([address >> 2 & 0x7F, address >> 9 & 0x7F]) + rest


def context(el, task):
    """An info byte with a VMID of one byte and a context ID of four."""
    return bytes([0xF0 | el, 1]) + task.to_bytes(4, "little")


class Core:
    """Runs the program, and tells the trace what it does."""

    def __init__(self, rng, blocks):
        self.rng, self.blocks, self.trace = rng, blocks, Trace()
        self.at, self.stack, self.task = blocks[0], [], 1
        self.starts = {block.start: block for block in blocks}
        self.trace.put_address(self.at.start, context(0, self.task))

    def interrupt(self):
        """An exception among the plain words of the block, its handler, and the return, to another task at times."""
        back = self.at.start + 4 * self.rng.randrange(self.at.plain + 1)
        self.trace.put_atoms()
        self.trace.bytes += bytes([0x06, 14 << 1 | 1])
        self.trace.put_address(back)
        self.trace.put_address(HANDLER, context(1, self.task))
        self.trace.atom(True)
        self.trace.put_atoms()
        self.task = self.rng.choice([self.task, self.rng.randrange(1 << 16)])
        self.trace.put_address(back, context(0, self.task))
        rest = Block(back, (self.at.branch - back) // 4)
        rest.kind, rest.target, rest.likely = self.at.kind, self.at.target, self.at.likely
        self.at = rest

    def indirect(self, may_pop):
        """The block that BR, BLR or RET leads to; its address is traced unless it is on top of the return stack."""
        if may_pop and self.stack and self.rng.random() < 0.9:
            return self.starts[self.stack.pop()]
        block = self.rng.choice(self.blocks)
        if not (may_pop and self.stack and self.stack[-1] == block.start):
            self.trace.put_atoms()
            self.trace.put_address(block.start)
        else:
            self.stack.pop()
        return block

    def step(self):
        """A block whole, or an exception in it."""
        block = self.at
        if self.rng.random() < 0.005:
            return self.interrupt()
        taken = block.kind != "cond" or self.rng.random() < block.likely
        self.trace.atom(taken)
        after = self.starts.get(block.next, self.blocks[0])
        if block.kind in ("ret", "br"):
            self.at = self.indirect(True)
            return None
        if block.kind in ("bl", "blr"):
            self.stack = [*self.stack, block.next][-STACK:]
        if block.kind == "blr":
            self.at = self.indirect(False)
        elif block.kind == "isb" or not taken:
            self.at = after
        else:
            self.at = block.target
        return None


def trace_of(rng, blocks, size):
    core = Core(rng, blocks)
    while len(core.trace.bytes) < size:
        core.step()
    core.trace.put_atoms()
    return bytes(core.trace.bytes)


def made(size=RUN_BYTES):
    """The text of the program's image, and its trace."""
    rng = random.Random(SEED)
    blocks = blocks_of(rng)
    trace = trace_of(rng, blocks, size)
    return image_of(blocks), trace
