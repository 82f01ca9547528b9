"""Captures of a few packets that are repeated, over a loop of few instructions."""
import random

MEBI = 1 << 20

START = bytes(11) + b"\x80" + b"\x01\x01\x00" + b"\x04" + bytes.fromhex("85 00 08 00 00 00 00 00 00 31")
E_ATOM = b"\xf7"
NOP, BRANCH_TO_ITSELF, BRANCH_BY_REGISTER = "1f2003d5", "00000014", "00021fd6"
MAYBE_TO_ITSELF, BRANCH_ONE_BACK, BRANCH_TWO_BACK, BRANCH_NINE_BACK = "00000054", "ffffff17", "feffff17", "f7ffff17"
EXCEPTION = bytes.fromhex("06 1d 90 90")  # IRQ, its preferred return address, and the next address: twice the newest
MISPREDICT = b"\x30"
FEW_HELD, MANY_HELD = 8, 4000
ADDRESS_SEED = 7


def number(value):
    groups = [value & 0x7F]
    while value := value >> 7:
        groups.append(value & 0x7F)
    return bytes(group | 0x80 for group in groups[:-1]) + bytes(groups[-1:])


def commit(count):
    return b"\x2d" + number(count)


def cancel(count):
    return b"\x2e" + number(count)


class Kind:
    """What a capture has: behind the start some packets once, others again and again, and then a last commit, by the number of
    elements held; over which words from 1000 on; and how many lines must come of so many repetitions."""

    def __init__(self, name, words, packets, lines, depth=0, once=b"", held=lambda n: 0, times_plain=None, nanoseconds=None):
        self.name, self.words, self.packets, self.lines = name, words, packets, lines
        self.depth, self.once, self.held = depth, once, held
        self.times_plain = times_plain  # the goal: at most so many times the time of the C loop
        self.nanoseconds = nanoseconds  # the goal: at most so many for each repetition

    def image_text(self):
        return "@1000\n" + "\n".join(" ".join(self.words[i:i + 1024]) for i in range(0, len(self.words), 1024)) + "\n"

    def memory(self):
        """What the image may take: its bytes and its table, and its text while that is read."""
        return 8 * len(self.words) + len(self.image_text()) + 12 * len(self.words)


TEN = [NOP] * 9 + [BRANCH_NINE_BACK]
THREE = [NOP] * 2 + [BRANCH_TWO_BACK]
TURNED = [MAYBE_TO_ITSELF, BRANCH_ONE_BACK]  # not taken, and back


def at_depth_0(plain):
    """The kinds of captures at depth 0, with so many plain words behind the return address of each exception."""
    return [
        Kind("1 instruction an atom", [BRANCH_TO_ITSELF], E_ATOM, lambda n: n + 3, times_plain=1.2),
        Kind("10 instructions an atom", TEN, E_ATOM, lambda n: 10 * n + 3, times_plain=0.5),
        Kind(f"exceptions over {plain} plain words", [NOP] * plain, EXCEPTION, lambda n: n + 2, nanoseconds=400),
    ]


def at_depth(depth):
    """The kinds of captures at another depth. An atom over THREE shows three lines and an exception one, and three lines more
    are those of trace on, the context, which an exception does not show, and the end."""
    some = depth // 2
    return [
        Kind("each atom committed by a packet", THREE, E_ATOM + commit(1), lambda n: 3 * n + 3, depth),
        Kind(f"{some} atoms committed together", THREE, E_ATOM * some + commit(some), lambda n: 3 * some * n + 3, depth),
        Kind(f"{some} of {some + 1} atoms taken back", THREE, E_ATOM * (some + 1) + cancel(some) + commit(1),
             lambda n: 3 * n + 3, depth),
        Kind("each second branch turned", TURNED, E_ATOM + MISPREDICT + E_ATOM, lambda n: 2 * n + 3, depth,
             held=lambda n: min(2 * n, depth)),
        Kind("exceptions", [NOP], EXCEPTION, lambda n: n + 2, depth, held=lambda n: min(n, depth), nanoseconds=400),
        Kind("exceptions taken back", [NOP], EXCEPTION + cancel(1), lambda n: 3, depth, once=EXCEPTION, held=lambda n: 1,
             nanoseconds=400),
    ]


def taken_back_over(held, depth):
    """Atoms that are taken back one by one while so many are held."""
    return Kind(f"an atom taken back, {held} held", THREE, E_ATOM + cancel(1), lambda n: 3 * held + 3, depth,
                once=E_ATOM * held, held=lambda n: held)


def nothing_taken_back(words, depth):
    """Atoms that are committed for want of room, and the last ones by a packet."""
    return Kind(f"{len(words)} instructions an atom, nothing taken back", words, E_ATOM, lambda n: len(words) * n + 3, depth,
                held=lambda n: min(n, depth))


def new_addresses(name):
    """Atoms over three instructions each, behind each of which the address of the next three comes, in an address packet of three bytes."""
    rng, places = random.Random(ADDRESS_SEED), 256
    words = [0x1000 // 4 + 3 * rng.randrange(places) for _ in range(places)]
    packets = b"".join(E_ATOM + bytes([0x95, at & 0x7F | 0x80, at >> 7]) for at in words)
    return Kind(name, [NOP, NOP, BRANCH_BY_REGISTER] * places, packets, lambda n: 3 * places * n + 3)


def write_capture(path, kind, count):
    with open(path, "wb") as file:
        file.write(START + kind.once)
        left = count
        while left > 0:
            some = min(left, max(MEBI // len(kind.packets), 1))
            file.write(kind.packets * some)
            left -= some
        if kind.held(count) > 0:
            file.write(commit(kind.held(count)))
