"""Which code each process had mapped, by the records of a recording."""
import bisect
from typing import NamedTuple

from perf_data import KERNEL, Kind, Misc, Refused

SPACE = 1 << 64
MOST_MAPS = 1 << 22  # that processes have from their parents


class Map(NamedTuple):
    """Addresses up to `end`, at which the bytes of a file stand from `offset` on."""
    start: int
    end: int
    offset: int
    name: str
    build_id: bytes | None
    pid: int

    def within(self, start, end):
        start, end = max(start, self.start), min(end, self.end)
        return self._replace(start=start, end=end, offset=self.offset + start - self.start)

    def is_same(self, other):
        return (self.name, self.start - self.offset) == (other.name, other.start - other.offset)


def covered(maps, new):
    """Which of some maps, that are sorted and apart, `new` covers in part: from the first to behind the last."""
    return (bisect.bisect_right(maps, new.start, key=lambda one: one.end), bisect.bisect_left(maps, new.end, key=lambda one: one.start))


def left_of(maps, new):
    """What is left of `new` beside maps that are sorted."""
    at = new.start
    for one in maps:
        if at < one.start:
            yield new.within(at, one.start)
        at = one.end
    if at < new.end:
        yield new.within(at, new.end)


class Processes:
    """The executable maps of each process, as the records tell them one after the other."""

    def __init__(self, notes):
        self.notes, self.maps, self.copied = notes, {}, 0

    def take(self, record):
        match record.kind:
            case Kind.MMAP | Kind.MMAP2:
                self._map(record)
            case Kind.FORK:
                pid, parent = record.numbers("II", 8)
                if pid != parent:
                    self._fork(pid, parent)
            case Kind.COMM:
                pid, = record.numbers("I", 8)
                if self.maps.pop(pid, ()):
                    self.notes.say(f"process {pid}: it began another program; the maps of the one before are left out")

    def _fork(self, pid, parent):
        if self.maps.get(pid):
            self.notes.say(f"process {pid}: its number was given to another process; the maps of the first are left out")
        self.maps[pid] = [one._replace(pid=pid) for one in self.maps.get(parent, ())]
        self.copied += len(self.maps[pid])
        if self.copied > MOST_MAPS:
            raise Refused(f"its processes have more than {MOST_MAPS} maps")

    def _map(self, record):
        pid, _, start, size, offset = record.numbers("IIQQQ", 8)
        has_more, build_id = record.kind == Kind.MMAP2, None
        is_code = bool(record.numbers("I", 64)[0] & 4) if has_more else not record.misc & Misc.DATA
        name = record.name(72 if has_more else 40)
        if has_more and record.misc & Misc.BUILD_ID:
            count, build_id = record.numbers("B3x20s", 40)
            build_id = build_id[:count]
        if pid == KERNEL or record.misc & Misc.MODE not in (0, Misc.USER):
            self.notes.say("code of the kernel is left out, which changes itself as it starts; record that of users alone: cs_etm//u")
        elif start + size > SPACE or offset + size > SPACE or size == 0:
            self.notes.say(f"process {pid}: {name} at {start:x}: {size} bytes can't stand there; left out")
        else:
            self._replace(Map(start, start + size, offset, name, build_id, pid), is_code)

    def _replace(self, new, is_code):
        maps = self.maps.setdefault(new.pid, [])
        low, high = covered(maps, new)
        for old in maps[low:high]:
            if not old.is_same(new):
                self.notes.say(f"process {new.pid}: {new.name} replaced {old.name} at {max(old.start, new.start):x}; "
                               "what was traced there before has the wrong code")
        rest = [part for old in maps[low:high] for part in left_of([new], old)]
        maps[low:high] = sorted(rest + [new] * is_code)

    def all_of(self, chosen):
        """The maps of the chosen process, or of all, sorted and apart: where two have an address, the first has it."""
        if chosen is not None and not self.maps.get(chosen):
            self.notes.say(f"process {chosen} has no map of code")
        found = []
        for pid in sorted(self.maps) if chosen is None else [chosen]:
            for new in self.maps.get(pid, ()):
                low, high = covered(found, new)
                for old in found[low:high]:
                    if not old.is_same(new):
                        self.notes.say(f"process {pid}: {new.name} at {max(old.start, new.start):x}, where process {old.pid} has {old.name}: "
                                       "left out; take one of them by --pid")
                found[low:high] = sorted(found[low:high] + list(left_of(found[low:high], new)))
        return found
