"""AUX areas: what trace units wrote for one CPU or one thread, and in which pieces it is decoded."""
import bisect
from typing import NamedTuple

from perf_data import AuxFlag

FRAME, BARRIER = 16, b"\xff\xff\xff\x7f" * 4
FILLING = 8  # the size of an AUXTRACE record is a multiple of it
FRAMES, RAW = 0, 1  # forms of trace


class Aux(NamedTuple):
    """An AUX record: which bytes of its area one trace unit, or those that share a sink, wrote without a stop."""
    offset: int
    size: int
    flags: int
    cpu: int | None


class Piece(NamedTuple):
    """What one `etm path` reads."""
    data: memoryview
    is_raw: bool
    cpu: int | None


class Area:
    """The AUX area of a CPU or a thread: its bytes at their offsets, and the AUX records over it. `cpu` is None where it is a thread's."""

    def __init__(self, name, cpu):
        self.name, self.cpu, self.held, self.told = name, cpu, [], []

    def pieces(self, notes):
        """What trace units wrote without a stop, by offset."""
        self.held.sort(key=lambda held: held[0])
        if not self.told:
            for begin, data in self.held:
                yield from (Piece(part, False, self.cpu) for part in self._stretches(data, begin, notes))
            return
        end, last, data = self.held[0][0], None, self.held[-1]
        for begin, size, aux in sorted(((*self._begin_of(aux), aux) for aux in self.told), key=lambda told: told[:2]):
            self._tell_flags(aux, begin, notes)
            if last is not None and begin < last:
                notes.say(f"{self.name}, AUX record at {begin:x}: it overlaps the one before; left out")
                continue
            self._tell_hole(end, begin, notes)
            end = last = begin + size
            yield from self._pieces_at(begin, size, aux, notes)
        self._tell_hole(end, data[0] + len(data[1]), notes, FILLING)

    def _tell_flags(self, aux, begin, notes):
        for flag in (AuxFlag.TRUNCATED, AuxFlag.PARTIAL, AuxFlag.COLLISION):
            if aux.flags & flag:
                notes.say(f"{self.name}, AUX record at {begin:x}: trace was lost: {flag.name.lower()}")

    def _tell_hole(self, end, begin, notes, least=1):
        """What stands between two AUX records, before the first, or behind the last."""
        if begin - end >= least:
            notes.say(f"{self.name}: {begin - end} bytes at {end:x} are in no AUX record, or were lost")

    def _pieces_at(self, begin, size, aux, notes):
        """Those of an AUX record."""
        form, data = (aux.flags & AuxFlag.FORM) // AuxFlag.RAW, self._cut(begin, size)
        if len(data) < size:
            notes.say(f"{self.name}, AUX record at {begin:x}: {size - len(data)} of its {size} bytes are not in the file")
        if form not in (FRAMES, RAW):
            notes.say(f"{self.name}, AUX record at {begin:x}: its form {form} is not known; left out")
            return
        for part in self._stretches(data, begin, notes) if form == FRAMES else [data]:
            yield Piece(part, form == RAW, self.cpu if aux.cpu is None else aux.cpu)

    def _place_of(self, at):
        """Which of the AUXTRACE records has an offset: the last one that begins there or before."""
        return bisect.bisect_right(self.held, at, key=lambda held: held[0]) - 1

    def _begin_of(self, aux):
        """Where an AUX record begins, and its size. In a snapshot its offset is that of its end."""
        if not aux.flags & AuxFlag.OVERWRITE:
            return aux.offset, aux.size
        place = self._place_of(aux.offset - 1)
        size = min(aux.size, aux.offset, len(self.held[place][1]) if place >= 0 else aux.size)
        return aux.offset - size, size

    def _cut(self, begin, size):
        """Bytes from an offset on, up to the first that is not there. An AUXTRACE record may end with some that fill it up, so where it
        has not all of them, the next one counts from its own offset on."""
        found, at, end = [], begin, begin + size
        while at < end and (place := self._place_of(at)) >= 0:
            offset, data = self.held[place]
            part = data[at - offset:end - offset]
            if len(part) < end - at and place + 1 < len(self.held):
                part = part[:self.held[place + 1][0] - at]
            if not part:
                break
            found.append(part)
            at += len(part)
        return found[0] if len(found) == 1 else memoryview(b"".join(found))

    def _stretches(self, data, begin, notes):
        """The frames between barrier packets, which a sink writes over the first frame behind bytes that it lost."""
        held, first, at = bytes(data), 0, 0
        while (at := held.find(BARRIER, at)) >= 0:
            if at % FRAME:
                at += -at % FRAME
                continue
            if at > first:
                notes.say(f"{self.name}: the sink lost trace before {begin + at:x}")
                yield data[first:at]
            first = at = at + FRAME
        if first < len(data):
            yield data[first:]
