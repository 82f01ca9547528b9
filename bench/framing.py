"""Frames of a trace formatter."""
import random

PLACES = 15  # of a frame, behind which its auxiliary byte stands
SEED = 5
LONGEST_TURN = 40  # bytes that a source writes before another has its turn


class Framer:
    """Puts the bytes of sources into frames."""

    def __init__(self):
        self.frames, self.source = bytearray(), None
        self.places = []  # of the frame that is begun: the byte that stands there, and its auxiliary bit

    def put(self, byte, bit):
        self.places.append((byte, bit))
        if len(self.places) == PLACES:
            self.frames += bytes(byte for byte, _ in self.places)
            self.frames.append(sum(bit << place // 2 for place, (_, bit) in enumerate(self.places)))
            self.places = []

    def change(self, source):
        if len(self.places) % 2 == 0:
            self.put(source << 1 | 1, 0)
        else:  # an ID has an even place: the byte that stood there comes behind it
            byte, bit = self.places.pop()
            self.put(source << 1 | 1, 1)
            self.put(byte | bit, 0)
        self.source = source

    def write(self, source, data):
        if source != self.source:
            self.change(source)
        for byte in data:
            if len(self.places) % 2 == 0:
                self.put(byte & 0xFE, byte & 1)
            else:
                self.put(byte, 0)

    def finish(self):
        """All frames; the last is filled with the null ID and zeros."""
        if self.places:
            self.change(0)
        while self.places:
            self.put(0, 0)
        return bytes(self.frames)


def bytes_in(frames):
    """The bytes of the one source in frames."""
    found, source = bytearray(), 0
    for at in range(0, len(frames), PLACES + 1):
        following = source
        for place, byte in enumerate(frames[at:at + PLACES]):
            bit = frames[at + PLACES] >> place // 2 & 1
            if place % 2 == 0 and byte & 1:  # an ID, which holds behind the next byte where the bit is set
                following = byte >> 1
                source = source if bit else following
                continue
            if source:
                found.append(byte if place % 2 else byte | bit)
            source = following
        source = following
    return bytes(found)


def frames_of(streams):
    """The frames of streams, pairs of an ID and bytes, that write in turn."""
    rng, framer = random.Random(SEED), Framer()
    rest = {source: memoryview(data) for source, data in streams}
    while rest:
        for source, data in list(rest.items()):
            size = rng.randint(1, LONGEST_TURN)
            framer.write(source, data[:size])
            rest[source] = data[size:]
        rest = {source: data for source, data in rest.items() if data}
    return framer.finish()
