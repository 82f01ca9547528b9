"""perf.data, what Linux' perf records: the records that trace of Arm CoreSight needs, read and written.

A file has a header, attributes of its events, records, and features; in its piped form a short header, and records alone. Names and
layouts are those of Linux' sources: `perf.data-file-format.txt` in tools/perf/Documentation, include/uapi/linux/perf_event.h, and
tools/perf/util/cs-etm.h for the words about the trace units. All numbers have their lowest byte first.
"""
import enum
import os
import struct
import subprocess
import tempfile
from typing import NamedTuple

MAGIC, MAGIC_OF_OTHERS = b"PERFILE2", (b"2ELIFREP", b"PERFFILE")
HEADER, PIPED_HEADER, ATTRIBUTE = 104, 16, 128  # sizes
BUILD_IDS, AUXTRACE_INDEX = 2, 18  # features
CORESIGHT = 3  # of the types of an AUXTRACE_INFO
OTHER_TRACE = {1: "Intel PT", 2: "Intel BTS", 4: "Arm SPE", 5: "S390 CPUMSF", 6: "HiSilicon PTT"}
ETMV4 = 0x4040404040404040
OTHER_UNITS = {0x3030303030303030: "ETMv3", 0x5050505050505050: "ETE"}
FEWEST_REGISTERS = 6  # up to TRCIDR8
PER_THREAD = -1  # in the place of a CPU
KERNEL = 0xFFFFFFFF  # in the place of a process
MOST_UNPACKED = 1 << 30
ELF_64 = b"\x7fELF\x02\x01"
LOADED, NOTES = 1, 4  # types of segments
EXECUTABLE = 1  # a flag of them
BUILD_ID_NOTE, MOST_NOTES = 3, 1 << 16
LAST_BLOCK = b"\x01\0\0"  # of zstd, and empty


class Kind(enum.IntEnum):
    MMAP = 1
    COMM = 3
    FORK = 7
    MMAP2 = 10
    AUX = 11
    AUX_OUTPUT_HW_ID = 21
    HEADER_ATTR = 64  # from here on records are of perf, and before of the kernel
    HEADER_BUILD_ID = 67
    AUXTRACE_INFO = 70
    AUXTRACE = 71
    HEADER_FEATURE = 80
    COMPRESSED = 81
    COMPRESSED2 = 83


class Misc(enum.IntFlag):
    MODE = 7
    USER = 2
    DATA = 1 << 13  # of MMAP
    EXEC = 1 << 13  # of COMM
    BUILD_ID = 1 << 14  # of MMAP2


class AuxFlag(enum.IntFlag):
    TRUNCATED = 1
    OVERWRITE = 2
    PARTIAL = 4
    COLLISION = 8
    FORM = 0xFF00
    RAW = 0x100  # of the forms; else it is frames


class Sample(enum.IntFlag):
    """Bits of `sample_type`. Of all but IP a field stands in the tails of records."""
    IP = 1
    TID = 1 << 1
    TIME = 1 << 2
    ID = 1 << 6
    STREAM_ID = 1 << 9
    CPU = 1 << 7
    IDENTIFIER = 1 << 16


TAIL_FIELDS = (Sample.TID, Sample.TIME, Sample.ID, Sample.STREAM_ID, Sample.CPU, Sample.IDENTIFIER)
SAMPLE_ID_ALL = 1 << 18


class Refused(Exception):
    """Why a file can't be used."""


class Attribute(NamedTuple):
    """What perf asked of an event: whether its records have tails, and how far before the end of a record each field of them begins."""
    sample_type: int
    has_tails: bool
    places: dict


class Tail(NamedTuple):
    """Of a kernel's record: in which thread, when and on which CPU, or None where that is not recorded."""
    tid: int | None = None
    time: int | None = None
    cpu: int | None = None


class Record(NamedTuple):
    """A record with its header, and the trace behind it."""
    kind: int
    misc: int
    body: memoryview
    trace: memoryview | None = None

    def numbers(self, form, at):
        return numbers(form, self.body, at)

    def name(self, at):
        return os.fsdecode(bytes(self.body[at:]).partition(b"\0")[0])


class Unit(NamedTuple):
    """A trace unit: its CPU, TRCCONFIGR, trace ID, speculation depth, the sizes of its VMID and context ID in bytes, and the sink in which
    it has this ID, where a kernel tells of one."""
    cpu: int
    config: int
    id: int | None
    depth: int
    vmid: int
    cid: int
    sink: int | None = None


def numbers(form, data, at):
    try:
        return struct.unpack_from("<" + form, data, at)
    except (struct.error, OverflowError):
        raise Refused("a header or a record is shorter than what it must have") from None


def section(data, offset, size):
    if offset + size > len(data):
        raise Refused(f"the file has {len(data)} bytes, and its header tells of {size} at {offset}")
    return data[offset:offset + size]


# ---- ELF files --------------------------------------------------------------------

class Segment(NamedTuple):
    """A segment of an ELF file, as its program header has it."""
    kind: int
    flags: int
    offset: int
    address: int
    size: int


def segments_of(data):
    """The segments of an ELF file of 64 bits."""
    if data[:6] != ELF_64:
        raise Refused("it is no ELF file of 64 bits, lowest bytes first")
    table, = numbers("Q", data, 32)
    size, count = numbers("2H", data, 54)
    for number in range(count):
        kind, flags, offset, address, _, held = numbers("IIQQQQ", data, table + number * size)
        section(data, offset, held)
        yield Segment(kind, flags, offset, address, held)


def build_id_of(data):
    """The build ID that a note of an ELF file has, or None."""
    try:
        for segment in segments_of(data):
            if segment.kind == NOTES:
                for kind, name, told in notes_in(data[segment.offset:segment.offset + min(segment.size, MOST_NOTES)]):
                    if (kind, name) == (BUILD_ID_NOTE, b"GNU\0"):
                        return told
    except Refused:
        pass
    return None


def notes_in(data):
    """The type, the name and the text of each note of a segment."""
    at = 0
    while at < len(data):
        name, text, kind = numbers("III", data, at)
        text_at = at + 12 + name + -name % 4
        yield kind, data[at + 12:at + 12 + name], data[text_at:text_at + text]
        at = text_at + text + -text % 4


# ---- reading ----------------------------------------------------------------------

def read(name):
    """All bytes of a file, or of standard input where the name is `-`."""
    with open(0 if name == "-" else name, "rb") as file:
        front = file.read(PIPED_HEADER)
        if front[:8] in MAGIC_OF_OTHERS:
            raise Refused("it is of the other byte order, or of the first version of the format")
        if front[:8] != MAGIC or len(front) < PIPED_HEADER:
            raise Refused("it is no perf.data")
        if not file.seekable():
            return front + file.read()
        file.seek(-len(front), os.SEEK_CUR)
        return file.read()


class Recording:
    """The records of a file. `left_out` tells what could not be read; it and `build_ids` are whole once all records were taken."""

    def __init__(self, data):
        data = memoryview(data)
        self.attribute, self.attributes, self.build_ids, self.left_out = None, {}, {}, []
        size, = numbers("Q", data, 8)
        if size == PIPED_HEADER:
            self.data = data[PIPED_HEADER:]
        elif size == HEADER:
            self.data = self._read_header(data)
        else:
            raise Refused(f"its header has {size} bytes")

    def _read_header(self, data):
        """Takes attributes and build IDs, and gives the bytes of the records."""
        entry, attributes_at, attributes, at, size = numbers("5Q", data, 16)
        if size == 0:
            self.left_out.append("perf did not end the file, so its build IDs are not known")
            size = max(len(data) - at, 0)
        if entry <= 16:
            raise Refused(f"its header tells of attributes of {entry} bytes")
        for attribute in range(0, len(section(data, attributes_at, attributes)) // entry):
            one = data[attributes_at + attribute * entry:][:entry]
            self._add_attribute(one[:-16], section(data, *numbers("2Q", one, entry - 16)))
        bits, = numbers("Q", data, 72)
        if bits >> BUILD_IDS & 1 and at + size < len(data):
            before = (bits & (1 << BUILD_IDS) - 1).bit_count()
            self._try_build_ids(data, at + size + 16 * before)
        if at + size > len(data):
            self.left_out.append(f"the file is cut: {at + size - len(data)} bytes of its records are not there")
        return data[at:at + size]

    def _add_attribute(self, data, ids):
        """One with the IDs of its events."""
        sample_type, flags = numbers("Q8xQ", data, 24)
        fields = [field for field in reversed(TAIL_FIELDS) if sample_type & field]
        attribute = Attribute(sample_type, bool(flags & SAMPLE_ID_ALL), {field: 8 * place for place, field in enumerate(fields, 1)})
        self.attribute = self.attribute or attribute
        self.attributes.update((id, attribute) for id, in struct.iter_unpack("<Q", ids[:len(ids) // 8 * 8]))

    def _try_build_ids(self, data, at):
        """Those of the feature whose place stands at an offset."""
        try:
            self._read_build_ids(section(data, *numbers("2Q", data, at)))
        except Refused as why:
            self.left_out.append(f"its build IDs: {why}")

    def _read_build_ids(self, data):
        for record in self._walked(data):
            self._take_build_id(record)

    def _take_build_id(self, record):
        """Type 67, and the feature of build IDs: 20 bytes, their number, and the name."""
        size = record.body[32] if len(record.body) > 36 else 0
        self.build_ids[record.name(36)] = bytes(record.body[12:12 + (size if 0 < size <= 20 else 20)])

    def records(self):
        """The records in their order; those that are compressed come last."""
        packed = []
        for record in self._walked(self.data):
            match record.kind:
                case Kind.COMPRESSED:
                    packed.append(record.body[8:])
                case Kind.COMPRESSED2:
                    packed.append(record.body[16:16 + record.numbers("Q", 8)[0]])
                case Kind.HEADER_ATTR:
                    size = max(record.numbers("I", 12)[0], 64)
                    self._add_attribute(record.body[8:8 + size], record.body[8 + size:])
                case Kind.HEADER_BUILD_ID:
                    self._take_build_id(record)
                case Kind.HEADER_FEATURE if record.numbers("Q", 8)[0] == BUILD_IDS:
                    self._read_build_ids(record.body[16:])
                case _:
                    yield record
        if packed:
            yield from self._walked(self._unpacked(b"".join(packed)))

    def _unpacked(self, packed):
        """perf does not end the one zstd stream of a file."""
        data, is_whole = unpacked(packed + LAST_BLOCK)
        if not is_whole:
            data, is_whole = unpacked(packed)
        if not is_whole:
            self.left_out.append(f"what is compressed has a fault: only its first {len(data)} bytes are read")
        return memoryview(data)

    def _walked(self, data):
        at = 0
        while at < len(data):
            kind, misc, size = struct.unpack_from("<IHH", data, at) if len(data) - at >= 8 else (0, 0, 8)
            if size < 8:
                raise Refused(f"a record has a size of {size} bytes")
            record = Record(kind, misc, data[at:at + size])
            at += size
            if at > len(data):
                self.left_out.append("the last record, which is cut")
                return
            if kind == Kind.AUXTRACE:
                count, = record.numbers("Q", 8)
                record = record._replace(trace=data[at:at + count])
                at += count
                if at > len(data):
                    self.left_out.append(f"the last {at - len(data)} bytes of trace, which are cut")
            yield record

    def _attribute_of(self, record):
        """The attribute that a record belongs to, as perf finds it: by the ID in its tail, or the first one."""
        first = self.attribute
        if first.sample_type & Sample.IDENTIFIER:
            place = 1
        elif first.sample_type & Sample.ID:
            place = 1 + bool(first.sample_type & Sample.CPU) + bool(first.sample_type & Sample.STREAM_ID)
        else:
            return first
        found = int.from_bytes(record.body[-8 * place:][:8], "little")
        return self.attributes.get(found, first)

    def tail(self, record):
        """What stands at the end of a kernel's record."""
        attribute = self.attribute and self._attribute_of(record)
        if not attribute or not attribute.has_tails:
            return Tail()
        end = len(record.body)
        if max(attribute.places.values(), default=0) > end - 8:
            raise Refused("a record is shorter than its tail")

        def told(field, form, behind=0):
            return record.numbers(form, end - attribute.places[field] + behind)[0] if field in attribute.places else None
        return Tail(told(Sample.TID, "i", 4), told(Sample.TIME, "Q"), told(Sample.CPU, "i"))


def unpacked(packed):
    """What a zstd stream has, and whether it could be unpacked to its end."""
    with tempfile.TemporaryFile() as given:
        given.write(packed)
        given.seek(0)
        try:
            with subprocess.Popen(["zstd", "-dcq"], stdin=given, stdout=subprocess.PIPE, stderr=subprocess.DEVNULL) as zstd:
                data = zstd.stdout.read(MOST_UNPACKED + 1)
                if len(data) > MOST_UNPACKED:
                    zstd.kill()
                    raise Refused(f"it has more than {MOST_UNPACKED} bytes of records that are compressed")
        except FileNotFoundError:
            raise Refused("it is compressed, and the command zstd was not found") from None
    return data, zstd.returncode == 0


def units_of(record):
    """The trace units that an AUXTRACE_INFO tells of."""
    kind, = record.numbers("I", 8)
    if kind != CORESIGHT:
        raise Refused(f"its trace is that of {OTHER_TRACE.get(kind, f'type {kind}')}, and not of CoreSight")
    version, count = record.numbers("QI", 16)
    if version > 1:
        raise Refused(f"what it tells of the trace units has version {version}")
    units, at = [], 40
    for _ in range(count):
        magic, cpu = record.numbers("2Q", at)
        if magic != ETMV4:
            raise Refused(f"the trace unit of CPU {cpu} is {OTHER_UNITS.get(magic, 'none that is known')}, and not ETMv4")
        registers = record.numbers("Q", at + 16)[0] if version else FEWEST_REGISTERS + 1
        at += 24 if version else 16
        if registers < FEWEST_REGISTERS:
            raise Refused(f"it has {registers} registers of the trace unit of CPU {cpu}")
        units.append(unit_of(cpu, *record.numbers("6Q", at)))
        at += 8 * registers
    return units


def unit_of(cpu, config, trace_id, _idr0, _idr1, idr2, idr8):
    found = trace_id & 0x7F
    return Unit(cpu, config, found if 0 < found < 0x70 else None, idr8, idr2 >> 10 & 31, idr2 >> 5 & 31)


# ---- writing ----------------------------------------------------------------------

class Written:
    """A file that is put together, record by record. `config` is that of the one event."""
    type, id, attribute_entry = 8, 1, ATTRIBUTE + 16

    def __init__(self, sample_type=Sample.TID | Sample.IDENTIFIER, config=0):
        self.sample_type, self.config = sample_type, config
        self.records = []  # and the trace behind each

    def add(self, kind, body, misc=0, tail=None, trace=b""):
        """A record. `tail` is the process, the thread, the time and the CPU of a kernel's record."""
        body += bytes(-len(body) % 8)
        if kind < Kind.HEADER_ATTR:
            body += self._tail(*(tail or (0, 0, 0, 0)))
        self.records.append((struct.pack("<IHH", kind, misc, 8 + len(body)) + body, trace))

    def _tail(self, pid, tid, time, cpu):
        values = {Sample.TID: struct.pack("<ii", pid, tid), Sample.TIME: struct.pack("<Q", time), Sample.CPU: struct.pack("<II", cpu, 0)}
        return b"".join(values.get(field, struct.pack("<Q", self.id)) for field in TAIL_FIELDS if self.sample_type & field)

    def info(self, units, version=1, is_snapshot=False):
        words = [version, self.type << 32 | len(units), is_snapshot]
        for unit in units:
            registers = [unit.config, unit.id, 0, 0, unit.vmid << 10 | unit.cid << 5, unit.depth, 0]
            words += [ETMV4, unit.cpu, *([len(registers)] if version else []), *registers]
        self.add(Kind.AUXTRACE_INFO, struct.pack(f"<II{len(words)}Q", CORESIGHT, 0, *words))

    def comm(self, pid, name, is_exec=False, time=0):
        self.add(Kind.COMM, struct.pack("<II", pid, pid) + os.fsencode(name) + b"\0", Misc.EXEC if is_exec else 0, (pid, pid, time, 0))

    def map(self, pid, start, size, offset, name, time=0, build_id=None):
        """An executable map of a process."""
        inode = struct.pack("<B3x20s", len(build_id), build_id) if build_id else bytes(24)
        body = struct.pack("<IIQQQ24sII", pid, pid, start, size, offset, inode, 5, 2) + os.fsencode(name) + b"\0"
        self.add(Kind.MMAP2, body, Misc.USER | (Misc.BUILD_ID if build_id else 0), (pid, pid, time, 0))

    def trace(self, data, offset, cpu=PER_THREAD, tid=-1):
        data += bytes(-len(data) % 8)
        self.add(Kind.AUXTRACE, struct.pack("<QQQIiiI", len(data), offset, 0, 0, tid, cpu, 0), trace=data)

    def aux(self, offset, size, flags=0, cpu=0, tid=-1):
        self.add(Kind.AUX, struct.pack("<QQQ", offset, size, flags), tail=(tid, tid, 0, cpu))

    def _attribute(self):
        return struct.pack("<IIQQQQQ", self.type, ATTRIBUTE, self.config, 1, self.sample_type | Sample.IP, 0, SAMPLE_ID_ALL).ljust(ATTRIBUTE, b"\0")

    def piped(self):
        attribute = self._attribute() + struct.pack("<Q", self.id)
        front = struct.pack("<IHH", Kind.HEADER_ATTR, 0, 8 + len(attribute)) + attribute
        return MAGIC + struct.pack("<Q", PIPED_HEADER) + front + b"".join(body + trace for body, trace in self.records)

    def file(self, has_index=True, features=()):
        """With more features, pairs of a number and bytes, and the index of its AUXTRACE records, by which perf finds trace."""
        attributes_at = HEADER + 8
        data_at = attributes_at + self.attribute_entry
        records, index = b"", b""
        for body, trace in self.records:
            if body[:4] == struct.pack("<I", Kind.AUXTRACE):
                index += struct.pack("<QQ", data_at + len(records), len(body))
            records += body + trace
        features = dict(features)
        if has_index:
            features[AUXTRACE_INDEX] = struct.pack("<Q", len(index) // 16) + index
        header = MAGIC + struct.pack("<9Q", HEADER, self.attribute_entry, attributes_at, self.attribute_entry, data_at, len(records), 0, 0,
                                     sum(1 << number for number in features)) + bytes(24)
        attribute = self._attribute() + struct.pack("<QQ", HEADER, 8)
        return header + struct.pack("<Q", self.id) + attribute + records + sections_of(features, data_at + len(records))


def sections_of(features, at):
    """The table of features that stands at an offset, and their bytes."""
    table, told = b"", b""
    for _, data in sorted(features.items()):
        table += struct.pack("<QQ", at + 16 * len(features) + len(told), len(data))
        told += data
    return table + told
