"""What a reader is told of the messages of FIT files, worked out here by the protocol and docs/BLOCKS.md alone."""
import collections
import struct

from block_model import BYTE, DESCRIPTION, checksum, item_width

DEVELOPER_DATA_ID = 207
UINT32, STRING, TIMESTAMP, NO_TIME = 0x86, 7, 253, 2**32 - 1

# A definition message: fields are (number, size, base type), developer fields (number, size, index), or None where the
# record header says that there are none.
Definition = collections.namedtuple("Definition", "local reserved big message fields developers")
# A data message: of each field and developer field its bytes, whose items are little endian.
Message = collections.namedtuple("Message", "local offset fields developers")
# What is known of a local message type: its definition, and of its developer fields (base type, name, unit).
Known = collections.namedtuple("Known", "definition described")
# What is told of a message: fields are (number, base type, bytes), developer fields
# (index, number, (base type, name, unit), bytes).
Reading = collections.namedtuple("Reading", "message fields developers time")
File = collections.namedtuple("File", "header readings records")


def is_printable(text):
    if not text or any(byte < 0x20 or byte == 0x7F for byte in text):
        return False
    try:
        text.decode()
    except UnicodeDecodeError:
        return False
    return True


def text_of(fields, number):
    """The text of the first field of this number; empty where it is none."""
    for found, code, data in fields:
        if found == number:
            text = data.rstrip(b"\0")
            return text if code == STRING and is_printable(text) else b""
    return b""


def only_byte(fields, number):
    for found, code, data in fields:
        if found == number:
            return data[0] if len(data) == 1 else None
    return None


def time_of(fields):
    """The timestamp of a message, or None: its first field 253, where that is one number that stands for a time."""
    for number, code, data in fields:
        if number == TIMESTAMP:
            time = int.from_bytes(data, "little") if code == UINT32 and len(data) == 4 else NO_TIME
            return None if time == NO_TIME else time
    return None


class Records:
    """What a reader of a file knows after some of its records."""

    def __init__(self):
        self.known, self.described, self.time, self.indexes = {}, {}, None, frozenset()

    def copy(self):
        new = Records()
        new.known, new.described = dict(self.known), dict(self.described)
        new.time, new.indexes = self.time, self.indexes
        return new

    def add(self, record):
        """The next record; of a message what is told."""
        return self.define(record) if isinstance(record, Definition) else self.take(record)

    def described_now(self, developers):
        """Base type, name and unit that these developer fields get where they are defined now."""
        return tuple(self.described.get((index, number), (BYTE, b"", b"")) for number, _, index in developers or ())

    def define(self, definition):
        self.known[definition.local] = Known(definition, self.described_now(definition.developers))

    def header_time(self, offset):
        """The first time from the last one on whose low five bits are these."""
        return None if offset is None or self.time is None else self.time + (offset - self.time & 31) & 0xFFFFFFFF

    def take(self, message):
        """What is told of the next message."""
        definition, described = self.known[message.local]
        fields = tuple((number, code, data) for (number, _, code), data in zip(definition.fields, message.fields))
        developers = tuple((index, number, told, data)
            for (number, _, index), told, data in zip(definition.developers or (), described, message.developers))
        time = time_of(fields)
        if time is None:
            time = self.header_time(message.offset)
        if time is not None:
            self.time = time
        if definition.message == DESCRIPTION:
            index, number, code = (only_byte(fields, which) for which in range(3))
            if None not in (index, number, code):
                self.described[index, number] = code, text_of(fields, 3), text_of(fields, 8)
        if definition.message == DEVELOPER_DATA_ID:
            self.indexes |= {only_byte(fields, 3)}
        return Reading(definition.message, fields, developers, time)


def turned(data, code):
    """The bytes of a field in the other byte order."""
    width = item_width(code, len(data))
    return data if width == 1 else b"".join(data[at : at + width][::-1] for at in range(0, len(data), width))


def triples(data, at):
    """Three bytes each of as many fields as the byte at a place says, and where they end."""
    end = at + 1 + 3 * data[at]
    return tuple(tuple(data[k : k + 3]) for k in range(at + 1, end, 3)), end


def definition_at(data, at):
    head, reserved, big = data[at : at + 3]
    (message,) = struct.unpack_from(">H" if big else "<H", data, at + 3)
    fields, end = triples(data, at + 5)
    developers = None
    if head & 0x20:
        developers, end = triples(data, end)
    return Definition(head & 15, reserved, big, message, fields, developers), end


def message_at(records, data, at):
    head = data[at]
    local, offset = (head >> 5 & 3, head & 31) if head & 0x80 else (head & 15, None)
    definition, described = records.known[local]
    codes = [code for _, _, code in definition.fields] + [told[0] for told in described]
    found, at = [], at + 1
    for (_, size, _), code in zip(definition.fields + (definition.developers or ()), codes):
        part = data[at : at + size]
        found.append(turned(part, code) if definition.big else part)
        at += size
    count = len(definition.fields)
    return Message(local, offset, tuple(found[:count]), tuple(found[count:])), at


def read_records(data):
    """The readings of the messages of a data section, and all its records."""
    records, at, readings, all_records = Records(), 0, [], []
    while at < len(data):
        if data[at] & 0xC0 == 0x40:
            record, at = definition_at(data, at)
            records.define(record)
        else:
            record, at = message_at(records, data, at)
            readings.append(records.take(record))
        all_records.append(record)
    assert at == len(data), "a message is cut"
    return readings, all_records


def read_chain(data):
    """The files of a chain: of each (size, protocol version, profile version, checksum, the bytes from 14 on) of its
    header, its readings and its records."""
    at, files = 0, []
    while at < len(data):
        size, protocol, profile, length, mark = struct.unpack_from("<BBHI4s", data, at)
        end = at + size + length
        assert mark == b".FIT" and data[end : end + 2] == checksum(data[at:end]), "a checksum is wrong"
        found = data[at + 12 : at + 14] if size >= 14 else b""
        assert found in (b"", b"\0\0", checksum(data[at : at + 12])), "the checksum of a header is wrong"
        files.append(File((size, protocol, profile, found, data[at + 14 : at + size]),
            *read_records(data[at + size : end])))
        at = end + 2
    return files
