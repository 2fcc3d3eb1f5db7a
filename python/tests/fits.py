"""Files that the tests of messages in Python write, as the FIT protocol has them, and what the rows of `to_csv` tell of
a file, read here by docs/CSV.md."""
import collections
import csv
import datetime
import decimal
import io
import struct

import support  # noqa: F401, it has gazhdor found

import gazhdor

# ---- files, written as the FIT protocol has them

UINT8, STRING, BYTE, SINT16, UINT16, SINT32, UINT32 = 2, 7, 13, 0x83, 0x84, 0x85, 0x86
FLOAT32, FLOAT64, SINT64, UINT64 = 0x88, 0x89, 0x8E, 0x8F
# of each base type its width, its invalid item, and a letter: s signed, u unsigned, t text, f float, b bytes
TYPES = {0: (1, 0xFF, "u"), 1: (1, 0x7F, "s"), 2: (1, 0xFF, "u"), 7: (1, 0, "t"), 10: (1, 0, "u"), 13: (1, 0xFF, "b")}
TYPES.update({0x83: (2, 0x7FFF, "s"), 0x84: (2, 0xFFFF, "u"), 0x85: (4, 0x7FFFFFFF, "s"), 0x86: (4, 0xFFFFFFFF, "u")})
TYPES.update({0x88: (4, 2**32 - 1, "f"), 0x89: (8, 2**64 - 1, "f"), 0x8B: (2, 0, "u"), 0x8C: (4, 0, "u")})
TYPES.update({0x8E: (8, 2**63 - 1, "s"), 0x8F: (8, 2**64 - 1, "u"), 0x90: (8, 0, "u")})


def shifted(byte):
    for _ in range(8):
        byte = byte >> 1 ^ (0xA001 if byte & 1 else 0)
    return byte


SHIFTED = [shifted(byte) for byte in range(256)]


def checksum(data):
    total = 0
    for byte in data:
        total = total >> 8 ^ SHIFTED[(total ^ byte) & 255]
    return struct.pack("<H", total)


def fit(*records):
    data = b"".join(records)
    head = struct.pack("<BBHI4s", 14, 32, 2132, len(data), b".FIT")
    head += checksum(head)
    return head + data + checksum(head + data)


def define(local, number, fields, developer=None, big=False):
    """A definition message of fields (number, size, base type), and of developer fields (number, size, index)."""
    record = struct.pack(">BBBHB" if big else "<BBBHB", 0x40 | (developer is not None) << 5 | local, 0, big, number,
        len(fields))
    record += b"".join(map(bytes, fields))
    return record if developer is None else record + bytes([len(developer)]) + b"".join(map(bytes, developer))


DESCRIBE = define(15, 206, [(0, 1, UINT8), (1, 1, UINT8), (2, 1, UINT8), (3, 12, STRING), (8, 6, STRING)])


def describe(index, number, code, name, unit):
    return bytes([15, index, number, code]) + name.ljust(12, b"\0") + unit.ljust(6, b"\0")


def any_bytes(r, size):
    data = r.choice((bytes(size), b"\xff" * size, b"\xff\x7f" * size, bytes(r.randrange(256) for _ in range(size)),
        b"R\xc3\xa4der" * size))
    return data[:size]


def any_fields(r, number):
    known = (253, 0, 1, 2, 3, 4, 5, 6, 7, 8, 13, 18, 28, 73, 78) if number == 20 else (253, 254, 0, 1, 2, 3, 7, 9, 200)
    fields = []
    for _ in range(r.randrange(7)):
        code = r.choice([*TYPES, UINT16, UINT32, 3, 200])
        fields.append((r.choice(known), r.choice((TYPES.get(code, (1,))[0],) * 4 + (0, 1, 3, 8, 12, 16)), code))
    return fields


def any_file(r):
    """A file of random definitions, data, compressed headers and developer fields."""
    records, sizes = [DESCRIBE], {}
    for index, number, name in ((0, 0, b"Form power"), (0, 1, b"heart_rate"), (1, 0, b""), (1, 7, b"\xff"),
            (2, 2, b"Form power")):
        records.append(describe(index, number, r.choice([*TYPES, 99]), name, r.choice((b"", b"W", b"\xc2\xb0C"))))
    for _ in range(r.randrange(60)):
        local = r.randrange(15)
        if local not in sizes or r.random() < 0.1:
            number = r.choice((20, 20, 20, 18, 0, 31, 65280))
            fields = any_fields(r, number)
            developer = [(r.randrange(3), r.choice((1, 2, 4, 8, 3)), r.randrange(3))
                for _ in range(r.randrange(4))] if r.random() < 0.5 else None
            records.append(define(local, number, fields, developer, r.random() < 0.5))
            sizes[local] = [size for _, size, _ in fields + (developer or [])]
        for _ in range(r.choice((1, 1, 2, 5, 20))):
            head = 0x80 | local << 5 | r.randrange(32) if local < 4 and r.random() < 0.5 else local
            records.append(bytes([head]) + b"".join(any_bytes(r, size) for size in sizes[local]))
    return fit(*records)


# The description of a developer field with the message (14) and the field (15) that it stands for.
NATIVE = define(14, 206, [(0, 1, UINT8), (1, 1, UINT8), (2, 1, UINT8), (3, 12, STRING), (8, 6, STRING), (14, 2, UINT16),
    (15, 1, UINT8)])


def native(index, number, code, name, message, field):
    return bytes([14, index, number, code]) + name.ljust(12, b"\0") + b"watts\0" + packed("<HB", message, field)


def one(*fields, number=20, developer=None, before=(), names=None):
    """The last message of a file: fields are (number, base type, bytes), developer fields (number, index, bytes)."""
    definition = define(0, number, [(n, len(data), code) for n, code, data in fields],
        developer and [(n, len(data), index) for n, index, data in developer])
    data = b"".join(data for _, _, data in [*fields, *(developer or [])])
    *_, message = gazhdor.messages(fit(*before, definition, b"\0" + data), names=names)
    return message


# ---- what the rows tell

Cell = collections.namedtuple("Cell", "label unit number index code value exact raw")


def from_cell(text, code, size):
    """The value, the exact value and, where it is known without the scale, the raw one of a cell."""
    width, invalid, kind = TYPES.get(code, TYPES[BYTE])
    if size == 0:
        return None, None, b"" if kind in "tb" else ()
    if kind == "b" or size % width:
        data = bytes.fromhex(text[2:])
        value = None if invalid == 0xFF and data == b"\xff" * size else data
        return value, value, data
    if kind == "t":
        data = bytes.fromhex(text[2:]) if text.startswith("0x") else text.encode().ljust(size, b"\0")
        value = data.split(b"\0")[0].decode("utf-8", "replace") or None
        return value, value, data
    cells = text.split("|")
    if kind == "f":
        raw = [int(cell, 16) for cell in cells]
        form = "<If" if width == 4 else "<Qd"
        values = exact = [None if bits == invalid else struct.unpack("<" + form[2], struct.pack(form[:2], bits))[0]
            for bits in raw]
    else:
        values = [None if not cell else float(cell) if "." in cell else int(cell) for cell in cells]
        exact = [None if not cell else decimal.Decimal(cell) if "." in cell else int(cell) for cell in cells]
        raw = [None if "." in cell else int(cell) if cell else invalid for cell in cells]
    return tuple(part[0] if len(cells) == 1 else tuple(part) for part in (values, exact, raw))


def rows_of(source):
    """The messages of the rows: (file, place, local, offset, message, header time, cells)."""
    rows = csv.reader(io.StringIO(gazhdor.to_csv(source), newline=""))
    next(rows)
    files = place = 0
    for kind, *cells in rows:
        if kind == "file":
            files, definitions, described = files + 1, {}, {}
            place += int(cells[0])
        elif kind == "def":
            fields = [[int(cell) for cell in next(rows)[1:4]] for _ in range(int(cells[4]))]
            developer = [[int(cell) for cell in next(rows)[1:4]] for _ in range(int(cells[5] or 0))]
            known = [(number, None, size, code) for number, size, code in fields]
            known += [(number, index, size, described.get((index, number), BYTE)) for number, size, index in developer]
            definitions[int(cells[0])] = known
            place += 6 + 3 * len(known) + (cells[5] != "")
        elif kind == "data":
            local, offset, message, time = int(cells[0]), cells[1], cells[2], cells[3]
            told = []
            for number, index, size, code in definitions[local]:
                _, label, text, unit = next(rows)[:4]
                told.append(Cell(label, unit, number, index, code, *from_cell(text, code, size)))
            yield files, place, local, int(offset) if offset else None, message, time, told
            place += 1 + sum(size for _, _, size, _ in definitions[local])
            if message == "field_description":
                described[told[0].value, told[1].value] = told[2].value
        else:
            place += 2


def as_text(time):
    return time.strftime("%Y-%m-%dT%H:%M:%SZ") if isinstance(time, datetime.datetime) else time or ""


def label_of(field):
    return field.name or (f"field_{field.number}" if field.developer is None
        else f"dev_{field.developer}_{field.number}")


def packed(form, *numbers):
    return struct.pack(form, *numbers)


NONE4, NONE8 = 2**32 - 1, 2**64 - 1
# the second example of docs/CSV.md
SMALL = bytes.fromhex(
    "0E20000024000000 2E464954 9F6E"
    "40 00 00 1400 02 FD0486 030102  00 1FCA9A3B 78"
    "41 00 01 0014 02 020284 08030D  A2 09C4 640010  F03B"
)
