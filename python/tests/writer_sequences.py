"""Random sequences of calls of a writer, and the blocks that they put."""
import collections
import random
import struct

from writer_calls import Both

from block_model import WIDTHS
from gazhdor import _numbers as n

TIMES = (0, 0, 1, 1, 5, 20, 31, 32, 33, 60, -1, -40)
CODES = [code for _, code, _, _, _ in n.BASE_TYPES]
UINT8, UINT32, STRING, BYTE = 2, 0x86, 7, 13
NAMES = (b"", b"Form power", b"heart_rate", b"R\xc3\xa4der", b"\xff", b"\x01a", b"x" * 40)
UNITS = (b"", b"W", b"\xc2\xb0C", b"bpm")

# A field in the making; a developer field has an index, a name and a unit.
Field = collections.namedtuple("Field", "number code width count index name unit", defaults=(None, b"", b""))
# A definition in the making, its block, and where the items of its fields are.
Made = collections.namedtuple("Made", "local big message fields says block places length")


def rounded(data, to=8):
    return data + bytes(-len(data) % to)


def header_block(r):
    size, kind = r.choice(((12, 0), (14, 1), (14, 2), (14, 2), (14, 2), (16, 2), (23, 1), (255, 2)))
    protocol, profile = r.choice((0x10, 0x20, 0x2F, 0)), r.choice((0, 2132, 21158, 65535))
    more = rounded(r.randbytes(max(0, size - 14)))
    return struct.pack(n.HEADER_FORMAT, 32 + len(more), n.FILE_HEADER, size, protocol, kind, 1, 0, 0, profile) + more


def entry(r, field, place):
    """The entry of a field; now and then without the zeros that end its texts, or with more bytes than it needs."""
    name, unit = field.name + b"\0", field.unit + b"\0"
    begins = n.AT_ENTRY_NAME + len(name)
    texts = name + unit
    shape = r.random()
    if shape < 0.03:
        texts, begins = field.name, r.choice((0, n.AT_ENTRY_NAME, 200))
    elif shape < 0.06:
        texts = texts[:-1]
    elif shape < 0.09:
        texts += r.randbytes(r.randrange(9))
    else:
        texts = rounded(texts)
    head = struct.pack(n.ENTRY_FORMAT, n.AT_ENTRY_NAME + len(texts), begins, field.number, field.index is not None,
        field.index or 0, field.code, 0, field.width, field.count, 0, place, 1, 0, 0)
    return head + texts


def definition(r, local, big, message, fields, says):
    """A definition's block; fields of a message stand one after another, now and then elsewhere in its block."""
    counted = message == 20 and any(field.number in (8, 18, 28) and field.index is None for field in fields)
    at = n.AT_MESSAGE_COUNTED_ITEMS if counted else n.AT_MESSAGE_ITEMS
    places = []
    for field in fields:
        places.append(at)
        at += -(-field.width * field.count // 8) * 8
    if places and r.random() < 0.05:
        places[r.randrange(len(places))] = r.choice((0, 8, 32, 40, at - 1, at, at + 8, 2**32 - 1))
    count = sum(field.index is None for field in fields)
    body = rounded(r.choice((b"", b"record", b"a message of some name")) + b"\0")
    entries = [entry(r, field, place) for field, place in zip(fields, places)]
    more = -sum(map(len, entries)) % 8
    if more:
        entries[-1] = struct.pack("<H", len(entries[-1]) + more) + entries[-1][2:] + bytes(more)
    body += b"".join(entries)
    bits = (n.SAYS_DEVELOPERS if says else 0) | (n.IS_COUNTED if counted else 0)
    head = struct.pack(n.DEFINITION_FORMAT, 40 + len(body), n.DEFINITION, local, big, r.choice((0, 0, 7)), 1, at, 0, 0,
        message, count, len(fields) - count, bits)
    return Made(local, big, message, tuple(fields), says, head + body, places, at)


def message_head(length, bits=0, local=0, offset=n.NO_OFFSET, time=0):
    """The block of a message up to its items."""
    return struct.pack(n.MESSAGE_FORMAT, length, n.MESSAGE, bits, local, offset, 1, 77, 0, 0, time)


class Plain(random.Random):
    """For blocks without anything odd."""

    def random(self):
        return 0.99


def damaged(r, block):
    """A block of which something is changed: a byte, a number, its end."""
    block, at = bytearray(block), r.randrange(len(block))
    how = r.randrange(6)
    if how == 0:
        block[at] = r.randrange(256)
    elif how == 1:
        block[at] ^= 1 << r.randrange(8)
    elif how == 2:
        del block[at:]
    elif how == 3:
        block += bytes(r.choice((1, 8)))
    elif how == 4:
        struct.pack_into("<I", block, 0, r.choice((0, 8, 16, 24, len(block) + 8, len(block) - 8, 2**32 - 8)))
    else:
        at = r.randrange(min(40, len(block)))
        block[at] = r.choice((0, 1, 2, 3, 4, 15, 16, 31, 32, 255))
    return bytes(block)


class Sequence:
    """Calls of one writer."""

    def __init__(self, seed):
        self.r = r = random.Random(seed)
        self.time = r.choice((10**9, 10**9, 10**9, 3, 2**32 - 70)) + r.randrange(64)
        self.both, self.pool = Both(), []
        self.damage = r.choice((0, 0, 0.02, 0.1))
        self.refusal = r.choice((0, 0, 0.1, 0.4))
        self.crowd = r.choice((3, 6, 20))
        self.keys = [(r.randrange(3), r.randrange(4)) for _ in range(3)]
        self.variants = [(r.choice(CODES), r.choice(NAMES), r.choice(UNITS)) for _ in range(3)] + [(BYTE, b"", b"")]
        # what the last descriptions are meant to say, so that most developer fields say it
        self.said = {}
        self.calls = []

    # ---- blocks

    def field(self, number=None, code=None):
        r = self.r
        code = r.choice((r.choice(CODES), UINT8, UINT32, r.randrange(256))) if code is None else code
        width = WIDTHS.get(code, 1)
        count = r.choice((1, 1, 1, 1, 2, 3, 0))
        if width > 1 and r.random() < 0.05:
            width, count = 1, 2 * width + 1
        number = r.choice((0, 1, 2, 3, 4, 5, 8, 18, 28, 253, 254, 7)) if number is None else number
        return Field(number, code, width, count)

    def developer(self):
        r = self.r
        index, number = r.choice(self.keys)
        code, name, unit = self.said.get((index, number), (BYTE, b"", b""))
        if r.random() < 0.15:
            code, name, unit = r.choice(self.variants)
        return Field(number, code, WIDTHS.get(code, 1), r.choice((1, 1, 2, 0)), index, name, unit)

    def fields(self, message):
        r = self.r
        if message == 206 and r.random() < 0.9:
            made = [Field(0, UINT8, 1, 1), Field(1, UINT8, 1, 1), Field(2, UINT8, 1, 1), Field(3, STRING, 1, 42),
                Field(8, STRING, 1, 4)]
            if r.random() < 0.3:
                at = r.randrange(5)
                made[at] = r.choice((self.field(made[at].number), made[at]._replace(code=BYTE)))
            if r.random() < 0.1:
                made.insert(r.randrange(6), self.field(r.choice((0, 1, 2, 3, 8))))
            return made
        if r.random() < 0.02:
            count = r.choice((254, 255, 255, 256))
            return [Field(min(k, 250), UINT8, 1, r.choice((0, 1))) for k in range(count)]
        made = [self.field() for _ in range(r.randrange(5))]
        if r.random() < 0.3:
            made.insert(0, Field(253, UINT32, 4, 1))
            if r.random() < 0.2:
                made.insert(r.randrange(2), self.field(253))
        return made

    def definition(self):
        """A new definition, or one of which only the local message type, the byte order or a name is new."""
        r = self.r
        local, big = r.randrange(16), r.randrange(2)
        if self.pool and r.random() < 0.4:
            old = r.choice(self.pool)
            fields = [self.described_anew(field) for field in old.fields]
            return definition(r, r.choice((local, old.local)), big, old.message, fields, old.says)
        message = r.choice((20, 20, 20, 206, 206, 0, 18, 65280))
        fields = self.fields(message)
        says = r.random() < 0.5
        if says:
            fields += [self.developer() for _ in range(r.choice((0, 1, 1, 2, 3)))]
        return definition(r, local, big, message, fields, says)

    def described_anew(self, field):
        """A developer field as it was last described, mostly."""
        if field.index is None or self.r.random() < 0.3:
            return field
        code, name, unit = self.said.get((field.index, field.number), (BYTE, b"", b""))
        return field._replace(code=code, width=WIDTHS.get(code, 1), name=name, unit=unit)

    def chosen(self):
        r = self.r
        if not self.pool or r.random() < (0.9 if len(self.pool) < self.crowd else 0.1):
            self.pool.append(self.definition())
            del self.pool[:-24]
            return self.pool[-1]
        return r.choice(self.pool)

    def description(self, made):
        """The items of a description: what is said from now on of a developer field."""
        r = self.r
        key, (code, name, unit) = r.choice(self.keys), r.choice(self.variants)
        self.said[key] = code, name, unit
        if r.random() < 0.3:
            name += r.choice((b"\0\0", b"\0x", b"\n"))
        own = {0: bytes([key[0]]), 1: bytes([key[1]]), 2: bytes([code]), 3: name, 8: unit}
        return [own.get(field.number, b"") if field.index is None else b"" for field in made.fields]

    def message(self, made):
        r = self.r
        self.time += r.choice(TIMES)
        time = self.time if r.random() < 0.95 else r.choice((0, 2**32 - 1, 2**32 - 2, 5))
        block = bytearray(r.randbytes(made.length) if r.random() < 0.5 else made.length)
        offset = r.choice((255, 255, time & 31, time & 31, time & 31, r.randrange(32)))
        bits = r.choice((0, n.TOLD_TIME)) | (n.TOLD_HEADER_TIME if r.random() < 0.8 else 0)
        bits |= r.randrange(64) if r.random() < 0.1 else 0
        block[: n.AT_MESSAGE_ITEMS] = message_head(len(block), bits, r.randrange(256), offset, time & 0xFFFFFFFF)
        described = self.description(made) if made.message == 206 else [b""] * len(made.fields)
        for field, place, data in zip(made.fields, made.places, described):
            size = field.width * field.count
            if field.number == 253 and field.index is None and field.code == UINT32 and r.random() < 0.9:
                data = (time & 0xFFFFFFFF).to_bytes(4, "little")
            if data and place + size <= len(block):
                block[place : place + size] = data[:size].ljust(size, b"\0")
        if len(block) == 40 and r.random() < 0.1:
            block = bytearray(struct.pack("<I", 24)) + block[4:24]
        return bytes(block)

    def maybe_damaged(self, block):
        return damaged(self.r, block) if self.r.random() < self.damage else block

    # ---- calls

    def call(self, name, *parts):
        """Makes a call, with one growth of memory refused now and then, and then again."""
        r = self.r
        refused = r.randrange(1, 9) if r.random() < self.refusal else 0
        for is_refused in (refused, 0) if refused and r.random() < 0.6 else (refused,):
            self.both.writer.refused = is_refused
            self.calls.append((name, is_refused, *parts))
            self.both.put(name, *parts) if name in ("file", "definition") else getattr(self.both, name)(*parts)

    def has_file(self):
        return any(writer.current for writer in self.both.may_be)

    def step(self):
        r, what = self.r, self.r.random()
        if what < 0.02:
            self.call(r.choice(("open", "close")))
        elif what < 0.1 or not self.has_file() and r.random() < 0.7:
            self.call("file", self.maybe_damaged(header_block(r)))
        elif what < 0.25:
            self.call("definition", self.maybe_damaged(self.chosen().block))
        elif what < 0.32:
            self.call("finish")
        else:
            made = self.chosen()
            blocks = [self.maybe_damaged(self.message(made)) for _ in range(r.choice((1, 1, 2, 3, 6)))]
            run = b"".join(blocks)
            if r.random() < 0.1:
                run = run[: r.randrange(len(run) + 1)]
            self.call("messages", self.maybe_damaged(made.block), run)

    def run(self):
        """Makes the calls. Returns the bytes of the last chain."""
        r = self.r
        self.call("open")
        if r.random() < 0.95:
            self.call("file", header_block(r))
        for _ in range(r.choice((3, 6, 12, 30))):
            self.step()
        self.both.finish()
        data = self.both.finish()
        self.both.close()
        return data
