"""What the messages of the module gazhdor must be: those that the rows of `to_csv` tell, read here by docs/CSV.md, of
the ride, of recordings that bench/recording.c makes, and of files of random definitions and data; and blocks that are
written here by docs/BLOCKS.md."""
import datetime
import io
import math
import pickle
import random
import struct
import unittest

from support import BYTES, RIDE, folder, recording
from fits import (
    BYTE, DESCRIBE, FLOAT32, FLOAT64, NONE4, NONE8, SINT16, SINT32, SINT64, SMALL, STRING, UINT16, UINT32, UINT64,
    UINT8, any_file, as_text, define, describe, fit, label_of, packed, rows_of,
)

import gazhdor
from gazhdor._library import library, text_of

WORK = folder()


def zip_all(one, two):
    """Pairs; what is left over is paired with None."""
    ends = object()
    one, two = iter(one), iter(two)
    while True:
        pair = next(one, ends), next(two, ends)
        if pair == (ends, ends):
            return
        yield tuple(None if part is ends else part for part in pair)


class Rows(unittest.TestCase):
    def compare(self, source):
        count = 0
        for (files, place, local, offset, name, time, cells), message in zip_all(rows_of(source),
                gazhdor.messages(source)):
            called = message.name or f"message_{message.number}"
            what = message.file, message.place, message.local, message.time_offset, called, as_text(message.header_time)
            self.assertEqual(what, (files, place, local, offset, name, time))
            self.assertEqual([(label_of(f), f.unit or "", f.number, f.developer) for f in message.fields],
                [cell[:4] for cell in cells])
            for field, cell in zip(message.fields, cells):
                self.compare_values(message, field, cell)
            stamps = [cell for cell in cells if cell.number == 253 and cell.index is None]
            if not stamps or stamps[0].value is None:
                self.assertEqual(as_text(message.time), time)
            elif stamps[0].code == UINT32 and isinstance(stamps[0].value, int):
                self.assertEqual((message.time, message.seconds), (gazhdor.when(stamps[0].value), stamps[0].value))
            count += 1
        self.assertEqual(len(list(gazhdor.messages(source))), count)
        return count

    def compare_values(self, message, field, cell):
        if cell.raw is not None and not (isinstance(cell.raw, tuple) and None in cell.raw):
            self.assertEqual(field.raw, cell.raw)
        self.assertEqual((repr(field.value), repr(field.exact)), (repr(cell.value), repr(cell.exact)))

    def test_ride(self):
        count = self.compare(BYTES)
        self.assertEqual(self.compare(3 * BYTES), 3 * count)

    def test_random(self):
        r = random.Random(20260101)
        files = [any_file(r) for _ in range(60)]
        counts = [self.compare(file) for file in files]
        self.assertGreater(sum(counts), 3000)
        self.assertEqual(self.compare(b"".join(files[:9])), sum(counts[:9]))

    def test_recordings(self):
        """A plain recording, and with developer fields, with compressed headers, with a definition before each message,
        with texts."""
        for kind in ("plain", "developer", "compressed", "turns", "definitions", "strings"):
            self.assertGreater(self.compare(recording(kind, "20k")), 3)


# ---- blocks by hand

def block(kind, three, file, number, place, *more):
    """A block by docs/BLOCKS.md: its kind, bytes 5 to 7, the file, what stands at 12, the place, and what comes
    then."""
    rest = struct.pack("<BBBBIIQ", kind, *three, file, number, place) + b"".join(more)
    assert len(rest) % 8 == 4
    return struct.pack("<I", 4 + len(rest)) + rest


def text(letters):
    data = letters.encode()
    return data + bytes(8 - len(data) % 8)


def entry(name, unit, *told):
    """The entry of a field; what is told are the numbers from 4 on, in the order of the page."""
    name, unit = text(name), text(unit)
    return struct.pack("<HHBBBBBBBBIIIQ", 32 + len(name) + len(unit), 32 + len(name), *told) + name + unit


def longs(*numbers):
    return struct.pack(f"<{len(numbers)}Q", *numbers)


SMALL_BLOCKS = (
    block(1, (14, 32, 2), 1, 36, 0, longs(0)),
    block(
        2, (0, 0, 0), 1, 56, 14, longs(0), struct.pack("<HHHH", 20, 2, 0, 0), text("record"),
        entry("timestamp", "s", 253, 0, 0, 134, 0, 4, 1, 0, 40, 1, 0, NONE4),
        entry("heart_rate", "bpm", 3, 0, 0, 2, 0, 1, 1, 0, 48, 1, 0, 255),
    ),
    block(3, (1, 0, 255), 1, 1000000031, 26, longs(0, NONE4, 1000000031, 120)),
    block(
        2, (1, 1, 0), 1, 88, 32, longs(1), struct.pack("<HHHH", 20, 2, 0, 2), text("record"),
        entry("altitude", "m", 2, 0, 0, 132, 0, 2, 1, 1, 72, 5, 500, 65535),
        entry("compressed_speed_distance", "", 8, 0, 0, 13, 4, 1, 3, 0, 80, 1, 0, 255),
    ),
    block(3, (15, 1, 2), 1, 1000000034, 44, longs(1, 1000000034, 100, 256, NONE8, NONE8, 2500),
        b"\x64\0\x10\0\0\0\0\0"),
    block(4, (0, 0, 0), 1, 0, 50),
)


def utc(*numbers):
    return datetime.datetime(*numbers, tzinfo=datetime.timezone.utc)


class Blocks(unittest.TestCase):
    def test_small(self):
        answer, blocks = text_of(library.gazhdor_messages, SMALL)
        self.assertTrue(answer.good)
        self.assertEqual(blocks, b"".join(SMALL_BLOCKS))
        first, second = gazhdor.messages(SMALL)
        self.assertEqual((first.name, first.number, first.file, first.local, first.place), ("record", 20, 1, 0, 26))
        self.assertEqual((first.time, first.seconds, first.header_time, first.time_offset),
            (utc(2021, 9, 8, 1, 47, 11), 1000000031, None, None))
        self.assertEqual((first["heart_rate"], first[3], first.unit("heart_rate"), first["timestamp"], first[253]),
            (120, 120, "bpm", 1000000031, 1000000031))
        self.assertEqual((first.speed, first.distance, first.total_cycles, first.accumulated_power), 4 * (None,))
        self.assertEqual((second.local, second.place, second.time, second.header_time, second.time_offset),
            (1, 44, utc(2021, 9, 8, 1, 47, 14), second.time, 2))
        self.assertEqual((second.speed, second.distance, second.total_cycles, second.accumulated_power),
            (1.0, 16.0, None, None))
        self.assertEqual([(f.name, f.number, f.developer, f.value, f.unit, f.raw) for f in second.fields],
            [("altitude", 2, None, 0.0, "m", 2500), ("compressed_speed_distance", 8, None, b"\x64\0\x10", None,
                b"\x64\0\x10")])
        self.assertEqual((str(second.field("altitude").exact), second.get("heart_rate"), second.get(3, 0),
            "heart_rate" in second, 2 in second), ("0.0", None, 0, False, True))
        for missing in ("heart_rate", 3, (0, 2), None):
            for call in (second.__getitem__, second.unit, second.field):
                with self.assertRaises(KeyError):
                    call(missing)

    def test_empty(self):
        self.assertEqual(list(gazhdor.messages(fit())), [])
        self.assertEqual(gazhdor.lists(fit(), "record", ["heart_rate"]), {"heart_rate": []})
        self.assertEqual(gazhdor.lists(fit(), "record"), {})


# ---- values

class Values(unittest.TestCase):
    def one(self, *fields, number=65280, developer=None, before=(), big=False):
        """The message of a file: fields are (number, base type, bytes)."""
        definition = define(0, number, [(n, len(data), code) for n, code, data in fields],
            developer and [(n, len(data), index) for n, index, data in developer], big)
        data = b"".join(data for _, _, data in [*fields, *(developer or [])])
        *_, message = gazhdor.messages(fit(*before, definition, b"\0" + data))
        return message

    def test_types(self):
        big = self.one((0, SINT16, packed(">h", -2)), (1, UINT32, packed(">2I", 7, NONE4)),
            (2, SINT64, packed(">q", -(2**40))), (3, FLOAT64, packed(">d", 0.1)), big=True)
        self.assertEqual([big[n] for n in range(4)], [-2, (7, None), -(2**40), 0.1])
        found = self.one((0, UINT64, packed("<Q", 2**63 + 1)), (1, UINT16, packed("<H", 65535)), (2, 1, b"\x80"),
            (3, 0, b"\2"), (4, SINT32, packed("<i", -5)), (5, UINT16, b"\1\2\3"))
        self.assertEqual([found[n] for n in range(6)], [2**63 + 1, None, -128, 2, -5, b"\1\2\3"])
        self.assertEqual([field.raw for field in found.fields], [2**63 + 1, 65535, -128, 2, -5, b"\1\2\3"])
        self.assertEqual({type(found[n]) for n in (0, 2, 3, 4)}, {int})
        self.assertEqual((found.name, found.number, found.fields[0].name, found.fields[0].unit),
            (None, 65280, None, None))

    def test_scaled(self):
        found = self.one((2, UINT16, packed("<3H", 2500, 2501, 65535)), (5, UINT32, packed("<I", 1)),
            (78, UINT32, packed("<I", 4294967294)), number=20)
        self.assertEqual((found["altitude"], found["distance"], found["enhanced_altitude"]),
            ((0.0, 0.2, None), 0.01, 858992958.8))
        self.assertEqual(repr(found.field("altitude").exact), "(Decimal('0.0'), Decimal('0.2'), None)")
        self.assertEqual((str(found.field(5).exact), str(found.field(78).exact), found.field(5).raw),
            ("0.01", "858992958.8", 1))
        # a float in such a field stands for itself
        self.assertEqual(self.one((2, FLOAT32, packed("<f", 2502.5)), number=20)["altitude"], 2502.5)

    def test_floats(self):
        nan = 0x7FC00123
        found = self.one((0, FLOAT32, packed("<3I", nan, NONE4, 0x7F800000)), (1, FLOAT64, packed("<d", 0.1)),
            (2, FLOAT32, packed("<f", 0.5)), (3, FLOAT64, b"\xff" * 8))
        self.assertTrue(math.isnan(found[0][0]))
        self.assertEqual((found[0][1:], found[1], found[2], found[3]), ((None, math.inf), 0.1, 0.5, None))
        self.assertEqual([field.raw for field in found.fields],
            [(nan, NONE4, 0x7F800000), 0x3FB999999999999A, 0x3F000000, NONE8])

    def test_texts_and_bytes(self):
        found = self.one((0, STRING, b"R\xc3\xa4d\0er\0"), (1, STRING, b"\xff\0"), (2, STRING, b"full"),
            (3, STRING, bytes(3)), (4, STRING, b""), (5, UINT16, b""))
        self.assertEqual([found[n] for n in range(6)], ["R\u00e4d", "\ufffd", "full", None, None, None])
        self.assertEqual((found.field(0).raw, found.field(3).raw, found.field(4).raw, found.field(5).raw),
            (b"R\xc3\xa4d\0er\0", bytes(3), b"", ()))
        found = self.one((0, BYTE, b"\0\xff"), (1, BYTE, b"\xff\xff"), (2, 99, b"\5"), (3, UINT16, b"\xff\xff\xff"))
        self.assertEqual([found[n] for n in range(4)], [b"\0\xff", None, b"\5", b"\xff\xff\xff"])

    def test_developer_fields(self):
        before = DESCRIBE, describe(0, 0, UINT16, b"Form power", b"W"), describe(1, 3, FLOAT32, b"heart_rate",
            b""), describe(0, 9, UINT8, b"", b"")
        developer = [(0, 0, packed("<H", 300)), (3, 1, packed("<f", 1.5)), (9, 0, b"\7"), (4, 2, b"\1\2")]
        found = self.one((3, UINT8, b"\x78"), number=20, developer=developer, before=before)
        self.assertEqual((found["Form power"], found[0, 0], found.unit("Form power"), found["heart_rate"], found[3],
            found[1, 3], found[0, 9], found[2, 4]), (300, 300, "W", 120, 120, 1.5, 7, b"\1\2"))
        self.assertEqual([(f.name, f.number, f.developer) for f in found.fields],
            [("heart_rate", 3, None), ("Form power", 0, 0), ("heart_rate", 3, 1), (None, 9, 0), (None, 4, 2)])
        self.assertEqual(found.as_dict(), {"heart_rate": 120, "Form power": 300, "dev_1_3": 1.5, "dev_0_9": 7,
            "dev_2_4": b"\1\2"})
        self.assertEqual(repr(found.field("Form power")), "<gazhdor.Field Form power=300 W>")
        # A later description says nothing of a definition that has come.
        kept = list(gazhdor.messages(fit(*before, define(0, 20, [], [(0, 2, 0)]), b"\0\1\0",
            describe(0, 0, BYTE, b"Other", b""), b"\0\2\0"), only=20))
        self.assertEqual([message["Form power"] for message in kept], [1, 2])

    def test_times(self):
        self.assertEqual((gazhdor.when(1000000000), gazhdor.when(2**28), gazhdor.when(2**28 - 1)),
            (utc(2021, 9, 8, 1, 46, 40), utc(1998, 7, 3, 21, 24, 16), "system+268435455"))
        self.assertEqual(self.one((253, UINT32, packed("<I", 77))).time, "system+77")
        self.assertEqual((self.one((253, UINT32, packed("<I", NONE4))).time, self.one((0, UINT8, b"\1")).time),
            (None, None))

    def test_accumulated(self):
        definition = define(0, 20, [(18, 1, UINT8), (28, 2, UINT16)])
        told = [(m.total_cycles, m.accumulated_power, m.speed, m.distance)
            for m in gazhdor.messages(fit(definition, b"\0\xfa\xfe\xff", b"\0\4\1\0"))]
        self.assertEqual(told, [(250, 65534, None, None), (260, 65537, None, None)])
        self.assertEqual([getattr(self.one((18, UINT8, b"\5"), number=20), name) for name in ("total_cycles",
            "accumulated_power")], [5, None])
        self.assertEqual([getattr(self.one((28, UINT16, b"\5\0"), number=20), name)
            for name in ("total_cycles", "accumulated_power")], [None, 5])

    def test_one_number_twice(self):
        """Of several fields with one number the first counts; the others are among the fields."""
        found = self.one((3, UINT8, b"\1"), (3, UINT8, b"\2"), number=20)
        self.assertEqual((found["heart_rate"], found[3], [f.value for f in found.fields], found.as_dict()),
            (1, 1, [1, 2], {"heart_rate": 1}))


class Calls(unittest.TestCase):
    def test_only(self):
        whole = list(gazhdor.messages(2 * BYTES))
        for only, wanted in (
            ("record", {20}), (20, {20}), ("lap", {19}), ((20, "lap"), {19, 20}), (["file_id", 999], {0}), (31, {31}),
            (999, set()), ((), set()), (None, {m.number for m in whole})
        ):
            found = list(gazhdor.messages(2 * BYTES, only=only))
            self.assertEqual([(m.file, m.place) for m in found],
                [(m.file, m.place) for m in whole if m.number in wanted])
        for wrong in (1.5, [None], b"record"):
            with self.assertRaises(TypeError):
                list(gazhdor.messages(BYTES, only=wrong))

    def test_sources(self):
        wanted = [repr(message) for message in gazhdor.messages(BYTES)]
        self.assertEqual([repr(message) for message in gazhdor.messages(io.BytesIO(BYTES))], wanted)
        self.assertEqual([repr(message) for message in gazhdor.messages(RIDE)], wanted)
        with self.assertRaises(gazhdor.NotBinary):
            next(gazhdor.messages(io.StringIO("text")))

    def test_partial(self):
        whole = [m.place for m in gazhdor.messages(RIDE)]
        for bad, kind in ((BYTES[:2000], gazhdor.Truncated), (BYTES + b"\xff\xff", gazhdor.Refused)):
            for call in (lambda: next(gazhdor.messages(bad)), lambda: gazhdor.lists(bad, "record", [3])):
                with self.assertRaises(kind):
                    call()
            places = []
            with self.assertRaises(kind) as caught:
                for message in gazhdor.messages(bad, partial=True):
                    places.append(message.place)
            self.assertTrue(0 < len(places) and places == whole[: len(places)] and caught.exception.place >= places[-1])
            found = gazhdor.lists(bad, "record", [".place"], partial=True)[".place"]
            self.assertEqual(found, [m.place for m in gazhdor.messages(RIDE, only="record") if m.place in places])
        self.assertEqual(len(places), len(whole))

    def test_messages_are_sent(self):
        kept = list(gazhdor.messages(BYTES))
        sent = pickle.loads(pickle.dumps(kept))
        self.assertEqual([repr(message) for message in sent], [repr(message) for message in kept])
        self.assertEqual([message.place for message in sent], [message.place for message in kept])
        self.assertLess(len(pickle.dumps(kept)), 60 * len(BYTES))


if __name__ == "__main__":
    unittest.main()
