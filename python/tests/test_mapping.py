"""What the module gazhdor does for those who write programs with it: messages as mappings, times and places, and the
fields that developer fields stand for. Files are written here, as the FIT protocol has them."""
import copy
import datetime
import html.parser
import math
import os
import pickle
import unittest

from support import RIDE
from fits import (
    BYTE, DESCRIBE, NATIVE, SINT32, SMALL, STRING, UINT16, UINT32, UINT8, define, describe, fit, native, one, packed,
)

import gazhdor

UTC = datetime.timezone.utc


class Mapping(unittest.TestCase):
    def test_mapping(self):
        before = DESCRIBE, describe(0, 0, UINT16, b"Form power", b"W"), describe(1, 3, UINT8, b"heart_rate", b"")
        m = one((3, UINT8, b"\x78"), (7, UINT16, b"\xff\xff"), (200, UINT8, b"\5"),
            developer=[(0, 0, packed("<H", 300)), (3, 1, b"\1")], before=before)
        wanted = {"heart_rate": 120, "power": None, 200: 5, "Form power": 300, (1, 3): 1}
        self.assertEqual(dict(m), wanted)
        self.assertEqual((list(m), list(m.keys()), list(m.items()), list(m.values()), len(m)),
            (list(wanted), list(wanted), list(wanted.items()), list(wanted.values()), 5))
        self.assertEqual(({**m}, [key in m for key in ("power", 7, (0, 0), "cadence", 4)]),
            (wanted, [True, True, True, False, False]))
        self.assertTrue(all(m[key] == value for key, value in m.items()))

    def test_equal(self):
        first, second = list(gazhdor.messages(RIDE)), list(gazhdor.messages(RIDE))
        self.assertEqual((first, [m.fields for m in first], {*first}), (second, [m.fields for m in second], {*second}))
        self.assertEqual(len({*first}), len(first))
        self.assertNotEqual(first[0], first[1])
        self.assertNotEqual(first[0], dict(first[0]))
        power, other = (one((7, UINT16, packed("<H", watts))) for watts in (200, 201))
        self.assertEqual((power == other, power.field(7) == other.field(7)), (False, False))
        self.assertEqual(power.field(7), one((3, UINT8, b"\1"), (7, UINT16, packed("<H", 200))).field(7))
        # the same bytes with other names, or as another kind of number, are another message
        self.assertNotEqual(one((99, UINT8, b"\1")), one((99, UINT8, b"\1"), names={(20, 99): "mine"}))
        self.assertNotEqual(one((99, UINT8, b"\1")).field(99), one((99, 1, b"\1")).field(99))
        truncated = [gazhdor.check(b"\x0e\x10" + bytes(count)) for count in (0, 0, 1)]
        self.assertEqual((truncated[0] == truncated[1], truncated[0] == truncated[2], len({*truncated}),
            truncated[0] == "truncated"), (True, False, 2, False))

    def test_sent(self):
        before = NATIVE, native(0, 5, UINT16, b"Power", 20, 7)
        m = one((3, UINT8, b"\x78"), (200, UINT16, b"\1\2"), developer=[(5, 0, packed("<H", 300))], before=before,
            names={(20, 200): ("mine", "km", 10)})
        for sent in (pickle.loads(pickle.dumps(m)), copy.deepcopy(m)):
            self.assertEqual((sent, sent["mine"], sent.unit("mine"), sent.native("power"), sent.field("Power").native),
                (m, 51.3, "km", 300, 7))
        for field in m.fields:
            sent = pickle.loads(pickle.dumps(field))
            self.assertEqual((sent, sent.name, sent.value, sent.raw, sent.unit, sent.native),
                (field, field.name, field.value, field.raw, field.unit, field.native))

    def test_page(self):
        """A table for notebooks, in which the texts of a file are texts."""
        m = one((3, UINT8, b"\x78"), developer=[(0, 0, b"<b>&\0")],
            before=(DESCRIBE, describe(0, 0, STRING, b"<script>", b'"W"')))
        found = []

        class Reader(html.parser.HTMLParser):
            def handle_starttag(self, tag, attributes):
                found.append((tag, attributes))

            def handle_data(self, data):
                found.append(data)

        Reader().feed(m._repr_html_())
        self.assertEqual({part for part in found if isinstance(part, tuple) and (part[1]
            or part[0] not in ("table", "caption", "tr", "th", "td"))}, set())
        self.assertEqual([part for part in found if isinstance(part, str)],
            ["record", "field", "value", "unit", "heart_rate", "120", "bpm", "<script>", "<b>&", '"W"'])


class Values(unittest.TestCase):
    def test_values(self):
        """However many intervals a message has: five, three of five, one, none."""
        for items, wanted in (((800, 810, 790, 65535, 65535), (0.8, 0.81, 0.79)), ((800,), (0.8,)), ((65535,), ()),
                ((), ())):
            m = one((0, UINT16, packed(f"<{len(items)}H", *items)), number=78)
            self.assertEqual((m.values("time"), m.values(0)), (wanted, wanted))
        m = one((0, STRING, b"ride\0"), (1, BYTE, b"\1\2"), (2, STRING, b"\0"), number=31)
        self.assertEqual([m.values(key) for key in (0, 1, 2, 3, (0, 1))], [("ride",), (b"\1\2",), (), (), ()])
        self.assertEqual(one((3, UINT8, b"\x78")).values("cadence"), ())
        with self.assertRaises(gazhdor.UnknownName):
            one((3, UINT8, b"\x78")).values("cadense")

    def test_times(self):
        begin, local = 1000000000, 1000007200
        wanted = datetime.datetime(2021, 9, 8, 1, 46, 40, tzinfo=UTC)
        m = one((253, UINT32, packed("<I", begin)), (2, UINT32, packed("<I", begin - 40)), (7, UINT32, packed("<I", 1)),
            number=18)
        self.assertEqual(m.times, {"timestamp": wanted, "start_time": wanted - datetime.timedelta(seconds=40)})
        m = one((253, UINT32, packed("<I", begin)), (5, UINT32, packed("<I", local)), number=34)
        self.assertEqual(m.times["local_timestamp"], datetime.datetime(2021, 9, 8, 3, 46, 40))
        self.assertIsNone(m.times["local_timestamp"].tzinfo)
        # a time of the device's own, and none
        self.assertEqual(one((2, UINT32, packed("<I", 77)), number=19).times, {"start_time": "system+77"})
        self.assertEqual(one((253, UINT32, b"\xff" * 4), (2, UINT32, b"\xff" * 4), number=19).times,
            {"timestamp": None, "start_time": None})
        # the time of a compressed header is one meaning of `timestamp` with that of `lists`
        *_, m = gazhdor.messages(SMALL)
        self.assertEqual((m.times["timestamp"], gazhdor.lists(SMALL, "record", ["timestamp"])["timestamp"][-1]),
            (m.time, m.time))
        self.assertEqual((gazhdor.when(None), one((4, UINT32, packed("<I", begin)), number=0).times),
            (None, {"time_created": wanted}))

    def test_places(self):
        self.assertEqual([gazhdor.degrees(number) for number in (0, 2**30, -(2**31), None)], [0.0, 90.0, -180.0, None])
        lat, long = packed("<i", 2**29), packed("<i", -(2**30))
        self.assertEqual(one((0, SINT32, lat), (1, SINT32, long)).position, (45.0, -90.0))
        self.assertEqual(one((3, SINT32, lat), (4, SINT32, long), number=18).position.latitude, 45.0)
        for fields in (((0, SINT32, lat),), ((0, SINT32, lat), (1, SINT32, b"\xff\xff\xff\x7f")),
                ((0, UINT32, lat), (1, UINT32, long)), ((0, SINT32, lat * 2), (1, SINT32, long * 2))):
            self.assertIsNone(one(*fields).position)
        rows = list(gazhdor.table(RIDE))
        for row, m in zip(rows, gazhdor.messages(RIDE, only="record")):
            self.assertTrue(math.isclose(row.position_lat, m.position.latitude, abs_tol=6e-8)
                and math.isclose(row.position_long, m.position.longitude, abs_tol=6e-8))


class Natives(unittest.TestCase):
    def test_native(self):
        before = NATIVE, native(0, 5, UINT16, b"Power", 20, 7), native(0, 6, UINT16, b"Other", 65535, 255), native(0, 7,
            UINT16, b"Laps", 19, 7)
        developer = [(5, 0, packed("<H", 300)), (6, 0, packed("<H", 1)), (7, 0, packed("<H", 2))]
        m = one((3, UINT8, b"\x78"), developer=developer, before=before)
        self.assertEqual([f.native for f in m.fields], [None, 7, None, None])
        self.assertEqual((m.native("power"), m.native(7), m.native("heart_rate"), m.native("cadence")),
            (300, 300, 120, None))
        # the developer field stands for it, also where the message has one of its own; not where it has no value
        self.assertEqual(one((7, UINT16, packed("<H", 200)), developer=developer, before=before).native("power"), 300)
        self.assertEqual(one((7, UINT16, packed("<H", 200)), developer=[(5, 0, b"\xff\xff")],
            before=before).native("power"), 200)
        for wrong in ("powr", "Power"):
            with self.assertRaises(KeyError):
                m.native(wrong)

    def test_descriptions(self):
        """The last description before the definition counts, in its own file; one without field 15 takes it away."""
        define_it, message = define(0, 20, [], [(5, 2, 0)]), b"\0\x2c\1"
        records = (
            NATIVE, native(0, 5, UINT16, b"Power", 65535, 7), define_it, message, native(0, 5, UINT16, b"Power", 20, 3),
            message, define_it, message,
            DESCRIBE, describe(0, 5, UINT16, b"Power", b"W"), define_it, message,
        )
        chain = fit(*records) + fit(define_it, message)
        for source in (chain, chain * 2):
            found = [m.fields[0].native for m in gazhdor.messages(source, only="record")]
            self.assertEqual(found, len(found) // 5 * [7, 7, 3, None, None])
        stream = gazhdor.Stream("messages", only=20)
        pieces = [m for byte in chain for m in stream.feed(bytes([byte]))] + stream.finish()
        self.assertEqual(pieces, list(gazhdor.messages(chain, only=20)))

    def test_numbers_mean_another(self):
        """What (index, number) stands for may change within a file; a name doesn't."""
        records = DESCRIBE, describe(0, 0, UINT16, b"Power", b"W"), define(0, 20, [], [(0, 2, 0)]), b"\0\x2c\1"
        records += describe(0, 0, UINT16, b"Vibration", b"mg"), define(0, 20, [], [(0, 2, 0)]), b"\0\x2c\1"
        first, second = gazhdor.messages(fit(*records), only="record")
        self.assertEqual((first[0, 0], second[0, 0], dict(first), dict(second)),
            (300, 300, {"Power": 300}, {"Vibration": 300}))
        self.assertEqual((first.unit((0, 0)), second.unit((0, 0)), first.get("Vibration"), second.get("Power")),
            ("W", "mg", None, None))

    def test_many_descriptions(self):
        """The work grows with the file, and not with how many descriptions and definitions it has together."""
        before = [NATIVE, *(native(index, number, UINT8, b"", 20, 7) for index in range(200) for number in range(250))]
        file = fit(*before, *(define(0, 20, [], [(k % 250, 1, k % 200)]) + b"\0\1" for k in range(4000)))
        begin = os.times().user
        self.assertEqual({m.native(7) for m in gazhdor.messages(file, only=20)}, {1})
        self.assertLess(os.times().user - begin, 20)


if __name__ == "__main__":
    unittest.main()
