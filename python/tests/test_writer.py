"""Whether files that are written from values are those that the FIT protocol has for them."""
import datetime
import decimal
import fractions
import random
import struct
import unittest

from fits import (
    DESCRIBE, FLOAT32, FLOAT64, SINT16, SINT32, SINT64, UINT16, UINT32, UINT64, UINT8, define, describe, fit, packed,
)
from made import one, through_values, whole, written

import gazhdor

try:
    import numpy
except ImportError:
    numpy = None

UTC = datetime.timezone.utc
START = datetime.datetime(2026, 5, 17, 7, 30, tzinfo=UTC)
SECONDS = int((START - datetime.datetime(1989, 12, 31, tzinfo=UTC)).total_seconds())


class Bytes(unittest.TestCase):
    def test_records(self):
        """A file by its bytes: place and altitude by the arithmetic of the profile, 2^31 semicircles for 180 degrees,
        fifths of a metre over -500."""
        lat, long = (round(fractions.Fraction(degrees) * 2**31 / 180) for degrees in (47.3, 8.57))
        data = written(
            lambda out: out.write("file_id", type=4, manufacturer=255, time_created=START),
            lambda out: out.write("record", timestamp=START, heart_rate=120, position_lat=47.3, position_long=8.57,
                altitude=408.0, power=None),
        )
        first = define(0, 0, [(0, 1, 0), (1, 2, UINT16), (4, 4, UINT32)]) + packed("<BBHI", 0, 4, 255, SECONDS)
        fields = [(253, 4, UINT32), (3, 1, UINT8), (0, 4, SINT32), (1, 4, SINT32), (2, 2, UINT16), (7, 2, UINT16)]
        self.assertEqual(data, whole(first, define(1, 20, fields), packed("<BIBiiHH", 1, SECONDS, 120, lat, long, 4540,
            65535)))

    def test_developer(self):
        def step(out):
            power = out.describe("Form power", "watts", "uint16", native=("record", 7))
            self.assertEqual((power.developer, power.number, power.name, power.unit), (0, 0, "Form power", "watts"))
            record = out.define("record", ["timestamp", power])
            record.write({power: 200, "timestamp": SECONDS})
            record.write({"Form power": 201}, timestamp=SECONDS + 1)
            record.write({(0, 0): 202, 253: SECONDS + 2})
            record.columns({power: [203]}, timestamp=[START])
            out.write("record", {power: 204})

        messages = list(gazhdor.messages(written(step), only="record"))
        self.assertEqual([message["Form power"] for message in messages], [200, 201, 202, 203, 204])
        self.assertEqual([message.time for message in messages[:4]],
            [START + datetime.timedelta(0, k) for k in (0, 1, 2, 0)])
        self.assertEqual((messages[0].unit("Form power"), messages[0].native("power")), ("watts", 200))

    def test_big(self):
        fields = [("power", "uint16"), ("position_lat", "sint32"), (200, "uint16", 2)]
        data = written(lambda out: out.define("record", fields, local=3, big=True,
            reserved=7).write({"power": 258, "position_lat": -2, 200: (1, None)}))
        self.assertEqual(data, whole(bytes([0x43, 7, 1, 0, 20, 3, 7, 2, 0x84, 0, 4, 0x85, 200, 4, 0x84, 3, 1,
            2]) + b"\xff\xff\xff\xfe" + b"\0\x01\xff\xff"))

    def test_headers(self):
        def step(out):
            out.file(protocol=0x10, profile=100, size=12, checksum="none")
            out.write("file_id", type=4)
            out.file(size=17, more=b"abc")
            out.file(checksum="zeros")

        files = [event for event in gazhdor.messages(written(step), everything=True)
            if isinstance(event, gazhdor.FileHeader)]
        told = [(file.size, file.protocol, file.profile, file.checksum, file.more, file.file) for file in files]
        self.assertEqual(told, [(12, 16, 100, "none", b"", 1), (17, 32, 21158, "there", b"abc", 2),
            (14, 32, 21158, "zeros", b"", 3)])
        for wrong in ({"protocol": 0x30}, {"size": 13}, {"size": 15}, {"checksum": "none"}, {"checksum": "sum"},
                {"profile": 65536}, {"more": b"x"}, {"protocol": True}):
            with self.assertRaises(ValueError):
                written(lambda out: out.file(**wrong))

    def test_compressed(self):
        def step(out):
            out.write("record", timestamp=START, heart_rate=1)
            out.define("record", "heart_rate", local=2).write({"heart_rate": 2, ".time_offset": (SECONDS + 5) % 32})

        *_, message = gazhdor.messages(written(step))
        self.assertEqual((message.time, message["heart_rate"], message.time_offset),
            (START + datetime.timedelta(0, 5), 2, (SECONDS + 5) % 32))
        for offset in (-1, 32, 255, 1.0, True):
            with self.assertRaises(gazhdor.WrongValue):
                written(lambda out: out.define("record", "heart_rate", local=2).write({".time_offset": offset}))
        with self.assertRaises(ValueError):
            written(lambda out: out.define("record", "heart_rate").write({".time_offset": 3}))


class Numbers(unittest.TestCase):
    def test_steps(self):
        """A value becomes the nearest step, of two the one further from zero: by exact fractions, for any double."""
        r = random.Random(1)
        for key, form, scale, offset, span in (("altitude", "<H", 5, 500, 13000), ("speed", "<H", 1000, 0, 65),
                ("distance", "<I", 100, 0, 4e7), ("grade", "<h", 100, 0, 320)):
            values = [r.uniform(-span, span) for _ in range(300)] + [round(r.uniform(-span, span), 1)
                for _ in range(300)]
            values += [(r.randrange(2 * int(span)) + 0.5) / scale - offset for _ in range(300)]
            wanted = []
            for value in values:
                steps = (fractions.Fraction(value) + offset) * scale
                nearest = int(abs(steps) + fractions.Fraction(1, 2)) * (1 if steps >= 0 else -1)
                low, high = (-32768, 32766) if form == "<h" else (0, 256 ** struct.calcsize(form) - 2)
                wanted.append(nearest if low <= nearest <= high else None)
            good = [(value, item) for value, item in zip(values, wanted) if item is not None]
            self.assertGreater(len(good), 200)
            for value, item in good:
                self.assertEqual(struct.unpack(form, one("record", {key: value})), (item,), (key, value))
            for value, item in zip(values, wanted):
                if item is None:
                    with self.assertRaises(gazhdor.WrongValue):
                        one("record", {key: value})
            items = [item for _, item in good]
            for column in ([value for value, _ in good], numpy and numpy.array([value for value, _ in good]),
                    20 * [value for value, _ in good]):
                if column is not None:
                    data = written(lambda out: out.define("record", [key]).columns({key: column}))
                    found = [message.field(key).raw for message in gazhdor.messages(data)]
                    self.assertEqual(found, items * (len(column) // len(items)), key)

    def test_degrees(self):
        """An int is semicircles, and a float degrees."""
        half = 45 / 2**30  # half a semicircle
        for value, item in ((47, 47), (47.0, round(47 * 2**31 / 180)), (-180.0, -(2**31)), (half, 1), (-half, -1),
                (half / 2, 0), (3 * half, 2), (None, 2**31 - 1)):
            self.assertEqual(one("record", {"position_lat": value}), packed("<i", item), value)
            if value is not None:
                data = written(lambda out: out.define("record", "position_lat").columns(position_lat=5000 * [value]))
                self.assertEqual({message.field(0).raw for message in gazhdor.messages(data)}, {item})
        self.assertEqual(one("record", {"position_lat": float("nan")}), packed("<i", 2**31 - 1))
        for value in (180.0, -180.1, 2**31 - 1):
            with self.assertRaises(gazhdor.WrongValue) as caught:
                one("record", {"position_lat": value})
            self.assertIn("-180.0 to", str(caught.exception))

    def test_all_items(self):
        """What is read of each item of 8 and 16 bits, and of some of 32 and 64, is written as it was, scaled too, in
        the proved profile and beside it."""
        r = random.Random(2)
        for message, field, code in (("record", 2, UINT16), ("record", 9, SINT16), ("lap", 9, UINT32),
                ("record", 78, UINT32), ("record", 3, UINT8), ("device_info", 10, UINT16)):
            for names in (None, {("record", 2): ("a", "m", 7, 11), ("record", 9): ("b", "%", 0.7111111),
                    ("lap", 9): ("c", "m", 3, 0.5)}):
                width = struct.calcsize({UINT8: "B", UINT16: "H", SINT16: "H", UINT32: "I"}[code])
                raws = range(0, 256**width, 1 if width == 1 else 251) if width < 4 else [r.randrange(2**32)
                    for _ in range(300)]
                number = {"record": 20, "lap": 19, "device_info": 23}[message]
                source = fit(define(0, number, [(field, width, code)]),
                    *(b"\0" + raw.to_bytes(width, "little") for raw in raws))
                self.assertEqual(through_values(source, names), source)
        for code in (SINT64, UINT64):
            raws = [r.randrange(2**64) for _ in range(50)] + [0, 1, 2**63 - 1, 2**63, 2**64 - 1]
            source = fit(define(0, 999, [(1, 8, code)]), *(b"\0" + raw.to_bytes(8, "little") for raw in raws))
            self.assertEqual(through_values(source), source)

    def test_floats(self):
        for code, form, values in ((FLOAT32, "<f", (1.5, -0.0, 1e-45, 3e38, float("inf"), 7)),
                (FLOAT64, "<d", (0.1, -1e308, 5e-324, 2**60, float("-inf")))):
            for value in values:
                self.assertEqual(one(999, {1: value}, [(1, {FLOAT32: "float32", FLOAT64: "float64"}[code])]),
                    packed(form, value))
        self.assertEqual(one(999, {1: None}, [(1, "float32")]), b"\xff\xff\xff\xff")
        self.assertEqual(one(999, {1: float("nan")}, [(1, "float32")]), b"\xff\xff\xff\xff")
        for wrong in (1e39, 2**2000, "1", True, START, b"x", decimal.Decimal("1e400")):
            with self.assertRaises(gazhdor.WrongValue):
                one(999, {1: wrong}, [(1, "float32")])


class Times(unittest.TestCase):
    def test_times(self):
        zone = datetime.timezone(datetime.timedelta(0, 7200))
        for told in (START, START.astimezone(zone), SECONDS, START.replace(microsecond=999999)):
            self.assertEqual(one("record", {"timestamp": told}), packed("<I", SECONDS))
        self.assertEqual(one("record", {"timestamp": "system+7"}), packed("<I", 7))
        self.assertEqual(one("activity", {"local_timestamp": START.replace(tzinfo=None)}), packed("<I", SECONDS))
        for key, wrong in (("timestamp", START.replace(tzinfo=None)), ("local_timestamp", START),
                ("timestamp", "2026-05-17"), ("timestamp", "system+268435456"), ("timestamp", "system+" + "9" * 5000)):
            with self.assertRaises(gazhdor.WrongValue) as caught:
                one("activity", {key: wrong})
            self.assertLess(len(str(caught.exception)), 300)
        for wrong in (datetime.datetime(1998, 7, 3, tzinfo=UTC), datetime.datetime(9999, 1, 1, tzinfo=UTC),
                START.date()):
            with self.assertRaises(gazhdor.WrongValue):
                one("record", {"timestamp": wrong})
        with self.assertRaises(gazhdor.WrongValue):
            one("record", {"heart_rate": START})

    def test_own_names(self):
        names = {(999, 4): ("begun", "s", None, None, "date_time", "uint32"),
            (999, 5): ("at", "semicircles", None, None, None, "sint32")}
        self.assertEqual(one(999, {"begun": START}, names=names), packed("<I", SECONDS))
        self.assertEqual(one(999, {"at": 90.0}, names=names), packed("<i", 2**30))
        self.assertEqual(one("record", {"vertical_ratio": 8.12}, names=gazhdor.EXTRA), packed("<H", 812))
        self.assertEqual(one("record", {"pulse": 120}, names={("record", 3): "pulse"}), b"\x78")
        self.assertEqual(one("record", {"pulse": 12.5}, names={("record", 3): ("pulse", "%", 10, 0, None, "uint16")}),
            packed("<H", 125))
        with self.assertRaises(gazhdor.UnknownName):
            one("record", {"heart_rate": 120}, names={("record", 3): "pulse"})


class Fields(unittest.TestCase):
    def test_sizes(self):
        """A field has as many items as what is written needs; one that has a count has that many."""

        def step(out):
            sport = out.define("sport", "name")
            sport.write(name="Kaltern am See")
            sport.write(name="Up")
            sport.write(name="C\u00f4te d'Azur, the longer of both ways")
            out.write("hrv", time=(0.5, 0.75))
            out.write("hrv", time=[0.5])
            out.write("hrv", time=(beat / 1000 for beat in (900, 901, 902, 903, 904)))

        messages = list(gazhdor.messages(written(step)))
        self.assertEqual([message["name"] for message in messages[:3]],
            ["Kaltern am See", "Up", "C\u00f4te d'Azur, the longer of both ways"])
        self.assertEqual([message.values("time") for message in messages[3:]],
            [(0.5, 0.75), (0.5,), (0.9, 0.901, 0.902, 0.903, 0.904)])
        self.assertEqual(one("sport", {"name": "Up"}, [("name", "string", 4)]), b"Up\0\0")
        self.assertEqual(one("sport", {"name": "Upon"}, [("name", "string", 4)]), b"Upon")
        self.assertEqual(one("sport", {"name": 254 * "n"}), 254 * b"n" + b"\0")
        self.assertEqual(one("sport", {"name": 255 * "n"}), 255 * b"n")
        self.assertEqual(one("developer_data_id", {"application_id": bytes(range(16))}), bytes(range(16)))
        self.assertEqual(one("hrv", {"time": [0.5]}, [("time", "uint16", 3)]), packed("<3H", 500, 65535, 65535))

    def test_wrong_sizes(self):
        for message, values, fields in (
            ("sport", {"name": "Upon a"}, [("name", "string", 4)]),
            ("sport", {"name": 256 * "n"}, None),
            ("sport", {"name": "a\0b"}, None),
            ("sport", {"name": "\udc80"}, None),
            ("sport", {"name": 5}, None),
            ("hrv", {"time": 128 * [0.5]}, None),
            ("hrv", {"time": [0.5, 0.6]}, [("time", "uint16", 1)]),
            ("record", {"heart_rate": [1, "2"]}, None),
            ("developer_data_id", {"application_id": bytes(256)}, None),
            ("developer_data_id", {"application_id": bytes(3)}, [("application_id", "byte", 4)]),
            ("developer_data_id", {"application_id": "text"}, None),
        ):
            with self.assertRaises(gazhdor.WrongValue, msg=values):
                one(message, values, fields)

    def test_many_definitions(self):
        """More kinds of messages than there are local message types take turns."""

        def step(out):
            kinds = [out.define(1000 + kind, [(kind, "uint8")]) for kind in range(40)]
            for turn in range(3):
                for kind, definition in enumerate(kinds):
                    definition.write({kind: turn})

        found = [(message.number, dict(message)) for message in gazhdor.messages(written(step))]
        self.assertEqual(found, [(1000 + kind, {kind: turn}) for turn in range(3) for kind in range(40)])

    def test_unknown(self):
        for call, kind in (
            (lambda out: out.write("recrod", heart_rate=1), gazhdor.UnknownName),
            (lambda out: out.write("record", hart_rate=1), gazhdor.UnknownName),
            (lambda out: out.define("record", "timestamp").write(heart_rate=1), gazhdor.UnknownName),
            (lambda out: out.define("record", "timestamp").write({3: 1}), KeyError),
            (lambda out: out.define("record", [(0, 7)]), KeyError),
            (lambda out: out.write("record", {200: 1}), ValueError),
            (lambda out: out.define("record", [(200, "uint7")]), ValueError),
            (lambda out: out.define("record", "power power"), ValueError),
            (lambda out: out.define("record", ["power", 7]), ValueError),
            (lambda out: out.define("record", [256]), ValueError),
            (lambda out: out.define("record", [(3, "uint16", 128)]), ValueError),
            (lambda out: out.define("record", [(number, "uint8") for number in range(255)] * 2), ValueError),
            (lambda out: out.define(65536, [3]), ValueError),
            (lambda out: out.define(2**5000, [3]), ValueError),
            (lambda out: out.define(True, [3]), TypeError),
            (lambda out: out.define("record", "power", local=16), ValueError),
            (lambda out: out.define("record", "power", local=True), TypeError),
            (lambda out: out.define("record", "power", reserved=256), ValueError),
            (lambda out: out.define("record", [out.describe("a")], says_developers=False), ValueError),
            (lambda out: out.copy(5), TypeError),
        ):
            with self.assertRaises(kind):
                written(call, lambda out: out.write("record", power=1))

    def test_replace(self):
        (message,) = gazhdor.messages(fit(define(0, 20, [(253, 4, UINT32), (3, 1, UINT8), (0, 4, SINT32),
            (2, 2, UINT16)]), packed("<BIBiH", 0, SECONDS, 120, 5, 4540)))
        changed = message.replace({3: 121}, position_lat=None, altitude=409.2, timestamp=START + datetime.timedelta(1))
        self.assertEqual((dict(changed), changed.time), ({"timestamp": SECONDS + 86400, "heart_rate": 121,
            "position_lat": None, "altitude": 409.2}, START + datetime.timedelta(1)))
        self.assertEqual((message["heart_rate"], message.time, message.replace()), (120, START, message))
        self.assertIsNone(message.replace(timestamp=None).time)
        empty = message.emptied(lambda field: field.base in (UINT32, SINT32) or field.unit == "m")
        self.assertEqual((dict(empty), empty.time), ({"timestamp": None, "heart_rate": 120, "position_lat": None,
            "altitude": None}, None))
        with self.assertRaises(gazhdor.UnknownName):
            message.replace(hart_rate=1)
        with self.assertRaises(KeyError):
            message.replace({200: 1})
        with self.assertRaises(gazhdor.WrongValue) as caught:
            message.replace(heart_rate=255)
        self.assertEqual((caught.exception.field, caught.exception.value, caught.exception.least,
            caught.exception.most), ("heart_rate", 255, 0, 254))

    def test_left_out(self):
        """Messages whose time is in their header keep it, also where those before them are left out."""
        records = define(0, 20, [(253, 4, UINT32), (3, 1, UINT8)]), define(1, 20, [(3, 1, UINT8)])
        source = fit(*records, packed("<BIB", 0, SECONDS, 1),
            *(bytes([0x80 | 1 << 5 | SECONDS + k & 31, k]) for k in range(0, 250, 7)))
        messages = list(gazhdor.messages(source))
        kept = messages[3:4] + messages[5:7] + messages[20:]
        again = list(gazhdor.messages(written(*(lambda out, m=m: out.copy(m) for m in kept))))
        self.assertEqual([(m.time, m["heart_rate"]) for m in again], [(m.time, m["heart_rate"]) for m in kept])
        self.assertEqual([m.time_offset is None for m in again[:5]], [True, False, False, True, False])

    def test_descriptions_left_out(self):
        """A developer field whose description is left out is described anew, and read as it was."""
        source = fit(DESCRIBE, describe(0, 0, UINT16, b"Form", b"W"), define(0, 20, [], [(0, 2, 0)]), b"\0\1\2")
        *_, message = gazhdor.messages(source)
        *_, found = gazhdor.messages(written(lambda out: out.copy(message)))
        self.assertEqual((dict(found), found.unit("Form"), found.field("Form").base), ({"Form": 513}, "W", UINT16))


if __name__ == "__main__":
    unittest.main()
