"""What the lists, the arrays and the lines of JSON of the module gazhdor must be: those of its messages, of which
python/tests/test_messages.py sees what they are."""
import contextlib
import datetime
import importlib.util
import json
import math
import pickle
import random
import sqlite3
import subprocess
import sys
import unittest
import warnings

from support import BYTES, RIDE, left_out
from fits import (
    BYTE, DESCRIBE, FLOAT32, NONE4, SINT32, SMALL, STRING, UINT16, UINT32, UINT8, any_file, as_text, define, describe,
    fit, label_of, packed,
)

import gazhdor



def numpy_or(*names):
    """The first of these modules. Where one isn't installed the case is left out, which is said."""
    for name in names:
        try:
            with warnings.catch_warnings():
                warnings.simplefilter("ignore")
                __import__(name)
        except ModuleNotFoundError:
            left_out(f"there is no {name}, so what gazhdor makes for it isn't tried")
    return sys.modules[names[0]]


MIXED = [fit(*records) for records in (
    (
        define(0, 20, [(253, 4, UINT32), (3, 1, UINT8), (2, 2, UINT16)]), packed("<BIBH", 0, 1000000000, 60, 2500),
        packed("<BIBH", 0, 77, 255, 65535),
        define(1, 20, [(3, 1, 1), (0, 4, SINT32), (8, 3, BYTE), (7, 2, UINT16)]),
        packed("<BbiBBBH", 0xA0, -1, -90, 0x64, 0, 0x10, 200),
        define(2, 21, [(253, 4, UINT32)]), packed("<BI", 2, 1000000050), packed("<BIBH", 0, 1000000100, 61, 2510),
        *(packed("<BIBH", 0, 1000000200 + k, k, 3000 + k) for k in range(40)),
        *(packed("<BbiBBBH", 1, k, k * k, k, 0x10, k, k) for k in range(40)),
    ),
    (
        DESCRIBE, describe(0, 1, FLOAT32, b"Strain", b"N"), define(0, 20, [(3, 2, UINT8), (5, 4, UINT32)], [(1, 4, 0)]),
        packed("<BBBIf", 0, 1, 255, 100, 1.5),
        define(3, 20, [(3, 1, UINT8), (5, 4, FLOAT32)], [(1, 4, 0)]), packed("<BBff", 3, 9, 0.5, -1.5),
        packed("<BBII", 3, 255, NONE4, NONE4),
    ),
)]
# Two definitions of the record by turns, with another message now and then: lists of numbers, floats of which some
# stand for no value, and a place.
FIRST, SECOND = [(253, 4, UINT32), (69, 2, UINT8), (70, 6, UINT16), (0, 4, SINT32), (1, 4, SINT32)], [(1, 4, SINT32),
    (0, 4, SINT32), (69, 2, UINT8), (2, 2, UINT16), (250, 4, FLOAT32)]
TURNS = fit(DESCRIBE, describe(0, 1, FLOAT32, b"Strain", b"N"), define(0, 20, FIRST, [(1, 4, 0)]),
    define(1, 20, SECOND), define(2, 78, [(0, 10, UINT16)]), *(
    part for k in range(3000) for part in (
        packed("<BI2B3HiiI", 0, 1000000000 + k, k % 256, 255, k, 65535, 7, 2**31 - 1 - k % 3, -k,
            (NONE4, 0x7FC00000, 0x3F800000)[k % 3]) if k % 7 < 4
        else packed("<Bii2BHI", 1, -(2**31) + k, k, 255, k % 255, k,
            (NONE4, 0xFFBFFFFF, 0x7F800000, 0xBF800000)[k % 4]),
        packed("<B5H", 2, k, k, k, k, 65535) * (k % 3),
    )
))
TIMES = fit(
    define(0, 19, [(253, 4, UINT32), (2, 4, UINT32)]), *(packed("<BII", 0, *two) for two in ((1000000001, 1000000000),
        (NONE4, 77), (NONE4, NONE4))),
    define(0, 34, [(5, 4, UINT32)]), packed("<BI", 0, 1000007200),
)
KEYS = [".file", ".place", ".local", ".seconds", ".speed", ".distance", ".total_cycles", 3, 2, "altitude", 0, 253,
    "power", 5, "Strain", (0, 1), "cadence", 250, 69, 70, ".latitude", ".longitude", 1, (9, 9)]


def utc(*numbers):
    return datetime.datetime(*numbers, tzinfo=datetime.timezone.utc)


class Columns(unittest.TestCase):
    sources = [*MIXED, b"".join(MIXED), 30 * MIXED[0], TURNS, TURNS + MIXED[0], BYTES, 2 * BYTES]

    def wanted(self, messages, key):
        """What a list has of these messages."""
        if key == "timestamp":
            return [message.time for message in messages]
        if key in (".latitude", ".longitude"):
            names = ("position_lat", "position_long")
            return [gazhdor.degrees(message[names[key == ".longitude"]]) if all(name in message for name in names)
                else None for message in messages]
        return [getattr(message, key[1:]) if isinstance(key, str) and key[0] == "." else message.get(key)
            for message in messages]

    def keys(self, source):
        """The keys but for names that the file hasn't, which are an error."""
        has_strain = any("Strain" in message for message in gazhdor.messages(source, only=20))
        return [key for key in (*KEYS, "timestamp", ".time") if key != "Strain" or has_strain]

    def test_lists(self):
        for source in self.sources:
            keys = self.keys(source)
            messages, found = list(gazhdor.messages(source, only=20)), gazhdor.lists(source, "record", keys)
            self.assertEqual(list(found), keys)
            for key, column in found.items():
                self.assertEqual(repr(column), repr(self.wanted(messages, key)))
        self.assertEqual(gazhdor.lists(MIXED[0], 21, [253]), {253: [1000000050]})

    def test_all_fields(self):
        found = gazhdor.lists(MIXED[1] + MIXED[0], "record")
        self.assertEqual(list(found), ["timestamp", "heart_rate", "distance", "Strain", "altitude", "position_lat",
            "compressed_speed_distance", "power"])
        self.assertEqual(gazhdor.lists(BYTES, 31), {5: ["Lake loop"], 4: [0]})

    def test_random(self):
        r = random.Random(20260102)
        for _ in range(20):
            source = b"".join(any_file(r) for _ in range(3))
            for kind in ("record", 18, 0, 65280):
                messages, with_times = list(gazhdor.messages(source, only=kind)), gazhdor.lists(source, kind,
                    times=True)
                for key, column in gazhdor.lists(source, kind).items():
                    wanted = self.wanted(messages, key)
                    self.assertEqual(repr(column), repr(wanted))
                    if key != "timestamp":  # which is a time in any case
                        wanted = [message.times.get(key, value) for message, value in zip(messages, wanted)]
                    self.assertEqual(repr(with_times[key]), repr(wanted))

    def test_wrong_words(self):
        for message, fields in ((None, None), (["record"], None), ("record", "heart_rate"), ("record", 3)):
            with self.assertRaises(TypeError):
                gazhdor.lists(BYTES, message, fields)

    def test_not_installed(self):
        for call, name in (("columns", "numpy"), ("frame", "pandas")):
            program = f"""
import sys
sys.modules[{name!r}] = None
import gazhdor
try: gazhdor.{call}({RIDE!r}, 'record')
except ImportError as error: print(error.name, error)
"""
            done = subprocess.run([sys.executable, "-c", program], stdout=subprocess.PIPE, check=True)
            self.assertEqual(done.stdout.decode(),
                f"{name} this call of gazhdor needs {name}, which isn't installed: pip install {name}\n")

    def compare(self, numpy, column, wanted):
        """An array with a list: NaN and NaT stand for None, NaT also for 'system+N'."""
        if column.dtype == object:
            self.assertEqual(repr(list(column)), repr(wanted))
        elif column.dtype.kind == "M":
            found = [None if numpy.isnat(time) else time.astype(object).replace(tzinfo=datetime.timezone.utc)
                for time in column]
            self.assertEqual((str(column.dtype), found), ("datetime64[s]", [None if isinstance(value, str) else value
                for value in wanted]))
        else:
            self.assertEqual((str(column.dtype), len(column)), ("float64", len(wanted)))
            for number, value in zip(column.tolist(), wanted):
                if value is None or math.isnan(value):
                    self.assertTrue(math.isnan(number))
                elif number != value:
                    # whole numbers over 2^53 are rounded before they are scaled
                    self.assertTrue(abs(value) > 2**43 and math.isclose(number, value, rel_tol=1e-15))

    def test_columns(self):
        numpy = numpy_or("numpy")
        r = random.Random(20260103)
        for source in [*self.sources, *(b"".join(any_file(r) for _ in range(3)) for _ in range(20))]:
            for keys in (self.keys(source), None):
                found, lists = gazhdor.columns(source, "record", keys), gazhdor.lists(source, "record", keys)
                self.assertEqual(list(found), list(lists))
                for key, column in found.items():
                    self.compare(numpy, column, lists[key])
        self.assertEqual(len(gazhdor.columns(fit(), "record", ["heart_rate"])["heart_rate"]), 0)

    def test_times(self):
        """With `times` the fields that are times are told as `Message.times` has them, in arrays as datetime64."""
        for source in (BYTES, TURNS, TIMES):
            for kind in ("lap", "record", "file_id", "activity"):
                found = gazhdor.lists(source, kind, times=True)
                plain = gazhdor.lists(source, kind)
                self.assertEqual(list(found), list(plain))
                messages = list(gazhdor.messages(source, only=kind))
                for key, column in found.items():
                    self.assertEqual(repr(column), repr([message.times[key] if key in message.times else value
                        for message, value in zip(messages, plain[key])]))
        self.assertEqual(gazhdor.lists(TIMES, "lap", ["start_time", 253, "timestamp"], times=True),
            {"start_time": [utc(2021, 9, 8, 1, 46, 40), "system+77", None],
                253: [utc(2021, 9, 8, 1, 46, 41), None, None], "timestamp": [utc(2021, 9, 8, 1, 46, 41), None, None]})
        self.assertEqual(gazhdor.lists(TIMES, "activity", ["local_timestamp"], times=True),
            {"local_timestamp": [datetime.datetime(2021, 9, 8, 3, 46, 40)]})
        self.assertEqual(gazhdor.lists(TIMES, "lap", ["start_time"]), {"start_time": [1000000000, 77, None]})
        self.assertIsNone(gazhdor.when(None))
        numpy = numpy_or("numpy")
        starts = gazhdor.columns(TIMES, "lap", ["start_time"], times=True)["start_time"]
        self.assertEqual((str(starts.dtype), str(starts[0]), numpy.isnat(starts[1:]).all()),
            ("datetime64[s]", "2021-09-08T01:46:40", True))
        numpy_or("pandas")
        self.assertEqual(str(gazhdor.frame(TIMES, "lap", ["start_time"], times=True)["start_time"].dtype),
            "datetime64[ns, UTC]")
        self.assertEqual(str(gazhdor.frame(TIMES, "activity", ["local_timestamp"],
            times=True)["local_timestamp"].iloc[0]), "2021-09-08 03:46:40")

    def test_positions(self):
        rows = [row for row in gazhdor.table(BYTES)]
        found = gazhdor.lists(RIDE, "record", [".latitude", ".longitude"])
        for row, latitude, longitude in zip(rows, *found.values()):
            self.assertAlmostEqual(row.position_lat, latitude, delta=1e-7)
            self.assertAlmostEqual(row.position_long, longitude, delta=1e-7)
        self.assertEqual(len(rows), len(found[".latitude"]))
        found = gazhdor.lists(fit(define(0, 20, [(0, 4, SINT32), (1, 4, SINT32)]),
            packed("<Bii", 0, -(2**30), 2**31 - 1)), "record", [".latitude", ".longitude"])
        self.assertEqual(found, {".latitude": [-90.0], ".longitude": [None]})

    def test_time_stays(self):
        """Where the definition has the time there is a column of it, also where no message has one."""
        source = fit(define(0, 20, [(253, 4, UINT32), (3, 1, UINT8)]), packed("<BIB", 0, NONE4, 60),
            packed("<BIB", 0, NONE4, 61))
        self.assertEqual(gazhdor.lists(source, "record"), {"timestamp": [None, None], "heart_rate": [60, 61]})
        self.assertEqual(gazhdor.lists(fit(define(0, 20, [(3, 1, UINT8)]), b"\0\x3c"), "record"), {"heart_rate": [60]})
        numpy_or("numpy")
        self.assertEqual(list(gazhdor.columns(source, "record")), ["timestamp", "heart_rate"])

    def test_hostile_names(self):
        """A developer field whose name means something else has its numbers as its key, and hides nothing."""
        names = [b".seconds", b".time", b"field_5", b"timestamp", b"dev_0_1", b".heart"]
        source = fit(DESCRIBE, *(describe(0, k, UINT8, name, b"") for k, name in enumerate(names)),
            define(0, 20, [(253, 4, UINT32), (5, 1, UINT8), (250, 1, UINT8)], [(k, 1, 0) for k in range(len(names))]),
            packed("<BIBB6B", 0, 1000000000, 7, 8, *range(90, 96)))
        found = gazhdor.lists(source, "record")
        self.assertEqual(found, {"timestamp": [utc(2021, 9, 8, 1, 46, 40)], "distance": [0.07], 250: [8],
            **{(0, k): [90 + k] for k in range(6)}})
        self.assertEqual(gazhdor.lists(source, "record", [".seconds", ".time"]),
            {".seconds": [1000000000], ".time": found["timestamp"]})
        (message,) = gazhdor.messages(source, only="record")
        self.assertEqual(message.as_dict(), {"timestamp": 1000000000, "distance": 0.07, "field_250": 8,
            **{f"dev_0_{k}": 90 + k for k in range(6)}})
        for name in ("hart_rate", ".second"):
            with self.assertRaises(gazhdor.UnknownName) as caught:
                gazhdor.lists(source, "record", [name])
        with self.assertRaises(gazhdor.UnknownName):
            gazhdor.lists(source, "recrod")

    def test_labels(self):
        """Labels of developer fields that differ by the case of letters alone are told apart, as databases want it."""
        numpy_or("pandas", "numpy")
        source = fit(DESCRIBE, *(describe(0, k, UINT8, name, b"") for k, name in enumerate((b"Power", b"power",
            b"POWER", b"Heart_Rate", b"Own"))),
            define(0, 20, [(3, 1, UINT8)], [(k, 1, 0) for k in range(5)]), bytes([0, 60, 1, 2, 3, 4, 5]))
        table = gazhdor.frame(source, "record")
        self.assertEqual(dict(table.iloc[0]), {"heart_rate": 60, "Power": 1, "dev_0_1": 2, "dev_0_2": 3, "dev_0_3": 4,
            "Own": 5})
        with contextlib.closing(sqlite3.connect(":memory:")) as base:
            table.to_sql("record", base, index=False)
            self.assertEqual(base.execute("select dev_0_1, own from record").fetchall(), [(2.0, 5.0)])

    def test_bounded(self):
        """31 KB of definitions of which each has other fields, and of messages of one byte, give an error in place of a
        table of gigabytes."""
        definitions = [define(0, 20, [], [(n, 0, index) for n in range(255)]) for index in range(20)]
        source = fit(*(definition + 750 * b"\0" for definition in definitions))
        self.assertLess(len(source), 31500)
        program = """
import resource, sys, gazhdor
data = sys.stdin.buffer.read()
for call in (gazhdor.lists, *([gazhdor.columns] if sys.argv[1:] else [])):
    try: call(data, "record")
    except gazhdor.TooManyCells as error: print(error.columns, error.rows)
print(len(gazhdor.lists(data, "record", [(19, 254), 3])[3]))
print(resource.getrusage(resource.RUSAGE_SELF).ru_maxrss)
"""
        has_numpy = importlib.util.find_spec("numpy") is not None
        done = subprocess.run([sys.executable, "-c", program, *(["numpy"] if has_numpy else [])], input=source,
            stdout=subprocess.PIPE, check=True)
        *told, most = done.stdout.decode().splitlines()
        self.assertEqual(told, [*(1 + has_numpy) * ["5100 15000"], "15000"])
        self.assertLess(int(most), 150000)
        with self.assertRaises(gazhdor.TooManyCells) as caught:
            gazhdor.lists(source, "record")
        sent = pickle.loads(pickle.dumps(caught.exception))
        self.assertEqual((str(sent), sent.columns), (str(caught.exception), 5100))
        # What a file has itself is never too much.
        wide = fit(*(define(0, 20, [], [(n, 1, index) for n in range(100)]) + 20 * bytes(101) for index in range(10)))
        self.assertEqual({len(column) for column in gazhdor.lists(wide, "record").values()}, {200})

    def test_frame(self):
        numpy_or("pandas", "numpy")
        found = gazhdor.frame(b"".join(MIXED), "record")
        self.assertEqual(str(found["timestamp"].dtype), "datetime64[ns, UTC]")
        self.assertEqual((len(found), found["power"].max(), found["timestamp"].iloc[0].isoformat()),
            (87, 200.0, "2021-09-08T01:46:40+00:00"))
        self.assertEqual((list(gazhdor.frame(BYTES, 31)), gazhdor.frame(BYTES, 999).empty),
            (["field_5", "field_4"], True))
        self.assertEqual(list(gazhdor.frame(MIXED[1], 20, [3, "Strain", (0, 2)])), ["field_3", "Strain", "dev_0_2"])


class Json(unittest.TestCase):
    def lines(self, source, status=0):
        done = subprocess.run([sys.executable, "-m", "gazhdor", "json"], input=source, stdout=subprocess.PIPE,
            stderr=subprocess.PIPE)
        self.assertEqual((done.returncode, bool(done.stderr)), (status, bool(status)))
        return [json.loads(line, parse_constant=self.fail) for line in done.stdout.decode().splitlines()], done.stderr

    def test_ride(self):
        found, _ = self.lines(BYTES)
        self.assertEqual(len(found), len(list(gazhdor.messages(BYTES))))
        self.assertEqual(found[1], {"message": "message_31", "number": 31, "file": 1, "place": 159, "local": 1,
            "time": None, "fields": {"field_5": "Lake loop", "field_4": "generic"}, "units": {}})
        for line, message in zip(found, gazhdor.messages(BYTES, words=True)):
            self.assertEqual((line["place"], line["fields"], line["time"] or ""),
                (message.place, message.as_dict(), as_text(message.time)))
            self.assertEqual(line["units"], {label_of(field): field.unit for field in message.fields if field.unit})
        self.assertEqual(self.lines(BYTES[:2000], 1), (found[: len(self.lines(BYTES[:2000], 1)[0])],
            b"-: truncated at byte 2000\n"))

    def test_values(self):
        found, _ = self.lines(SMALL)
        self.assertEqual((found[1]["speed"], found[1]["distance"], found[1]["fields"]),
            (1.0, 16.0, {"altitude": 0.0, "compressed_speed_distance": "0x640010"}))
        self.assertEqual((found[0]["time"], "speed" in found[0]), ("2021-09-08T01:47:11Z", False))
        floats = fit(define(0, 65280, [(253, 4, UINT32), (0, 12, FLOAT32), (1, 2, STRING), (2, 2, BYTE)]),
            packed("<BIIIf", 0, 5, 0x7FC00123, 0x7F800000, 0.5) + b"\n\0\xab\x0c")
        (line,), _ = self.lines(floats)
        self.assertEqual(line["fields"], {"timestamp": 5, "field_0": [None, None, 0.5], "field_1": "\n",
            "field_2": "0xAB0C"})
        self.assertEqual(line["time"], "system+5")


if __name__ == "__main__":
    unittest.main()
