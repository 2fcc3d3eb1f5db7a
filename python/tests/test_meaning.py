"""What values mean that are written, and what is left where a write fails: the same by each way in which Python has
them."""
import copy
import decimal
import io
import os
import pickle
import sys
import tempfile
import unittest

from made import written
from support import left_out

import gazhdor

try:
    import numpy
except ImportError:
    numpy = None
try:
    import pandas
except ImportError:
    pandas = None

NAN = float("nan")
TIME = 1147937400


def column(message, field, values, base=None):
    """What is read of a column that is written."""
    sink = io.BytesIO()
    with gazhdor.Writer(sink) as out:
        out.define(message, [(field, base) if base else field]).columns({field: values})
    return [m.get(field) for m in gazhdor.messages(sink.getvalue())]


def each(message, field, values, base=None):
    """What is read of the same values, which are written one by one."""
    sink = io.BytesIO()
    with gazhdor.Writer(sink) as out:
        definition = out.define(message, [(field, base) if base else field])
        for value in values:
            definition.write({field: value})
    return [m.get(field) for m in gazhdor.messages(sink.getvalue())]


class Values(unittest.TestCase):
    def alike(self, message, field, values, wanted, base=None):
        for way in (column, each):
            self.assertEqual(way(message, field, values, base), wanted, way.__name__)

    def test_no_value(self):
        """NaN, and bytes that are all 0xFF, are no value, however they are written."""
        self.alike("record", "heart_rate", [NAN, 120, None, decimal.Decimal("nan")], [None, 120, None, None])
        self.alike("record", 200, [NAN, 1.5], [None, 1.5], "float32")
        self.alike("record", 200, [NAN, 1.5], [None, 1.5], "float64")
        self.alike("record", 200, [b"\xff\xff", b"\xff\x01"], [None, b"\xff\x01"], "byte")
        self.alike("hrv", "time", [[0.5, NAN], [NAN, 0.25]], [(0.5, None), (None, 0.25)])
        if pandas is None:
            left_out("there is no pandas, so its NA isn't tried")
        self.alike("record", "heart_rate", [pandas.NA, 120, pandas.NaT], [None, 120, None])
        self.assertEqual(column("record", "heart_rate", pandas.array([1, None, 3], "Int64")), [1, None, 3])
        self.assertEqual(
            column(
                "record",
                "timestamp",
                pandas.Series([pandas.Timestamp(TIME + 631065600, unit="s", tz="UTC"), pandas.NaT]),
            ),
            [TIME, None],
        )

    @unittest.skipUnless(numpy, "there is no numpy")
    def test_masked(self):
        """What numpy masks is no value."""
        for values, wanted in (([1, 2, 3], [1, None, 3]), ([1.0, 2.0, 3.0], [1, None, 3])):
            masked = numpy.ma.masked_array(values, [False, True, False])
            self.assertEqual(column("record", "heart_rate", masked), wanted)
        self.assertEqual(column("record", "position_lat", numpy.ma.masked_array([5, 6], [False, True])), [5, None])
        self.assertEqual(column("record", "heart_rate", numpy.ma.masked_array([5, 6])), [5, 6])
        times = numpy.array([TIME + 631065600, 0], "datetime64[s]")
        self.assertEqual(column("record", "timestamp", numpy.ma.masked_array(times, [False, True])), [TIME, None])
        self.assertEqual(each("record", "heart_rate", [numpy.ma.masked, 7]), [None, 7])

    def test_lists_back(self):
        """columns takes what lists gives, and what write takes: the device's own time, lists of one, arrays of one
        column."""
        self.alike("record", "timestamp", ["system+5", TIME], [5, TIME])
        self.alike("record", "heart_rate", [[120], (121,), [None], []], [120, 121, None, None])
        self.alike("record", "altitude", [[408.2], (409.0,)], [408.2, 409.0])
        for way in (column, each):
            with self.assertRaises(gazhdor.WrongValue) as caught:
                way("record", ("heart_rate", "uint8", 1)[0], [[1], [1, 2] * 200])
            self.assertIn("items", str(caught.exception))
        sink = io.BytesIO()
        with gazhdor.Writer(sink) as out:
            out.define("record", [("heart_rate", "uint8", 1)]).columns(heart_rate=[[1]])
            with self.assertRaises(gazhdor.WrongValue) as caught:
                out.define("record", [("heart_rate", "uint8", 1)]).columns(heart_rate=[1, [1, 2]])
            self.assertEqual(caught.exception.row, 1)
        if numpy is None:
            left_out("there is no numpy, so its arrays aren't tried")
        self.assertEqual(column("record", "heart_rate", numpy.array([[120], [121]])), [120, 121])
        self.assertEqual(column("record", "heart_rate", numpy.array([[120.0], [NAN]])), [120, None])

    @unittest.skipUnless(numpy, "there is no numpy")
    def test_times_of_numpy(self):
        """A length of time is no time, and a time that no field can have is an error, however it is counted."""
        for value in (
            numpy.timedelta64(TIME, "s"),
            *(
                numpy.datetime64(*of)
                for of in (
                    (2**62, "D"),
                    (10**6, "D"),
                    (2**40, "s"),
                    (3000, "Y"),
                    (2**62, "M"),
                    (2**60, "h"),
                    (-5, "D"),
                    (2**63 - 1, "ns"),
                )
            ),
        ):
            for way in (column, each):
                for values in ([value], numpy.array([value])):
                    with self.assertRaises(gazhdor.WrongValue, msg=repr(value)):
                        way("record", "timestamp", values)
        day = numpy.datetime64("2026-05-17", "D")
        self.alike(
            "record", "timestamp", numpy.array([day, "NaT"], "datetime64[D]"), [(20590 * 86400) - 631065600, None]
        )

    def test_floats(self):
        """A whole number becomes the nearest of 32 bits, and is rounded once."""
        # 2^24 + 1 lies between two; a little more is nearer to the greater one, which a double of it no longer tells
        number = (2**24 + 1) * 2**40 + 1
        self.assertEqual(float(number) % 2**41, 2**40)
        above = float((2**24 + 2) * 2**40)
        self.alike("record", 200, [number, -number, 3], [above, -above, 3.0], "float32")
        self.alike("record", 200, [number] * 5000, [above] * 5000, "float32") if numpy else None
        self.assertEqual(each("record", 200, [decimal.Decimal(number)], "float32"), [above])

    def test_far_times(self):
        for seconds in (2**62, -5, 10**20):
            self.assertIsNone(gazhdor.when(seconds))
        self.assertEqual(gazhdor.when(0), "system+0")


class Names(unittest.TestCase):
    def test_own_words(self):
        """What is wrong is told in words of this module."""
        sink = io.BytesIO()
        with gazhdor.Writer(sink, names={("record", 200): ("n" * 70000, "u" * 70000, 1, 0, None, "uint8")}) as out:
            out.write("record", {200: 7})
            record = out.define("record", "heart_rate")
            for key in (99, (0, 1), 5.5, None, gazhdor.DeveloperField(0, 9, "x", "", 2)):
                with self.assertRaises(gazhdor.UnknownName) as caught:
                    record.write({key: 1})
                self.assertIn("the definition has no field", str(caught.exception))
            with self.assertRaises(gazhdor.UnknownName):
                out.define("record", [(0, 7)])
            for application in (b"", b"short", bytes(17), "x" * 16, 16):
                with self.assertRaisesRegex(ValueError, "16 bytes"):
                    out.describe("power", application=application)
            for native in (("record",), (), "record", 7, ("record", 7, 1)):
                with self.assertRaisesRegex(ValueError, "a message and a number"):
                    out.describe("power", native=native)
            field = out.describe("power", application=bytes(range(16)))
            for value in (10**400, -(10**400), decimal.Decimal("1e999999"), 2**64):
                for write in (record.write, lambda heart_rate: record.columns(heart_rate=[heart_rate] * 5000)):
                    with self.assertRaises(gazhdor.WrongValue):
                        write(heart_rate=value)
            out.write("record", {field: 3})
        self.assertEqual([m.get(200) for m in gazhdor.messages(sink.getvalue(), only="record")], [7, None])


class Broken:
    """A file object that fails, or lies, until it is mended."""

    def __init__(self, answer):
        self.answer, self.data = answer, b""

    def write(self, data):
        if callable(self.answer):
            return self.answer(data)
        if isinstance(self.answer, BaseException):
            raise self.answer
        return self.answer


class Sinks(unittest.TestCase):
    def setUp(self):
        folder = tempfile.TemporaryDirectory()
        self.addCleanup(folder.cleanup)
        self.folder = folder.name

    def at(self, name):
        return os.path.join(self.folder, name)

    def test_again(self):
        """Where a file can't be written nothing is lost, and finish may be called again."""
        wanted = written(lambda out: out.write("record", heart_rate=120))
        for fault in (OSError(28, "full"), MemoryError(), KeyboardInterrupt()):
            sink, kept = Broken(fault), []
            out = gazhdor.Writer(sink)
            out.write("record", heart_rate=120)
            for _ in range(3):
                with self.assertRaises(type(fault)):
                    out.finish()
            sink.answer = lambda data: kept.append(bytes(data))
            out.finish()
            self.assertEqual(b"".join(kept), wanted)
            with self.assertRaisesRegex(ValueError, "finished"):
                out.finish()

    def test_wrong_counts(self):
        """A file object that says nothing of use is an error, and no endless loop."""
        for answer in (0, -1, True, False, 10**9, 1.5, "7"):
            out = gazhdor.Writer(Broken(answer))
            out.write("record", heart_rate=120)
            with self.assertRaisesRegex(OSError, "how many bytes"):
                out.finish()

    def test_path(self):
        """The path is that of when the writer was made; the file keeps its mode, and nothing else is left."""
        before = os.getcwd()
        self.addCleanup(os.chdir, before)
        os.chdir(self.folder)
        out = gazhdor.Writer("ride.fit")
        out.write("record", heart_rate=120)
        os.chdir(before)
        out.finish()
        self.assertEqual(os.listdir(self.folder), ["ride.fit"])
        self.assertTrue(gazhdor.check(self.at("ride.fit")))

    def test_synced(self):
        """A file is synced before it takes its place."""
        calls = []
        sync, replace = os.fsync, os.replace
        self.addCleanup(setattr, os, "fsync", sync)
        self.addCleanup(setattr, os, "replace", replace)
        os.fsync = lambda number: calls.append("sync") or sync(number)
        os.replace = lambda *paths: calls.append("replace") or replace(*paths)
        with gazhdor.Writer(self.at("ride.fit")) as out:
            out.write("record", heart_rate=120)
        self.assertEqual(calls[:2], ["sync", "replace"])

    def test_opened_elsewhere(self):
        """What another process has open is written to, and what stood there stays."""
        program = (
            "import gazhdor, sys\nwith gazhdor.Writer('/dev/stdout') as out:\n    out.write('record', heart_rate=120)"
        )
        with open(self.at("out"), "wb") as file:
            file.write(b"before")
            file.flush()
            inode = os.fstat(file.fileno()).st_ino
            import subprocess

            done = subprocess.run([sys.executable, "-c", program], stdout=file, stderr=subprocess.PIPE)
        self.assertEqual((done.returncode, done.stderr), (0, b""))
        with open(self.at("out"), "rb") as file:
            self.assertEqual(file.read(), b"before" + written(lambda out: out.write("record", heart_rate=120)))
            self.assertEqual(os.fstat(file.fileno()).st_ino, inode)

    def test_no_room_beside(self):
        """A file whose folder takes no other one, and one that can't be replaced, are written to as they are."""
        for name in ("open", "replace"):
            path = self.at("ride.fit")
            with open(path, "wb") as file:
                file.write(b"old")
            inode = os.stat(path).st_ino
            self.refuse(name)
            with gazhdor.Writer(path) as out:
                out.write("record", heart_rate=120)
            self.restore()
            self.assertEqual(
                (os.stat(path).st_ino, gazhdor.check(path).good, os.listdir(self.folder)), (inode, True, ["ride.fit"])
            )

    def refuse(self, name):
        """Has the system say that a file can't be made beside another one, or can't take its place."""
        from gazhdor._write import sinks

        opened, replace = open, os.replace
        self.restore = lambda: (setattr(os, "replace", replace), sinks.__dict__.pop("open", None))

        def refused(path, how, *more, **other):
            if how == "xb":
                raise PermissionError(13, "Permission denied", path)
            return opened(path, how, *more, **other)

        def busy(*paths):
            raise OSError(16, "Device or resource busy")

        if name == "open":
            sinks.open = refused
        else:
            os.replace = busy

    def test_no_copies(self):
        out = gazhdor.Writer(io.BytesIO())
        record = out.define("record", "heart_rate")
        for thing in (out, record):
            for call in (copy.copy, copy.deepcopy, pickle.dumps):
                with self.assertRaisesRegex(TypeError, "can't be copied"):
                    call(thing)


if __name__ == "__main__":
    unittest.main()
