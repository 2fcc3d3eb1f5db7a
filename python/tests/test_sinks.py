"""Where files that are written go, and that nothing goes there where anything fails; and what writers do with values
and names that are meant to hurt."""
import _thread
import datetime
import decimal
import fractions
import io
import os
import pathlib
import pickle
import resource
import signal
import subprocess
import sys
import tempfile
import threading
import tracemalloc
import unittest

from support import RIDE, bytes_at, left_out
from fits import SMALL, define, fit

import gazhdor



class Slow(io.RawIOBase):
    """A file object that takes a few bytes at once, or fails after some."""

    def __init__(self, most=None, waits=True):
        self.data, self.most, self.waits = b"", most, waits

    def writable(self):
        return True

    def write(self, data):
        if self.most is not None and len(self.data) >= self.most:
            if not self.waits:
                return None
            raise OSError(28, "No space left on device")
        self.data += bytes(data[:7])
        return min(7, len(data))


class Sinks(unittest.TestCase):
    def setUp(self):
        self.folder = tempfile.TemporaryDirectory()
        self.addCleanup(self.folder.cleanup)

    def path(self, name="ride.fit"):
        return os.path.join(self.folder.name, name)

    def write(self, sink, fault=None):
        with gazhdor.Writer(sink) as out:
            out.write("file_id", type=4)
            if fault:
                raise fault
            out.write("record", heart_rate=120)

    def test_path(self):
        class Bytes:
            def __fspath__(inner):
                return os.fsencode(self.path())

        for sink in (Bytes(), pathlib.Path(self.path()), self.path()):
            self.write(sink)
            self.assertTrue(gazhdor.check(self.path()))
        umask = os.umask(0)
        os.umask(umask)
        self.assertEqual(os.stat(self.path()).st_mode & 0o777, 0o666 & ~umask)
        self.assertEqual(os.listdir(self.folder.name), ["ride.fit"])

    def test_old_file(self):
        """A file that was there is there until the new one is whole. It keeps its mode, and a link keeps its place."""
        with open(self.path(), "wb") as file:
            file.write(b"old")
        os.chmod(self.path(), 0o640)
        os.symlink("ride.fit", self.path("link"))
        for fault in (KeyError("5"), KeyboardInterrupt(), SystemExit(), gazhdor.WrongValue("", "", 5)):
            with self.assertRaises(type(fault)):
                self.write(self.path("link"), fault)
            self.assertEqual((bytes_at(self.path()), sorted(os.listdir(self.folder.name))),
                (b"old", ["link", "ride.fit"]))
        self.write(self.path("link"))
        self.assertTrue(gazhdor.check(self.path()))
        self.assertEqual((os.stat(self.path()).st_mode & 0o777, os.readlink(self.path("link"))), (0o640, "ride.fit"))

    def test_itself(self):
        """A file may be written over what it is made of."""
        with open(self.path(), "wb") as file:
            file.write(bytes_at(RIDE))
        with gazhdor.Writer(self.path()) as out:
            for event in gazhdor.messages(self.path(), everything=True):
                out.copy(event)
        self.assertEqual(bytes_at(self.path()), bytes_at(RIDE))

    def test_no_path(self):
        for path, kind in ((self.folder.name, IsADirectoryError), (self.path("none/ride.fit"), FileNotFoundError),
                (self.path(257 * "n"), OSError), ("a\0b", ValueError)):
            with self.assertRaises(kind):
                self.write(path)
        for sink, kind in ((5, TypeError), (None, TypeError), (io.StringIO(), gazhdor.NotBinary),
                (object(), TypeError)):
            with self.assertRaises(kind):
                gazhdor.Writer(sink)
        self.assertEqual(os.listdir(self.folder.name), [])

    def test_devices(self):
        self.write("/dev/null")
        ends, into = os.pipe()
        self.write(f"/dev/fd/{into}")
        os.close(into)
        with open(ends, "rb") as pipe:
            self.assertTrue(gazhdor.check(pipe))
        if os.path.exists("/dev/full"):
            with self.assertRaises(OSError):
                self.write("/dev/full")

    def test_file_objects(self):
        slow, plain = Slow(), io.BytesIO(b"before")
        self.write(slow)
        plain.seek(6)
        self.write(plain)
        self.assertEqual(plain.getvalue(), b"before" + slow.data)
        self.assertTrue(gazhdor.check(slow.data))
        for failing in (Slow(20), Slow(20, waits=False)):
            with self.assertRaises(OSError):
                self.write(failing)
        untouched = io.BytesIO()
        with self.assertRaises(KeyError):
            self.write(untouched, KeyError("5"))
        self.assertEqual(untouched.getvalue(), b"")

    def test_ends(self):
        out = gazhdor.Writer(self.path())
        record = out.define("record", "heart_rate")
        record.write(heart_rate=120)
        message = next(gazhdor.messages(SMALL))
        self.assertFalse(os.path.exists(self.path()))
        out.finish()
        self.assertTrue(gazhdor.check(self.path()))
        for call in (out.finish, out.file, lambda: record.write(heart_rate=1), lambda: out.copy(message),
                lambda: out.write("record", power=1), lambda: out.describe("a")):
            with self.assertRaises(ValueError):
                call()
        with self.assertRaises(ValueError):
            with gazhdor.Writer(self.path("none")):
                pass
        with gazhdor.Writer(self.path("none")) as out:
            out.write("record", power=1)
            out.discard()
        self.assertFalse(os.path.exists(self.path("none")))


class Hostile(unittest.TestCase):
    def test_values(self):
        """Values of odd types: each fits exactly, or is refused in a short sentence."""

        class Liar(int):
            def __repr__(self):
                raise RuntimeError

        class Hidden:
            def __getattr__(self, name):
                raise AttributeError(name)

            def __repr__(self):
                return 10**6 * "x"

        good = (120, 120.4, decimal.Decimal("119.5"), fractions.Fraction(241, 2) - 1, 119.5)
        wrong = (True, False, "120", b"x", 255, -1, 256, float("inf"), -float("inf"),
            decimal.Decimal("1e999999999"), 10**5000, -(10**5000))
        wrong += (decimal.Decimal("-1e-999999999999"), decimal.Decimal(401 * "1"), 1e308, complex(1, 2), object(),
            Hidden(), {}, set(), datetime.timedelta(1), [1, 2, 3] * 100, lambda: 5)
        made = io.BytesIO()
        with gazhdor.Writer(made) as out:
            record = out.define("record", [("heart_rate", "uint8", 1)])
            for value in good:
                record.write(heart_rate=value)
            for value in wrong:
                with self.assertRaises(gazhdor.WrongValue, msg=type(value)) as caught:
                    record.write(heart_rate=value)
                self.assertLess(len(str(caught.exception)), 200)
                self.assertIn("heart_rate", str(caught.exception))
            for value in ({}, {1: 2}, set(), {5}, frozenset(), "5"):
                with self.assertRaises(gazhdor.WrongValue):
                    out.write("record", heart_rate=value)
            record.write(heart_rate=Liar(7))
        self.assertEqual([message["heart_rate"] for message in gazhdor.messages(made.getvalue())],
            [120, 120, 120, 120, 120, 7])

    def test_names(self):
        """Hostile names of developer fields, and of keys."""
        made = io.BytesIO()
        names = ["timestamp", "", "a b", ".file", "field_5", "heart_rate", "\U0001f6b4", 200 * "n", "'\"<b>"]
        with gazhdor.Writer(made) as out:
            fields = [out.describe(name, name) for name in names]
            out.define("record", fields).write(dict(zip(fields, range(9))))
            for name in ("a\0b", 256 * "n", "\udc80", 5, 2**20 * "n"):
                with self.assertRaises((gazhdor.WrongValue, TypeError)):
                    out.describe(name)
            with self.assertRaises(gazhdor.WrongValue):
                out.describe("a", 256 * "u")
            for how in ({"index": 256}, {"index": -1}, {"number": 256}, {"base": "uint7"}, {"base": 256},
                    {"native": ("recrod", 7)}, {"native": ("record", 255)}, {"application": b"short" * 60}):
                with self.assertRaises((ValueError, KeyError)):
                    out.describe("a", index=7, **how) if "index" not in how else out.describe("a", **how)
        *_, message = gazhdor.messages(made.getvalue())
        self.assertEqual([field.value for field in message.fields], list(range(9)))
        self.assertEqual([field.name or "" for field in message.fields], names)

    def test_in_the_middle(self):
        """A generator that raises, and an interrupt within columns: nothing of the column is written."""

        def broken():
            yield from range(100)
            raise ZeroDivisionError

        made = io.BytesIO()
        with gazhdor.Writer(made) as out:
            record = out.define("record", "power")
            record.write(power=1)
            with self.assertRaises(ZeroDivisionError):
                record.columns(power=broken())
            with self.assertRaises(ZeroDivisionError):
                out.write("hrv", time=broken())
            record.write(power=2)
        self.assertEqual([message["power"] for message in gazhdor.messages(made.getvalue())], [1, 2])

    def test_interrupts(self):
        """Interrupts at any time: what is written after them is whole, or the writer says that it was interrupted."""
        column = [k % 200 for k in range(3000)]
        for delay in range(1, 60):
            made = io.BytesIO()
            out = gazhdor.Writer(made)
            record, count = out.define("record", "heart_rate power"), 0
            try:
                timer = threading.Timer(delay / 4000, _thread.interrupt_main)
                timer.start()
                for _ in range(300):
                    record.columns(heart_rate=column, power=column)
                    out.write("sport", sport=1)
                    count += 1
            except KeyboardInterrupt:
                pass
            try:
                timer.join()
            except KeyboardInterrupt:
                timer.join()
            try:
                record.write(heart_rate=7)
                out.finish()
            except RuntimeError:
                continue
            found = list(gazhdor.messages(made.getvalue(), only="record"))
            self.assertEqual(len(found) % 3000, 1)
            self.assertIn(len(found) // 3000, (count, count + 1))
            self.assertEqual(found[-1]["heart_rate"], 7)

    def test_long_text(self):
        """A text of 4 GiB is refused without a copy of it, and without a word of it."""
        program = (
            "import gazhdor, io, resource\n"
            "text = 'n' * 2**32\n"
            "resource.setrlimit(resource.RLIMIT_AS, (2**32 + 2**29, 2**32 + 2**29))\n"
            "for values in ({'name': text}, {'sport': text}):\n"
            "    try:\n"
            "        with gazhdor.Writer(io.BytesIO()) as out: out.write('sport', values)\n"
            "    except gazhdor.WrongValue as wrong:\n"
            "        print(len(str(wrong)) < 200)\n"
        )
        with open("/proc/meminfo") as file:
            free = {line.split(":")[0]: int(line.split()[1]) for line in file}["MemAvailable"]
        if free < 6 * 2**20:
            left_out("there is too little memory for a text of 4 GiB")
        done = subprocess.run([sys.executable, "-c", program], stdout=subprocess.PIPE)
        self.assertEqual(done.stdout, b"True\nTrue\n")

    def test_fat_definitions(self):
        """Definitions whose developer fields have names of 255 bytes, which a file has once, take little when they are
        copied."""
        described = [(number, 255 * b"n") for number in range(8)]
        records = [define(15, 206, [(0, 1, 2), (1, 1, 2), (2, 1, 2), (3, 255, 7), (8, 255, 7)])]
        records += [bytes([15, 0, number, 2]) + name + 255 * b"u" for number, name in described]
        records += [define(k % 15, 20, [(3, 1, 2)], [(n % 8, 1, 0) for n in range(255)])
            for k in range(300)] + [bytes([3]) + bytes(256)]
        data = fit(*records)
        made = io.BytesIO()
        tracemalloc.start()
        with gazhdor.Writer(made) as out:
            for event in gazhdor.messages(data, everything=True):
                out.copy(event)
            most = tracemalloc.get_traced_memory()[1]
        tracemalloc.stop()
        self.assertEqual(made.getvalue(), data)
        self.assertLess(most, 30 * len(data) + 20 * 2**20)

    def test_memory(self):
        """Memory grows with the file, and not with the square of it; many definitions keep little."""
        program = (
            "import gazhdor, io, resource, sys\n"
            "with gazhdor.Writer(io.BytesIO()) as out:\n"
            "    for k in range(int(sys.argv[1])):\n"
            "        out.define(1000 + k % 7000, [(k % 250, 'uint8')]).write({k % 250: 1})\n"
            "print(resource.getrusage(resource.RUSAGE_SELF).ru_maxrss)\n"
        )
        most = [int(subprocess.run([sys.executable, "-c", program, str(count)], stdout=subprocess.PIPE,
            check=True).stdout) for count in (10, 4000, 16000)]
        self.assertLess(most[2] - most[0], 6 * max(most[1] - most[0], 3000))

    def test_out_of_memory(self):
        """Below what it has already a process gets no more; what a library holds may be enough without more."""
        program = (
            "import gazhdor, io, resource, sys\n"
            "sink = io.BytesIO()\n"
            "out = gazhdor.Writer(sink)\n"
            "out.define('record', 'power').columns(power=[1] * 400000)\n"
            "most = int(open('/proc/self/statm').read().split()[0]) * resource.getpagesize() + int(sys.argv[1])\n"
            "resource.setrlimit(resource.RLIMIT_AS, (most, most))\n"
            "try:\n"
            "    out.finish()\n"
            "    print(gazhdor.check(sink.getvalue()))\n"
            "except MemoryError:\n"
            "    print('refused', len(sink.getvalue()))\n"
        )
        said = [subprocess.run([sys.executable, "-c", program, str(most)], stdout=subprocess.PIPE).stdout
            for most in range(-(2**22), 40 * 2**20, 2**21)]
        self.assertEqual(set(said), {b"refused 0\n", b"ok\n"})

    def test_sent(self):
        events = list(gazhdor.messages(RIDE, everything=True))
        self.assertEqual(pickle.loads(pickle.dumps(events)), events)
        wrong = gazhdor.WrongValue("it is wrong", "power", 5, 0, 3, 7)
        self.assertEqual(vars(pickle.loads(pickle.dumps(wrong))), vars(wrong))
        for event in events:
            if not isinstance(event, gazhdor.Message):
                self.assertIn(type(event).__name__, repr(event))
        with self.assertRaises(TypeError):
            next(gazhdor.messages(RIDE, only="record", everything=True))


signal.signal(signal.SIGINT, signal.default_int_handler)
resource.getrlimit(resource.RLIMIT_AS)

if __name__ == "__main__":
    unittest.main()
