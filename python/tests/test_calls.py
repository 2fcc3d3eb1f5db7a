"""What the module gazhdor must answer: of the ride by the points of examples/ride.gpx, of which another program made
it; of other bytes by what the FIT protocol says."""
import datetime
import gzip
import importlib.util
import io
import multiprocessing
import os
import pathlib
import pickle
import sqlite3
import subprocess
import sys
import tempfile
import threading
import unittest
import xml.etree.ElementTree

from support import BYTES, RIDE, VERSION, command, example, folder, in_tree, left_out, run

import gazhdor

WORK = folder()


def points():
    name = "{http://www.topografix.com/GPX/1/1}"
    for point in xml.etree.ElementTree.parse(in_tree("examples/ride.gpx")).iter(name + "trkpt"):
        when = datetime.datetime.fromisoformat(point.find(name + "time").text.replace("Z", "+00:00"))
        yield when, float(point.get("lat")), float(point.get("lon")), float(point.find(name + "ele").text)


class Checks(unittest.TestCase):
    def test_good(self):
        for source in (RIDE, pathlib.Path(RIDE), BYTES, bytearray(BYTES), memoryview(BYTES),
                memoryview(BYTES[::-1])[::-1]):
            answer = gazhdor.check(source)
            self.assertTrue(answer.good and bool(answer))
            self.assertEqual((answer.files, answer.place, answer.reason, answer.row, answer.column, str(answer)),
                (1, None, None, None, None, "ok"))
        self.assertEqual(gazhdor.check(3 * BYTES).files, 3)

    def test_truncated(self):
        for end in (0, 1, 13, 14, 2000, len(BYTES) - 1):
            answer = gazhdor.check(BYTES[:end])
            self.assertFalse(answer)
            self.assertEqual((answer.place, answer.reason, str(answer)), (end, None, f"truncated at byte {end}"))

    def test_refused(self):
        changed = bytearray(BYTES)
        changed[-1] ^= 1
        answer = gazhdor.check(changed)
        self.assertEqual((answer.good, answer.place, answer.reason), (False, len(BYTES) - 1, "FileSum"))
        self.assertEqual(str(answer), f"refused at byte {len(BYTES) - 1}: FileSum")
        self.assertEqual((gazhdor.check(b"\x0d").reason, gazhdor.check(b"\x0e\x30").reason), ("HeaderSize", "Protocol"))

    def test_no_file(self):
        with self.assertRaises(FileNotFoundError):
            gazhdor.check(os.path.join(WORK, "none.fit"))


class Slow(io.RawIOBase):
    """A file whose read gives a few bytes at once, and after `end` bytes fails, or where `fault` is None, waits for no
    more."""

    def __init__(self, end=len(BYTES), fault=None):
        self.at, self.end, self.fault = 0, end, fault

    def read(self, size=-1):
        if self.at == self.end < len(BYTES):
            if self.fault:
                raise self.fault
            return None
        begin, self.at = self.at, min(self.at + 100, self.end)
        return BYTES[begin : self.at]


class Sources(unittest.TestCase):
    def test_file_objects(self):
        """A file object is read from where it is to its end, and stays open."""
        packed = gzip.compress(BYTES)
        for opened in (io.BytesIO(BYTES), open(RIDE, "rb"), gzip.open(io.BytesIO(packed)), Slow(),
                tempfile.SpooledTemporaryFile()):
            with opened as file:
                if isinstance(file, tempfile.SpooledTemporaryFile):
                    file.write(b"before" + BYTES)
                    file.seek(6)
                self.assertEqual(gazhdor.check(file).files, 1)
                self.assertFalse(file.closed)
        self.assertEqual(gazhdor.to_csv(io.BytesIO(BYTES)), gazhdor.to_csv(BYTES))
        self.assertEqual(gazhdor.show(io.BytesIO(BYTES)), gazhdor.show(BYTES))
        self.assertEqual(list(gazhdor.table(io.BytesIO(BYTES))), list(gazhdor.table(BYTES)))
        ends, writer = os.pipe()
        with open(ends, "rb") as pipe:
            os.write(writer, BYTES)
            os.close(writer)
            self.assertEqual(gazhdor.check(pipe).files, 1)
        # More than is read at once.
        self.assertEqual(gazhdor.check(io.BytesIO(700 * BYTES)).files, 700)

    def test_text(self):
        class Upload:
            parts = 9

            def read(self, size):
                self.parts -= 1
                return "text" if self.parts > 0 else ""

        with open(RIDE) as text:
            for source in (text, io.StringIO("text"), Upload()):
                for call in (gazhdor.check, gazhdor.table_text, lambda source: next(gazhdor.table(source))):
                    with self.assertRaises(gazhdor.NotBinary) as caught:
                        call(source)
        self.assertIsInstance(caught.exception, TypeError)
        self.assertEqual(str(caught.exception), "the file object's read returned str, and not bytes")
        with self.assertRaises(gazhdor.NotBinary) as caught:
            gazhdor.check(io.StringIO())
        self.assertEqual(str(caught.exception),
            "the file object is opened as text, which has no bytes: open it as 'rb'")

    def test_no_source(self):
        for source in (None, 5, ["ride.fit"], object()):
            with self.assertRaises(TypeError) as caught:
                gazhdor.check(source)
            self.assertEqual(str(caught.exception),
                f"a source is a path, bytes or a binary file object, and not {type(source).__name__}")

    def test_reads_that_fail(self):
        broken = OSError(5, "Input/output error")
        cut = gzip.open(io.BytesIO(gzip.compress(BYTES)[:-40]))
        for source, kind, count, what in (
            (Slow(1000, broken), OSError, 1000, "[Errno 5] Input/output error"),
            (Slow(1000, KeyError("chunk")), KeyError, 1000, "'chunk'"),
            (Slow(1000), type(None), 1000, "it has no bytes yet, and doesn't wait for them"),
            (cut, EOFError, None, "Compressed file ended before the end-of-stream marker was reached"),
            (gzip.open(io.BytesIO(b"no gzip")), OSError, 0, "Not a gzipped file (b'no')"),
            ("/proc/self/mem", OSError, 0, "[Errno 5] Input/output error"),
        ):
            with self.assertRaises(gazhdor.ReadFailed) as caught:
                gazhdor.table_text(source)
            error = caught.exception
            self.assertIsInstance(error.__cause__, kind)
            self.assertEqual(str(error), f"the read failed after {error.count} bytes: {what}")
            if count is not None:
                self.assertEqual(error.count, count)
            sent = pickle.loads(pickle.dumps(error))
            self.assertEqual((type(sent), str(sent), sent.count), (gazhdor.ReadFailed, str(error), error.count))
        self.assertIsInstance(error, OSError)
        # Where memory is refused, that is what it is.
        with self.assertRaises(MemoryError):
            gazhdor.check(Slow(1000, MemoryError()))


class Tables(unittest.TestCase):
    def test_rows_are_the_points(self):
        wanted = list(points())
        rows = [row for row in gazhdor.table(RIDE) if row.position_lat is not None]
        self.assertEqual(len(rows), len(wanted))
        for row, (when, lat, lon, elevation) in zip(rows, wanted):
            self.assertEqual(row.file, 1)
            self.assertEqual(row.timestamp, when)
            self.assertEqual(row.timestamp.utcoffset(), datetime.timedelta(0))
            # a semicircle is 180 / 2^31 degrees, and an altitude is told in fifths of a metre
            self.assertAlmostEqual(row.position_lat, lat, delta=180 / 2**31)
            self.assertAlmostEqual(row.position_long, lon, delta=180 / 2**31)
            self.assertAlmostEqual(row.altitude, elevation, delta=0.2)
            self.assertIsNone(row.heart_rate)

    def test_files(self):
        count = len(list(gazhdor.table(RIDE)))
        found = [(number, len(list(rows))) for number, rows in gazhdor.files(2 * BYTES)]
        self.assertEqual(found, [(1, count), (2, count)])

    def test_partial(self):
        whole = list(gazhdor.table(RIDE))
        with self.assertRaises(gazhdor.Truncated) as caught:
            next(gazhdor.table(BYTES[:2000]))
        self.assertEqual((caught.exception.place, caught.exception.reason, caught.exception.answer.good),
            (2000, None, False))
        rows = []
        with self.assertRaises(gazhdor.Truncated):
            for row in gazhdor.table(BYTES[:2000], partial=True):
                rows.append(row)
        self.assertTrue(0 < len(rows) < len(whole))
        self.assertEqual(rows, whole[: len(rows)])

    def test_text(self):
        lines = gazhdor.table_text(RIDE).splitlines()
        self.assertEqual(lines[0], ",".join(gazhdor.Row._fields))
        self.assertEqual(len(lines), 1 + len(list(gazhdor.table(RIDE))))


class Texts(unittest.TestCase):
    def test_both_ways(self):
        for chain in (BYTES, 2 * BYTES):
            self.assertEqual(gazhdor.from_csv(gazhdor.to_csv(chain)), chain)
            self.assertEqual(gazhdor.from_csv(gazhdor.to_csv(chain).encode()), chain)

    def test_bad_texts(self):
        head = "row,a,b,c,d,e,f\n"
        for text, row, column in (("", 1, None), (head, 2, None), (head + "end,,,,,,\n", 2, None),
                (head + "file,14,32,65536,sum,,\nend,,,,,,\n", 2, 4)):
            with self.assertRaises(gazhdor.TextRefused) as caught:
                gazhdor.from_csv(text)
            self.assertEqual((caught.exception.row, caught.exception.column, caught.exception.place),
                (row, column, None))
        # the true checksum of this header is 0, for which zeros can't stand
        with self.assertRaises(gazhdor.TextRefused) as caught:
            gazhdor.from_csv(head + "file,14,32,46477,zero,,\nend,,,,,,\n")
        self.assertIsNone(caught.exception.row)

    def test_paths_are_no_texts(self):
        for no_text in (None, 5, pathlib.Path("ride.csv")):
            with self.assertRaises(TypeError):
                gazhdor.from_csv(no_text)

    def test_show(self):
        self.assertTrue(gazhdor.show(RIDE).startswith("file 1: header 14, "))
        with self.assertRaises(gazhdor.Refused):
            gazhdor.show(BYTES + b"\xff\xff")
        self.assertEqual(gazhdor.show(BYTES + b"\xff\xff", partial=True), gazhdor.show(BYTES))


class Threads(unittest.TestCase):
    def test_four(self):
        wanted, found = gazhdor.table_text(BYTES), []
        work = lambda: found.extend(gazhdor.table_text(BYTES) == wanted and gazhdor.check(BYTES).files == 1
            for _ in range(100))
        four = [threading.Thread(target=work) for _ in range(4)]
        for thread in four:
            thread.start()
        for thread in four:
            thread.join()
        self.assertEqual(found, 400 * [True])


class Processes(unittest.TestCase):
    def test_rows_and_faults_are_sent(self):
        """Other processes answer what this one would: a table, and where a file is refused or truncated."""
        rows = list(gazhdor.table(RIDE))
        self.assertEqual(pickle.loads(pickle.dumps(rows)), rows)
        answer = pickle.loads(pickle.dumps(gazhdor.check(BYTES[:20])))
        self.assertEqual((answer.good, answer.place, str(answer)), (False, 20, "truncated at byte 20"))
        with multiprocessing.Pool(2) as pool:
            self.assertEqual(pool.map(gazhdor.table_text, [RIDE, BYTES]), 2 * [gazhdor.table_text(RIDE)])
            for source, kind, place, reason in ((BYTES[:20], gazhdor.Truncated, 20, None),
                    (b"\x0d", gazhdor.Refused, 0, "HeaderSize")):
                with self.assertRaises(kind) as caught:
                    pool.apply_async(gazhdor.to_csv, (source,)).get(timeout=60)
                self.assertEqual((caught.exception.place, caught.exception.reason), (place, reason))
            with self.assertRaises(gazhdor.TextRefused) as caught:
                pool.apply_async(gazhdor.from_csv,
                    ("row,a,b,c,d,e,f\nfile,14,32,65536,sum,,\nend,,,,,,\n",)).get(timeout=60)
            self.assertEqual((caught.exception.row, caught.exception.column), (2, 4))


class Shell(unittest.TestCase):
    """What the command does; how it starts is seen by `run`."""

    def test_check(self):
        done = run("-m", "gazhdor", "check", RIDE)
        self.assertEqual((done.returncode, done.stdout, done.stderr), (0, f"{RIDE}: ok, 1 file\n".encode(), b""))
        done = command("check", RIDE, "-", input=BYTES[:20])
        self.assertEqual((done.returncode, done.stdout), (1, f"{RIDE}: ok, 1 file\n-: truncated at byte 20\n".encode()))

    def test_both_ways(self):
        text = command("to-csv", RIDE).stdout
        self.assertEqual(run("-m", "gazhdor", "from-csv", input=text).stdout, BYTES)

    def test_errors(self):
        done = run("-m", "gazhdor")
        self.assertEqual((done.returncode, command().returncode, command().stderr), (2, 2, done.stderr))
        self.assertEqual(command("frob", RIDE).returncode, 2)
        for word in ("-h", "--help"):
            done = command(word)
            self.assertEqual((done.returncode, done.stdout[:6]), (0, b"usage:"))
        self.assertEqual(command("--version").stdout, f"gazhdor {VERSION}\n".encode())
        none = os.path.join(WORK, "none.fit")
        done = command("check", none, WORK, RIDE)
        self.assertEqual((done.returncode, done.stdout), (4, f"{RIDE}: ok, 1 file\n".encode()))
        told = (none, "No such file or directory"), (WORK, "Is a directory")
        self.assertEqual(done.stderr, "".join(f"{path}: {why}\n" for path, why in told).encode())

    def test_names(self):
        """A name that begins with a dash, and one that is not UTF-8, whatever the language of the shell is."""
        names = (b"-dash.fit", b"a \xff.fit")
        for name in names:
            with open(os.path.join(os.fsencode(WORK), name), "wb") as file:
                file.write(BYTES)
        for language in ("C", "C.UTF-8"):
            how = dict(cwd=WORK, env=dict(os.environ, LC_ALL=language, PYTHONIOENCODING="ascii:strict"))
            done = run("-m", "gazhdor", "check", "--", *names, **how)
            said = b"".join(name + b": ok, 1 file\n" for name in names)
            self.assertEqual((done.returncode, done.stdout, done.stderr), (0, said, b""))
        for name in names:
            os.remove(os.path.join(os.fsencode(WORK), name))

    def test_before_a_fault(self):
        """What comes before a fault is written, as the program does it; of a text that is refused nothing is."""
        for kind in ("table", "to-csv", "show"):
            whole = command(kind, RIDE).stdout
            done = command(kind, "-", input=BYTES[:2000])
            self.assertEqual((done.returncode, done.stderr), (1, b"-: truncated at byte 2000\n"))
            self.assertTrue(0 < len(done.stdout) < len(whole) and whole.startswith(done.stdout))
        done = command("from-csv", input=b"row,a,b,c,d,e,f\n")
        self.assertEqual((done.returncode, done.stdout, done.stderr),
            (1, b"", b"-: row 2 refused: the text ends where a row must follow that begins with file\n"))
        done = command("table", input=b"\x0d")
        self.assertEqual((done.returncode, done.stderr), (1, b"-: refused at byte 0: HeaderSize\n"))

    def test_output_that_fails(self):
        """A closed pipe ends quietly; a full disk and no output at all are said. No case ends with a trace of calls."""
        words = [sys.executable, "-m", "gazhdor", "to-csv", *(50 * [RIDE])]
        with subprocess.Popen(words, stdout=subprocess.PIPE, stderr=subprocess.PIPE) as process:
            self.assertEqual(process.stdout.read(3), b"row")
            process.stdout.close()
            self.assertEqual((process.stderr.read(), process.wait()), (b"", 4))
        with open("/dev/full", "wb") as full:
            done = subprocess.run(words, stdout=full, stderr=subprocess.PIPE)
        self.assertEqual((done.returncode, done.stderr), (4, b"output: No space left on device\n"))
        for closed, said in ((">&-", b"there is no standard output\n"), ("<&-", b"-: there is no standard input\n")):
            done = subprocess.run(["sh", "-c", f'"$0" -m gazhdor check {closed}', sys.executable],
                stdin=subprocess.DEVNULL, stdout=subprocess.PIPE, stderr=subprocess.PIPE)
            self.assertEqual((done.returncode, done.stderr), (4, said))


class Examples(unittest.TestCase):
    def compare(self, found, path):
        """Records of the database with the rows of the table before a fault; these have seven decimals of a degree."""
        rows = [line.split(",") for line in gazhdor.table_text(path, partial=True).splitlines()[1:]]
        self.assertEqual(len(found), len(rows))
        for (_, file, when, lat, lon, *others), row in zip(found, rows):
            self.assertEqual((str(file), when), (row[0], row[1].replace("T", " ").replace("Z", "+00:00")))
            self.assertEqual((lat is None, lon is None), (not row[2], not row[3]))
            self.assertAlmostEqual(lat or 0, float(row[2] or 0), delta=6e-8)
            self.assertAlmostEqual(lon or 0, float(row[3] or 0), delta=6e-8)
            self.assertEqual(others, [float(cell) if cell else None for cell in row[4:]])

    def odd(self, size, cell, time):
        """A file of two records, with a power that sqlite3 has no whole number for, and with one or two heart rates."""
        rows = ["row,a,b,c,d,e,f", "file,14,32,2065,sum,,", "def,0,0,little,20,3,", "fdef,253,4,134,,,",
            f"fdef,3,{size},2,,,", "fdef,7,8,143,,,"]
        for seconds, power in ((time, "18446744073709551614"), (time + 60, "")):
            rows += ["data,0,,record,,,", f"field,timestamp,{seconds},s,,,", f"field,heart_rate,{cell},bpm,,,",
                f"field,power,{power},watts,,,"]
        path = os.path.join(WORK, f"odd{time}{cell}.fit")
        with open(path, "wb") as file:
            file.write(gazhdor.from_csv("\n".join([*rows, "end,,,,,,\n"])))
        return path

    def test_many_rides(self):
        """Ten rides of two minutes, one that is cut, one that isn't there, and odd ones, loaded by two processes."""
        folder, database = os.path.join(WORK, "rides"), os.path.join(WORK, "rides.db")
        self.assertEqual(run(example("make_rides.py"), folder, "10", "2").returncode, 0)
        paths = sorted(os.path.join(folder, name) for name in os.listdir(folder))
        self.assertEqual(len(paths), 10)
        cut = os.path.join(WORK, "cut.fit")
        with open(paths[0], "rb") as whole, open(cut, "wb") as file:
            file.write(whole.read()[:1000])
        none = os.path.join(WORK, "none.fit")
        odd = [self.odd(size, cell, time) for size, cell, time in ((1, "60", 77), (2, "60|61", 1000000000),
            (2, "|60", 1000000000))]
        done = run(example("load_rides.py"), database, "2", *paths, cut, none, *odd)
        self.assertEqual((done.returncode, done.stderr), (0, b""))
        self.assertIn(b"15 files, 2 not good, 1", done.stdout)
        with sqlite3.connect(database) as into:
            self.assertEqual(into.execute("select count(*) from ride where finding = 'ok'").fetchone(), (13,))
            self.assertEqual(into.execute("select finding from ride where path = ?", (cut,)).fetchone(),
                ("truncated at byte 1000",))
            finding = into.execute("select finding from ride where path = ?", (none,)).fetchone()[0]
            self.assertIn("No such file or directory", finding)
            counted = "select count(*) from record join ride on ride.id = record.ride where finding = 'ok'"
            counts = into.execute(f"{counted} group by record.ride").fetchall()
            self.assertEqual(sorted(counts), 3 * [(2,)] + 10 * [(120,)])
            for path in (paths[3], cut, *odd):
                of_ride = "select record.* from record join ride on ride.id = record.ride where path = ?"
                found = into.execute(f"{of_ride} order by record.rowid", (path,)).fetchall()
                self.compare(found, path)
        into.close()
        # It fills no database that is there already.
        done = run(example("load_rides.py"), database, "2", cut)
        self.assertEqual((done.returncode, done.stderr), (1, f"load_rides.py: {database} is there already\n".encode()))

    def test_process_without_a_ride(self):
        """The process that begins last has its tables only when the other one has loaded all."""
        database, mark = os.path.join(WORK, "late.db"), os.path.join(WORK, "first")
        program = f"""import multiprocessing, os, sys, time
multiprocessing.set_start_method("fork")
sys.path.insert(0, {os.path.dirname(example("load_rides.py"))!r})
import load_rides
begin = load_rides.begin
def late(folder):
    try:
        os.mkdir({mark!r})
    except FileExistsError:
        open(os.path.join(folder, str(os.getpid()) + ".db"), "xb").close()
        time.sleep(1)
    begin(folder)
load_rides.begin = late
load_rides.main({database!r}, 2, [{RIDE!r}])
"""
        done = run("-c", program)
        self.assertEqual((done.returncode, done.stderr), (0, b""))
        with sqlite3.connect(database) as into:
            self.assertEqual(into.execute("select count(*) from record").fetchone(), (144,))
        into.close()

    def test_pandas(self):
        if not importlib.util.find_spec("pandas"):
            left_out("there is no pandas, so its example isn't tried")
        done = run(example("pandas_table.py"), RIDE)
        self.assertEqual(done.returncode, 0, done.stderr)
        self.assertIn(b"datetime64[ns, UTC]", done.stdout)


if __name__ == "__main__":
    unittest.main()
