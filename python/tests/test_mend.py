"""What the module gazhdor makes of files that are broken off or damaged, of rides as GPX, what it says of refused bytes
and cells, and that examples/python/anonymise.py leaves no place. Files are written here, as the FIT protocol has
them."""
import decimal
import json
import os
import pickle
import random
import re
import subprocess
import sys
import unittest
import xml.etree.ElementTree

from support import BYTES, RIDE, bytes_at, example, folder, in_tree, recording, run, text_at
from fits import (
    BYTE, DESCRIBE, FLOAT32, FLOAT64, SINT16, SINT32, STRING, UINT16, UINT32, UINT8, any_file, checksum, define,
    describe, fit, packed,
)

import gazhdor

WORK = folder()
MESSAGES = list(gazhdor.messages(BYTES))
GPX = "{http://www.topografix.com/GPX/1/1}"


def command(*words, **how):
    return run("-m", "gazhdor", *words, **(how or {"stdin": subprocess.DEVNULL}))


class Mend(unittest.TestCase):
    def test_cuts(self):
        """Of a ride that is cut anywhere all whole messages, in a good file; nothing of one without any record."""
        ends = [m.place for m in MESSAGES[1:]] + [len(BYTES) - 2]
        wanted, refused = [dict(m) for m in MESSAGES], 0
        for cut in [*range(0, 260), *range(260, len(BYTES), 61), *range(len(BYTES) - 8, len(BYTES) + 1)]:
            try:
                mended = gazhdor.mend(BYTES[:cut])
            except gazhdor.Truncated:
                refused += 1
                self.assertLess(cut, 14 + 6 + 3 * 4)
                continue
            self.assertTrue(gazhdor.check(mended))
            self.assertEqual([dict(m) for m in gazhdor.messages(mended)],
                [m for m, end in zip(wanted, ends) if end <= cut])
            self.assertEqual(mended[14:-2], BYTES[14 : len(mended) - 2])
        self.assertEqual((refused, gazhdor.mend(BYTES)), (14 + 6 + 3 * 4, BYTES))

    def test_recordings(self):
        """Recordings of each kind, broken off at thirteen places: all messages that are whole."""
        for kind in ("plain", "developer", "compressed", "turns", "definitions", "strings"):
            data = bytes_at(recording(kind, "20k"))
            whole = list(gazhdor.messages(data))
            for cut in range(1, 14):
                mended = gazhdor.mend(data[: len(data) * cut // 14])
                found = list(gazhdor.messages(mended))
                self.assertEqual([(m.place, dict(m)) for m in found], [(m.place, dict(m)) for m in whole[: len(found)]])
                # the message after the next one begins after the cut
                self.assertTrue(gazhdor.check(mended) and whole[len(found) + 1].place >= len(data) * cut // 14)

    def test_sizes(self):
        """A size that was never filled in, with a closing checksum and without, a wrong checksum, and bytes after the
        end."""
        head = BYTES[:4] + bytes(4) + BYTES[8:12]
        unfilled = head + checksum(head) + BYTES[14:-2]
        for broken in (unfilled, unfilled + checksum(unfilled), BYTES[:4] + bytes(4) + BYTES[8:], BYTES[:-1] + b"?",
                BYTES + b"\n", BYTES + b"junk" * 9, BYTES[:12] + b"??" + BYTES[14:]):
            self.assertFalse(gazhdor.check(broken))
            self.assertEqual(gazhdor.mend(broken), BYTES)

    def test_chains(self):
        """Of each file of a chain what is good of it."""
        small = fit(define(0, 20, [(3, 1, UINT8)]), b"\0\1", b"\0\2", b"\0\3")
        bad = bytearray(small)
        bad[-3 - 1] = 0x31  # the header of the third message has another local message type
        self.assertEqual(
            [m["heart_rate"] for m in gazhdor.messages(gazhdor.mend(small + bytes(bad) + small + small[:-3]))],
            [1, 2, 3, 1, 2, 1, 2, 3, 1, 2])
        self.assertEqual(gazhdor.mend(BYTES + BYTES[:2000])[: len(BYTES)], BYTES)
        begin = os.times().user
        self.assertEqual(gazhdor.check(gazhdor.mend((small + bytes(bad)) * 2000)).files, 4000)
        self.assertLess(os.times().user - begin, 60)

    def test_damaged(self):
        """Whatever is damaged, what comes back is good, or the fault is that of `check`."""
        r, count = random.Random(20260202), 0
        for _ in range(300):
            data = bytearray(any_file(r) + any_file(r))
            for _ in range(r.randrange(1, 4)):
                data[r.randrange(len(data))] = r.randrange(256)
            data = bytes(data[: r.randrange(len(data))] if r.random() < 0.5 else data)
            try:
                self.assertTrue(gazhdor.check(gazhdor.mend(data)))
                count += 1
            except gazhdor.FitError as fault:
                self.assertEqual(fault.answer, gazhdor.check(data))
        self.assertGreater(count, 100)

    def test_nothing(self):
        for data, kind in ((b"", gazhdor.Truncated), (b"PK\3\4" * 99, gazhdor.Refused), (BYTES[:14], gazhdor.Truncated),
                (b"\x0e\x30" + BYTES[2:], gazhdor.Refused)):
            with self.assertRaises(kind):
                gazhdor.mend(data)

    def test_shell(self):
        done = command("mend", input=BYTES[:2000])
        self.assertEqual((done.returncode, done.stdout), (0, gazhdor.mend(BYTES[:2000])))
        self.assertEqual(done.stderr, f"-: truncated at byte 2000; mended: {len(done.stdout)} of 2000 bytes\n".encode())
        done = command("mend", "-", input=b"\x0e\xff")
        self.assertEqual((done.returncode, done.stdout), (1, b""))
        self.assertEqual(done.stderr, b"mend: -: refused at byte 1: Protocol\n")
        into = os.path.join(WORK, "mended.fit")
        cases = ((RIDE,), 0), ((RIDE, into), 0), ((RIDE, into), 2), (("-f", RIDE, into), 0), ((RIDE, into, into), 2)
        for words, status in cases:
            self.assertEqual(command("mend", *words).returncode, status)
        self.assertEqual(bytes_at(into), BYTES)


class Gpx(unittest.TestCase):
    def points(self, text):
        root = xml.etree.ElementTree.fromstring(text)
        return [(p.get("lat"), p.get("lon"), *(p.findtext(GPX + name) for name in ("ele", "time")))
            for p in root.iter(GPX + "trkpt")]

    def test_ride(self):
        """The points are those of which another program made the ride; altitudes are in steps of 0.2 m there."""
        wanted = self.points(text_at(in_tree("examples/ride.gpx")))
        found = self.points(gazhdor.gpx(RIDE))
        self.assertEqual(len(found), len(wanted))
        for point, other in zip(found, wanted):
            self.assertEqual(point[3], other[3])
            for place in (0, 1, 2):
                self.assertAlmostEqual(float(point[place]), float(other[place]), delta=(6e-7, 6e-7, 0.11)[place])

    def test_odd(self):
        """No place, a place that isn't on the earth, a time of the device's own, an extension; a track for each
        file."""
        lat, long = 2**29, -(2**30)
        fields = [(253, 4, UINT32), (0, 4, SINT32), (1, 4, SINT32), (3, 1, UINT8), (4, 1, UINT8), (13, 1, 1)]
        points = ((10**9, lat, long, 120, 90, -5), (77, lat, long, 255, 255, 127), (10**9, 2**31 - 1, long, 1, 1, 1),
            (10**9, 2**30 + 10, long, 1, 1, 1), (10**9, lat, -(2**31), 0, 254, 1))
        text = gazhdor.gpx(2 * fit(define(0, 20, fields), *(packed("<BIiiBBb", 0, *point) for point in points)))
        self.assertEqual(self.points(text)[:3], [("45.0000000", "-90.0000000", None, "2021-09-08T01:46:40Z"),
            ("45.0000000", "-90.0000000", None, None), ("45.0000000", "-180.0000000", None, "2021-09-08T01:46:40Z")])
        self.assertEqual(re.findall(r"<gpxtpx:(\w+)>([^<]+)<", text)[:4],
            [("atemp", "-5"), ("hr", "120"), ("cad", "90"), ("atemp", "1")])
        self.assertEqual((text.count("<trk>"), len(self.points(text))), (2, 6))

    def test_faults(self):
        cut = gazhdor.gpx(BYTES[:2000], partial=True)
        self.assertEqual(self.points(cut), self.points(gazhdor.gpx(RIDE))[: len(self.points(cut))])
        self.assertGreater(len(self.points(cut)), 50)
        with self.assertRaises(gazhdor.Truncated):
            gazhdor.gpx(BYTES[:2000])
        done = command("gpx", input=BYTES[:2000])
        self.assertEqual((done.returncode, done.stdout.decode(), done.stderr), (1, cut, b"-: truncated at byte 2000\n"))
        self.assertEqual(self.points(gazhdor.gpx(fit())), [])


class Words(unittest.TestCase):
    def test_reasons(self):
        """The words are those of the page of the program, of which docs/USE.md has the same."""
        page = dict(re.findall(r"^\.B (\w+)\n(.*)$", text_at(in_tree("install.d/fit.1")).split(".SH REASONS")[1], re.M))
        small = fit(define(0, 20, [(3, 1, UINT8)]), b"\0\1")
        for data, reason in (
            (b"\x0d", "HeaderSize"), (b"\x0e\x30", "Protocol"), (small[:4] + b"\5\0\0\0" + small[8:], "NoFit"),
            (small[:9] + b"?", "Signature"), (small[:12] + b"??", "HeaderSum"),
            (fit(b"\x10"), "NoFit"), (fit(b"\x51" + bytes(9)), "ReservedBit"),
            (fit(b"\1" + bytes(9)), "UndefinedLocal"), (fit(define(0, 20, [(3, 9, UINT8)]), b"\0" * 7), "Overrun"),
            (fit(b"\x40\0\2\0\0\0"), "Architecture"), (small[:-1] + b"?", "FileSum"),
        ):
            answer = gazhdor.check(data)
            self.assertEqual((answer.reason, answer.explanation),
                (reason, f"The byte at {answer.place} {page[reason]}."))
        self.assertEqual(gazhdor.check(small).explanation, None)
        self.assertEqual(gazhdor.check(small[:20]).explanation, "The bytes end at 20, before the file does.")

    def refused(self, text):
        with self.assertRaises(gazhdor.TextRefused) as caught:
            gazhdor.from_csv(text)
        return caught.exception

    def test_advice(self):
        text = gazhdor.to_csv(RIDE)
        for old, new, advice in (
            ("altitude,408.0", "altitude,408.1", "408.1: steps of 0.2"),
            ("altitude,408.0", "altitude,408", "408: 408.0"), ("altitude,408.0", "altitude,-0.0", "-0.0: 0.0"),
            ("altitude,408.0", "altitude,13000.0", "13000.0: -500.0 to 12606.8"),
            ("altitude,408.0", "altitude,12607.0", "12607.0: an empty cell, as this number stands for no value"),
            ("altitude,408.0", "altitude,4e2", "4e2: a number with decimals, as -500.0"),
            ("speed,0.000", "speed,0.0001", "0.0001: steps of 0.001"), ("type,6", "type,6|7", "6|7: one number"),
            ("position_lat,564310981", "position_lat,2147483648", "2147483648: -2147483648 to 2147483646"),
            ("altitude,408.0,m", "altitude,408.0,km", "km: the unit is m"),
            ("altitude,408.0,m", "elevation,408.0,m", "elevation: the name is altitude"),
            ("altitude,408.0,m,", "altitude,408.0,m,x", "x: an empty cell"),
            ("type,6,", "type,six,", "six: a whole number, as 12"),
            ("Lake loop", 17 * "x", 17 * "x" + ": a text of at most 16 bytes in UTF-8"),
            ("data,0,,file_id", "data,9,,file_id", "9: a local message type that is defined: 0, 1, 2, 3, 4, 5"),
            ("data,0,,file_id", "data,0,,lap", "lap: the message is file_id"),
            ("data,0,,file_id", "data,0,32,file_id", "32: 0 to 31, or empty"),
            ("def,0,0,little", "def,16,0,little", "16: 0 to 15"),
            ("def,0,0,little", "def,0,0,middle", "middle: little or big"),
            ("file,14", "file,13", "13: 12, or 14 to 255"),
            ("end,,,,,,\n", "", "the text ends where a row must follow that begins with def or data or end"),
            ("row,a", "rows,a", "the first row is row,a,b,c,d,e,f"),
            ("data,0,,file_id,,,\n", "data,0,,file_id,,\n", "a row has seven cells, and not 6"),
            ("data,0,,file_id", "dates,0,,file_id", "dates: def or data or end"),
            ("altitude,408.0", "altitude,\x1b[2J", "'\\x1b[2J': a number with decimals, as -500.0"),
        ):
            error = self.refused(text.replace(old, new, 1))
            self.assertEqual((error.advice, str(error)), (advice, f"{error.answer}: {advice}"))
            sent = pickle.loads(pickle.dumps(error))
            self.assertEqual((sent.advice, str(sent), sent.answer), (advice, str(error), error.answer))

    def test_followed(self):
        """A step that is named does: the cell is good once it is a multiple of it."""
        text = gazhdor.to_csv(RIDE)
        for _, name, cell, unit in re.findall(r"^(field),(\w+),(-?\d+\.\d+),(.*?),", text, re.M)[:40]:
            error = self.refused(text.replace(f"{name},{cell},{unit}", f"{name},{cell}1,{unit}", 1))
            step = re.fullmatch(r".*: steps of ([\d.]+)", error.advice).group(1)
            other = (decimal.Decimal(cell) + decimal.Decimal(step)).quantize(decimal.Decimal(cell))
            self.assertTrue(gazhdor.check(gazhdor.from_csv(text.replace(f"{name},{cell},{unit}",
                f"{name},{other},{unit}", 1))))

    def test_other_fields(self):
        """Developer fields, floats, bytes, several numbers; and texts that are no rows at all, of which nothing is
        said, and nothing fails."""
        before = DESCRIBE, describe(0, 0, UINT16, b"Form power", b"W")
        text = gazhdor.to_csv(fit(*before, define(0, 20, [(200, 4, FLOAT32), (201, 2, BYTE), (202, 4, UINT16)],
            [(0, 2, 0)]), b"\0" + packed("<f2s2H", 1.5, b"\1\2", 7, 8) + b"\2\1"))
        for old, new, advice in (
            ("0x3FC00000", "1.5", "1.5: 0x and 8 capital hexadecimal digits, which are the bits of the number"),
            ("0x0102", "0x01", "0x01: 0x and 4 capital hexadecimal digits"),
            ("7|8", "7", "7: 2 numbers, with | between them"),
            ("Form power,258", "Form power,70000", "70000: 0 to 65534"),
            ("Form power,258,W", "Form power,258,J", "J: the unit is W"),
            ("Form power,258", "Power,258", "Power: the name is Form power"),
        ):
            self.assertEqual(self.refused(text.replace(old, new, 1)).advice, advice)
        r = random.Random(20260303)
        letters = "0x|,\n\"\r\ufeff-.9\x00\xe9fdevata"
        for _ in range(2000):
            at = r.randrange(len(text))
            changed = text[:at] + "".join(r.choice(letters) for _ in range(r.randrange(1,
                9))) + text[at + r.randrange(9) :]
            try:
                gazhdor.from_csv(changed)
            except gazhdor.TextRefused as error:
                self.assertIsInstance(error.advice, (str, type(None)))

    def test_shell(self):
        text = gazhdor.to_csv(RIDE).replace("altitude,408.0", "altitude,408.1", 1)
        done = command("from-csv", input=text.encode())
        self.assertEqual((done.returncode, done.stdout, done.stderr),
            (1, b"", b"-: row 72 column 3 refused: 408.1: steps of 0.2\n"))


class Json(unittest.TestCase):
    def test_names(self):
        path = os.path.join(WORK, "names.tsv")
        with open(path, "w", encoding="utf-8") as file:
            file.write("message\tfield\tfield name\nrecord\t3\tpulse\n")
        data = fit(define(0, 20, [(3, 1, UINT8), (83, 2, UINT16)]), b"\0\x78" + packed("<H", 812))
        for words, fields, units in (
            ((), {"heart_rate": 120, "field_83": 812}, {"heart_rate": "bpm"}),
            (("--extra",), {"heart_rate": 120, "vertical_ratio": 8.12},
                {"heart_rate": "bpm", "vertical_ratio": "percent"}),
            (("--extra", "--names", path), {"pulse": 120, "vertical_ratio": 8.12},
                {"pulse": "bpm", "vertical_ratio": "percent"}),
                    (("--names", path, "--"), {"pulse": 120, "field_83": 812}, {"pulse": "bpm"}),
        ):
            told = json.loads(command("json", *words, input=data).stdout)
            self.assertEqual((told["fields"], told["units"]), (fields, units))
        with open(path, "a", encoding="utf-8") as file:
            file.write("record\t3\t.time\n")
        for words, said in ((("--names", path), b"line 3: '.time' can't be a name"), (("--names",), b"usage:"),
                (("--names", path + "x"), b"No such file")):
            done = command("json", *words, input=data)
            self.assertEqual((done.returncode, done.stdout), (2, b""))
            self.assertIn(said, done.stderr)


class Anonymise(unittest.TestCase):
    def test_places(self):
        """No place is left, in whatever field and of whatever base type; all else is."""
        lat, long = 564310981, 102220222
        place = packed("<2i", lat, long)
        before = DESCRIBE, describe(0, 0, SINT32, b"spot", b""), describe(0, 1, FLOAT64, b"Latitude", b""), describe(0,
            2, FLOAT32, b"x", b"deg"), describe(0, 3, STRING, b"gps place", b"")
        developer = [(0, 4, 0), (1, 8, 0), (2, 4, 0), (3, 8, 0)]
        file = fit(
            *before, define(0, 20, [(253, 4, UINT32), (0, 4, SINT32), (1, 4, SINT32), (3, 1, UINT8)], developer),
            b"\0" + packed("<I2iB", 10**9, lat, long, 120) + packed("<idf", lat, 47.3, 47.3) + b"47.3 N\0\0",
            define(1, 18, [(5, 1, 0), *((number, 4, SINT32) for number in range(29, 33)), (3, 4, UINT32),
                (9, 4, UINT32)]), b"\1\2" + 2 * place + packed("<2I", lat, 855846),
            define(2, 65280, [(9, 8, SINT32), (10, 2, SINT16), (11, 4, 5)], big=True),
            b"\2" + packed(">2ihi", lat, long, -7, lat),
        )
        source, into = (os.path.join(WORK, name) for name in ("places.fit", "none.fit"))
        with open(source, "wb") as output:
            output.write(file)
        words = example("anonymise.py"), source, into
        done = run(*words, encoding="utf-8")
        self.assertEqual((done.returncode, done.stderr), (0, ""))
        data = bytes_at(into)
        for hidden in (packed("<i", lat), packed("<i", long), packed(">i", lat), packed(">i", long), packed("<d", 47.3),
                packed("<f", 47.3), b"47.3"):
            self.assertIn(hidden, file)
            self.assertNotIn(hidden, data)
        self.assertEqual([(m.name, {key: value for key, value in m.items() if m.values(key)})
            for m in gazhdor.messages(data) if m.number not in (206, 207)],
            [("record", {"timestamp": 10**9, "heart_rate": 120}), ("session", {"sport": 2, "total_distance": 8558.46}),
                (None, {10: -7})])
        self.assertEqual(done.stdout.count("emptied: "), 13)
        self.assertIn("emptied: session nec_lat, 1 times\n", done.stdout)
        # it doesn't write over a file
        self.assertNotEqual(run(*words).returncode, 0)

    def test_ride(self):
        sys.path.insert(0, example(""))
        import anonymise

        data, counts = anonymise.anonymised(RIDE)
        rows, wanted = list(gazhdor.table(data)), list(gazhdor.table(RIDE))
        self.assertEqual(rows, [row._replace(position_lat=None, position_long=None) for row in wanted])
        self.assertEqual(sum(counts.values()), 2 * len(rows) + 4)
        self.assertEqual(anonymise.anonymised(data), (data, {}))


if __name__ == "__main__":
    unittest.main()
