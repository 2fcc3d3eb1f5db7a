"""Whether the messages of the module gazhdor are those that another program reads: the module Garmin::FIT for Perl,
which Debian's pytrainer has. It is asked for each message and field of the ride, and of recordings that
bench/recording.c makes: numbers, names, items, and values where its profile has a scale. And what the names of
gazhdor.EXTRA say is compared with its profile, which is an older one."""
import math
import os
import re
import shutil
import struct
import subprocess
import sys
import unittest

from support import RIDE, folder, in_tree, left_out, recording, text_at

import gazhdor

# where Debian's pytrainer has it
FOLDER = "/usr/share/pytrainer/plugins/garmin-fit/bin"
WORK = folder()
FLOAT32, FLOAT64 = 8, 9
# developer_data_id and field_description, which Garmin::FIT reads for itself: it gives the names of developer fields
KEPT = (207, 206)
KINDS = ("plain", "developer", "compressed", "turns", "definitions", "strings")


def setUpModule():
    if not (shutil.which("perl") and os.path.isfile(os.path.join(FOLDER, "Garmin", "FIT.pm"))):
        left_out("there is no Garmin::FIT of pytrainer, so what it reads is not compared")


def asked(script, *words):
    """The lines that a script of this folder writes, each as its words."""
    path = os.path.join(os.path.dirname(os.path.abspath(__file__)), script)
    said = subprocess.run(["perl", path, FOLDER, *words], stdout=subprocess.PIPE, check=True, encoding="latin-1").stdout
    return [line.split("\t") for line in said.splitlines()]


def told(path):
    """The lines of garmin.pl for a file, each as its words."""
    return asked("garmin.pl", path)


def developer_name(name):
    """The name of a developer field as Garmin::FIT spells it: one underscore for blanks, and the code of each other
    character."""
    return re.sub(r"[^\w ]", lambda other: f"_{ord(other[0]):02x}_", re.sub(r"\s+", " ", name), flags=re.A).replace(" ",
        "_")


def items_of(field, kind):
    """The items of a field as numbers: bytes of a text, floats by their bits."""
    items = field.raw if isinstance(field.raw, (tuple, bytes)) else (field.raw,)
    if kind == FLOAT32:
        return [struct.unpack("<f", struct.pack("<I", item))[0] for item in items]
    if kind == FLOAT64:
        return [struct.unpack("<d", struct.pack("<Q", item))[0] for item in items]
    return list(items)


class Garmin(unittest.TestCase):
    def compare_field(self, field, words):
        number, index, name, kind, scale, offset, items = words
        self.assertEqual((field.number, field.developer), (int(number), int(index) if index else None))
        if field.name and field.developer is not None:
            self.assertEqual(developer_name(field.name), name)
        elif field.name:
            self.assertEqual(field.name, name)
        numbers = [float(item) if int(kind) in (FLOAT32, FLOAT64) else int(item) for item in items.split()]
        self.assertEqual(repr(items_of(field, int(kind))), repr(numbers))
        if field.name and (scale or offset) and field.value is not None:
            values = field.value if isinstance(field.value, tuple) else (field.value,)
            for value, item in zip(values, numbers):
                if value is not None:
                    self.assertTrue(math.isclose(value, item / float(scale or 1) - float(offset or 0), rel_tol=1e-12,
                        abs_tol=1e-9), (field.name, value, item))
                    self.scaled += 1

    def compare(self, path):
        self.scaled = messages = 0
        lines = iter(told(path))
        for message in gazhdor.messages(path):
            if message.number in KEPT:
                continue
            word, number, name = next(lines)
            self.assertEqual((word, message.number), ("message", int(number)))
            if message.name:
                self.assertEqual(message.name, name)
            for field in message.fields:
                word, *words = next(lines)
                self.assertEqual(word, "field")
                self.compare_field(field, words)
            messages += 1
        self.assertIsNone(next(lines, None))
        return messages, self.scaled

    def test_ride(self):
        messages, scaled = self.compare(RIDE)
        self.assertGreater(messages, 100)
        self.assertGreater(scaled, 100)

    def test_recordings(self):
        for kind in KINDS:
            path = recording(kind, "20k")
            with self.subTest(kind):
                messages, scaled = self.compare(path)
                self.assertGreater(messages, 3)
                if kind != "strings":
                    self.assertGreater(scaled, 3)

    def test_written(self):
        """What is written from values is read as these."""
        path = os.path.join(WORK, "written.fit")
        with gazhdor.Writer(path) as out:
            out.write("file_id", type=4, manufacturer=255, time_created=1147937400)
            power = out.describe("Form power", "watts", "uint16")
            record = out.define("record", ["timestamp", "position_lat", "altitude", "heart_rate", "distance", power])
            for k in range(300):
                record.write({"timestamp": 1147937400 + k, "position_lat": k / 7, "altitude": k / 3,
                    "heart_rate": k % 254, "distance": k * 3.3, power: 2 * k})
            columns = {"timestamp": [1147937700 + k for k in range(300)], "altitude": [k / 3 for k in range(300)],
                "distance": [k * 7.7 for k in range(300)]}
            out.define("record", list(columns), big=True).columns(columns)
            out.write("sport", name="Kaltern am See", sport=2)
            out.write("hrv", time=(0.5, 0.625, 0.75))
            out.write("session", timestamp=1147938000, start_time=1147937400, total_elapsed_time=600.5,
                total_distance=2310.25, avg_speed=3.85)
        self.assertEqual(self.compare(path), (604, 2 * 300 + 2 * 300 + 3 + 3))

    def test_edited(self):
        path = os.path.join(WORK, "edited.fit")
        for words in (["edit", "--drop", "position", "--shift", "3600", RIDE], ["join", "--one", RIDE, path]):
            into = path if words[0] == "edit" else os.path.join(WORK, "joined.fit")
            subprocess.run([sys.executable, "-m", "gazhdor", *words, into], check=True, stderr=subprocess.DEVNULL)
            messages, scaled = self.compare(into)
            self.assertGreater(scaled, 300)


class Types(unittest.TestCase):
    def test_base_types(self):
        """The base types of the fields whose type has a name there."""
        told = {(int(message), int(field)): int(base) for message, field, base in asked("garmin_types.pl")}
        compared = 0
        for path in ("profile/fields.tsv", "profile/extra.tsv"):
            lines = text_at(in_tree(path)).splitlines()
            rows = [line.split("\t") for line in lines if not line.startswith(("#", "message\t"))]
            for row in rows:
                place = (int(row[0]), int(row[2])) if row[2] else None
                if place in told and row[-1]:
                    self.assertEqual(CODES[row[-1]] & 0x7F, told[place], row)
                    compared += 1
        self.assertGreater(compared, 90)


# Where Garmin::FIT calls a type otherwise.
TYPE_SPELLINGS = {"power_zone_calc": "pwr_zone_calc"}


class Words(unittest.TestCase):
    def test_words(self):
        """The words of each number that both know."""
        known, compared = {}, 0
        for kind, number, word in asked("garmin_words.pl"):
            known.setdefault((kind, number), []).append(word.lower())
        for line in text_at(in_tree("profile/words.tsv")).splitlines()[1:]:
            kind, number, word = line.split("\t")
            if (kind, number) in known:
                self.assertIn(word, known[kind, number], (kind, number))
                compared += 1
        self.assertGreater(compared, 700)

    def test_types(self):
        """The types of the fields for which both have one."""
        known = {(message, field): kind for message, field, kind in asked("garmin_words.pl") if message.isdigit()}
        compared = 0
        for path in ("profile/fields.tsv", "profile/extra.tsv"):
            for row in (line.split("\t") for line in text_at(in_tree(path)).splitlines() if line[0].isdigit()):
                kind = known.get((row[0], row[2]))
                if kind and row[7]:
                    self.assertEqual(row[7], TYPE_SPELLINGS.get(kind, kind), row)
                    compared += 1
        self.assertGreater(compared, 70)


CODES = {"enum": 0, "sint8": 1, "uint8": 2, "sint16": 0x83, "uint16": 0x84, "sint32": 0x85, "uint32": 0x86, "string": 7,
    "float32": 0x88, "float64": 0x89}
CODES.update({"uint8z": 10, "uint16z": 0x8B, "uint32z": 0x8C, "byte": 13, "sint64": 0x8E, "uint64": 0x8F,
    "uint64z": 0x90})


# Of units Garmin::FIT writes some in its own way, and it has units of some fields to which Garmin's profile gives none.
SPELLINGS = {("percent", "%"), ("C", "deg.C"), ("s", "")}
ITS_OWN = {(7, 1), (7, 2), (7, 3)}
# The bytes of this field are ten numbers of 12 bits each. What Garmin::FIT says of its scale and unit is said of these.
PACKED = {(132, 10)}


class Extra(unittest.TestCase):
    def test_extra(self):
        compared = 0
        for message, message_name, field, name, unit, scale, offset in asked("garmin_profile.pl"):
            place = int(message), int(field)
            named = gazhdor.EXTRA.fields(place[0]).get(place[1])
            if named is None or named.name is None or name.startswith("unknown"):
                continue
            of = gazhdor.EXTRA.message(place[0])
            self.assertEqual((named.name, of or message_name), (name, message_name), place)
            if place not in PACKED:
                self.assertEqual((float(named.scale or 1), float(named.offset or 0)),
                    (float(scale or 1), float(offset or 0)), (place, name))
                self.assertTrue((named.unit or "") == unit or (named.unit or "", unit) in SPELLINGS or place in ITS_OWN,
                    (place, name, named.unit, unit))
            compared += 1
        self.assertGreater(compared, 350)


if __name__ == "__main__":
    unittest.main()
