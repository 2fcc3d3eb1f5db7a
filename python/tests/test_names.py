"""What the module gazhdor says of names that nothing has, and what it makes by the caller's own names, units and
scales, and by those of gazhdor.EXTRA. Files are written here, as the FIT protocol has them."""
import datetime
import decimal
import json
import math
import os
import pickle
import random
import shutil
import subprocess
import tempfile
import unittest

from support import PYTHON, RIDE, in_tree, left_out, text_at
from fits import (
    DESCRIBE, FLOAT32, NONE4, SINT16, SINT32, UINT16, UINT32, UINT8, any_file, define, describe, fit, one, packed,
)

import gazhdor
from gazhdor._read.json_lines import line

UTC = datetime.timezone.utc


class Unknown(unittest.TestCase):
    def said(self, call, name, nearest):
        with self.assertRaises(gazhdor.UnknownName) as caught:
            call()
        error = pickle.loads(pickle.dumps(caught.exception))
        self.assertIsInstance(error, KeyError)
        self.assertEqual((error.name, error.nearest), (name, nearest))
        for part in (name, nearest or ""):
            self.assertIn(part, str(error))

    def test_messages(self):
        self.said(lambda: list(gazhdor.messages(RIDE, only="laps")), "laps", "lap")
        self.said(lambda: gazhdor.Stream("messages", only=["lap", "recrod"]), "recrod", "record")
        self.said(lambda: gazhdor.lists(RIDE, "Record"), "Record", "record")
        self.said(lambda: list(gazhdor.messages(RIDE, only="message_140")), "message_140", None)
        self.assertEqual(list(gazhdor.messages(RIDE, only=[140, "hrv"])), [])
        # field 254 has a name in the messages of the profile alone
        self.said(lambda: one((1, UINT8, b"\1"), number=140)["message_index"], "message_index", None)
        with self.assertRaises(KeyError) as caught:
            one((1, UINT8, b"\1"), number=18)["message_index"]
        self.assertNotIsInstance(caught.exception, gazhdor.UnknownName)

    def test_fields(self):
        m = one((3, UINT8, b"\x78"), developer=[(0, 0, b"\1\0")],
            before=(DESCRIBE, describe(0, 0, UINT16, b"Form power", b"W")))
        self.said(lambda: m["hart_rate"], "hart_rate", "heart_rate")
        self.said(lambda: m.unit("Form_power"), "Form_power", "Form power")
        self.said(lambda: m.field("cadance"), "cadance", "cadence")
        # known, but not there
        for key in ("cadence", 4, (0, 1), (9, 9), None):
            with self.assertRaises(KeyError) as caught:
                m[key]
            self.assertNotIsInstance(caught.exception, gazhdor.UnknownName)
        self.assertEqual((m.get("hart_rate"), m.get("hart_rate", 0), "hart_rate" in m), (None, 0, False))

    def test_hostile_names(self):
        """A file of very many long names: what is compared with them is bounded."""
        before = [DESCRIBE, *(describe(index, number, UINT8, f"n{index}_{number}".encode().ljust(11, b"x"), b"")
            for index in range(4) for number in range(250))]
        m = one(developer=[(number, 0, b"\1") for number in range(250)], before=before)
        begin = os.times().user
        with self.assertRaises(gazhdor.UnknownName) as caught:
            m["n" * 100000]
        self.assertGreater(len(str(caught.exception)), 100)
        self.assertLess(os.times().user - begin, 5)


class Names(unittest.TestCase):
    def test_dict(self):
        fields = (3, UINT8, b"\x78"), (200, UINT16, packed("<H", 500)), (201, SINT16, packed("<h", -7))
        names = {("record", 200): ("left", "mm", 10), (20, 201): ("rise", "m", 2, 100), ("record", 3): "pulse"}
        m = one(*fields, names=names)
        self.assertEqual(dict(m), {"pulse": 120, "left": 50, "rise": -103.5})
        self.assertEqual([m.unit(key) for key in m], ["bpm", "mm", "m"])
        self.assertEqual([str(f.exact) for f in m.fields], ["120", "50.0", "-103.5"])
        self.assertEqual((m[200], m.field("left").raw), (50, 500))
        # a scale that has no end as decimals, and one for several numbers, of which one is none
        m = one((69, UINT8, b"\x10\xff"), (70, UINT8, b"\x07"),
            names={(20, 69): ("phase", "degrees", 0.7111111), (20, 70): ("third", None, 3)})
        self.assertEqual((m["phase"][1], m["third"]), (None, 7 / 3))
        self.assertAlmostEqual(m["phase"][0], 22.5, places=5)
        self.assertEqual(m.field("third").exact, decimal.Decimal(7) / 3)
        # floats stand for themselves, as those do which the profile scales
        self.assertEqual(one((200, FLOAT32, packed("<2f", 1.5, 2.25)), names={(20, 200): ("own", "m", 100, 5)})["own"],
            (1.5, 2.25))

    def test_absent(self):
        """A name of the caller is known where the message hasn't the field, too."""
        for m in (one((3, UINT8, b"\x78"), names=gazhdor.EXTRA),
                pickle.loads(pickle.dumps(one((3, UINT8, b"\x78"), names=gazhdor.EXTRA)))):
            self.assertEqual((m.values("left_pco"), m.native("vertical_ratio"), m.get("left_pco")), ((), None, None))
            with self.assertRaises(KeyError) as caught:
                m["left_pco"]
            self.assertNotIsInstance(caught.exception, gazhdor.UnknownName)
            with self.assertRaises(gazhdor.UnknownName) as caught:
                m["vertical_ration"]
            self.assertEqual(caught.exception.nearest, "vertical_ratio")
        watts = one((7, UINT16, packed("<H", 200)), names={(20, 7): "watts"})
        self.assertEqual((watts.native("power"), watts.native("watts"), watts.native(7)), (200, 200, 200))

    def test_messages(self):
        source = fit(define(0, 140, [(1, UINT8, UINT8)]), b"\0\5\0", define(1, 132, [(0, 1, UINT8)]), b"\1\7")
        names = {140: "physiology", (140, 1): "effect"}
        (m,) = gazhdor.messages(source, only="physiology", names=names)
        self.assertEqual((m.name, m.number, m["effect"][0]), ("physiology", 140, 5))
        with self.assertRaises(gazhdor.UnknownName):
            list(gazhdor.messages(source, only="physiology"))
        stream = gazhdor.Stream("messages", names=names)
        self.assertEqual([m.name for m in stream.feed(source) + stream.finish()], ["physiology", None])
        with self.assertRaises(TypeError):
            gazhdor.Stream("table", names=names)

    def text(self, lines, **more):
        with tempfile.NamedTemporaryFile("w", suffix=".tsv", encoding="utf-8", **more) as file:
            file.write("\n".join(lines))
            file.flush()
            return gazhdor.Names(file.name), one((200, UINT32, packed("<I", 1000000000)), names=file.name)

    def test_text(self):
        names, m = self.text(["\ufeff# mine", "message\tmessage name\tfield\tfield name\tunit\tscale\toffset\ttype", "",
            "record\t\t200\tbegan\ts\t\t\tdate_time", "140\tphysiology"])
        self.assertEqual((names.messages, m.times, m.unit("began")),
            ({"physiology": 140}, {"began": datetime.datetime(2021, 9, 8, 1, 46, 40, tzinfo=UTC)}, "s"))
        for lines, said in (
            (["field\tname"], "first line"), (["message\tfield\tfield name", "records\t1\tx"],
                "line 2: no message is named 'records'"),
            (["message\tfield\tscale", "20\t1\t0"], "line 2: a scale can't be 0"),
            (["message\tfield\tscale", "# it", "20\t1\tnan"], "line 3: a scale can't be nan"),
            (["message\tfield", "20\t256"], "line 2: a field is 0 to 255"),
            (["message\tfield", "20\t1\tx"], "line 2: it has more cells"),
            (["message\tfield\tfield name", "20\t1\t.time"], "line 2: '.time' can't be a name"),
            (["message\tfield\ttype", "20\t1\tdate"], "line 2: a type is"),
        ):
            with self.assertRaises(ValueError) as caught:
                self.text(lines)
            self.assertIn(said, str(caught.exception))

    def test_wrong(self):
        for told, kind in (
            ({(20, 1): ""}, ValueError), ({(20, 1): "timestamp"}, ValueError), ({(20, 1): "field_7"}, ValueError),
            ({(20, 1): "a\x1b[2J"}, ValueError),
            ({(20, 1): ("x", "m", math.inf)}, ValueError), ({(20, 1): ("x", "m", "5")}, TypeError),
            ({("records", 1): "x"}, ValueError), ({(70000, 1): "x"}, ValueError),
            ({140: "record"}, ValueError), ({140: "x", 141: "x"}, ValueError), ({(20, "3"): "x"}, TypeError),
            ({(20, 1): ("x", 5)}, TypeError), ({140: None}, TypeError),
        ):
            with self.assertRaises(kind, msg=told):
                gazhdor.Names(told)
        with self.assertRaises(OSError):
            list(gazhdor.messages(RIDE, names="/nowhere/names.tsv"))

    def test_names_of_files(self):
        """What a file calls a developer field hides no other value: a name that means something else isn't its key."""
        names = (b"field_5", b".seconds", b"timestamp", b"dev_0_9", b"message_9")
        before = [DESCRIBE, *(describe(0, number, UINT8, name, b"") for number, name in enumerate(names))]
        m = one((5, UINT32, packed("<I", 700)), (99, UINT8, b"\7"),
            developer=[(number, 0, bytes([number])) for number in range(5)], before=before, number=65280)
        self.assertEqual(dict(m), {5: 700, 99: 7, **{(0, number): number for number in range(5)}})
        self.assertEqual((m.as_dict()["field_5"], m.as_dict()["dev_0_0"], len(m.as_dict()), m.get("timestamp")),
            (700, 0, 7, None))
        self.assertEqual([f.name for f in m.fields][2:], [name.decode() for name in names])

    def test_both(self):
        both = gazhdor.Names({(20, 1): "one", (20, 2): "two", 140: "x"}) | gazhdor.Names(
            {(20, 2): ("three", "m"), 140: "y"})
        self.assertEqual(({number: named.name for number, named in both.fields(20).items()}, both.messages),
            ({1: "one", 2: "three"}, {"y": 140}))


class Extra(unittest.TestCase):
    def test_extra(self):
        """Off unless it is asked for. Scales are those of the public profile: a phase of 64 is a quarter of a turn."""
        fields = (30, UINT8, b"\x37"), (53, UINT8, b"\x40"), (69, UINT8, b"\x40\x80"), (81, UINT8, b"\xc8"), (83,
            UINT16, packed("<H", 812))
        self.assertEqual(list(one(*fields)), [30, 53, 69, 81, 83])
        m = one(*fields, names=gazhdor.EXTRA)
        self.assertEqual((m["left_right_balance"], m["fractional_cadence"], m["battery_soc"], m["vertical_ratio"]),
            (0x37, 0.5, 100, 8.12))
        self.assertEqual(([round(angle, 4) for angle in m["left_power_phase"]], m.unit("left_power_phase")),
            ([90.0, 180.0], "degrees"))
        box = [(number, SINT32, packed("<i", 2**29)) for number in range(29, 33)]
        self.assertEqual(list(one(*box, number=18, names=gazhdor.EXTRA)),
            ["nec_lat", "nec_long", "swc_lat", "swc_long"])
        length = one((2, UINT32, packed("<I", 1000000000)), (5, UINT16, packed("<H", 14)), number=101,
            names=gazhdor.EXTRA)
        self.assertEqual((length.name, length["total_strokes"], length.times["start_time"].year), ("length", 14, 2021))
        beat = one((253, UINT32, packed("<I", 1)), (0, UINT16, packed("<H", 16384)), (9, UINT32, packed("<I", 512)),
            number=132, names=gazhdor.EXTRA)
        self.assertEqual((beat.name, beat["fractional_timestamp"], beat["event_timestamp"]), ("hr", 0.5, 0.5))

    def test_table(self):
        """It has what recordings have most, nothing that the proved profile has, and each name once in a message."""
        extra = gazhdor.EXTRA
        wanted = {20: [30, 31, 40, *range(43, 48), 53, 54, 57, *range(67, 73), *range(81, 86), 87], 18: range(29, 33),
            19: range(27, 31)}
        wanted.update({101: [0, 1, 2, 3, 4, 5, 6, 7, 9, 12], 132: [0, 1, 6, 9, 10], 216: range(16)})
        for message, fields in wanted.items():
            self.assertEqual(set(fields) - set(extra.fields(message)), set(), message)
        rows = [line.split("\t") for line in text_at(in_tree("profile/fields.tsv")).splitlines()[1:]]
        known = {(int(row[0]), int(row[2])): row[3] for row in rows}
        messages = {int(row[0]) for row in rows} | {number for number in extra.messages.values()}
        for message in messages:
            fields = extra.fields(message)
            self.assertEqual([number for number in fields if (message, number) in known or number == 253], [])
            names = [named.name for named in fields.values() if named.name] + [name for (of, _),
                name in known.items() if of == message]
            self.assertEqual(len(names), len(set(names)), message)
        self.assertIs(pickle.loads(pickle.dumps(extra)), extra)

    def test_says_what_it_is(self):
        path = os.path.join(os.path.dirname(gazhdor.__file__), "extra.tsv")
        with open(path, encoding="utf-8") as file:
            said = "".join(line[2:] for line in file if line.startswith("#"))
        self.assertRegex(said, "no part of what is proved")
        self.assertRegex(said, r"release \d+\.\d+ of\s+the FIT SDK")


class Columns(unittest.TestCase):
    SOURCE = fit(define(0, 20, [(253, 4, UINT32), (3, 1, UINT8), (83, 2, UINT16), (200, 4, UINT32)]),
        packed("<BIBHI", 0, 10**9, 120, 812, 10**9 - 5), packed("<BIBHI", 0, 10**9 + 1, 255, 65535, NONE4))

    def test_names(self):
        """The columns have the names, units and scales of the caller as the messages have them."""
        own = gazhdor.EXTRA | gazhdor.Names({(20, 3): "pulse", (20, 200): ("began", "s", None, None, "date_time")})
        wanted = {"pulse": [120, None], "vertical_ratio": [8.12, None], "began": [10**9 - 5, None]}
        self.assertEqual(gazhdor.lists(self.SOURCE, "record", list(wanted), names=own), wanted)
        found = gazhdor.lists(self.SOURCE, 20, names=own)
        self.assertEqual(({key: found[key] for key in wanted}, "heart_rate" in found, 83 in found),
            (wanted, False, False))
        self.assertEqual([[m[key] for m in gazhdor.messages(self.SOURCE, names=own)] for key in wanted],
            list(wanted.values()))
        self.assertEqual(gazhdor.lists(self.SOURCE, "record", [83, "heart_rate"]),
            {83: [812, None], "heart_rate": [120, None]})
        times = gazhdor.lists(self.SOURCE, "record", ["began", "timestamp"], names=own, times=True)
        self.assertEqual([times["began"][0], times["timestamp"][0]], [gazhdor.when(10**9 - 5), gazhdor.when(10**9)])
        named = fit(define(0, 140, [(1, 1, UINT8)]), b"\0\5")
        self.assertEqual(gazhdor.lists(named, "physiology", ["effect"], names={140: "physiology", (140, 1): "effect"}),
            {"effect": [5]})

    def test_arrays(self):
        try:
            import numpy
        except ModuleNotFoundError:
            left_out("there is no numpy, so arrays by other names aren't tried")
        (array,) = gazhdor.columns(self.SOURCE, "record", ["vertical_ratio"], names=gazhdor.EXTRA).values()
        self.assertEqual((array[0], math.isnan(array[1]), array.dtype), (8.12, True, numpy.float64))

    def test_unknown(self):
        """A name that neither the profile, nor the file, nor the caller has; known ones are columns of None."""
        for call in (
            lambda: gazhdor.lists(self.SOURCE, "record", ["hart_rate"]),
            lambda: gazhdor.lists(self.SOURCE, "record", ["vertical_ratio"]),
            lambda: gazhdor.lists(self.SOURCE, "recrod"),
            lambda: gazhdor.lists(self.SOURCE, "record", [".plase"]),
            lambda: gazhdor.lists(fit(), "lap", ["Form power"]), lambda: gazhdor.lists(self.SOURCE, 140, ["effect"]),
        ):
            with self.assertRaises(gazhdor.UnknownName):
                call()
        self.assertEqual(gazhdor.lists(self.SOURCE, "record", ["cadence", 99, (0, 1)]),
            {"cadence": [None, None], 99: [None, None], (0, 1): [None, None]})
        self.assertEqual(gazhdor.lists(fit(), "lap", ["start_time"]), {"start_time": []})
        with self.assertRaises(gazhdor.UnknownName) as caught:
            gazhdor.lists(self.SOURCE, "record", ["hart_rate"])
        self.assertEqual(caught.exception.nearest, "heart_rate")


class Random(unittest.TestCase):
    """Files of random definitions and data, by random names."""

    def see(self, m):
        self.assertEqual((list(m), list(dict(m).values()), len(m)), (list(m.keys()), list(m.values()), len(list(m))))
        self.assertEqual(set(json.loads(line(m))["fields"]), set(m.as_dict()))
        self.assertIn("</table>", m._repr_html_())
        for key, time in m.times.items():
            self.assertTrue(time is None or isinstance(time, (datetime.datetime, str)), key)
        for key, value in m.items():
            self.assertEqual((m.values(key), m.field(key).value is None),
                (tuple(item for item in (value if isinstance(value, tuple) else (value,)) if item is not None),
                    value is None))
            self.assertEqual(m.field(key).exact is None, value is None)
            if m.field(key).developer is None:
                m.native(key)

    def test_random(self):
        r, count = random.Random(20260404), 0
        for _ in range(25):
            scales = 3, 7.5, 1000, -2, 1e-300
            own = {(20, r.randrange(256)): (f"own{k}", "m", r.choice(scales), r.choice((0, 5, -1.5))) for k in range(9)}
            for m in gazhdor.messages(any_file(r), names=r.choice((None, gazhdor.EXTRA, own,
                    {31: "mine", (31, 0): "first"}))):
                with self.subTest(repr(m)):
                    if all(not isinstance(value, float) or value == value for field in m.fields
                            for value in (field.value if isinstance(field.value, tuple) else (field.value,))):
                        self.see(m)
                        count += 1
        self.assertGreater(count, 1000)


TYPED = """
from typing import Any, Dict, List, Mapping, Optional, Tuple, Union
import datetime
import gazhdor

def see(source: gazhdor.Source) -> None:
    for message in gazhdor.messages(source, only=["lap", 20], names=gazhdor.EXTRA | gazhdor.Names({(20, 3): "pulse"})):
        values: Tuple[Union[int, float, str, bytes], ...] = message.values("time")
        mapping: Mapping[gazhdor.Key, Any] = message
        for name, value in message.items():
            print(name, value, list(message.values()))
        place: Optional[gazhdor.Position] = message.position
        if place is not None:
            print(place.latitude + 1)
        print(gazhdor.degrees(5) + 1, gazhdor.when(None) is None, mapping, values)
        times: Dict[gazhdor.Key, Union[datetime.datetime, str, None]] = message.times
        print(times, message.native("power"), message.field("x").native)
    data: bytes = gazhdor.mend(source)
    text: str = gazhdor.gpx(data, partial=True)
    answer = gazhdor.check(data)
    explanation: Optional[str] = answer.explanation
    try:
        gazhdor.from_csv(text)
    except gazhdor.TextRefused as error:
        print(error.advice, explanation)
    except gazhdor.UnknownName as unknown:
        print(unknown.name, unknown.nearest)
    stream = gazhdor.Stream("messages", names={140: "x"})
    found: List[gazhdor.Message] = stream.feed(b"")
    print(found)
"""
WRONG = ("gazhdor.degrees('5')", "gazhdor.Names({20: 5}) | 5", "gazhdor.mend(5)", "gazhdor.Stream('show', names={})",
    "next(gazhdor.messages('a')).values(1.5)")


class Types(unittest.TestCase):
    def test_mypy(self):
        """A program that uses all of this, in the strict way; and each wrong use is seen."""
        if not shutil.which("mypy"):
            left_out("there is no mypy, so the types aren't checked")
        with tempfile.TemporaryDirectory() as work:
            program, lines = os.path.join(work, "typed.py"), len(TYPED.splitlines())
            with open(program, "w", encoding="utf-8") as file:
                file.write(TYPED + "".join(f"{wrong}\n" for wrong in WRONG))
            done = subprocess.run(["mypy", "--strict", "--cache-dir", os.path.join(work, "types"), program],
                stdout=subprocess.PIPE, env=dict(os.environ, MYPYPATH=PYTHON))
            said = [line for line in done.stdout.decode().splitlines() if ": error:" in line]
            self.assertEqual([line.split(":")[:2] for line in said],
                [[program, str(lines + number)] for number in range(1, len(WRONG) + 1)])


if __name__ == "__main__":
    unittest.main()
