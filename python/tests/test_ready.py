"""Values that are ready to use, fields that are added, and whole activities in one call: by arithmetic, and by what
databases and JSON take."""
import datetime
import io
import json
import random
import sqlite3
import unittest

from support import RIDE, known, left_out, recording
from fits import BYTE, DESCRIBE, FLOAT32, STRING, UINT16, UINT32, UINT8, any_file, define, describe, fit, one, packed
from made import written

import gazhdor

try:
    import pandas
except ImportError:
    pandas = None

TIME = 1147937400
START = datetime.datetime(2026, 5, 17, 7, 30, tzinfo=datetime.timezone.utc)
KINDS = ("plain", "interleaved", "developer", "compressed")


def sources():
    """Recordings of each kind, the ride, the known files, and random ones."""
    yield from (recording(kind, "20k") for kind in KINDS)
    yield RIDE
    yield from known().values()
    yield from (any_file(random.Random(seed)) for seed in range(20))


class Ready(unittest.TestCase):
    def test_message(self):
        """Each value is of a type that a database has."""
        session = one(
            (253, UINT32, packed("<I", TIME)),
            (2, UINT32, packed("<I", TIME)),
            (3, 0x85, packed("<i", 2**29)),
            (5, 0, b"\2"),
            (6, 0, b"\xc8"),
            (9, UINT32, packed("<I", 12345)),
            (200, BYTE, b"\1\xfe"),
            (201, UINT16, packed("<3H", 1, 65535, 3)),
            (110, STRING, b"Road\0\0"),
            (202, FLOAT32, packed("<f", float("inf"))),
            number=18,
        )
        self.assertEqual(
            session.ready(),
            {
                "timestamp": START,
                "start_time": START,
                "start_position_lat": 45.0,
                "sport": "cycling",
                "sub_sport": "200",
                "total_distance": 123.45,
                "field_200": "0x01FE",
                "field_201_0": 1,
                "field_201_1": None,
                "field_201_2": 3,
                "field_110": "Road",
                "field_202": None,
            },
        )
        unknown = one((253, UINT32, packed("<I", 77)), (3, UINT8, b"\x05"))
        self.assertEqual(unknown.ready(), {"timestamp": None, "heart_rate": 5})

    def test_all_messages(self):
        """JSON has each message, as `messages` gives it."""
        for source in sources():
            for values in gazhdor.messages(source, ready=True):
                text = json.dumps(values, allow_nan=False, default=datetime.datetime.isoformat)
                self.assertEqual(set(json.loads(text)), set(values))

    def test_lists(self):
        """Each column has values of one type, which sqlite3 takes as they are."""
        base = sqlite3.connect(":memory:")
        for number, source in enumerate(sources()):
            for name in {message.number for message in gazhdor.messages(source)}:
                columns = gazhdor.lists(source, name, ready=True)
                rows = list(zip(*columns.values()))
                for column in columns.values():
                    types = {type(value) for value in column} - {type(None)}
                    self.assertLessEqual(len(types - {int, float}), 1)
                    self.assertTrue(
                        types <= {int, float, str, datetime.datetime} and not (types & {int, float} and types & {str}),
                        types,
                    )
                if not columns or len(columns) > 900:
                    continue
                told = [
                    tuple(
                        min(max(value, -(2**63)), 2**63 - 1)
                        if isinstance(value, int)
                        else str(value)
                        if isinstance(value, datetime.datetime)
                        else value
                        for value in row
                    )
                    for row in rows
                ]
                base.execute(f"create table t{number}_{name} ({', '.join(f'c{k}' for k in range(len(columns)))})")
                base.executemany(f"insert into t{number}_{name} values ({', '.join('?' * len(columns))})", told)

    def test_frames(self):
        """Each frame goes into a database, whatever the messages have."""
        if pandas is None:
            left_out("there is no pandas, so no frame is tried")
        base = sqlite3.connect(":memory:")
        for number, source in enumerate(sources()):
            for name in {message.number for message in gazhdor.messages(source)}:
                frame = gazhdor.frame(source, name, ready=True)
                self.assertLessEqual(
                    {str(kind) for kind in frame.dtypes},
                    {"float64", "datetime64[ns, UTC]", "datetime64[ns]", "object", "category"},
                )
                for label in frame:
                    if frame[label].dtype == object:
                        self.assertLessEqual({type(value) for value in frame[label]}, {str, type(None)})
                if 0 < len(frame.columns) < 900:
                    frame.to_sql(f"t{number}_{name}", base)

    def test_as_in_the_table(self):
        """.speed, .altitude and .distance are as in the table, whichever field tells them."""
        fields = [
            (253, 4, UINT32),
            (2, 2, UINT16),
            (78, 4, UINT32),
            (6, 2, UINT16),
            (73, 4, UINT32),
            (5, 4, UINT32),
            (8, 3, BYTE),
        ]
        rows = (
            (2500, 3000, 7000, 8000, 100, b"\x64\x00\x10"),
            (2500, 2**32 - 1, 7000, 2**32 - 1, 2**32 - 1, b"\x64\x00\x20"),
            (65535, 3100, 65535, 2**32 - 1, 300, b"\x64\x00\x30"),
            (65535, 2**32 - 1, 65535, 8000, 2**32 - 1, b"\xff\xff\xff"),
        )
        source = fit(
            define(0, 20, fields),
            *(b"\0" + packed("<IHIHII", TIME + k, *row[:5]) + row[5] for k, row in enumerate(rows)),
        )
        wanted = [(row.speed, row.altitude, row.distance) for row in gazhdor.table(source)]
        self.assertEqual([of[0] for of in wanted], [8.0, 7.0, 1.0, 8.0])
        keys = [".speed", ".altitude", ".distance"]
        self.assertEqual(list(zip(*gazhdor.lists(source, "record", keys).values())), wanted)
        self.assertEqual([(m.speed, m.altitude, m.distance) for m in gazhdor.messages(source)], wanted)
        if pandas is None:
            left_out("there is no numpy, so no array is tried")
        arrays = [
            [None if value != value else value for value in column.tolist()]
            for column in gazhdor.columns(source, "record", keys).values()
        ]
        self.assertEqual(list(zip(*arrays)), wanted)

    def test_lines(self):
        """A line of JSON is one line, for every program."""
        text = "a\u2028b\u2029c\x85d"
        data = written(lambda out: out.write("sport", name=text))
        (line,) = [message.to_json() for message in gazhdor.messages(data)]
        self.assertEqual((len(line.splitlines()), json.loads(line)["fields"]["name"]), (1, text))
        lap = next(gazhdor.messages(RIDE, only="lap"))
        fields = json.loads(lap.to_json(ready=True))["fields"]
        self.assertEqual((fields["start_time"], fields["total_distance"]), ("2026-05-17T07:30:00Z", 8558.46))


class Adding(unittest.TestCase):
    def test_added(self):
        """A message gets fields which it hasn't, keeps the others, and is copied with them."""
        before = DESCRIBE, describe(0, 0, UINT8, b"Form power", b"W")
        source = fit(
            *before,
            define(1, 20, [(253, 4, UINT32), (8, 3, BYTE), (3, 1, UINT8)], [(0, 1, 0)], big=True),
            b"\1" + TIME.to_bytes(4, "big") + b"\x64\x00\x10\x78\x07",
        )
        *_, old = gazhdor.messages(source)
        new = old.adding(power=250, altitude=408.2, heart_rate=121)
        self.assertEqual({**dict(old), "power": 250, "altitude": 408.2, "heart_rate": 121}, dict(new))
        self.assertEqual(
            (new.seconds, new.place, new.distance, new.unit("Form power"), old["heart_rate"]),
            (TIME, old.place, 16.0, "W", 120),
        )
        sink = io.BytesIO()
        with gazhdor.Writer(sink) as out:
            for event in gazhdor.messages(source, everything=True):
                out.copy(
                    event.adding(power=250) if isinstance(event, gazhdor.Message) and event.name == "record" else event
                )
        *_, copied = gazhdor.messages(sink.getvalue())
        self.assertEqual(dict(copied), {**dict(old), "power": 250})
        self.assertEqual(old.adding({3: 5}), old.replace(heart_rate=5))

    def test_wrong(self):
        old = one((3, UINT8, b"\x05"))
        with self.assertRaisesRegex(KeyError, "adding"):
            old.replace(power=5)
        with self.assertRaisesRegex(KeyError, "is it 'cadence'"):
            old.adding(cadense=5)
        with self.assertRaises(gazhdor.WrongValue):
            old.adding(power=70000)
        with self.assertRaisesRegex(ValueError, "base type"):
            old.adding({200: 5})


class Whole(unittest.TestCase):
    def test_activity(self):
        """An activity of samples has what other programs ask for, and what its records come to."""
        columns = {
            "timestamp": [TIME + k for k in range(100)],
            "heart_rate": [120 + k % 3 for k in range(100)],
            "distance": [2.5 * k for k in range(100)],
            "position_lat": [47.3] * 100,
            "position_long": [8.5] * 100,
        }
        sink = io.BytesIO()
        data = gazhdor.activity(columns, sport="cycling", sink=sink)
        self.assertEqual((sink.getvalue(), gazhdor.check(data).files), (data, 1))
        names = [message.name for message in gazhdor.messages(data)]
        self.assertEqual(
            [name for name in names if name != "record"], ["file_id", "event", "event", "lap", "session", "activity"]
        )
        (session,) = gazhdor.messages(data, only="session", ready=True)
        self.assertEqual(
            (
                session["sport"],
                session["total_timer_time"],
                session["total_distance"],
                session["avg_speed"],
                session["max_heart_rate"],
                session["num_laps"],
            ),
            ("cycling", 99.0, 247.5, 2.5, 122, 1),
        )
        self.assertEqual(
            gazhdor.lists(data, "record", list(columns)[1:3]), {key: columns[key] for key in list(columns)[1:3]}
        )
        if pandas is not None:
            frame = pandas.DataFrame(
                {
                    **columns,
                    "timestamp": pandas.to_datetime([TIME + 631065600 + k for k in range(100)], unit="s", utc=True),
                }
            )
            self.assertEqual(gazhdor.activity(frame, sport=2), data)

    def test_wrong_samples(self):
        """Times that aren't there or go back, and values that don't fit, are no activity."""
        for wrong in ({}, {"heart_rate": [5]}, {"timestamp": []}, {"timestamp": [TIME + 5, TIME]},
                {"timestamp": [TIME, None]}, {"timestamp": [None, TIME]}):
            with self.assertRaises(ValueError):
                gazhdor.activity(wrong)
        with self.assertRaises(gazhdor.WrongValue):
            gazhdor.activity({"timestamp": [TIME], "heart_rate": [300]})

    def test_sport(self):
        """A sport is a word or a number that a session can have; what is none is an error, which names the nearest."""
        columns = {"timestamp": [TIME, TIME + 1]}
        for sport, number in (("cycling", 2), (2, 2), (254, 254), (None, None)):
            (session,) = gazhdor.messages(gazhdor.activity(columns, sport=sport), only="session")
            self.assertEqual(session["sport"], number)
        with self.assertRaisesRegex(gazhdor.WrongValue, "^sport: 'bicycling' is no word .* is it 'cycling'"):
            gazhdor.activity(columns, sport="bicycling")
        for wrong in (255, -1, "", b"x"):
            sink = io.BytesIO()
            with self.subTest(wrong), self.assertRaises(gazhdor.WrongValue):
                gazhdor.activity(columns, sport=wrong, sink=sink)
            self.assertEqual(sink.getvalue(), b"")

    def test_mend(self):
        """What was broken off gets the lap, the session and the activity that it lacks; what is whole stays."""
        columns = {"timestamp": [TIME + k for k in range(200)], "distance": [3.0 * k for k in range(200)]}
        data = gazhdor.activity(columns, sport="running")
        self.assertEqual(gazhdor.mend(data, whole=True), data)
        cut = data[: len(data) // 2]
        records = list(gazhdor.messages(gazhdor.mend(cut), only="record"))
        made = gazhdor.mend(cut, whole=True)
        (lap,), (session,), (activity,) = (
            list(gazhdor.messages(made, only=name)) for name in ("lap", "session", "activity")
        )
        self.assertEqual(list(gazhdor.messages(made, only="record")), records)
        lasts = float(len(records) - 1)
        self.assertEqual(
            (lap["total_timer_time"], session["total_distance"], activity["total_timer_time"]),
            (lasts, 3 * lasts, lasts),
        )

    def test_edit(self):
        """The words of the command line, as a call."""
        into = io.BytesIO()
        later = datetime.timedelta(minutes=5)
        counts = gazhdor.edit(
            RIDE, into, drop="position", shift=later, begin=START + later, end="2026-05-17T09:40:00+02:00"
        )
        rows = list(gazhdor.table(into.getvalue()))
        self.assertEqual(
            (rows[0].timestamp, rows[-1].timestamp, rows[0].position_lat), (START + 2 * later, START + 3 * later, None)
        )
        self.assertEqual(counts["record", "position_lat"], len(rows))
        with self.assertRaisesRegex(ValueError, "zone"):
            gazhdor.edit(RIDE, into, begin=START.replace(tzinfo=None))

    def test_segments(self):
        """A track has a segment for each stretch between stop and start, and power as an extension."""

        def ride(out):
            for begin in (0, 100, 300):
                out.write("event", timestamp=TIME + begin, event=0, event_type=0)
                for k in range(3):
                    out.write("record", timestamp=TIME + begin + k, position_lat=47.3, position_long=8.5, power=200 + k)
                out.write("event", timestamp=TIME + begin + 3, event=0, event_type=4)
            out.write("event", timestamp=TIME + 400, event=0, event_type=0)

        text = gazhdor.gpx(2 * written(ride))
        self.assertEqual(
            (text.count("<trk>"), text.count("<trkseg>"), text.count("</trkseg>"), text.count("<trkpt")), (2, 6, 6, 18)
        )
        self.assertEqual(text.count("<pwr:PowerInWatts>201</pwr:PowerInWatts>"), 6)
        self.assertNotIn("<trkseg>\n</trkseg>", text)

    def test_names(self):
        """Nothing private is among the names of the module."""
        self.assertEqual(
            {name for name in dir(gazhdor) if not name.startswith("__")}, {*gazhdor.__all__, "errors"} - {"__version__"}
        )


if __name__ == "__main__":
    unittest.main()
