"""Whether files that are edited, joined and made by the examples are what the words ask for: by the values of the files
that they are made of, by arithmetic, and by gpsbabel, where it is installed."""
import datetime
import io
import os
import random
import re
import shutil
import subprocess
import sys
import unittest

from support import BYTES, RIDE, bytes_at, example, folder, in_tree, left_out, run
from made import written
from fits import DESCRIBE, SINT32, UINT16, UINT32, UINT8, any_file, define, describe, fit, packed

import gazhdor

WORK = folder()
EPOCH = datetime.datetime(1989, 12, 31, tzinfo=datetime.timezone.utc)
START = 1147937400  # the first record of the ride
HOUR = 3600
SUMMARIES = ("lap", "session", "activity")


def at(name):
    return os.path.join(WORK, name)


def command(*words, status=0, **how):
    done = run("-m", "gazhdor", *words, encoding="utf-8", **how)
    assert done.returncode == status, (words, done)
    return done


def write(name, data):
    with open(at(name), "wb") as file:
        file.write(data)
    return at(name)


def told(source, but=()):
    return [(m.name, m.time, {key: value for key, value in m.items() if key not in but})
        for m in gazhdor.messages(source)]


class Edit(unittest.TestCase):
    def test_nothing(self):
        """Without a change each file is as it was."""
        r = random.Random(1)
        for data in [BYTES, *(any_file(r) for _ in range(20))]:
            command("edit", write("in.fit", data), at("out.fit"))
            self.assertEqual(bytes_at(at("out.fit")), data)

    def test_shift(self):
        for hours in (1, -3, 1000):
            command("edit", "--shift", str(hours * HOUR), RIDE, at("out.fit"))
            for before, after in zip(gazhdor.messages(RIDE), gazhdor.messages(at("out.fit"))):
                moved = {key: before[key] + hours * HOUR for key in ("timestamp", "start_time", "time_created",
                    "local_timestamp") if before.get(key)}
                self.assertEqual(dict(after), {**dict(before), **moved})
        command("edit", "--shift", "-3600", RIDE, at("out.fit"))
        command("edit", "--shift", "3600", at("out.fit"), at("out.fit"))
        self.assertEqual(bytes_at(at("out.fit")), BYTES)

    def test_shift_in_headers(self):
        """Times in compressed headers move with the timestamps before them; the device's own time stays."""
        records = define(0, 20, [(253, 4, UINT32), (3, 1, UINT8)]), define(1, 20, [(3, 1, UINT8)])
        source = fit(*records, packed("<BIB", 0, 7, 1), bytes([0xA9, 2]), packed("<BIB", 0, START, 1),
            *(bytes([0xA0 | START + k & 31, k]) for k in range(0, 250, 5)))
        for shift in (1, 31, 32, 86399):
            command("edit", "--shift", str(shift), write("in.fit", source), at("out.fit"))
            before, after = (list(gazhdor.messages(path)) for path in (at("in.fit"), at("out.fit")))
            self.assertEqual([m.seconds for m in after], [m.seconds + (shift if m.seconds > 100 else 0)
                for m in before])
            self.assertEqual([m["heart_rate"] for m in after], [m["heart_rate"] for m in before])

    def test_too_far(self):
        for shift in (2**32, -(10**9), 10**30):
            done = command("edit", "--shift", str(shift), RIDE, at("none.fit"), status=2)
            self.assertIn("no time any more", done.stderr)
        self.assertFalse(os.path.exists(at("none.fit")))

    def test_drop(self):
        done = command("edit", "--drop", "position", "--drop", "record.speed", "--drop", "lap.9", RIDE, at("out.fit"))
        rows = [row._replace(position_lat=None, position_long=None, speed=None) for row in gazhdor.table(RIDE)]
        self.assertEqual(list(gazhdor.table(at("out.fit"))), rows)
        (lap,), (old,) = (list(gazhdor.messages(path, only="lap")) for path in (at("out.fit"), RIDE))
        self.assertEqual((lap["total_distance"], lap.position, lap["total_elapsed_time"]),
            (None, None, old["total_elapsed_time"]))
        self.assertIn(f"emptied: record speed, {len(rows)} times\n", done.stderr)
        places = fit(DESCRIBE, describe(0, 0, SINT32, b"spot", b""),
            define(0, 65280, [(9, 8, SINT32), (11, 4, 5), (9, 4, SINT32)], [(0, 4, 0)], big=True),
            b"\0" + bytes(range(100, 120)))
        command("edit", "--drop", "position", write("in.fit", places), at("out.fit"))
        *_, m = gazhdor.messages(at("out.fit"))
        self.assertEqual([field.value for field in m.fields], [(None, None), None, None, None])

    def test_places(self):
        """Places of messages that no profile has, and texts of places, are emptied; angles, and where a rider sits, stay."""
        place = packed("<2i", 564310981, 102220222)
        developer = [(UINT8, b"position"), (0x88, b"heading"), (SINT32, b"gain"), (0x89, b"Latitude"), (7, b"gps place")]
        units = {b"heading": b"deg", b"gain": b"m"}
        described = [describe(0, k, code, name, units.get(name, b"")) for k, (code, name) in enumerate(developer)]
        source = fit(DESCRIBE, *described, define(0, 20, [(11, 4, SINT32), (69, 2, UINT8)],
            [(0, 1, 0), (1, 4, 0), (2, 4, 0), (3, 8, 0), (4, 6, 0)]),
            b"\0" + packed("<i2BBfid", 9000, 10, 20, 7, 4.5, 5, 47.3) + b"Zurich",
            define(1, 142, [(3, 4, SINT32), (4, 4, SINT32), (29, 4, 7)]), b"\1" + place + b"name",
            define(2, 128, [(8, 6, 7), (10, 4, SINT32), (11, 4, 5), (1, 1, 1)]), b"\2" + b"Zurich" + place + b"\x14")
        into = io.BytesIO()
        gazhdor.edit(source, into, drop="position")
        told = [{key: value for key, value in m.items() if value is not None} for m in gazhdor.messages(into.getvalue())
            if m.number in (20, 128, 142)]
        self.assertEqual(told, [{"time_from_course": 9.0, 69: (10, 20), "position": 7, "heading": 4.5, "gain": 5},
            {29: "name"}, {1: 20}])

    def test_cut(self):
        """The records of a span stay, and lap, session and activity say what these come to."""
        begin, end = START + 300, START + 600
        command("edit", "--from", "2026-05-17T09:35:00+02:00", "--to", str(end), "--shift", "60", RIDE, at("out.fit"))
        wanted = [row for row in gazhdor.table(RIDE) if begin <= (row.timestamp - EPOCH).total_seconds() <= end]
        found = list(gazhdor.table(at("out.fit")))
        self.assertEqual(found, [row._replace(timestamp=row.timestamp + datetime.timedelta(0, 60),
            distance=round(row.distance - wanted[0].distance, 2)) for row in wanted])
        (lap,), (session,), (activity,) = (list(gazhdor.messages(at("out.fit"), only=name)) for name in SUMMARIES)
        for whole in (lap, session):
            self.assertEqual((whole["start_time"], whole["timestamp"], whole["total_elapsed_time"],
                whole["total_timer_time"]), (begin + 60, end + 60, 300.0, 300.0))
            self.assertAlmostEqual(whole["total_distance"], wanted[-1].distance - wanted[0].distance, 2)
            self.assertEqual(whole["max_speed"], max(row.speed for row in wanted))
            self.assertAlmostEqual(whole.position.latitude, wanted[0].position_lat, 6)
        self.assertEqual((activity["num_sessions"], activity["total_timer_time"], session["num_laps"]), (1, 300.0, 1))
        done = command("edit", "--from", str(end + 10**6), RIDE, at("none.fit"), status=2)
        self.assertIn("no record has a time in that span", done.stderr)

    def test_faults(self):
        bad = write("bad.fit", BYTES[:-1])
        for words, status, said in (
            (["edit", bad, at("none.fit")], 1, "truncated at byte"),
            (["edit", RIDE], 2, "IN and OUT"),
            (["edit", "--drop", "hart_rate", RIDE, at("none.fit")], 2, "is it 'heart_rate'"),
            (["edit", "--drop", "recrod.3", RIDE, at("none.fit")], 2, "is it 'record'"),
            (["edit", "--shift", "1x", RIDE, at("none.fit")], 2, "--shift: '1x' is no time to move by"),
            (["edit", "--from", "2026-05-17T07:30:00", RIDE, at("none.fit")], 2, "zone"),
            (["edit", "--frob", RIDE, at("none.fit")], 2, "--frob"),
            (["edit", at("missing.fit"), at("none.fit")], 4, "No such file"),
            (["edit", RIDE, WORK], 4, "Is a directory"),
            (["edit", RIDE, at("missing/none.fit")], 4, "No such file"),
            (["join", RIDE, at("none.fit")], 2, "two FILEs or more"),
            (["join", RIDE, bad, at("none.fit")], 1, "truncated"),
            (["join", "--one", RIDE, RIDE, at("none.fit")], 2, "begins before"),
            (["join", "--shift", "5", RIDE, RIDE, at("none.fit")], 2, "usage"),
        ):
            self.assertIn(said, command(*words, status=status).stderr, words)
            self.assertFalse(os.path.exists(at("none.fit")))
        command("edit", "--", RIDE, "--out.fit", cwd=WORK)
        self.assertEqual(bytes_at(at("--out.fit")), BYTES)
        words = [sys.executable, "-m", "gazhdor", "edit", "-", "-"]
        self.assertEqual(subprocess.run(words, input=BYTES, stdout=subprocess.PIPE).stdout, BYTES)
        done = subprocess.run([*words, "--shift", "7"], input=bytes_at(bad), stdout=subprocess.PIPE,
            stderr=subprocess.PIPE)
        self.assertEqual((done.returncode, done.stdout), (1, b""))
        with open(at("full"), "wb") as full:
            self.assertEqual(subprocess.run([*words[:-2], RIDE, "/dev/full"], stderr=full).returncode, 4)

    def test_sub_sport(self):
        """A lap that is cut keeps its sub_sport, which EXTRA alone names, unless that is emptied."""
        def step(out):
            for k in range(10):
                out.write("record", timestamp=START + k, heart_rate=60)
            out.write("lap", timestamp=START + 9, start_time=START, total_elapsed_time=9, sport=2, sub_sport=6)

        data = written(step, names=gazhdor.EXTRA)
        for drop, wanted in ((), 6), ("lap.39", None), ("sub_sport", None), ("lap.sport", 6):
            into = io.BytesIO()
            gazhdor.edit(data, into, drop=drop, begin=START + 2, end=START + 6)
            (lap,) = gazhdor.messages(into.getvalue(), only="lap", names=gazhdor.EXTRA)
            self.assertEqual((lap.get("sub_sport"), lap["total_elapsed_time"]), (wanted, 4))

    def test_sums_of_what_is_emptied(self):
        """What a reader adds up of a field that is emptied isn't written into another field of a part either."""

        def step(out):
            for k in range(10):
                speed = ((160 * k & 0xFFF) << 12 | 300).to_bytes(3, "little")
                sums = {"cycles": 3 * k, "compressed_accumulated_power": 100 * k}
                out.write("record", {"timestamp": START + k, "compressed_speed_distance": speed, **sums})

        fields = {8: ("compressed_speed_distance", 5), 18: ("cycles", 19), 28: ("compressed_accumulated_power", 29)}
        for number, (name, sum_of) in fields.items():
            for word in (name, f"record.{name}", str(number), f"20.{number}"):
                part = io.BytesIO()
                emptied = gazhdor.edit(written(step, names=gazhdor.EXTRA), part, drop=word, begin=START + 3)
                self.assertEqual(emptied, {("record", name): 7})
                records = list(gazhdor.messages(part.getvalue(), only="record", names=gazhdor.EXTRA))
                sums = {of: [record.get(of) for record in records] for _, of in fields.values()}
                wanted = {5: [10.0 * k for k in range(7)], 19: [3 * k for k in range(3, 10)],
                    29: [100 * k for k in range(3, 10)], sum_of: [None] * 7}
                self.assertEqual(sums, wanted)
                told = gazhdor.messages(part.getvalue(), only=("lap", "session"))
                metres, speed = (None, None) if number == 8 else (60.0, 3.0)
                for message in told:
                    self.assertEqual((message.get("total_distance"), message.get("max_speed")), (metres, speed))

    def test_last_times(self):
        """A part whose local time would be beyond 32 bits is told without one."""
        end = 2**32 - 30

        def step(out):
            for time in range(end - 70, end + 1):
                out.write("record", timestamp=time, heart_rate=60)
            out.write("session", timestamp=end, start_time=end - 70, total_elapsed_time=70, sport=2)
            out.write("activity", timestamp=end - 30, local_timestamp=end + 20, num_sessions=1)

        for begin, local in ((end - 50, None), (end - 70, end + 20)):
            into = io.BytesIO()
            gazhdor.edit(written(step), into, begin=begin)
            (activity,) = gazhdor.messages(into.getvalue(), only="activity")
            self.assertEqual((activity.get("local_timestamp"), activity["num_sessions"]), (local, 1))


class Join(unittest.TestCase):
    def test_chain(self):
        command("edit", "--shift", "86400", RIDE, at("next.fit"))
        command("join", RIDE, at("next.fit"), RIDE, at("out.fit"))
        self.assertEqual(bytes_at(at("out.fit")), BYTES + bytes_at(at("next.fit")) + BYTES)

    def test_one(self):
        """One activity: distances go on, a lap for each file, and one session."""
        command("edit", "--shift", "86400", RIDE, at("next.fit"))
        command("join", "--one", RIDE, at("next.fit"), at("out.fit"))
        self.assertEqual(gazhdor.check(at("out.fit")).files, 1)
        first, second, both = (list(gazhdor.table(path)) for path in (RIDE, at("next.fit"), at("out.fit")))
        whole = first[-1].distance
        self.assertEqual(len(both), len(first) + len(second))
        self.assertEqual(both[: len(first)], first)
        self.assertEqual([round(row.distance, 2) for row in both[len(first) :]],
            [round(row.distance + whole, 2) for row in second])
        laps, (session,), (file_id,) = (list(gazhdor.messages(at("out.fit"), only=name))
            for name in ("lap", "session", "file_id"))
        (old,) = gazhdor.messages(RIDE, only="file_id")
        self.assertEqual(dict(file_id), dict(old))
        self.assertEqual([lap["start_time"] for lap in laps], [START, START + 86400])
        ran = sum(lap["total_timer_time"] for lap in laps)
        self.assertEqual((session["num_laps"], session["total_timer_time"], session["total_elapsed_time"]),
            (2, ran, 86400.0 + laps[1]["total_elapsed_time"]))
        self.assertAlmostEqual(session["total_distance"], 2 * whole, 1)

    def test_again(self):
        """A ride that is cut in two, and joined, is as long as it was, but for what lies between the parts."""
        rows = list(gazhdor.table(RIDE))
        half = START + 360
        parts = [io.BytesIO(), io.BytesIO(), io.BytesIO()]
        gazhdor.edit(RIDE, parts[0], end=half - 1)
        gazhdor.edit(RIDE, parts[1], begin=half)
        gazhdor.join([part.getvalue() for part in parts[:2]], parts[2], one=True)
        at = next(k for k, row in enumerate(rows) if (row.timestamp - EPOCH).total_seconds() >= half)
        (session,) = gazhdor.messages(parts[2].getvalue(), only="session")
        laps = list(gazhdor.messages(parts[2].getvalue(), only="lap"))
        lost = rows[at].distance - rows[at - 1].distance
        self.assertAlmostEqual(session["total_distance"], rows[-1].distance - lost, 2)
        self.assertAlmostEqual(sum(lap["total_distance"] for lap in laps), session["total_distance"], 2)
        self.assertEqual([round(row.distance, 2) for row in gazhdor.table(parts[2].getvalue())][at:],
            [round(row.distance - lost, 2) for row in rows[at:]])

    def test_gap(self):
        """What lies between two rides isn't ridden, also where the first has no event at its end."""
        record = define(0, 20, [(253, 4, UINT32), (5, 4, UINT32)])
        rides = [fit(record, *(packed("<BII", 0, START + begin + k, 750 * k) for k in (0, 100))) for begin in (0, 1000)]
        into = io.BytesIO()
        gazhdor.join(rides, into, one=True)
        (session,) = gazhdor.messages(into.getvalue(), only="session")
        self.assertEqual((session["total_timer_time"], session["total_elapsed_time"], session["total_distance"],
            session["avg_speed"]), (200.0, 1100.0, 1500.0, 7.5))

    def test_undescribed(self):
        """A developer field that a file doesn't describe isn't read as one of the file before it."""
        record = define(0, 20, [(253, 4, UINT32)], [(1, 1, 0)])
        first = fit(DESCRIBE, describe(0, 1, UINT8, b"Strain", b"N"), record, packed("<BIB", 0, START, 5))
        second = fit(record, packed("<BIB", 0, START + 10, 5))
        with self.assertRaisesRegex(ValueError, "file 2 doesn't describe its developer field dev_0_1"):
            gazhdor.join([first, second], io.BytesIO(), one=True)
        gazhdor.join([second, first], io.BytesIO())

    def test_kinds_of_numbers(self):
        """The number of a lap stays of its base type; several numbers, a text and bytes are none, and stay."""
        kinds = {("uint8", 1): (7, [0, 1]), ("uint32", 1): (7, [0, 1]), ("float32", 1): (7, [0, 1]),
            ("uint16", 2): ([1, 2], [(1, 2)] * 2), ("string", 3): ("ab", ["ab"] * 2), ("byte", 2): (b"ab", [b"ab"] * 2)}
        for (base, count), (value, wanted) in kinds.items():
            def step(out, begin):
                out.write("record", timestamp=begin)
                lap = out.define("lap", [253, 2, 7, (254, base, count)])
                lap.write({253: begin, 2: begin, 7: 0, 254: value})

            files = [written(lambda out, begin=begin: step(out, begin)) for begin in (START, START + 9)]
            into = io.BytesIO()
            gazhdor.join(files, into, one=True)
            laps = gazhdor.messages(into.getvalue(), only="lap")
            self.assertEqual([(lap[254], lap.field(254).base) for lap in laps],
                [(number, next(gazhdor.messages(files[0], only="lap")).field(254).base) for number in wanted])

    def test_numbers(self):
        """Means and maxima, a pause, and what no record has, by arithmetic."""
        record = define(0, 20, [(253, 4, UINT32), (3, 1, UINT8), (7, 2, UINT16), (5, 4, UINT32)])
        event = define(1, 21, [(253, 4, UINT32), (0, 1, 0), (1, 1, 0)])
        one = fit(define(2, 12, [(0, 1, 0)]), b"\2\x02", event, packed("<BIBB", 1, START, 0, 0), record,
            packed("<BIBHI", 0, START, 100, 200, 0), packed("<BIBHI", 0, START + 10, 121, 65535, 5000),
                  packed("<BIBB", 1, START + 10, 0, 4), packed("<BIBB", 1, START + 70, 0, 0),
                  packed("<BIBHI", 0, START + 80, 255, 301, 12000), packed("<BIBB", 1, START + 80, 0, 4))
        two = fit(event, packed("<BIBB", 1, START + 100, 0, 0), record, packed("<BIBHI", 0, START + 100, 90, 65535, 0),
            packed("<BIBHI", 0, START + 130, 92, 65535, 3000), packed("<BIBB", 1, START + 130, 0, 4))
        command("join", "--one", write("one.fit", one), write("two.fit", two), at("out.fit"))
        laps, (session,) = (list(gazhdor.messages(at("out.fit"), only=name)) for name in ("lap", "session"))
        self.assertEqual([(lap["total_timer_time"], lap["avg_heart_rate"], lap["max_heart_rate"], lap["total_distance"],
            lap.get("max_power")) for lap in laps],
                         [(20.0, 111, 121, 120.0, 301), (30.0, 91, 92, 30.0, None)])
        self.assertEqual((session["total_timer_time"], session["total_distance"], session["avg_heart_rate"],
            session["avg_power"], session["sport"]), (50.0, 150.0, 101, 251, 2))
        self.assertEqual((session["avg_speed"], session["total_elapsed_time"]), (3.0, 130.0))


class Examples(unittest.TestCase):
    @classmethod
    def setUpClass(cls):
        cls.made = run(example("gpx_to_fit.py"), in_tree("examples/ride.gpx"), at("gpx.fit"), encoding="utf-8")

    def test_gpx(self):
        """The ride is what another program made of the same track; it cuts altitudes to fifths of a metre, and these
        are the nearest."""
        self.assertEqual((self.made.returncode, self.made.stderr), (0, ""))
        wanted = [row for row in gazhdor.table(RIDE)]
        found = list(gazhdor.table(at("gpx.fit")))
        self.assertEqual([row.timestamp for row in found], [row.timestamp for row in wanted])
        for row, other in zip(found, wanted):
            self.assertAlmostEqual(row.altitude, other.altitude, delta=0.21)
            self.assertAlmostEqual(row.position_lat, other.position_lat, delta=1e-6)
            self.assertAlmostEqual(row.distance, other.distance, delta=12)
        self.assertNotEqual(run(example("gpx_to_fit.py"), RIDE, at("none.fit")).returncode, 0)
        self.assertFalse(os.path.exists(at("none.fit")))

    def test_heart_rates(self):
        times = [START + k for k in range(0, 700, 3)]
        with gazhdor.Writer(at("strap.fit")) as out:
            out.write("file_id", type=4)
            out.define("record", "timestamp heart_rate").columns(timestamp=times,
                heart_rate=[100 + k % 50 for k in range(len(times))])
        rates = dict(zip(times, (100 + k % 50 for k in range(len(times)))))
        for ride in (RIDE, at("gpx.fit")):
            done = run(example("merge_heart_rates.py"), ride, at("strap.fit"), at("merged.fit"), "1", encoding="utf-8")
            self.assertEqual((done.returncode, done.stderr), (0, ""))
            for before, after in zip(gazhdor.messages(ride), gazhdor.messages(at("merged.fit"))):
                near = [rate for time, rate in rates.items() if before.seconds is not None
                    and abs(time - before.seconds) <= 1]
                wanted = {**dict(before), **({"heart_rate": near[0] if near else None} if before.name == "record"
                    else {})}
                self.assertEqual(dict(after), wanted)

    def test_gpsbabel(self):
        """gpsbabel reads the places, altitudes and times of what is written, edited and joined."""
        if not shutil.which("gpsbabel"):
            left_out("there is no gpsbabel, so no other program reads what is edited and joined")
        command("edit", "--shift", "3600", RIDE, at("later.fit"))
        command("join", "--one", RIDE, at("later.fit"), at("both.fit"))
        for name, source in (("gpx.fit", at("gpx.fit")), ("later.fit", at("later.fit")), ("both.fit", at("both.fit"))):
            said = subprocess.run(["gpsbabel", "-i", "garmin_fit", "-f", source, "-o", "gpx", "-F", "-"],
                stdout=subprocess.PIPE, stderr=subprocess.PIPE, encoding="utf-8")
            self.assertEqual((said.returncode, said.stderr), (0, ""), name)
            points = re.findall(
                r'<trkpt lat="([-.\d]+)" lon="([-.\d]+)">\s*<ele>([-.\d]+)</ele>\s*<time>([^<]+)Z</time>', said.stdout)
            rows = list(gazhdor.table(source))
            self.assertEqual(len(points), len(rows), name)
            for (lat, long, altitude, time), row in zip(points, rows):
                self.assertAlmostEqual(float(lat), row.position_lat, 7)
                self.assertAlmostEqual(float(long), row.position_long, 7)
                self.assertAlmostEqual(float(altitude), row.altitude, 2)
                self.assertEqual(time, row.timestamp.strftime("%Y-%m-%dT%H:%M:%S"))


if __name__ == "__main__":
    unittest.main()
