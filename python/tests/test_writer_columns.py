"""Whether columns that are written are the messages of their rows, and what they can't have is refused."""
import datetime
import random
import unittest

from made import written

import gazhdor

try:
    import numpy
except ImportError:
    numpy = None

UTC = datetime.timezone.utc
START = datetime.datetime(2026, 5, 17, 7, 30, tzinfo=UTC)
SECONDS = int((START - datetime.datetime(1989, 12, 31, tzinfo=UTC)).total_seconds())


class Columns(unittest.TestCase):
    def test_as_rows(self):
        """Columns are the messages of their rows."""
        count = 300
        columns = {
            "timestamp": [START + datetime.timedelta(0, k) for k in range(count)],
            "heart_rate": [None if k % 7 == 0 else k % 200 for k in range(count)],
            "position_lat": [k / 10 - 15 for k in range(count)],
            "altitude": [None if k % 5 == 0 else k / 10 for k in range(count)],
            "power": (k for k in range(count)),
            9: [k % 3 for k in range(count)],
        }
        columns["power"] = list(columns["power"])
        rows = written(lambda out: [out.write("record", {key: column[k] for key, column in columns.items()})
            for k in range(count)])
        self.assertEqual(written(lambda out: out.define("record", list(columns)).columns({**columns,
            "power": iter(columns["power"])})), rows)
        texts = {"name": [None if k % 3 == 0 else k * "n" for k in range(40)], "sport": list(range(40))}
        found = [dict(m) for m in gazhdor.messages(written(lambda out: out.define("sport",
            "name sport").columns(texts)))]
        self.assertEqual(found, [{"name": name or None, "sport": sport} for name,
            sport in zip(texts["name"], texts["sport"])])
        beats = [tuple(beat / 1000 for beat in range(k)) for k in range(6)]
        self.assertEqual([m.values("time") for m in gazhdor.messages(written(lambda out: out.define("hrv",
            "time").columns(time=beats)))], beats)

    @unittest.skipUnless(numpy, "there is no numpy")
    def test_arrays(self):
        count = 5000
        r = random.Random(6)
        whole_numbers, halves = [r.randrange(200) for _ in range(count)], [round(r.uniform(-400, 9000), 1)
            for _ in range(count)]
        lists = {"timestamp": [SECONDS + k for k in range(count)], "heart_rate": whole_numbers, "altitude": halves,
            "position_long": [r.uniform(-180, 179) for _ in range(count)]}
        lists[(200)] = [r.uniform(-1e9, 1e9) for _ in range(count)]
        fields = ["timestamp", "heart_rate", "altitude", "position_long", (200, "float32")]
        wanted = written(lambda out: [out.define("record", fields, local=0).write({key: column[0] for key,
            column in lists.items()})])[:-2]
        arrays = {key: numpy.array(column) for key, column in lists.items()}
        made = written(lambda out: out.define("record", fields, local=0).columns(arrays))
        rows = written(lambda out: (lambda record: [record.write({key: column[k] for key, column in lists.items()})
            for k in range(count)])(out.define("record", fields, local=0)))
        self.assertEqual(made, rows)
        self.assertEqual(made[14 : len(wanted)], wanted[14:])
        arrays["timestamp"] = numpy.array([START.replace(tzinfo=None)] * count,
            "datetime64[ms]") + numpy.arange(count).astype("timedelta64[s]")
        self.assertEqual(written(lambda out: out.define("record", fields, local=0).columns(arrays)), rows)
        self.assertEqual(written(lambda out: out.define("record", fields, local=0).columns(lists)), rows)

    @unittest.skipUnless(numpy, "there is no numpy")
    def test_nothing(self):
        """NaN and NaT are no value, as in the arrays of `columns`."""
        columns = {"timestamp": numpy.array(["2026-05-17T07:30:00", "NaT"], "datetime64[s]"),
            "heart_rate": numpy.array([numpy.nan, 120.0]), "altitude": numpy.array([408.0, numpy.nan], "f4")}
        found = [dict(m) for m in gazhdor.messages(written(lambda out: out.define("record",
            list(columns)).columns(columns)))]
        self.assertEqual(found, [{"timestamp": SECONDS, "heart_rate": None, "altitude": 408.0},
            {"timestamp": None, "heart_rate": 120, "altitude": None}])
        for wrong in (numpy.array([1.0, numpy.inf]), numpy.array([1, 255]), numpy.array([-1, 2]),
                numpy.array([1, 2**40]), numpy.array([True, False]), numpy.array([2**63], "u8"), numpy.array(["1"])):
            with self.assertRaises(gazhdor.WrongValue):
                written(lambda out: out.define("record", "heart_rate").columns(heart_rate=wrong))
        with self.assertRaises(gazhdor.WrongValue) as caught:
            written(lambda out: out.define("record", "timestamp").columns(timestamp=numpy.array(["2026-05-17",
                "1970-01-01"], "datetime64[ns]")))
        self.assertEqual(caught.exception.row, 1)

    def test_wrong(self):
        for columns, kind in (({"heart_rate": [1, 2], "power": [1]}, ValueError), ({"heart_rate": "12"}, TypeError),
                ({"heart_rate": 5}, TypeError), ({"hart_rate": [1]}, gazhdor.UnknownName)):
            with self.assertRaises(kind):
                written(lambda out: out.define("record", "heart_rate power").columns(columns))
        beats = ([1, 2, 300], 2), ([1, None, 255], 2), ([True], 0), ([5, "6"], 1)
        others = ("power", [1.0, float("inf")], 1), ("altitude", [0.0, 1e300], 1), ("timestamp",
            [START, START.replace(tzinfo=None)], 1)
        for key, column, row in (*(("heart_rate", *column) for column in beats), *others):
            with self.assertRaises(gazhdor.WrongValue) as caught:
                written(lambda out: out.define("record", [key]).columns({key: column}))
            self.assertEqual((caught.exception.field, caught.exception.row), (key, row))
        self.assertEqual(str(gazhdor.WrongValue("it is wrong", "power", 5, 0, 3, 7)), "power, row 7: it is wrong")


if __name__ == "__main__":
    unittest.main()
