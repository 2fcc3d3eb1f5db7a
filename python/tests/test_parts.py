"""Whether the parts of recordings, joined again, come to what the whole did, and each says of itself what its records
say: by the sums of what is read of the whole, of the activities of activities.py, of recordings of each kind and of the
known files. Each is cut once, at 20 places, and all sums are those of the same parts."""
import bisect
import concurrent.futures
import io
import random
import unittest

from support import RIDE, bytes_at, known, recording
from activities import START, activity, strayed
from fits import any_file
from parts import PLACES, beats, counted, cut, inside, joined, laps_ran, messages, metres, of, part, ran, sessions_ran
from parts import timed, undescribed, whole

import gazhdor

ACTIVITIES = 300
KINDS = ("plain", "compressed", "developer", "interleaved", "turns", "definitions", "strings", "small")
# The known files whose parts can't be joined, each with the reason: a record has a developer field before the field is
# described. In the first part that is a field of which nothing is known, and it stays one; in the next one it would come
# after the description of the first, and would get the name and the type of this.
NOT_JOINED = {"both": "file 2 doesn't describe its developer field dev_0_5, and would get the name and the type of one of a "
    "file before it"}


class Activity(unittest.TestCase):
    """What is so of the parts of an activity, and of these joined again."""

    def see(self, seed):
        self.data, r = activity(seed), random.Random(seed)
        self.parts = cut(self.data, r)
        self.assertEqual(len(self.parts), PLACES + 1)
        for span, piece in self.parts:
            self.see_part(span, piece)
        self.both = joined([piece for _, piece in self.parts])
        self.see_messages()
        self.see_numbers()
        self.see_sums()
        for name in ("lap", "session"):
            self.see_wholes(name)

    # ---- each part

    def see_part(self, span, data):
        """That a part says of itself what its records say, and has nothing of outside."""
        begin, end = span
        for times in ([m.seconds for m in found if m.seconds is not None] for found in messages(data).values()):
            self.assertTrue(not times or (begin is None or min(times) >= begin) and (end is None or max(times) <= end))
        laps, sessions = of(data, "lap"), of(data, "session")
        (told,) = of(data, "activity")
        timer = sum(session["total_timer_time"] for session in sessions)
        self.assertEqual((told["num_sessions"], told["total_timer_time"]), (len(sessions), timer))
        self.assertEqual(sum(lap["total_timer_time"] for lap in laps), timer)
        counts = ((session["first_lap_index"], session["num_laps"]) for session in sessions)
        self.assertEqual([lap["message_index"] for lap in laps],
            [index for first, count in counts for index in range(first, first + count)])
        self.assertLessEqual({m["sport"] for m in of(data, "sport")}, {m["sport"] for m in sessions})
        self.see_told(data, (*laps, *sessions))
        if begin is not None:
            self.assertEqual(of(data, "record")[0].distance, 0)

    def see_told(self, data, wholes):
        """That laps and sessions say what the records in their time do."""
        for told in wholes:
            inside = [m for m in of(data, "record") if told["start_time"] <= m.seconds <= told["timestamp"]]
            self.assertAlmostEqual(told["total_distance"], inside[-1].distance - inside[0].distance, 6)
            self.assertEqual(told["total_elapsed_time"], told["timestamp"] - told["start_time"])
            if "max_heart_rate" in told:
                rates = [m["heart_rate"] for m in inside]
                mean = int(sum(rates) / len(rates) + 0.5)
                self.assertEqual((told["max_heart_rate"], told["avg_heart_rate"]), (max(rates), mean))

    # ---- the parts together

    def see_messages(self):
        """That records, beats and lengths are those of the whole, and what counts on over all records."""
        data, both = self.data, self.both
        records = of(data, "record")
        self.assertEqual(list(map(whole, of(both, "record"))), list(map(whole, records)))
        self.assertEqual(counted(of(both, "record")), [(m.total_cycles, m.accumulated_power) for m in records])
        of_parts = [pair for _, piece in self.parts for pair in counted(of(piece, "record"))]
        self.assertEqual(of_parts, counted(records))
        self.assertEqual(beats(both), beats(data))
        firsts = [span[0] for span, _ in self.parts[1:]]
        inside = [m["total_strokes"] for m in of(data, "length") if m.seconds not in firsts]
        self.assertEqual([m["total_strokes"] for m in of(both, "length")], inside)

    def see_numbers(self):
        """That what is joined names laps and lengths by the numbers that these have there, and no session that is gone."""
        laps, lengths = of(self.both, "lap"), of(self.both, "length")
        self.assertEqual([m["message_index"] for m in lengths], list(range(len(lengths))))
        for zone in of(self.both, "time_in_zone"):
            lap = laps[zone["reference_index"]]
            self.assertEqual((zone["reference_mesg"], zone.seconds), (19, lap.seconds))
        for lap in laps:
            inside = [m["message_index"] for m in lengths if lap["start_time"] < m.seconds <= lap.seconds]
            if inside and lap.get("first_length_index") is not None:
                self.assertEqual(lap["first_length_index"], inside[0])

    def see_sums(self):
        """That sums are those of the whole: what is lost lies between the last record of a part and the first of the
        next one."""
        sessions, laps, (session,) = of(self.data, "session"), of(self.both, "lap"), of(self.both, "session")
        up_to, records = ran(self.data), of(self.data, "record")
        times = [m.seconds for m in records]
        gaps = [bisect.bisect_left(times, span[0]) for span, _ in self.parts[1:]]
        lost = sum(up_to(times[at]) - up_to(times[at - 1]) for at in gaps)
        distance = sum(records[at].distance - records[at - 1].distance for at in gaps)
        self.assertAlmostEqual(session["total_distance"], records[-1].distance - records[0].distance - distance, 6)
        self.assertEqual(session["total_timer_time"], sum(lap["total_timer_time"] for lap in laps))
        self.assertEqual(session["total_timer_time"], sum(of["total_timer_time"] for of in sessions) - lost)
        if all(of["total_elapsed_time"] > 1 for of in sessions):
            self.assertEqual(session["total_calories"], sum(of["total_calories"] for of in sessions))
        self.assertEqual((session["num_laps"], [lap["message_index"] for lap in laps]),
            (len(laps), list(range(len(laps)))))

    def see_wholes(self, name):
        """That whole laps, or sessions, stay as they are, with what tells more of them; that what is cut has its sport,
        and its share of the calories."""
        told = {m["message_index"]: m for m in of(self.data, name)}
        number, shares = {"lap": 19, "session": 18}[name], {}
        for (begin, end), piece in self.parts:
            inside = [m for m in told.values()
                if (begin is None or m["start_time"] >= begin) and (end is None or m.seconds <= end)]
            found = of(piece, name)
            self.assertEqual([dict(m) for m in found if m["message_index"] in {m["message_index"] for m in inside}],
                list(map(dict, inside)))
            zones = [m["reference_index"] for m in of(piece, "time_in_zone") if m["reference_mesg"] == number]
            self.assertLessEqual(set(zones), {m["message_index"] for m in inside})
            for m in found:
                index = m["message_index"]
                self.assertEqual(m["sport"], told[index]["sport"])
                shares[index] = shares.get(index, 0) + m["total_calories"]
        # Of one that has a second alone, each part may have but one end.
        for index, share in shares.items():
            if told[index]["total_elapsed_time"] > 1:
                self.assertEqual(share, told[index]["total_calories"])


class Strayed(unittest.TestCase):
    """Parts of rides of which some records have times of elsewhere: those that stay tell their distances from the first
    one on, by arithmetic, and the session tells the same."""

    def see(self, seed):
        (data, told), r = strayed(seed), random.Random(seed)
        times = sorted(r.sample(range(START, START + 40), 2))
        begin, end = r.choice(((None, times[1]), (times[0], None), times))
        kept = [(time, metres / 16) for time, metres in told
            if (begin is None or time >= begin) and (end is None or time <= end)]
        first = 0 if kept[0] == (told[0][0], told[0][1] / 16) else kept[0][1]
        made = part(data, begin, end)
        records, (session,) = of(made, "record"), of(made, "session")
        self.assertEqual([m.seconds for m in records], [time for time, _ in kept])
        for message, (_, metres) in zip(records, kept):
            self.assertAlmostEqual(message.distance, metres - first, delta=0.0051)
        self.assertAlmostEqual(session["total_distance"], max(0, kept[-1][1] - kept[0][1]), delta=0.0051)

    def test_times_of_elsewhere(self):
        for seed in range(100):
            with self.subTest(seed):
                self.see(seed)

    def test_dropped(self):
        """A sum isn't written into a field that is emptied, also where it is accumulated otherwise than before."""
        for drop in ("distance", "record.5", "20.distance"):
            for seed in range(10):
                sink = io.BytesIO()
                gazhdor.edit(strayed(seed)[0], sink, end=START + 30, drop=drop)
                self.assertEqual({m.get(5) for m in of(sink.getvalue(), "record")}, {None})


class Recording(unittest.TestCase):
    """What is so of the parts of any recording: records and beats are those of the whole, and so are the sums of such
    as are no random files."""

    def see(self, name, data, has_sums):
        """The reason why its parts can't be joined, if they can't."""
        parts = cut(data, random.Random(name), has_sums)
        for (begin, end), piece in parts:
            times = [m.seconds for m in of(piece, "record") if m.seconds is not None]
            self.assertTrue(not times or (begin is None or min(times) >= begin) and (end is None or max(times) <= end))
        found = [m for _, piece in parts for m in of(piece, "record")] if parts else of(data, "record")
        self.assertEqual(timed(found), timed(of(data, "record")), name)
        self.see_wholes(name, data, found)
        return self.see_joined(name, data, parts) if has_sums else None

    def see_wholes(self, name, data, found):
        """That records say what they said: times, names, units, types and items, those of developer fields too; and
        that one without a time has got none."""
        records = of(data, "record")
        self.assertEqual(sorted(whole(m) for m in found if m.seconds is not None),
            sorted(whole(m) for m in records if m.seconds is not None), name)
        self.assertEqual({whole(m) for m in found if m.seconds is None},
            {whole(m) for m in records if m.seconds is None}, name)

    def see_joined(self, name, data, parts):
        """That each part says of itself what its records say, and that parts come to what the whole did, once joined.
        They can't be where a part has a developer field before its description, which one before it has."""
        agrees = laps_ran(data) == sessions_ran(data)  # Some recordings end after their last lap.
        for span, piece in parts:
            self.assertTrue(inside(piece, span), name)
            if len(parts) > 1:
                self.see_told(name, piece)
                self.assertTrue(not agrees or laps_ran(piece) == sessions_ran(piece), name)
        first = undescribed(parts[0][1])
        why = any(undescribed(piece) & first for _, piece in parts[1:])
        try:
            both = joined([piece for _, piece in parts])
        except ValueError as error:
            self.assertTrue(why, f"{name}: {error}")
            return str(error)
        self.assertFalse(why, name)
        self.see_wholes(name, data, of(both, "record"))
        self.assertEqual(beats(both), beats(data), name)
        self.assertEqual(len(of(both, "record")), len(of(data, "record")), name)
        if any(m.seconds is not None for m in of(data, "record")):
            self.see_sums(name, data, parts, both)
        else:
            self.assertEqual((of(both, "session"), of(both, "activity")), ([], []), name)
        return None

    def see_told(self, name, piece):
        """That the activity of a part says what its sessions say, and these and its laps what its records do."""
        records, laps, sessions, (told,) = (of(piece, kind) for kind in ("record", "lap", "session", "activity"))
        self.assertEqual((told["num_sessions"], told["total_timer_time"]), (len(sessions), sessions_ran(piece)), name)
        for whole in (*laps, *sessions):
            begin, end = whole["start_time"], whole["timestamp"]
            self.assertEqual(whole["total_elapsed_time"], end - begin, name)
            within = [m for m in records if m.seconds is not None and begin <= m.seconds <= end]
            self.assertAlmostEqual(whole.get("total_distance") or 0, metres(within), 6, name)
            rates = [m["heart_rate"] for m in within if m.get("heart_rate") is not None]
            if rates:
                mean = int(sum(rates) / len(rates) + 0.5)
                self.assertEqual((whole["max_heart_rate"], whole["avg_heart_rate"]), (max(rates), mean), name)

    def see_sums(self, name, data, parts, both):
        """That the parts of a recording, joined, come to what the whole did, but for what lies between them."""
        (session,), laps, records = of(both, "session"), of(both, "lap"), of(data, "record")
        up_to, times = ran(data), [m.seconds for m in records]
        gaps = [bisect.bisect_left(times, span[0]) for span, _ in parts[1:]]
        lost = sum(up_to(times[at]) - up_to(times[at - 1]) for at in gaps)
        wholes = of(data, "session") or of(data, "lap")  # gpsbabel writes no session
        timer = sum(m.get("total_timer_time", m["total_elapsed_time"]) for m in wholes)
        if not wholes:  # Then the records alone say how long it ran.
            timer = up_to(times[-1]) - up_to(times[0])
        self.assertEqual(session["total_timer_time"], timer - lost, name)
        self.assertEqual((sum(lap["total_timer_time"] for lap in laps), session["num_laps"]), (timer - lost, len(laps)))
        self.assertEqual([session.get("total_calories")], [m.get("total_calories") for m in wholes] or [None], name)
        distance = sum(metres(records[first:last]) for first, last in zip([0, *gaps], [*gaps, len(records)]))
        self.assertEqual(session.get("total_distance") is None, all(m.distance is None for m in records), name)
        self.assertAlmostEqual(session.get("total_distance") or 0, distance, 6, name)


def see(told):
    """One case, in a process of its own, the number of an activity, or a recording: its name, and why its parts can't be
    joined, if they can't."""
    name = told if isinstance(told, int) else told[0]
    try:
        return name, Activity().see(told) if isinstance(told, int) else Recording().see(*told)
    except AssertionError as error:
        raise AssertionError(f"{name}: {error}") from error


class Parts(unittest.TestCase):
    def see_all(self, cases, size=1):
        """Sees cases, in as many processes as there are processors."""
        with concurrent.futures.ProcessPoolExecutor() as pool:
            return list(pool.map(see, cases, chunksize=size))

    def test_activities(self):
        self.assertEqual(self.see_all(range(ACTIVITIES), 5), [(number, None) for number in range(ACTIVITIES)])

    def test_recordings(self):
        """Recordings of each kind, the ride, the known files and random ones."""
        files = {"ride": bytes_at(RIDE), **known(), **{kind: bytes_at(recording(kind, "20k")) for kind in KINDS}}
        files.update((f"any {seed}", any_file(random.Random(seed))) for seed in range(20))
        cases = [(name, data, not name.startswith("any")) for name, data in files.items()]
        self.assertEqual(self.see_all(cases), [(name, NOT_JOINED.get(name)) for name in files])


if __name__ == "__main__":
    unittest.main()
