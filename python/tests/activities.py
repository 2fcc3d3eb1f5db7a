"""Random activities for the tests of what is cut and joined, the same ones in every run: activities.py FOLDER COUNT
writes the first ones into a folder, as activity-0.fit and so on.

Each has records at 21 seconds or more, in one to three sessions of several sports, with laps, and its calories and
distances come to those of its laps. At random it has pauses, beats without a time, lengths, a developer field, times in
headers, zones of laps, and distances, cycles and power that a reader accumulates."""
import io
import os
import random
import sys

import support  # noqa: F401, it has gazhdor found

import gazhdor

START = 1147937400
SECONDS = 21
_TIMER, _STARTS, _STOPS = 0, 0, (1, 4)
_STEP = 25  # Distances are whole quarters of a metre, which centimetres and sixteenths of a metre both tell.
_FEATURES = ("pauses", "beats", "lengths", "developer", "headers", "zones", "accumulated", "cycles", "late")


def activity(seed):
    """The bytes of the activity of a number."""
    return Activity(seed).data


def strayed(seed):
    """The bytes of a ride, and the time and the sixteenths of a metre of each of its records: a reader accumulates these,
    and some records have times of elsewhere."""
    r, sink, told = random.Random(seed), io.BytesIO(), []
    with gazhdor.Writer(sink, gazhdor.EXTRA) as out:
        out.write("file_id", type=4)
        distance = r.randrange(4096)
        for time in range(START, START + 40):
            packed = ((distance & 0xFFF) << 12 | 300).to_bytes(3, "little")
            stray = r.choice((-START, -900, 900)) if r.random() < 0.2 else 0
            told.append((time + stray, distance))
            out.write("record", timestamp=time + stray, compressed_speed_distance=packed)
            distance += r.randrange(4096)
    return sink.getvalue(), told


class Activity:
    """An activity in the making: where it is in time and in metres, and what it has so far."""

    def __init__(self, seed):
        r = self.r = random.Random(seed)
        self.features = {name for name in _FEATURES if r.random() < 0.5}
        self.time, self.distance = START + r.randrange(10**6), _STEP * r.choice((0, 0, 494))
        self.seconds, self.laps, self.lengths, self.last = set(), [], 0, None
        self.cycles, self.power, self.headed, self.zoned = 0, 0, None, None
        sink = io.BytesIO()
        with gazhdor.Writer(sink, gazhdor.EXTRA) as self.out:
            self.out.write("file_id", type=4, time_created=self.time)
            if "developer" in self.features:
                self.form = self.out.describe("Form power", "W", "uint16", application=bytes(range(16)))
            self.sessions()
        self.data = sink.getvalue()

    def sessions(self):
        told, count = [], self.r.choice((1, 1, 2, 3))
        while len(told) < count or len(self.seconds) < SECONDS:
            told.append(self.session(len(told)))
            if "late" not in self.features:
                self.out.write("session", told[-1])
        for values in told if "late" in self.features else ():
            self.out.write("session", values)
        timer = sum(values["total_timer_time"] for values in told)
        self.out.write("activity", timestamp=self.time, num_sessions=len(told), type=0, total_timer_time=timer,
            local_timestamp=self.time + 7200)

    def session(self, number):
        r, first, begin, distance, sport = self.r, len(self.laps), self.time, self.distance, self.r.randrange(1, 20)
        self.out.write("sport", sport=sport, sub_sport=number)
        self.event(_STARTS)
        self.record()
        for _ in range(r.choice((1, 1, 2, 3))):
            self.laps.append(self.lap(sport))
        self.event(r.choice(_STOPS))
        laps = self.laps[first:]
        told = {
            **self.whole(begin, distance, sport),
            "message_index": number,
            "sub_sport": number,
            "first_lap_index": first,
            "num_laps": len(laps),
            **{name: sum(lap[name] for lap in laps) for name in ("total_timer_time", "total_calories")},
        }
        self.zones("session", number)
        self.time += r.choice((0, 1, 40))
        return told

    def whole(self, begin, distance, sport):
        """What a lap and a session say alike."""
        return {"timestamp": self.time, "start_time": begin, "sport": sport, "total_elapsed_time": self.time - begin,
            "total_distance": (self.distance - distance) / 100}

    def lap(self, sport):
        r, begin, distance, ran, number = self.r, self.time, self.distance, 0, len(self.laps)
        first = {"first_length_index": self.lengths} if "lengths" in self.features else {}
        for _ in range(r.randrange(4, 12)):
            ran += self.step()
            self.record()
            if "beats" in self.features and r.random() < 0.8:
                beats = [r.randrange(300, 1200) / 1000 for _ in range(r.randrange(1, 6))]
                self.out.write("hrv", time=beats + [None] * (5 - len(beats)))
            if "lengths" in self.features and r.random() < 0.2:
                self.length()
        own = {"message_index": number, "total_timer_time": ran, "total_calories": r.randrange(200)}
        told = {**self.whole(begin, distance, sport), **own, **first, "total_ascent": r.randrange(50)}
        self.out.write("lap", told)
        self.zones("lap", number)
        return told

    def step(self):
        """Goes on, or stands still, and returns how many seconds of that the timer ran."""
        step = self.r.choice((1, 1, 1, 3, 7))
        self.distance += _STEP * self.r.randrange(40)
        if "pauses" not in self.features or self.r.random() < 0.9:
            self.time += step
            return step
        self.event(self.r.choice(_STOPS))
        self.time += self.r.choice((1, 9, 200))
        self.event(_STARTS)
        return 0

    # ---- its messages

    def event(self, kind):
        self.out.write("event", timestamp=self.time, event=_TIMER, event_type=kind)
        self.last = self.time

    def record(self):
        r, metres = self.r, self.distance / 100
        values = {"heart_rate": r.randrange(60, 200)}
        if "accumulated" in self.features:
            values["compressed_speed_distance"] = ((int(16 * metres) & 0xFFF) << 12 | 300).to_bytes(3, "little")
        else:
            values["distance"] = metres
        if "cycles" in self.features:
            self.cycles, self.power = self.cycles + 2 * r.randrange(50), self.power + 2 * r.randrange(450)
            values.update(cycles=self.cycles & 0xFF, compressed_accumulated_power=self.power & 0xFFFF)
        if "developer" in self.features:
            values[self.form] = r.choice((None, r.randrange(400)))
        if "headers" in self.features and self.last is not None and self.time - self.last < 32 and r.random() < 0.7:
            if self.headed is None:
                self.headed = self.out.define("record", list(values), local=0)
            self.headed.write({**values, ".time_offset": self.time & 31})
        else:
            self.out.write("record", {"timestamp": self.time, **values})
        self.last = self.time
        self.seconds.add(self.time)

    def length(self):
        self.out.write("length", timestamp=self.time, start_time=self.time - 1, total_elapsed_time=1,
            message_index=self.lengths, length_type=1, total_strokes=self.r.randrange(20))
        self.lengths, self.last = self.lengths + 1, self.time

    def zones(self, of, number):
        if "zones" in self.features:
            told = {253: self.time, 0: {"session": 18, "lap": 19}[of], 1: number, 2: self.r.randrange(10**6)}
            if self.zoned is None:
                fields = [(0, "uint16"), (1, "uint16"), (2, "uint32")]
                self.zoned = self.out.define("time_in_zone", [253, *fields])
            self.zoned.write(told)
            self.last = self.time


def main():
    folder, count = sys.argv[1], int(sys.argv[2])
    os.makedirs(folder, exist_ok=True)
    for seed in range(count):
        with open(os.path.join(folder, f"activity-{seed}.fit"), "wb") as file:
            file.write(activity(seed))


if __name__ == "__main__":
    main()
