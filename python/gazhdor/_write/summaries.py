"""What the records of a ride say as a whole, and what a file says of itself: its sessions, its laps, its activity."""
import bisect
import itertools
from array import array
from typing import Any, NamedTuple, Optional

from .._numbers import NO_TIME
from .._read.messages import Message
from .._read.streams import Files
from .._times import SYSTEM_TIMES
from ..errors import WrongValue
from .told import ADDED, Counted, Told, number_of, sport_of
from .writer import Writer

LAP, SESSION, RECORD, EVENT, SPORT, ACTIVITY, LENGTH = 19, 18, 20, 21, 12, 34, 101
INDEX = 254
# Numbers of the profile: events, their types, and what ends a lap.
_TIMER, _OF_SESSION, _OF_LAP, _OF_ACTIVITY = 0, 8, 9, 26
START, STOP, STOPS = 0, 1, (1, 4, 8, 9)
_EVER = 1 << 40  # more seconds than a file can tell
LAP_ENDS = {"event": _OF_LAP, "event_type": STOP, "lap_trigger": 7}
SESSION_ENDS = {"event": _OF_SESSION, "event_type": STOP, "trigger": 0}
_MEANS = ("heart_rate", "cadence", "power")


class Timer:
    """How many seconds the timer ran, by its events; all the time where there are none."""

    def __init__(self) -> None:
        # of each event its second, and whether the timer starts
        self._times, self._starts, self._is_in_order = array("q"), bytearray(), True
        # of each time in which it ran the beginning and the end, and how long it ran before
        self._ran: "Optional[tuple[array[int], array[int], array[int]]]" = None

    def take(self, message: Message) -> None:
        seconds = message.seconds
        if message.get(0) == _TIMER and seconds is not None and message.get(1) in (START, *STOPS):
            self._is_in_order = self._is_in_order and (not self._times or self._times[-1] <= seconds)
            self._times.append(seconds)
            self._starts.append(message[1] == START)
            self._ran = None

    def _order(self) -> None:
        """Puts the events in the order of their times."""
        if not self._is_in_order:
            order = sorted(range(len(self._times)), key=self._times.__getitem__)
            self._times = array("q", (self._times[row] for row in order))
            self._starts, self._is_in_order = bytearray(self._starts[row] for row in order), True

    def _found(self) -> "tuple[array[int], array[int], array[int]]":
        if self._ran is None:
            self._order()
            begins, ends, before = array("q"), array("q"), array("q", [0])
            since: Optional[int] = None if self._starts and self._starts[0] else -_EVER
            for time, starts in zip(itertools.chain(self._times, [_EVER]), itertools.chain(self._starts, [False])):
                if starts:
                    since = time if since is None else since
                elif since is not None:
                    begins.append(since)
                    ends.append(time)
                    before.append(before[-1] + time - since)
                    since = None
            self._ran = begins, ends, before
        return self._ran

    def _up_to(self, time: int) -> int:
        begins, ends, before = self._found()
        at = bisect.bisect_right(begins, time)
        return before[at] - max(0, ends[at - 1] - time) if at else 0

    def ran(self, start: int, end: int) -> int:
        """How long it ran from a second to another one."""
        return self._up_to(end) - self._up_to(start)


class Summary:
    """Takes in the records of a ride, and says what they come to. Of what no record has it says nothing."""

    def __init__(self) -> None:
        self.start: Optional[int] = None
        self.end = 0
        self._places: list[tuple[int, int]] = []
        self._distances: list[float] = []
        self._top: dict[str, float] = {}
        self._sums: dict[str, tuple[float, int]] = {}

    def take(self, message: Message) -> None:
        seconds = message.seconds
        if seconds is not None:
            self.start = seconds if self.start is None else min(self.start, seconds)
            self.end = max(self.end, seconds)
        lat, long = message.get(0), message.get(1)
        if isinstance(lat, int) and isinstance(long, int):
            self._places[1:] = [(lat, long)]
        distance = number_of(message, "distance", message.distance)
        if distance is not None:
            self._distances[1:] = [distance]
        speed = number_of(message, "enhanced_speed", number_of(message, "speed", message.speed))
        for name, value in (("speed", speed), *((name, number_of(message, name)) for name in _MEANS)):
            if value is not None:
                self._top[name] = max(value, self._top.get(name, value))
                total, count = self._sums.get(name, (0, 0))
                self._sums[name] = total + value, count + 1

    @property
    def last_distance(self) -> float:
        return self._distances[-1] if self._distances else 0.0

    def told(self, start: int, end: int, ran: float) -> dict[str, Any]:
        """The fields that a lap and a session of this span have alike, in which the timer ran so long."""
        found: dict[str, Any] = {
            "timestamp": end,
            "start_time": start,
            "total_elapsed_time": float(end - start),
            "total_timer_time": float(ran),
        }
        if self._places:
            found["start_position_lat"], found["start_position_long"] = self._places[0]
        if self._distances:
            found["total_distance"] = max(0.0, self._distances[-1] - self._distances[0])
        for name in ("speed", *_MEANS):
            if name in self._sums:
                total, count = self._sums[name]
                found[f"avg_{name}"], found[f"max_{name}"] = total / count, self._top[name]
        if ran and "total_distance" in found:
            found["avg_speed"] = found["total_distance"] / ran
        return {name: value for name, value in found.items() if not name.endswith("_speed") or value < 65.535}

    def lap(self, start: int, end: int, ran: float) -> dict[str, Any]:
        found = self.told(start, end, ran)
        if self._places:
            found["end_position_lat"], found["end_position_long"] = self._places[-1]
        return found


class Outline:
    """What a file says of itself: its laps, its sessions, their sports, its activity, and when its timer ran."""

    def __init__(self) -> None:
        self.laps, self.sessions = Told(), Told()
        self.sports = 0  # so many messages say one
        self.timer = Timer()
        # all laps and lengths
        self.counted = {LAP: Counted(), LENGTH: Counted()}
        # what the first activity says, and how many seconds the clock of the place is ahead of UTC
        self.activity: Optional[dict[str, Any]] = None
        self.zone: Optional[int] = None
        self._sport: dict[str, Any] = {}

    def of(self, number: int) -> Told:
        """The laps, or the sessions."""
        return self.laps if number == LAP else self.sessions

    def take(self, message: Message) -> None:
        number = message.number
        if number in self.counted:
            self.counted[number].take(message.get(INDEX))
        if number == EVENT:
            self.timer.take(message)
        elif number in (LAP, SESSION):
            self.of(number).take(message)
        elif number == SPORT:
            self._sport = self._sport or sport_of(message)
            self.sports += 1
        elif number == ACTIVITY:
            self._take_activity(message)

    def _take_activity(self, message: Message) -> None:
        local, seconds = message.get("local_timestamp"), message.seconds
        if self.activity is None:
            self.activity = activity_in(message)
        if self.zone is None and isinstance(local, int) and seconds is not None:
            self.zone = local - seconds

    @property
    def sport(self) -> dict[str, Any]:
        """The sport of its first session, or where it has none, the one that it names first."""
        told = map(self.sessions.sport, range(len(self.sessions)))
        return next((sport for sport in told if sport), self._sport)

    @property
    def span(self) -> Optional[tuple[int, int]]:
        """The first and the last second of all laps and sessions; None without any."""
        told = [of for of in (self.laps, self.sessions) if len(of)]
        firsts = [of.first for of in told if of.first is not None]
        return (min(firsts), max(of.last for of in told if of.last is not None)) if firsts else None

    def lap_ran(self, row: int) -> float:
        """How long the timer ran in a lap, as it says, or else by the events."""
        timer = self.laps.timer(row)
        return float(self.timer.ran(*self.laps.span(row))) if timer is None else timer

    @property
    def laps_ran(self) -> float:
        """The same of all laps."""
        return sum(map(self.lap_ran, range(len(self.laps))))

    def added(self, name: str) -> Optional[float]:
        """What its sessions come to, or its laps; None where not all of them say it."""
        sums = (of.added[name] for of in (self.sessions, self.laps) if len(of))
        return next((sum_ for sum_ in sums if sum_ is not None), None)


class Ride:
    """The records of a file: all of them, and those after its last lap."""

    def __init__(self, told: Outline) -> None:
        self.told, self.all, self._rest = told, Summary(), Summary()

    def take(self, record: Message) -> None:
        laps_end = self.told.laps.last
        self.all.take(record)
        if record.seconds is not None and (laps_end is None or record.seconds > laps_end):
            self._rest.take(record)

    def last_lap(self, index: int) -> "Optional[Anew]":
        """A lap of the records that are in none, by what it is counted; none where the timer didn't run in it."""
        laps_end, span = self.told.laps.last, self.told.span or (0, 0)
        if self._rest.start is None:
            return None
        begin, end = self._rest.start if laps_end is None else laps_end, max(self._rest.end, span[1], 0)
        ran = float(self.told.timer.ran(begin, end))
        if not ran and laps_end is not None:
            return None
        return Anew("lap", {"message_index": index, **self._rest.lap(begin, end, ran), **LAP_ENDS})


def outlines(files: Files) -> dict[int, Outline]:
    """The outline of each file that says something of itself, by its number."""
    found: dict[int, Outline] = {}
    for message in files.messages(LAP, SESSION, SPORT, ACTIVITY, EVENT, LENGTH):
        file = message.file
        if file not in found:
            found[file] = Outline()
        found[file].take(message)
    return found


class Anew(NamedTuple):
    """A message that is made anew: its name, and its values."""

    message: str
    values: dict[str, Any]

    def write(self, out: Writer) -> None:
        """Writes it, and nothing of what its fields can't have, as the mean of values that no ride has."""
        values = self.values
        while True:
            try:
                out.write(self.message, values)
                return
            except WrongValue as wrong:
                if wrong.field not in values:
                    raise
                values = {name: value for name, value in values.items() if name != wrong.field}


def activity_in(message: Message) -> dict[str, Any]:
    """What an activity says of itself, beside its times."""
    told = {name: message.get(name) for name in ("type", "event", "event_type")}
    return {name: value for name, value in told.items() if value is not None}


def activity_of(end: int, count: int, ran: float, zone: Optional[int], told: Optional[dict[str, Any]] = None) -> Anew:
    """The message of an activity of so many sessions in which the timer ran so long, which ends at a second; of one that
    was told what it says, too."""
    local = {} if zone is None or not SYSTEM_TIMES <= end + zone < NO_TIME else {"local_timestamp": end + zone}
    values = {"timestamp": end, "total_timer_time": ran, "num_sessions": count, "type": 0}
    return Anew("activity", {**values, "event": _OF_ACTIVITY, "event_type": STOP, **(told or {}), **local})
