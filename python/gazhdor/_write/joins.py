"""Files that are joined: as a chain, or as one activity."""
from collections.abc import Iterable
from typing import Any, Optional

from .._names import EXTRA
from .._read.events import FileEnd, FileHeader
from .._read.messages import Message
from .._read.streams import Files, chained, messages
from .._sources import Source, bytes_of
from .describing import NotDescribed
from .distances import Odometer
from .sinks import Sink
from .summaries import (
    ACTIVITY,
    INDEX,
    LAP,
    LENGTH,
    RECORD,
    SESSION,
    SESSION_ENDS,
    Anew,
    Outline,
    Ride,
    Summary,
    activity_of,
    outlines,
)
from .told import ADDED, Counted
from .writer import Copies, Writer

_FILE_ID = (0, 49)  # file_id, file_creator
_ZONES, _OF, _OF_INDEX = 216, 0, 1  # time_in_zone: what it is of, and the number of that
_FIRST_LENGTH = 35  # of a lap


def join(sources: Iterable[Source], sink: Sink, one: bool = False) -> None:
    """Writes several files as a chain, or, with `one`, as one activity: with the header, the file_id and the sport of
    the first, the laps of all, distances that go on, and a session and an activity made anew by what laps and records
    say. A file without laps becomes a lap. It raises ValueError where a file begins before the one before it ends, or
    has a developer field that it doesn't describe."""
    with Copies(sink, EXTRA) as out:
        if one:
            joined = _Joined(out)
            for number, source in enumerate(sources, 1):
                for some in chained(bytes_of(source)):
                    joined.add(Files(some), number)
            joined.end()
            return
        for source in sources:
            for event in messages(source, everything=True):
                out.copy(event)


class _Added(Ride):
    """A file that is added: what it says of itself, what its records come to, and how their distances move."""

    def __init__(self, number: int, told: Outline, odometer: Optional[Odometer], before: Optional[int]) -> None:
        super().__init__(told)
        self.number, self.odometer, self.before = number, odometer, before
        # so many laps and lengths come before its own
        self.firsts: dict[int, int] = {}

    def named(self, kind: int, index: Any) -> Optional[int]:
        """The number that a lap, or a length, gets which has that number; None where there is no such one."""
        counted: Counted = self.told.counted[kind]
        at = counted.get(index)
        return None if at is None else self.firsts[kind] + at

    def moved(self, record: Message) -> Message:
        """A record as it goes on from the file before."""
        if self.before is not None and record.seconds is not None and record.seconds < self.before:
            what = f"file {self.number} begins before the one before it ends"
            raise ValueError(f"{what}: name them in the order of their times")
        self.take(record)
        return self.odometer.moved(record) if self.odometer else record


class _Joined:
    """Puts one file after another into an activity."""

    def __init__(self, out: Writer) -> None:
        self._out, self._all = out, Summary()
        self._first: Optional[Outline] = None
        # how many laps and lengths there are, the first and the last second of all, and how long the timer ran
        self._counts = {LAP: 0, LENGTH: 0}
        self._span: Optional[tuple[int, int]] = None
        self._ran = 0.0
        self._added: dict[str, Optional[float]] = dict.fromkeys(ADDED, 0)

    def add(self, files: Files, number: int) -> None:
        """Adds the files of a source, which has that number."""
        told = outlines(files)
        ride: Optional[_Added] = None
        for event in files.events():
            if isinstance(event, FileHeader):
                ride = self._begin(event, told.get(event.file, Outline()), number)
            elif isinstance(event, FileEnd) and ride:
                self._end(ride)
            elif isinstance(event, Message) and ride:
                self._put(event, ride)
            else:
                self._out.copy(event)

    def _begin(self, header: FileHeader, told: Outline, number: int) -> _Added:
        before = self._all.end if self._all.start is not None else None
        if self._first is None:
            self._out.copy(header)
        ride = _Added(number, told, None if self._first is None else Odometer(self._all.last_distance), before)
        self._first = self._first or told
        ride.firsts.update(self._counts)
        return ride

    def _put(self, message: Message, ride: _Added) -> None:
        """Writes what stays of a file: not what tells more of its sessions."""
        is_of_session = message.number == _ZONES and message.get(_OF) == SESSION
        if message.number in (SESSION, ACTIVITY) or message.number in _FILE_ID and ride.odometer or is_of_session:
            return
        if message.number == RECORD:
            message = ride.moved(message)
            self._all.take(message)
        try:
            self._out.copy(self._numbered(message, ride))
        except NotDescribed as fault:
            what = f"file {ride.number} doesn't describe its developer field {fault.field}"
            raise ValueError(f"{what}, and would get the name and the type of one of a file before it") from None

    def _numbered(self, message: Message, ride: _Added) -> Message:
        """A lap or a length with its number among all, where it has one, and what names one by its number."""
        kind, index = message.number, message._definition.by_key.get(INDEX)
        if kind in self._counts:
            message = message.replace({INDEX: self._counts[kind]}) if index and index.is_number else message
            self._counts[kind] += 1
        if kind == LAP and message.get(_FIRST_LENGTH) is not None:
            return message.replace({_FIRST_LENGTH: ride.named(LENGTH, message.get(_FIRST_LENGTH))})
        if kind == _ZONES and message.get(_OF) == LAP and message.get(_OF_INDEX) is not None:
            return message.replace({_OF_INDEX: ride.named(LAP, message.get(_OF_INDEX))})
        return message

    def _end(self, ride: _Added) -> None:
        """Takes in what a file comes to. Records that are in no lap become one."""
        records, told = ride.all, ride.told
        if records.start is None:
            return
        spans = [span for span in (self._span, told.span, (records.start, records.end)) if span]
        self._span = min(first for first, _ in spans), max(last for _, last in spans)
        self._ran += told.laps_ran
        last = ride.last_lap(self._counts[LAP])
        if last:
            last.write(self._out)
            self._counts[LAP] += 1
            self._ran += last.values["total_timer_time"]
        for name, sum_ in self._added.items():
            more = told.added(name)
            self._added[name] = None if sum_ is None or more is None else sum_ + more

    def end(self) -> None:
        """Writes the session and the activity, where there are records with times."""
        if self._first is None or self._span is None:
            return
        start, end = self._span
        counts = {"first_lap_index": 0, "num_laps": self._counts[LAP]}
        values = {"message_index": 0, **self._all.told(start, end, self._ran), **self._first.sport, **counts}
        Anew("session", {**values, **_whole(self._added), **SESSION_ENDS}).write(self._out)
        activity_of(end, 1, self._ran, self._first.zone).write(self._out)


def _whole(values: dict[str, Optional[float]]) -> dict[str, int]:
    """What is known of sums of whole numbers."""
    return {name: round(value) for name, value in values.items() if value is not None}
