"""A part of a recording: the messages of a span of time, and what says of them what they come to."""
from collections.abc import Callable
from typing import Any, NamedTuple, Optional, Union

from .._read.messages import Message
from .._read.native_fields import DESCRIPTION, DEVELOPER_DATA
from .._read.streams import Files
from .distances import Odometer
from .summaries import (
    ACTIVITY,
    LAP,
    LAP_ENDS,
    RECORD,
    SESSION,
    SESSION_ENDS,
    SPORT,
    Anew,
    Outline,
    Summary,
    activity_in,
    activity_of,
    outlines,
)
from .told import Told, span_of, sport_of

_STAYS = (0, DESCRIPTION, DEVELOPER_DATA)  # the file_id
_ZONES = 216  # time_in_zone, which is of a session or a lap
_MOST = 100  # So many laps and sessions are cut.
_CALORIES = "total_calories"


class Span(NamedTuple):
    """The first and the last second that stay, or None."""

    begin: Optional[int]
    end: Optional[int]

    def has(self, time: int) -> bool:
        return (self.begin is None or time >= self.begin) and (self.end is None or time <= self.end)

    def has_all(self, first: int, last: int) -> bool:
        return self.has(first) and self.has(last)

    def touches(self, first: int, last: int) -> bool:
        """Whether some second of both is the same."""
        return (self.begin is None or last >= self.begin) and (self.end is None or first <= self.end)

    def overlaps(self, first: int, last: int) -> bool:
        """Whether some time of both is the same, and not a second alone with which the one ends and the other
        begins."""
        if self.has_all(first, last):
            return True
        return (self.begin is None or last > self.begin) and (self.end is None or first < self.end)


class Inner(NamedTuple):
    """What of a lap or a session is in the span; None where it ends, or begins, outside."""

    first: Optional[int]
    last: Optional[int]


class _Inside(NamedTuple):
    """What a lap or a session that is cut comes to in the span, and the first and the last second of that."""

    summary: Summary
    start: int
    end: int


class _Laps(NamedTuple):
    """Of some laps: how many stay, the number of the first of these, how long the timer ran in them; and where the last
    of all of them ends, if there is one."""

    count: int
    first: Any
    ran: float
    end: Optional[int]


class Part:
    """What stays of a file. Its records are taken in first, and then each of its messages is asked for."""

    def __init__(self, span: Span, outline: Outline) -> None:
        self._span, self._outline = span, outline
        self._all = Summary()
        # whether a lap, and a session, has more in the span than the second with which it ends or begins
        self._overlap = {of: any(span.overlaps(*told) for told in outline.of(of).spans()) for of in (LAP, SESSION)}
        # of the laps and sessions that are cut, the part of each
        self._cut: dict[Inner, Summary] = {}
        for number in (LAP, SESSION):
            for told in outline.of(number).spans():
                if self._is_in(number, told) and not span.has_all(*told):
                    self._cuts(self._inner(told))
        # the time of the last record that was taken in, and of the last message that was asked for
        self._record_time: Optional[int] = None
        self._time: Optional[int] = None
        # whether a record stays, and whether one before it was left out
        self._has_record = self._is_later = False
        self._odometer: Optional[Odometer] = None
        self._sports_asked = 0
        # of laps and sessions that stay as they are the numbers; and of each sport whether a session stays
        self._wholes: Optional[dict[Any, set[Any]]] = None
        self._sports: Optional[dict[Any, bool]] = None
        # whether all sessions stay as they are, how many stay, where the last one ends, and how long the timer ran
        self._sessions_end: Optional[tuple[bool, int, int, float]] = None

    def _cuts(self, inner: Inner) -> None:
        if inner not in self._cut and len(self._cut) == _MOST:
            raise ValueError(f"over {_MOST} laps and sessions begin before the span, or end after it")
        self._cut.setdefault(inner, Summary())

    def _is_in(self, number: int, told: tuple[int, int]) -> bool:
        """Whether a lap or a session has a part in the span: the second with which it begins or ends, if that is all
        that there is of any."""
        return self._span.overlaps(*told) if self._overlap[number] else self._span.touches(*told)

    def _inner(self, told: tuple[int, int]) -> Inner:
        first, last = told
        return Inner(first if self._span.has(first) else None, last if self._span.has(last) else None)

    def take(self, record: Message) -> None:
        """Takes in a record."""
        seconds = record.seconds
        time = self._record_time = self._record_time if seconds is None else seconds
        if time is None or not self._span.has(time):
            return
        self._all.take(record)
        for inner, summary in self._cut.items():
            if (inner.first is None or time >= inner.first) and (inner.last is None or time <= inner.last):
                summary.take(record)

    @property
    def is_empty(self) -> bool:
        return self._all.start is None

    # ---- what stays

    def kept(self, message: Message) -> Union[Message, Anew, None]:
        """What stands where a message was: itself, one that is made anew, or nothing."""
        number = message.number
        if number in _STAYS:
            return message
        seconds = message.seconds
        self._time = self._time if seconds is None else seconds
        if number == SPORT:
            self._sports_asked += 1
            return message if self._has_sport(self._sports_asked - 1, message) else None
        if number == ACTIVITY:
            return self._activity(message)
        told = span_of(message) if number in (LAP, SESSION) else None
        if told:
            anew = self._lap if number == LAP else self._session
            return message if self._span.has_all(*told) else anew(message, told)
        if number == _ZONES and not self._is_of_whole(message):
            return None
        if self._time is None or self._stays(message, self._time):
            return self._of_record(message) if number == RECORD else message
        self._is_later = self._is_later or number == RECORD and not self._has_record
        return None

    def _stays(self, message: Message, time: int) -> bool:
        """Whether a message stays that has this time; one that sums up a time of its own, where all of that does."""
        if not self._span.has(time):
            return False
        start = message.get("start_time")
        return not isinstance(start, int) or self._span.has(start)

    def _of_record(self, record: Message) -> Message:
        """A record that stays. Where some before the first one don't, distances begin at 0 again."""
        self._has_record = True
        if self._odometer is None and self._is_later:
            self._odometer = Odometer()
        return self._odometer.moved(record) if self._odometer else record

    def _is_of_whole(self, message: Message) -> bool:
        """Whether the lap or the session that a message is of stays as it is."""
        if self._wholes is None:
            self._wholes = {number: self._wholes_of(self._outline.of(number)) for number in (LAP, SESSION)}
        return message.get(1) in self._wholes.get(message.get(0), ())

    def _wholes_of(self, told: Told) -> set[Any]:
        return {told.index(row) for row in range(len(told)) if self._span.has_all(*told.span(row))}

    # ---- what is made anew

    def _inside(self, number: int, told: tuple[int, int]) -> Optional[_Inside]:
        """What a lap or a session that is cut comes to; None where nothing of it is there."""
        inner = self._inner(told)
        summary = self._cut.get(inner) if self._is_in(number, told) else None
        if summary is None or summary.start is None:
            return None
        start, end = inner
        return _Inside(summary, summary.start if start is None else start, summary.end if end is None else end)

    def _lap(self, lap: Message, told: tuple[int, int]) -> Optional[Anew]:
        inside = self._inside(LAP, told)
        if inside is None:
            return None
        summary, start, end = inside
        values = summary.lap(start, end, self._outline.timer.ran(start, end))
        return Anew("lap", {**values, **_own(lap, LAP_ENDS), **self._calories(lap, told)})

    def _session(self, session: Message, told: tuple[int, int]) -> Optional[Anew]:
        """What a session comes to: its timer is that of its laps, where it has some, and of what comes after them."""
        inside = self._inside(SESSION, told)
        if inside is None:
            return None
        summary, start, end = inside
        laps = self._laps_of(told, start, end)
        counts = {"first_lap_index": laps.first, "num_laps": laps.count} if laps.count else {}
        own = _own(session, SESSION_ENDS)
        values = {**summary.told(start, end, laps.ran), **own, **sport_of(session), **counts}
        return Anew("session", {**values, **self._calories(session, told)})

    def _laps_of(self, told: tuple[int, int], start: int, end: int) -> _Laps:
        """The laps of a session up to an end; the timer is that after them, too."""
        begin, over = told
        laps = self._laps(lambda first: begin <= first < max(over, begin + 1), end)
        since = start if not laps.count or laps.end is None else max(start, laps.end)
        return laps._replace(ran=laps.ran + self._outline.timer.ran(since, end))

    def _laps(self, is_one: Callable[[int], bool], until: Optional[int] = None) -> _Laps:
        """Some laps, by their first seconds, up to an end."""
        count, index, ran, over = 0, 0, 0.0, None
        for row, (first, last) in enumerate(self._outline.laps.spans()):
            if not is_one(first):
                continue
            if until is not None and first <= until:
                over = min(last, until) if over is None else max(over, min(last, until))
            of_lap = self._lap_ran(row, (first, last))
            if of_lap is not None:
                index = index if count else self._outline.laps.index(row, 0)
                count, ran = count + 1, ran + of_lap
        return _Laps(count, index, ran, over)

    def _lap_ran(self, row: int, told: tuple[int, int]) -> Optional[float]:
        """How long the timer ran in what stays of a lap; None where nothing does."""
        if self._span.has_all(*told):
            return self._outline.lap_ran(row)
        inside = self._inside(LAP, told)
        return None if inside is None else float(self._outline.timer.ran(inside.start, inside.end))

    def _calories(self, message: Message, of: tuple[int, int]) -> dict[str, int]:
        """The calories of a lap or a session that is cut: as many as its part of the time in which the timer ran, so
        that those of all parts are those of the whole."""
        told, timer = message.get(_CALORIES), self._outline.timer
        first, last = of
        whole = timer.ran(first, last)
        if not isinstance(told, int):
            return {}
        calories: int = told

        def up_to(time: int) -> int:
            ran: int = timer.ran(first, min(max(time, first), last))
            return calories * ran // whole if whole else calories * (time >= last)

        begin, end = self._span
        # the second with which it begins, or ends, is mostly no part of it
        before = 0 if begin is None or begin <= first + 1 else up_to(begin)
        after = calories if end is None or end >= last else up_to(end + 1) if end > first else 0
        return {_CALORIES: after - before}

    def _has_sport(self, number: int, message: Message) -> bool:
        """Whether a session stays that has this sport: the one with its number, where there is one for each."""
        sessions = self._outline.sessions
        if len(sessions) == self._outline.sports:
            return self._is_in(SESSION, sessions.span(number))
        if self._sports is None:
            self._sports = {}
            for row, told in enumerate(sessions.spans()):
                sport = tuple(sessions.sport(row).items())
                self._sports[sport] = self._sports.get(sport, False) or self._is_in(SESSION, told)
        return self._sports.get(tuple(sport_of(message).items()), True)

    def _activity(self, message: Message) -> Union[Message, Anew, None]:
        """The activity message: none without a session; itself where all of them stay as they are."""
        if not len(self._outline.sessions):
            return None
        if self._sessions_end is None:
            self._sessions_end = self._sessions()
        are_all, count, end, ran = self._sessions_end
        return message if are_all else activity_of(end, count, ran, self._outline.zone, activity_in(message))

    def _sessions(self) -> tuple[bool, int, int, float]:
        sessions, are_all, ends, ran = self._outline.sessions, True, None, 0.0
        count = 0
        for row, told in enumerate(sessions.spans()):
            inside = None
            if self._span.has_all(*told):
                timer = sessions.timer(row)
                of, end = float(self._outline.timer.ran(*told)) if timer is None else timer, told[1]
            else:
                are_all, inside = False, self._inside(SESSION, told)
                if inside is None:
                    continue
                of, end = self._laps_of(told, inside.start, inside.end).ran, inside.end
            count, ran, ends = count + 1, ran + of, end if ends is None else max(ends, end)
        return are_all, count, self._all.end if ends is None else ends, ran

    def rest(self) -> list[Anew]:
        """What a file gets at its end that has records in the span, and no session: a lap, where it has none, a session
        and an activity."""
        all, told = self._all, self._outline
        if all.start is None or len(told.sessions):
            return []
        start, end, laps = all.start, all.end, self._laps(lambda first: True)
        ran = laps.ran if laps.count else told.timer.ran(start, end)
        first = [] if laps.count else [Anew("lap", {"message_index": 0, **all.lap(start, end, ran), **LAP_ENDS})]
        counts = {"first_lap_index": laps.first, "num_laps": max(laps.count, 1)}
        session = {"message_index": 0, **all.told(start, end, ran), **told.sport, **counts, **SESSION_ENDS}
        return [*first, Anew("session", session), activity_of(end, 1, ran, told.zone, told.activity)]


def _own(message: Message, usual: dict[str, int]) -> dict[str, int]:
    """What a lap or a session that is cut keeps of its own: its number, and why it ended."""
    told = {name: message.get(name) for name in ("message_index", "sport", "sub_sport", *usual)}
    return {**usual, **{name: value for name, value in told.items() if value is not None}}


class Cut:
    """The parts of the files of a chain."""

    def __init__(self, files: Files, span: Span, changed: Callable[[Message], Message]) -> None:
        """`changed` is what records say when they are summed up."""
        self._span, self._outlines = span, outlines(files)
        self._parts = {number: Part(span, outline) for number, outline in self._outlines.items()}
        for record in files.messages(RECORD):
            self.of(record.file).take(changed(record))

    def of(self, file: int) -> Part:
        """The part of a file, by its number."""
        part = self._parts.get(file)
        if part is None:
            part = self._parts[file] = Part(self._span, Outline())
        return part

    @property
    def is_empty(self) -> bool:
        return all(part.is_empty for part in self._parts.values())
