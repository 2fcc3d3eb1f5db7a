"""What laps and sessions say of themselves, in columns: of a message that has one byte in its file a few are kept, and
of no message all."""
import math
from array import array
from collections.abc import Iterator
from typing import Any, Optional

from .._read.messages import Message

# What adds up where rides are put together.
ADDED = ("total_calories", "total_ascent", "total_descent", "total_cycles")
# What a row has: no such field, no value, a whole number, or one less than zero.
_MISSING, _EMPTY, _WHOLE, _MINUS = range(4)


def number_of(message: Message, name: str, other: Optional[float] = None) -> Optional[float]:
    """A number that a message has, or another one."""
    value = message.get(name)
    return float(value) if isinstance(value, (int, float)) and math.isfinite(value) else other


def span_of(message: Message) -> Optional[tuple[int, int]]:
    """The first and the last second of a lap or a session; None where it has no time."""
    start, end, elapsed = message.get("start_time"), message.seconds, number_of(message, "total_elapsed_time")
    lasts = None if elapsed is None else math.floor(elapsed + 0.5)
    if not isinstance(start, int):
        start = end if end is None or lasts is None else end - lasts
    elif lasts is not None:
        end = start + lasts
    return None if start is None or end is None else (start, max(start, end))


def sport_of(message: Message) -> dict[str, Any]:
    return _said(message.get("sport"), message.get("sub_sport"))


def _said(sport: Any, sub_sport: Any) -> dict[str, Any]:
    told = {"sport": sport, "sub_sport": sub_sport}
    return {name: value for name, value in told.items() if value is not None}


class _Column:
    """A value of each row. A whole number of 32 bits takes five bytes, and what no row says takes none."""

    def __init__(self) -> None:
        self._kinds, self._items = bytearray(), array("I")
        self._others: dict[int, Any] = {}

    def put(self, row: int, value: Any) -> None:
        """Puts the value of a row after those that are there."""
        item = 0 if value is None else value
        if type(item) is not int or not abs(item) < 1 << 32:
            self._others[row] = value
            return
        self._kinds.extend(bytes(row - len(self._kinds)))
        self._items.extend(array("I", bytes(4)) * (row - len(self._items)))
        self._kinds.append(_EMPTY if value is None else _MINUS if item < 0 else _WHOLE)
        self._items.append(abs(item))

    def get(self, row: int, missing: Any = None) -> Any:
        """The value of a row; None where it has none, and another one where it has no such field."""
        if row in self._others:
            return self._others[row]
        kind = self._kinds[row] if row < len(self._kinds) else _MISSING
        if kind < _WHOLE:
            return missing if kind == _MISSING else None
        return -self._items[row] if kind == _MINUS else self._items[row]


class Told:
    """Laps, or sessions, of one file that have a time, by their order."""

    def __init__(self) -> None:
        self._length = 0
        # the first and the last second of all, and what all come to; None where not all of them say it
        self.first: Optional[int] = None
        self.last: Optional[int] = None
        self.added: dict[str, Optional[float]] = dict.fromkeys(ADDED, 0.0)
        # of the first seconds those that aren't the last ones
        self._ends, self._starts, self._indices = _Column(), _Column(), _Column()
        self._sports, self._sub_sports = _Column(), _Column()
        self._timers = array("d")

    def __len__(self) -> int:
        return self._length

    def take(self, message: Message) -> None:
        span, row = span_of(message), self._length
        if span is None:
            return
        start, end = span
        self._length += 1
        self._ends.put(row, end)
        if start != end:
            self._starts.put(row, start)
        self.first = start if self.first is None else min(self.first, start)
        self.last = end if self.last is None else max(self.last, end)
        timer = number_of(message, "total_timer_time")
        if timer is not None:
            self._timers.extend(array("d", [math.nan]) * (row - len(self._timers)))
            self._timers.append(timer)
        for column, name in ((self._indices, "message_index"), (self._sports, "sport"), (self._sub_sports, "sub_sport")):
            if name in message:
                column.put(row, message[name])
        for name, sum_ in self.added.items():
            more = None if sum_ is None else number_of(message, name)
            self.added[name] = None if sum_ is None or more is None else sum_ + more

    def span(self, row: int) -> tuple[int, int]:
        """The first and the last second."""
        end = self._ends.get(row)
        return self._starts.get(row, end), end

    def spans(self) -> Iterator[tuple[int, int]]:
        return map(self.span, range(self._length))

    def timer(self, row: int) -> Optional[float]:
        """How long the timer ran, as it says; None where it doesn't."""
        timer = self._timers[row] if row < len(self._timers) else math.nan
        return None if math.isnan(timer) else timer

    def index(self, row: int, missing: Any = None) -> Any:
        """Its number; None where it has no value, and another one where it has no such field."""
        return self._indices.get(row, missing)

    def sport(self, row: int) -> dict[str, Any]:
        return _said(self._sports.get(row), self._sub_sports.get(row))


class Counted:
    """Messages of a kind, by the numbers that they have: which of them it is, from 0. Of several that have one number
    the first counts."""

    def __init__(self) -> None:
        self._count = 0
        self._by_index: dict[Any, int] = {}

    def __len__(self) -> int:
        return self._count

    def take(self, index: Any) -> None:
        if index is not None:
            self._by_index.setdefault(index, self._count)
        self._count += 1

    def get(self, index: Any) -> Optional[int]:
        """Which one has that number; None where none has."""
        return self._by_index.get(index)
