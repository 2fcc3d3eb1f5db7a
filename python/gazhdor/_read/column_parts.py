"""What columns are made of: the blocks of many messages together, those of one definition in one piece of memory."""
import datetime
from collections.abc import Iterable, Iterator
from itertools import repeat
from typing import Any, Optional

from .._byte_order import in_order
from .._numbers import AT_MESSAGE_TIME, FLOAT, NO_TIME
from .._profile import see_fields
from .._sources import Source
from .._times import EPOCH, SYSTEM_TIMES, when
from ..errors import FitError, TooManyCells
from .blocks import Walk
from .cells import ATTRIBUTES, DATE, DEGREES, LOCAL, TIME, WORDS, Asked, Cell, cell_of, own_keys
from .streams import each
from .readers import as_value
from .values import Definition, Entry, Key, degrees

_BATCH = 1 << 18  # At least that many bytes of blocks are taken at once.
_FEW_CELLS, _MOST_EMPTY = 1 << 22, 16
_FEW_DEFINITIONS = 16


class Part:
    """Some messages of one definition: their blocks, how many messages come before each run of them, and how many are
    in it."""

    __slots__ = ("length", "blocks", "before", "counts", "view", "messages", "_where")

    def __init__(self, length: int) -> None:
        self.length = length
        self.blocks: list[bytes] = []
        self.before: list[int] = []
        self.counts: list[int] = []
        self._where: Any = None

    def join(self) -> None:
        self.messages = sum(self.counts)
        self.view = memoryview(self.blocks[0] if len(self.blocks) == 1 else b"".join(self.blocks))
        self.blocks = []

    def drop(self) -> None:
        """Forgets the blocks, when all values are made of them."""
        self.view = memoryview(b"")

    @property
    def is_together(self) -> bool:
        return self.before[-1] + self.counts[-1] - self.before[0] == self.messages

    @property
    def rows(self) -> slice:
        """The rows of its messages, where they are together."""
        return slice(self.before[0], self.before[0] + self.messages)

    def where(self, numpy: Any) -> Any:
        """The rows of its messages, as numpy takes them."""
        if self.is_together:
            return self.rows
        if self._where is None:
            counts = numpy.array(self.counts)
            begins = numpy.repeat(numpy.array(self.before) - (numpy.cumsum(counts) - counts), counts)
            self._where = begins + numpy.arange(self.messages)
        return self._where

    def put(self, column: list[Any], values: list[Any]) -> None:
        """Puts the values of its messages into a column."""
        if self.is_together:
            column[self.rows] = values
        elif self.messages == len(self.before):
            for row, value in zip(self.before, values):
                column[row] = value
        else:
            at = 0
            for row, count in zip(self.before, self.counts):
                column[row : row + count] = values[at : at + count]
                at += count

    def items(self, at: int, code: str) -> list[Any]:
        """The items at a place in each message."""
        items = self.view.cast(code)
        found: list[Any] = in_order(items[at // items.itemsize :: self.length // items.itemsize]).tolist()
        return found

    @property
    def has_times(self) -> bool:
        return set(self.items(AT_MESSAGE_TIME, "I")) != {NO_TIME}

    def values(self, cell: Cell) -> list[Any]:
        """What a column has of its messages."""
        entry = cell.entry
        if cell.others:
            first, *others = (self.values(one) for one in (cell._replace(others=()), *cell.others))
            for other in others:
                first = [next_ if value is None else value for value, next_ in zip(first, other)]
            return first
        if entry.kind > FLOAT or cell.form == WORDS:
            data, length = bytes(self.view), self.length
            return [entry.read(data[at : at + length]) for at in range(0, len(data), length)]
        found = [told(cell, *self._numbers(entry, entry.begins + k * entry.width)) for k in range(entry.count)]
        return found[0] if entry.count == 1 else list(zip(*found))

    def _numbers(self, entry: Entry, at: int) -> tuple[list[Any], list[Any]]:
        items = self.items(at, entry.item_code)
        return items, self.items(at, entry.float_code) if entry.kind == FLOAT else items


def told(cell: Cell, items: list[Any], numbers: list[Any]) -> list[Any]:
    """The values of items, which are also given as numbers, as a message has them."""
    entry, form, _ = cell
    if form in (DATE, LOCAL) and not entry.is_scaled:
        return _times(items, entry.invalid, form == LOCAL)
    if form == DEGREES:
        numbers = list(map(degrees, numbers))
    elif entry.is_scaled:
        value, scale = as_value(entry), entry.scale
        is_lone = entry.offset == 0 and scale != 1
        numbers = [number / scale for number in numbers] if is_lone else list(map(value, numbers))
    if form in (DATE, LOCAL):
        return [None if item == entry.invalid else _time(number, form == LOCAL) for item, number in zip(items, numbers)]
    if entry.invalid not in items:
        return numbers
    return [None if item == entry.invalid else number for item, number in zip(items, numbers)]


def _time(seconds: Any, is_local: bool) -> Any:
    time = when(seconds)
    return time.replace(tzinfo=None) if is_local and isinstance(time, datetime.datetime) else time


def _times(seconds: list[int], invalid: int, is_local: bool) -> list[Any]:
    if SYSTEM_TIMES <= min(seconds) and invalid not in seconds:
        epoch = EPOCH.replace(tzinfo=None) if is_local else EPOCH
        return list(map(epoch.__add__, map(datetime.timedelta, repeat(0), seconds)))
    return [None if second == invalid else _time(second, is_local) for second in seconds]


def _up_to_fault(parts: Iterator[bytes], partial: bool) -> Iterator[bytes]:
    """A fault ends them, where that may be."""
    try:
        yield from parts
    except FitError:
        if not partial:
            raise


def _parts(source: Source, asked: Asked, partial: bool) -> Iterator[tuple[Definition, Part]]:
    if not isinstance(asked.message, (str, int)):
        raise TypeError(f"a message is named by its name or its number, and not by {type(asked.message).__name__}")
    walk = Walk(asked.message, asked.names, asked.words)
    taken: dict[int, tuple[Definition, Part]] = {}
    size = row = 0
    for blocks in _up_to_fault(each("blocks", source, partial, ahead=False), partial):
        for definition, first, messages, length in walk.runs(blocks):
            if id(definition) not in taken:
                taken[id(definition)] = definition, Part(length)
            part = taken[id(definition)][1]
            part.blocks.append(blocks[first : first + messages * length])
            part.before.append(row)
            part.counts.append(messages)
            row += messages
            size += messages * length
        if size >= _BATCH:
            yield from taken.values()
            taken, size = {}, 0
    yield from taken.values()


Values = Any  # the list of a part, or an array
Piece = tuple[Part, Cell, Values]


class Table:
    """The columns that are asked for, in pieces: what `take` makes of each part of the messages for each cell."""

    def __init__(self, asked: Asked, take: Any) -> None:
        self._asked, self._take = asked, take
        self.rows = self._filled = 0
        self._found: dict[Key, list[Piece]] = {}
        self._keys: dict[Key, None] = dict.fromkeys(asked.fields or [])
        self._has_times = False
        self._first: list[Definition] = []
        # The numbers of developer fields by their names; and of all cells that are told alike one, as there may be many
        # definitions.
        self._developer: dict[Key, Key] = {}
        self._alike: dict[Any, Cell] = {}

    def read(self, source: Source, partial: bool) -> None:
        asked = self._asked
        for definition, part in _parts(source, asked, partial):
            part.join()
            self._add(definition, part)
            part.drop()
        if asked.fields is not None:
            missing = [key for key in self._keys if key not in self._found]
            see_fields(asked.message, missing, self._first, ATTRIBUTES, asked.names)
            return
        cells = len(self.keys) * self.rows
        if cells > _FEW_CELLS and cells > _MOST_EMPTY * self._filled:
            raise TooManyCells(len(self.keys), self.rows)

    def _add(self, definition: Definition, part: Part) -> None:
        self.rows += part.messages
        if len(self._first) < _FEW_DEFINITIONS:
            self._first.append(definition)
        keys: Iterable[Key] = self._keys
        if self._asked.fields is None:
            self._keys.update(dict.fromkeys(own_keys(definition)))
            self._has_times = self._has_times or 253 in definition.by_key or part.has_times
            keys = dict.fromkeys([TIME, *definition.by_key])
        made: dict[tuple[int, str, int], Values] = {}
        for key in keys:
            cell = cell_of(definition, key, self._asked)
            if cell is None:
                continue
            known = id(cell.entry), cell.form, len(cell.others)
            if known not in made:
                made[known] = self._take(part, cell)
            self._found.setdefault(key, []).append((part, self._like(key, cell), made[known]))
        self._filled += len(made) * part.messages

    def _like(self, key: Key, cell: Cell) -> Cell:
        """A cell that is told as this one."""
        entry = cell.entry
        if entry.index is not None and isinstance(key, str):
            self._developer.setdefault(key, entry.key)
        if cell.others:
            return cell
        told_by = entry.kind, entry.width, entry.is_number, entry.scale, entry.offset, entry.invalid, cell.form
        return self._alike.setdefault(told_by, cell)

    @property
    def keys(self) -> list[Key]:
        """The columns: those that are asked for, or the time, where there is one, and each field that one of the
        messages has."""
        first: list[Key] = [TIME] if self._asked.fields is None and self._has_times else []
        return first + list(self._keys)

    def developer(self, key: Key) -> Optional[Key]:
        """The numbers of the developer field that a column has a name of, or None."""
        return self._developer.get(key)

    def pieces(self, key: Key) -> list[Piece]:
        """What a column is put together of. It is forgotten here."""
        return self._found.pop(key, [])
