"""The distances of records, which go on from one ride to the next one, and what a reader accumulates of them."""
import functools
from typing import Any, NamedTuple, Optional

from .._numbers import (
    AT_DEFINITION_MESSAGE,
    AT_DEFINITION_NAME,
    AT_ENTRY_COUNT,
    AT_ENTRY_DEVELOPER,
    AT_ENTRY_ITEMS,
    AT_ENTRY_NUMBER,
    AT_ENTRY_WIDTH,
    AT_KIND,
    AT_MESSAGE_BITS,
    AT_MESSAGE_CYCLES,
    AT_MESSAGE_DISTANCE,
    AT_MESSAGE_POWER,
    TOLD_CYCLES,
    TOLD_DISTANCE,
    TOLD_POWER,
)
from .._read.messages import Message
from ..errors import WrongValue

_RECORD = 20
_DISTANCE, _CYCLES, _POWER = 5, 19, 29
_MOST, _FIELDS = 1 << 64, 255
_LONG = 1 << 11  # Of definitions that are longer only a few are kept.


class _Counter(NamedTuple):
    """A field of records that has the low bits of what a reader accumulates: its shape, what its number is divided by,
    how far it counts, what a reader is told by which bit, where, in which part of a unit; the field that has it whole."""

    field: int
    shape: tuple[int, int]
    divisor: int
    modulus: int
    bit: int
    at: int
    part: float
    whole: int


_COUNTERS = (
    _Counter(8, (1, 3), 1 << 12, 1 << 12, TOLD_DISTANCE, AT_MESSAGE_DISTANCE, 1 / 16, _DISTANCE),
    _Counter(18, (1, 1), 1, 1 << 8, TOLD_CYCLES, AT_MESSAGE_CYCLES, 1, _CYCLES),
    _Counter(28, (2, 1), 1, 1 << 16, TOLD_POWER, AT_MESSAGE_POWER, 1, _POWER),
)
# Counters, each with where its items begin in blocks.
Counters = tuple[tuple[_Counter, int], ...]
# What a reader has accumulated so far, by the fields that are counters; None where nobody knows it.
Sums = Optional[dict[int, int]]
_TOLD = TOLD_DISTANCE | TOLD_CYCLES | TOLD_POWER


def _number(bytes: Any, at: int, size: int) -> int:
    return int.from_bytes(bytes[at : at + size], "little")


def counters(definition: bytes) -> Counters:
    """The counters that the messages of a definition have, and where their items begin in blocks."""
    if _number(definition, AT_DEFINITION_MESSAGE, 2) != _RECORD:
        return ()
    return _of_long(definition) if len(definition) > _LONG else _of_short(definition)


def _counters(definition: bytes) -> Counters:
    found: dict[int, tuple[tuple[int, int], int]] = {}
    at = definition.index(0, AT_DEFINITION_NAME) // 8 * 8 + 8
    while at < len(definition):
        shape = definition[at + AT_ENTRY_WIDTH], definition[at + AT_ENTRY_COUNT]
        if not definition[at + AT_ENTRY_DEVELOPER]:
            found.setdefault(definition[at + AT_ENTRY_NUMBER], (shape, _number(definition, at + AT_ENTRY_ITEMS, 4)))
        at += _number(definition, at, 2)
    return tuple((of, found[of.field][1]) for of in _COUNTERS if found.get(of.field, ((), 0))[0] == of.shape)


_of_short, _of_long = (functools.lru_cache(maxsize=most)(_counters) for most in (128, 8))


def _next(sums: dict[int, int], counter: _Counter, block: Any, begins: int) -> Optional[int]:
    """What a reader accumulates with a message, or None where it has no value of it."""
    size = counter.shape[0] * counter.shape[1]
    number, before = _number(block, begins, size), sums.get(counter.field, 0)
    value = before + (number // counter.divisor - before) % counter.modulus
    return value if number + 1 < 1 << 8 * size and value < _MOST else None


def after(sums: Sums, of: Counters, blocks: Any) -> Sums:
    """What a reader has accumulated after messages that have these counters, by their blocks."""
    if sums is None:
        return None
    found, length = dict(sums), _number(blocks, 0, AT_KIND)
    for at in range(0, len(blocks), length) if length else ():
        for counter, begins in of:
            value = _next(found, counter, blocks, at + begins)
            if value is not None:
                found[counter.field] = value
    return found


def kept(message: Message, sums: Sums) -> Message:
    """A message whose sums are read as they were: where a reader wouldn't accumulate what is told of it, as where
    messages before it are left out, with the fields that have them whole, if these have room for them."""
    block, values = message._block, {}
    if not block[AT_MESSAGE_BITS] & _TOLD:
        return message
    for counter, begins in counters(message._definition.data):
        if block[AT_MESSAGE_BITS] & counter.bit and message.get(counter.whole) is None:
            told = _number(block, counter.at, 8)
            if sums is None or _next(sums, counter, block, begins) != told:
                values[counter.whole] = told * counter.part
    return with_values(message, values)


def with_values(message: Message, values: dict[int, float]) -> Message:
    """A message with some values; as it is where it has no room for them."""
    own = [entry for entry in message._definition.entries if entry.index is None] if values else []
    try:
        return message.adding(values) if 0 < len(values) <= _FIELDS - len(own) else message
    except WrongValue:
        return message


class Odometer:
    """Moves the distances of records, so that the first one is where the ride before them ended. What a reader
    accumulates over a file it would tell otherwise where records before aren't those of the ride: so distance, cycles
    and power that are accumulated are written as they are told, into the fields that have them whole."""

    def __init__(self, begin: float = 0.0) -> None:
        self._begin, self._first = begin, 0.0
        self._is_begun = False

    def moved(self, record: Message) -> Message:
        """A record, with its distance from where the ride before ended. One that is less than the first counts from 0
        again."""
        told: dict[Any, Any] = {_CYCLES: record.total_cycles, _POWER: record.accumulated_power}
        values = {field: value for field, value in told.items() if value is not None and record.get(field) is None}
        distance = record.distance
        if distance is not None and distance == distance:
            values[_DISTANCE] = self._moved(distance)
        return record.adding(values) if any(record.get(field) != value for field, value in values.items()) else record

    def _moved(self, distance: float) -> float:
        if not self._is_begun or distance < self._first:
            self._first = 0.0 if self._is_begun else distance
            self._is_begun = True
        return distance - self._first + self._begin
