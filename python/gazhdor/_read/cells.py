"""What a column has of each message of a definition: which field, and how its items are told."""
from typing import NamedTuple, Optional

from .._numbers import (
    AT_FILE,
    AT_MESSAGE_CYCLES,
    AT_MESSAGE_DISTANCE,
    AT_MESSAGE_LOCAL,
    AT_MESSAGE_POWER,
    AT_MESSAGE_SPEED,
    AT_MESSAGE_TIME,
    AT_PLACE,
    SIGNED,
)
from .._names import Names
from .._profile import Kind
from .values import Definition, Entry, Key, whole_number
from .words import choices

TIME = "timestamp"

# How the items of a field are told: as its value, in degrees, as a time in UTC, as a time by the clock of the place, as
# words.
VALUE, DEGREES, DATE, LOCAL, WORDS = "value", "degrees", "date_time", "local_date_time", "words"


class Cell(NamedTuple):
    """What a column has of each message of a definition: the field, how its items are told, and, where it has no value,
    the fields that are asked next, all of them numbers."""

    entry: Entry
    form: str = VALUE
    others: "tuple[Cell, ...]" = ()


# What a message tells of itself, by the names of its attributes: where it stands in each block, and in those that have
# counters.
_SECONDS = whole_number(AT_MESSAGE_TIME, 4)
_OWN = {
    ".file": whole_number(AT_FILE, 4),
    ".place": whole_number(AT_PLACE, 8),
    ".local": whole_number(AT_MESSAGE_LOCAL, 1),
    ".seconds": _SECONDS,
}
_COUNTED = {
    ".speed": whole_number(AT_MESSAGE_SPEED, 8, 100),
    ".distance": whole_number(AT_MESSAGE_DISTANCE, 8, 16),
    ".total_cycles": whole_number(AT_MESSAGE_CYCLES, 8),
    ".accumulated_power": whole_number(AT_MESSAGE_POWER, 8),
}
# What the table has of a record: the fields by their numbers, the first that has a value, and else what is accumulated.
RECORD, _MERGED = 20, {".altitude": (78, 2), ".speed": (73, 6), ".distance": (5,)}
_TIMES = {TIME: Cell(_SECONDS, DATE), ".time": Cell(_SECONDS, DATE)}
_PLACES = {".latitude": 0, ".longitude": 1}
ATTRIBUTES = {*_OWN, *_COUNTED, *_MERGED, *_PLACES, ".time"}


def counted(definition: Definition) -> list[tuple[str, Entry]]:
    """What is accumulated in messages of a definition, by its names."""
    return [(key[1:], entry) for key, entry in _COUNTED.items()] if definition.is_counted else []


def merged(definition: Definition, key: str) -> list[Entry]:
    """The fields of which the table takes the first that has a value."""
    numbers = _MERGED[key] if definition.number == RECORD else ()
    found = [definition.by_key.get(number) for number in numbers]
    counted = _COUNTED.get(key) if definition.is_counted else None
    return [entry for entry in (*found, counted) if entry and entry.is_number]


class Asked(NamedTuple):
    """What a caller asks for: the fields, or None for all; whether fields that are times are told as such; names of the
    caller; whether numbers are told as words, and whether all is ready to use."""

    message: Kind
    fields: Optional[list[Key]]
    times: bool
    names: Optional[Names]
    words: bool = False
    ready: bool = False


def is_degrees(entry: Entry) -> bool:
    return entry.unit == "semicircles" and entry.kind == SIGNED and entry.width == 4 and not entry.is_scaled


def cell_of(definition: Definition, key: Key, asked: Asked) -> Optional[Cell]:
    """What a column takes of each message of a definition."""
    times = asked.times
    entry: Optional[Entry] = None
    if key in _MERGED:
        cells = [Cell(entry) for entry in merged(definition, str(key))]
        return cells[0]._replace(others=tuple(cells[1:])) if cells else None
    if isinstance(key, str) and (key in _TIMES or key[:1] == "."):
        if key in _TIMES:
            return _TIMES[key]
        if key in _PLACES:
            position = definition.position
            return Cell(position[_PLACES[key]], DEGREES) if position else None
        entry = _OWN.get(key) or (_COUNTED.get(key) if definition.is_counted else None)
    else:
        entry = definition.by_key.get(key)
    if entry and definition.says_words and id(entry) in choices(definition):
        return Cell(entry, WORDS)
    if entry and asked.ready and is_degrees(entry):
        return Cell(entry, DEGREES)
    # A field of no size has no value.
    return Cell(entry, entry.type or VALUE if times else VALUE) if entry and entry.count else None


def own_keys(definition: Definition) -> list[Key]:
    """The keys of all fields that the messages of a definition have, but of the time."""
    return [key for key, entry in definition.keys.items() if entry.key != 253]
