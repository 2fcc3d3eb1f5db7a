"""Values that are ready to use: times as datetimes, places in degrees, words, several numbers one by one, bytes as
text. So each field, and each column, has values of one type."""
import datetime
import math
from typing import TYPE_CHECKING, Any

from .cells import DATE, LOCAL, WORDS, Cell, is_degrees
from .times import time_of
from .values import Entry, degrees
from .words import choices, word_of

if TYPE_CHECKING:
    from .column_parts import Part
    from .messages import Message


def plain(value: Any) -> Any:
    """A value of a type that databases and JSON have: bytes as the CSV text has them, and None for a float that is no
    finite number."""
    if isinstance(value, bytes):
        return "0x" + value.hex().upper()
    if isinstance(value, float) and not math.isfinite(value):
        return None
    return value


def _as_text(value: Any) -> Any:
    """A word; a number that has none, as text."""
    if isinstance(value, tuple):
        return tuple(map(_as_text, value))
    return None if value is None else str(value)


def ready_values(part: "Part", cell: Cell) -> list[Any]:
    """What a column has of its messages; a time that the device didn't know is none."""
    values = part.values(cell)
    if cell.form == WORDS:
        return list(map(_as_text, values))
    if cell.form in (DATE, LOCAL):
        return [value if isinstance(value, datetime.datetime) else None for value in values]
    return values


def _items(name: str, values: list[Any]) -> list[tuple[str, list[Any]]]:
    """A column for each item, where some value has several."""
    most = max((len(value) for value in values if isinstance(value, tuple)), default=0)
    if not most:
        return [(name, values)]
    all = [value if isinstance(value, tuple) else (value,) for value in values]
    return [(f"{name}_{k}", [value[k] if k < len(value) else None for value in all]) for k in range(most)]


def _of_one_type(values: list[Any]) -> list[Any]:
    """The values; all as text, where some are a text and others numbers."""
    found = list(map(plain, values))
    types = {type(value) for value in found} - {type(None)}
    return list(map(_as_text, found)) if str in types and len(types) > 1 else found


def spread(columns: dict[str, list[Any]]) -> dict[str, list[Any]]:
    """The columns, each with values of one type, and several numbers as columns `name_0`, `name_1` and so on."""
    found: dict[str, list[Any]] = {}
    for name, values in columns.items():
        for own, items in _items(name, values):
            while own in found or own != name and own in columns:
                own += "_"
            found[own] = _of_one_type(items)
    return found


def _value(message: "Message", entry: Entry) -> Any:
    value: Any = entry.read(message._block)
    definition = message._definition
    if entry.type in (DATE, LOCAL):
        time = time_of(entry, message._block)
        return time if isinstance(time, datetime.datetime) else None
    if is_degrees(entry):
        return tuple(map(degrees, value)) if isinstance(value, tuple) else degrees(value)
    choice = choices(definition).get(id(entry))
    if choice is None:
        return value
    words = choice.by(message._block)
    if isinstance(value, tuple):
        return tuple(_as_text(words.get(item, item)) for item in value)
    return _as_text(word_of(definition, entry, message._block) or value)


def ready(message: "Message") -> dict[str, Any]:
    """What `Message.ready` returns."""
    found: dict[str, list[Any]] = {}
    time = message.time
    if time is not None:
        found["timestamp"] = [time if isinstance(time, datetime.datetime) else None]
    for name, entry in message._definition.labels.items():
        found.setdefault(name, [_value(message, entry)])
    return {name: values[0] for name, values in spread(found).items()}
