"""Names, units and scales that the profile of the library doesn't have: the caller's own, and those of extra.tsv."""
import os
import re
from collections.abc import Mapping
from typing import Any, NamedTuple, Optional, Union

from ._base_types import base_named
from ._library import packed
from ._profile import Kind, number_of, profile
from ._words import words_by_type

_COLUMNS = ("message", "message name", "field", "field name", "unit", "scale", "offset", "type", "base type")
TYPES = ("date_time", "local_date_time")
# What is kept for attributes of a message, for its time, and for what has no name.
RESERVED = re.compile(r"\..*|timestamp|field_\d+|dev_\d+_\d+|message_\d+", re.A | re.S)


class Named(NamedTuple):
    """What is said of a field. None leaves what the library says of it.

    name    its name
    unit    its unit
    scale   a whole number `raw` stands for `raw / scale - offset` units; floats stand for themselves
    offset
    type    'date_time' where it is a time in seconds since 1989-12-31T00:00:00 UTC, 'local_date_time' where it is one
            by the clock of the place; a type of which there are words, as 'sport'; else None
    base    the name of the base type that it has when it is written, as 'uint16'
    """

    name: Optional[str] = None
    unit: Optional[str] = None
    scale: Optional[float] = None
    offset: Optional[float] = None
    type: Optional[str] = None
    base: Optional[str] = None


def _see_name(name: Any) -> None:
    if not isinstance(name, str):
        raise TypeError(f"a name is a text, and not {type(name).__name__}")
    if not name or not name.isprintable() or RESERVED.fullmatch(name):
        raise ValueError(f"{name!r} can't be a name: it is empty, or has no printable letters, or means something else")


def _number(what: str, least: int, most: int, told: Any) -> int:
    if not isinstance(told, int) or isinstance(told, bool):
        raise TypeError(f"{what} is a whole number, and not {type(told).__name__}")
    if not least <= told <= most:
        raise ValueError(f"{what} is {least} to {most}, and not {told}")
    return told


def _see_named(named: Named) -> Named:
    """The same, if it can be."""
    if named.name is not None:
        _see_name(named.name)
    if named.unit is not None and not isinstance(named.unit, str):
        raise TypeError(f"a unit is a text, and not {type(named.unit).__name__}")
    for what, number in (("a scale", named.scale), ("an offset", named.offset)):
        if number is not None and (isinstance(number, bool) or not isinstance(number, (int, float))):
            raise TypeError(f"{what} is a number, and not {type(number).__name__}")
        if number is not None and not abs(number) < 2**63:
            raise ValueError(f"{what} can't be {number}")
    if named.scale == 0:
        raise ValueError("a scale can't be 0")
    if named.base is not None:
        base_named(named.base)
    if named.type not in (None, *TYPES) and named.type not in words_by_type():
        raise ValueError(f"a type is {', '.join(TYPES)} or one of words, as sport, and not {named.type!r}")
    return named


Told = Union[None, "Names", str, "os.PathLike[str]", Mapping[Any, Any]]


class Names:
    """Names, units and scales of fields, and names of messages, by their numbers.

    `told` is a dict or the path of a text. A dict has `{(message, field): name}`, the message being a name or a number
    and the field the number of a field; in place of the name may stand `(name, unit, scale, offset, type, base)`, of
    which the last ones can be left out, and None leaves what is known. `{140: 'physiology'}` names a message. A text is
    UTF-8, with tabs between cells, and begins with the names of its columns, which are some of 'message', 'message
    name', 'field', 'field name', 'unit', 'scale', 'offset', 'type' and 'base type'; an empty cell leaves what is known,
    a row without 'field' names a message alone, and a line that begins with '#' says nothing.

    `one | other` has what both have, and of what both name what `other` has. It raises ValueError, with the line of a
    text, for what can't be, and OSError where a path can't be opened.
    """

    def __init__(self, told: "Union[None, str, os.PathLike[str], Mapping[Any, Any]]" = None) -> None:
        self._messages: dict[int, str] = {}
        self._numbers: dict[str, int] = {}
        self._fields: dict[int, dict[int, Named]] = {}
        if isinstance(told, Mapping):
            for key, value in told.items():
                self._take(key, value)
        elif told is not None:
            if not isinstance(told, (str, os.PathLike)):
                raise TypeError(f"names are a dict, the path of a text or Names, and not {type(told).__name__}")
            with open(told, encoding="utf-8-sig", newline="") as file:
                self._read(file.read())

    def _message(self, kind: Kind) -> int:
        if isinstance(kind, str):
            own = self.messages
            if kind not in own and kind not in profile():
                raise ValueError(f"no message is named {kind!r}: name it first, by its number")
            return own[kind] if kind in own else profile()[kind].number
        return _number("a message", 0, 65535, kind)

    def _take(self, key: Any, value: Any) -> None:
        if isinstance(key, tuple):
            if len(key) != 2:
                raise ValueError(f"a field is named by (message, field), and not by {len(key)} items")
            if not isinstance(value, (str, tuple, list)) or len(value) > len(Named._fields) and value[:0] != "":
                raise ValueError("what is said of a field is its name, or (name, unit, scale, offset, type, base)")
            message, field = key
            named = Named(value) if isinstance(value, str) else Named(*value)
            self._fields.setdefault(self._message(message), {})[_number("a field", 0, 255, field)] = _see_named(named)
        else:
            _see_name(value)
            number = _number("a message", 0, 65535, key)
            if number_of(value, self) not in (None, number):
                raise ValueError(f"{value!r} is the name of another message")
            self._numbers.pop(self._messages.get(number, ""), None)
            self._messages[number], self._numbers[value] = value, number

    def _read(self, text: str) -> None:
        every = enumerate(text.splitlines(), 1)
        lines = [(number, line) for number, line in every if line and not line.startswith("#")]
        head = lines[0][1].split("\t") if lines else []
        if "message" not in head or not set(head) <= set(_COLUMNS) or len(set(head)) < len(head):
            more = ", ".join(_COLUMNS[1:])
            raise ValueError(f"the first line has 'message' and some of {more}, with tabs between them")
        for number, line in lines[1:]:
            try:
                self._read_row(dict(zip(head, line.split("\t"))), line.count("\t") + 1 - len(head))
            except ValueError as error:
                raise ValueError(f"line {number}: {error}") from None

    def _read_row(self, row: dict[str, str], more: int) -> None:
        if more > 0:
            raise ValueError("it has more cells than the first line")
        cells = {name: cell for name, cell in row.items() if cell}
        told = cells.get("message", "")
        message = self._message(int(told) if told.isdecimal() else told)
        if "message name" in cells and number_of(cells["message name"]) != message:
            self._take(message, cells["message name"])
        if "field" in cells:
            scale, offset = (_scale(cells[name]) if name in cells else None for name in ("scale", "offset"))
            named = cells.get("field name"), cells.get("unit"), scale, offset, cells.get("type"), cells.get("base type")
            self._take((message, int(cells["field"])), named)

    @property
    def messages(self) -> dict[str, int]:
        """The numbers of the messages that are named, by their names."""
        return self._numbers

    def message(self, number: int) -> Optional[str]:
        """The name of a message, or None where it isn't named."""
        return self._messages.get(number)

    def fields(self, message: int) -> dict[int, Named]:
        """What is said of the fields of a message, by their numbers."""
        return self._fields.get(message, {})

    def __or__(self, other: "Names") -> "Names":
        if not isinstance(other, Names):
            return NotImplemented
        both = Names()
        for names in (self, other):
            for number, name in names._messages.items():
                both._take(number, name)
            for message, fields in names._fields.items():
                both._fields.setdefault(message, {}).update(fields)
        return both

    def __repr__(self) -> str:
        return f"<gazhdor.Names of {sum(map(len, self._fields.values()))} fields>"


def _scale(cell: str) -> float:
    try:
        return int(cell)
    except ValueError:
        return float(cell)


class _Packed(Names):
    """Names of a text that the module brings along, which is read when it is first used."""

    def __init__(self, file: str) -> None:
        self._file = file

    def __getattr__(self, name: str) -> Any:
        if name not in ("_messages", "_numbers", "_fields"):
            raise AttributeError(name)
        read = Names()
        read._read((packed(self._file) or b"").decode())
        self.__dict__.update(read.__dict__)
        return self.__dict__[name]

    def __reduce__(self) -> Any:
        return _extra, ()


def _extra() -> Names:
    return EXTRA


EXTRA: Names = _Packed("extra.tsv")


def names_of(told: Told) -> Optional[Names]:
    """What a caller gives as `names`."""
    return told if told is None or isinstance(told, Names) else Names(told)
