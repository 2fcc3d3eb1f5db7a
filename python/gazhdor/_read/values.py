"""What the items of a field stand for, and the field as its definition has it: an entry of docs/BLOCKS.md."""
import functools
import struct
from collections.abc import Mapping
from typing import Any, NamedTuple, Optional, Union, overload

from .._base_types import base_named
from .._names import RESERVED, TYPES, Named, Names
from .._numbers import (
    AT_DEFINITION_FIELDS,
    AT_DEFINITION_MESSAGE,
    AT_DEFINITION_NAME,
    AT_ENTRY_DEVELOPER,
    AT_ENTRY_INDEX,
    AT_ENTRY_NAME,
    AT_ENTRY_NUMBER,
    ENTRY_FORMAT,
    FLOAT,
    IS_COUNTED,
    LEAST_ENTRY,
    SIGNED,
    UNSIGNED,
)
from .._profile import fields_of, info_of
from .readers import Reader, reader
from .words import choices, word_reader

Key = Union[str, int, tuple[int, int]]

_ENTRY = struct.Struct(ENTRY_FORMAT)
_UINT32 = base_named("uint32").code
_UNSIGNED = {1: "B", 2: "H", 4: "I", 8: "Q"}
_FLOAT = {4: "f", 8: "d"}


def text_at(data: bytes, at: int) -> Optional[str]:
    """The text that begins at a place and ends before a zero; None where it is empty."""
    return _text(data[at : data.index(0, at)])


@functools.lru_cache(maxsize=1024)
def _text(data: bytes) -> Optional[str]:
    """A text, the same one for the same bytes, as many definitions have the same names."""
    return data.decode("utf-8", "replace") or None


NOT_NAMED = Named()


class Entry:
    """What a definition says of a field: its name and unit, its number, and where and how its items stand in a
    message's block. `base` is the code of its base type, `index` the developer data index of a developer field, else
    None; `native` the number of the field that it stands for, or None; `type` is 'date_time' or 'local_date_time' of a
    number that is such a time. What `named` says goes before what the block says."""

    size: int
    number: int
    base: int
    kind: int
    width: int
    count: int
    decimals: int
    begins: int
    scale: float
    offset: float
    invalid: int

    __slots__ = (
        "size", "name", "unit", "number", "index", "base", "kind", "width", "count", "decimals", "begins", "scale",
        "offset", "invalid", "read",
        "type", "native", "_told",
    )  # fmt: skip

    def __init__(self, data: bytes, at: int, named: Named = NOT_NAMED, native: Optional[int] = None) -> None:
        told = _ENTRY.unpack_from(data, at)
        self.size, unit_at, self.number, developer, index, self.base, self.kind, self.width, self.count = told[:9]
        self.decimals, self.begins, self.scale, self.offset, self.invalid = told[9:]
        self.name, self.unit = text_at(data, at + AT_ENTRY_NAME), text_at(data, at + unit_at)
        self.index: Optional[int] = index if developer else None
        if named is not NOT_NAMED:
            self._rename(named)
        is_time = named.type in TYPES and self.kind == UNSIGNED and self.width == 4 and self.count == 1
        self.type = named.type if is_time else None
        self.native = native
        self._told = data, at, named, native
        self.read = reader(self)

    def _rename(self, named: Named) -> None:
        self.name = self.name if named.name is None else named.name
        self.unit = self.unit if named.unit is None else named.unit or None
        # Floats stand for themselves, as in the profile.
        if self.kind <= SIGNED and (named.scale is not None or named.offset is not None):
            self.scale = whole(self.scale if named.scale is None else named.scale)
            self.offset = whole(self.offset if named.offset is None else named.offset)
            self.decimals = decimals_of(self.scale, self.offset)

    def __reduce__(self) -> Any:
        data, at, named, native = self._told
        return Entry, (data[at : at + self.size], 0, named, native)

    @property
    def key(self) -> Key:
        """The number, of a developer field with its index: what names a field where the profile doesn't."""
        return self.number if self.index is None else (self.index, self.number)

    @property
    def is_number(self) -> bool:
        """Whether it is one number, and not several, a text or bytes."""
        return self.kind <= FLOAT and self.count == 1

    @property
    def is_stamp(self) -> bool:
        """Whether the library takes it for a time, as field 253: one number of type uint32."""
        return self.base == _UINT32 and self.width == 4 and self.count == 1

    @property
    def is_place(self) -> bool:
        """Whether it may be a latitude or a longitude: one whole number of 32 bits with a sign."""
        return self.index is None and self.kind == SIGNED and self.width == 4 and self.count == 1

    @property
    def is_scaled(self) -> bool:
        return self.scale != 1 or self.offset != 0

    @property
    def item_code(self) -> str:
        """The letter that `struct` has for an item, of a float that for its bits."""
        code = _UNSIGNED[self.width]
        return code.lower() if self.kind == SIGNED else code

    def raw(self, block: bytes) -> int:
        """The first item in the block of a message, of a signed number its bits."""
        return int.from_bytes(block[self.begins : self.begins + self.width], "little")

    @property
    def float_code(self) -> str:
        """The letter for an item as a number."""
        return _FLOAT[self.width] if self.kind == FLOAT else self.item_code


def whole(number: float) -> float:
    """The same number, as an int where it is whole."""
    return int(number) if isinstance(number, float) and number.is_integer() else number


def decimals_of(scale: float, offset: float) -> int:
    """How many decimals a number of this scale has at most; -1 where it may have ever more."""
    if isinstance(scale, float) or isinstance(offset, float):
        return -1
    return next((count for count in range(64) if 10**count % scale == 0), -1)


@overload
def degrees(semicircles: int) -> float:
    ...


@overload
def degrees(semicircles: None) -> None:
    ...


@overload
def degrees(semicircles: Optional[int]) -> Optional[float]:
    ...


def degrees(semicircles: Optional[int]) -> Optional[float]:
    """Returns the degrees that the number of a field in semicircles stands for, such as `position_lat`: 2^31 are 180
    degrees. None stands for None."""
    return None if semicircles is None else semicircles * 180 / 2**31


def label(key: Key) -> str:
    """A key as text: the name, or as the CSV text has it where there is none, `field_N` or `dev_I_N`."""
    if isinstance(key, str):
        return key
    return f"field_{key}" if isinstance(key, int) else f"dev_{key[0]}_{key[1]}"


def whole_number(begins: int, width: int, scale: int = 1) -> Entry:
    """An entry for what each block has at a place, a whole number whose greatest stands for no value."""
    own = LEAST_ENTRY, AT_ENTRY_NAME + 8, 0, 0, 0, 0, UNSIGNED, width, 1, 0, begins, scale, 0, 256**width - 1
    return Entry(_ENTRY.pack(*own) + bytes(16), 0)


Developer = tuple[int, int]
_POSITIONS = (("position_lat", "position_long"), ("start_position_lat", "start_position_long"))


class Beside(NamedTuple):
    """What is known of a definition but from its block: what the message is called, what is said of its fields, by
    their numbers, the numbers of the fields that its developer fields stand for, and whether values are words."""

    name: Optional[str] = None
    fields: Mapping[int, Named] = {}
    natives: Mapping[Developer, int] = {}
    words: bool = False


NOTHING = Beside()


def told(names: Optional[Names], message: int, natives: Mapping[Developer, int], words: bool = False) -> Beside:
    """What is known of the definitions of a message."""
    name, fields = (names.message(message), names.fields(message)) if names else (None, {})
    return Beside(name, fields, natives, words) if name or fields or natives or words else NOTHING


def developers(data: bytes) -> list[Developer]:
    """The developer fields of a definition, by its block."""
    fields, developer = struct.unpack_from("<HH", data, AT_DEFINITION_FIELDS)
    found: list[Developer] = []
    at = first_entry(data)
    for _ in range(fields + developer if developer else 0):
        if data[at + AT_ENTRY_DEVELOPER]:
            found.append((data[at + AT_ENTRY_INDEX], data[at + AT_ENTRY_NUMBER]))
        at += data[at] + 256 * data[at + 1]
    return found


def first_entry(data: bytes) -> int:
    """Where the first field is described in the block of a definition, after the name of its message."""
    name = AT_DEFINITION_NAME
    return name + (data.index(0, name) - name) // 8 * 8 + 8


class Definition:
    """What the messages of a definition have: the number and name of the message, and its fields, each by its keys."""

    __slots__ = (
        "data", "number", "name", "is_counted", "entries", "by_key", "readers", "keys", "labels", "made", "_told",
    )  # fmt: skip

    def __init__(self, data: bytes, told: Beside = NOTHING) -> None:
        self.data, self._told = data, told
        fields, developer, bits = struct.unpack_from("<HHH", data, AT_DEFINITION_FIELDS)
        self.number: int = struct.unpack_from("<H", data, AT_DEFINITION_MESSAGE)[0]
        self.name, self.is_counted = told.name or text_at(data, AT_DEFINITION_NAME), bool(bits & IS_COUNTED)
        self.entries = self._entries(fields + developer)
        # Of several fields with one key the first counts.
        self.by_key: dict[Key, Entry] = {}
        for entry in self.entries:
            self.by_key.setdefault(entry.key, entry)
        for entry in self.entries:
            # A file may give a developer field a name that means something else. It has its numbers, then.
            if entry.name and (entry.index is None or not RESERVED.fullmatch(entry.name)):
                self.by_key.setdefault(entry.name, entry)
        # what is made of it when it is first needed
        self.made: dict[str, Any] = {}
        if told.words:
            self._tell_words()
        self.readers: dict[Any, Reader] = {key: entry.read for key, entry in self.by_key.items()}
        self.keys = self._keys()
        self.labels = {label(key): entry for key, entry in self.keys.items()}

    def _tell_words(self) -> None:
        """Has the fields that have words read as these."""
        found = choices(self)
        for entry in self.entries:
            if id(entry) in found:
                entry.read = word_reader(entry, found[id(entry)])

    def _entries(self, count: int) -> tuple[Entry, ...]:
        data, fields, natives = self.data, self._told.fields, self._told.natives
        at = first_entry(data)
        entries: list[Entry] = []
        for _ in range(count):
            number, developer = data[at + AT_ENTRY_NUMBER], data[at + AT_ENTRY_DEVELOPER]
            index = data[at + AT_ENTRY_INDEX]
            if developer:
                entries.append(Entry(data, at, native=natives.get((index, number))))
            else:
                named, info = fields.get(number, NOT_NAMED), info_of(self.number, number)
                is_time = info is not None and info.type in TYPES and not named.type
                entries.append(Entry(data, at, named._replace(type=info.type) if is_time and info else named))
            at += entries[-1].size
        return tuple(entries)

    def _keys(self) -> dict[Key, Entry]:
        """Each field once, by its name where it has one of its own, and else by its number."""
        found: dict[Key, Entry] = {}
        for entry in self.entries:
            if self.by_key[entry.key] is entry:
                found[entry.name if entry.name and self.by_key.get(entry.name) is entry else entry.key] = entry
        return found

    @property
    def says_words(self) -> bool:
        """Whether numbers of its messages are told as words."""
        return self._told.words

    def named(self, field: int) -> Named:
        """What the caller says of a field."""
        return self._told.fields.get(field, NOT_NAMED)

    @property
    def position(self) -> Optional[tuple[Entry, Entry]]:
        """The latitude and the longitude of its messages, in semicircles; of a session or a lap those of its start."""
        for names in _POSITIONS:
            lat, long = map(self.by_key.get, names)
            if lat and long and lat.is_place and long.is_place:
                return lat, long
        return None

    def number_of(self, key: Key) -> Optional[int]:
        """The number of a field of its messages that isn't a developer field, also where they don't have it; None where
        nothing names it."""
        if not isinstance(key, str):
            return key if isinstance(key, int) else None
        entry = self.by_key.get(key)
        if entry and entry.index is None:
            return entry.number
        named = (number for number, named in self._told.fields.items() if named.name == key)
        return next(named, fields_of(self.number).get(key))

    @property
    def told(self) -> Beside:
        """What is known of it but from its block."""
        return self._told

    @property
    def caller_names(self) -> Names:
        """What the caller says of fields of its messages."""
        names: Optional[Names] = self.made.get("names")
        if names is None:
            told = {(self.number, field): tuple(named) for field, named in self._told.fields.items()}
            names = self.made["names"] = Names(told)
        return names

    @property
    def names(self) -> list[str]:
        """The caller's names of fields of its messages, also of those that they don't have."""
        return [named.name for named in self._told.fields.values() if named.name]

    def is_same(self, other: "Definition") -> bool:
        """Whether messages of both, where they have the same bytes, are the same."""
        if self is other:
            return True
        at = AT_DEFINITION_MESSAGE
        return self.data[at:] == other.data[at:] and self._told == other._told

    def __reduce__(self) -> Any:
        return Definition, (self.data, self._told)
