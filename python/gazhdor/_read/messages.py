"""Messages as values, made from their blocks."""
import html
import struct
from collections.abc import Callable, Iterator, Mapping, ValuesView
from typing import Any, NamedTuple, Optional, Union, overload

from .._numbers import (
    AT_FILE,
    AT_MESSAGE_BITS,
    AT_MESSAGE_CYCLES,
    AT_MESSAGE_HEADER_TIME,
    AT_MESSAGE_LOCAL,
    AT_MESSAGE_OFFSET,
    AT_MESSAGE_POWER,
    AT_MESSAGE_TIME,
    AT_PLACE,
    NO_OFFSET,
    TOLD_CYCLES,
    TOLD_HEADER_TIME,
    TOLD_POWER,
    TOLD_TIME,
)
from .._profile import UnknownName, fields_of
from .._times import HEADER_TIME, NO_TIME_BYTES, OWN_TIME, Time, when
from .._write.added import added
from .._write.items import Packer, packers
from .._write.words import numbered
from .blocks import Run
from .cells import merged
from .fields import Field
from .json_lines import line, ready_line
from .readers import Number, Value
from .ready import ready
from .times import time_of
from .values import Definition, Entry, Key, degrees, label
from .words import word_of

_FILE, _PLACE, _TIME = struct.Struct("<I").unpack_from, struct.Struct("<Q").unpack_from, struct.Struct("<I").unpack_from


def _tell_time(block: bytearray, at: int) -> None:
    """Makes the time of a message that of its timestamp, or where that has none, that of its compressed header."""
    time = block[at : at + 4] if block[at : at + 4] != NO_TIME_BYTES else block[HEADER_TIME]
    block[AT_MESSAGE_BITS] = block[AT_MESSAGE_BITS] & ~TOLD_TIME | (TOLD_TIME if time != NO_TIME_BYTES else 0)
    block[OWN_TIME] = time


class Position(NamedTuple):
    """A place in degrees: north, and east."""

    latitude: float
    longitude: float


class Message(Mapping[Key, Any]):
    """A data message. It keeps its own bytes and what its definition says, and makes a value when it is asked for it.

    A field is named by its name, by its number, or, a developer field, by (index, number), the index being its
    developer data index: `message["heart_rate"]`, `message[3]`, `message["Form power"]`, `message[0, 2]`. The values
    are those of `Field.value`. Where the message has no such field, that is a KeyError, of a name that nothing has an
    UnknownName, and `get` returns None. Of several fields of one name the first counts.

    It is a mapping: a `for` over it, `keys`, `items`, `len` and `dict(message)` have each field once, by its name where
    it has one of its own, and else by its number, or (index, number). Messages are equal where all that they tell is,
    their places in the source too; `dict(message)` compares values alone.
    """

    __slots__ = ("_block", "_definition")

    def __init__(self, block: bytes, definition: Definition) -> None:
        self._block, self._definition = block, definition

    def __getitem__(self, key: Key) -> Any:
        try:
            read = self._definition.readers[key]
        except KeyError:
            raise self._missing(key) from None
        return read(self._block)

    def _missing(self, key: Key) -> KeyError:
        if not isinstance(key, str) or self._is_known(key):
            return KeyError(key)
        others = [*self._definition.labels, *fields_of(self.number), *self._definition.names]
        of = self.name or f"message {self.number}"
        return UnknownName(f"neither the profile nor this {of} has a field", key, others)

    def _is_known(self, key: Key) -> bool:
        return not isinstance(key, str) or self._definition.number_of(key) is not None

    def __contains__(self, key: object) -> bool:
        return key in self._definition.readers

    def __iter__(self) -> Iterator[Key]:
        return iter(self._definition.keys)

    def __len__(self) -> int:
        return len(self._definition.keys)

    def __eq__(self, other: object) -> bool:
        if not isinstance(other, Message):
            return NotImplemented
        return self._block == other._block and self._definition.is_same(other._definition)

    def __hash__(self) -> int:
        return hash(self._block)

    def get(self, key: Key, default: Any = None) -> Any:
        """Returns the value of a field, or `default` where the message has no such field."""
        read = self._definition.readers.get(key)
        return read(self._block) if read else default

    @overload
    def values(self) -> ValuesView[Any]:
        ...

    @overload
    def values(self, key: Key) -> tuple[Union[Number, str, bytes], ...]:
        ...

    def values(self, key: Optional[Key] = None) -> Any:
        """Returns what a field has as a tuple, however many items it has: its numbers without those that are None, its
        text or bytes; nothing where the message has no such field. Of a name that neither the profile nor the message
        has it raises UnknownName. Without a key it is what any mapping has: all values."""
        if key is None:
            return super().values()
        if key not in self._definition.readers and not self._is_known(key):
            raise self._missing(key)
        value = self.get(key)
        if isinstance(value, tuple):
            return tuple(item for item in value if item is not None)
        return () if value is None else (value,)

    def replace(self, values: Optional[Mapping[Key, Any]] = None, **fields: Any) -> "Message":
        """Returns the message with other values of some of its fields, which are named as for `message[..]`, those that
        are no words of Python by a mapping: `message.replace({3: 121, "Form power": None}, position_lat=None)`. A value
        is what `messages` gives; of a field in semicircles a float is degrees, and a time may be a datetime. What a
        field can't have is a `WrongValue`."""
        block, packs = bytearray(self._block), packers(self._definition)
        changes = numbered(self._definition, {**(values or {}), **fields}, self._block)
        for key, value in changes.items():
            if key not in packs:
                raise self._not_there(key)
            pack = packs[key]
            block[pack.begins : pack.begins + pack.size] = pack(value)
            if pack.entry.key == 253 and pack.entry.is_stamp:
                _tell_time(block, pack.begins)
        return Message(bytes(block), self._definition)

    def adding(self, values: Optional[Mapping[Any, Any]] = None, **fields: Any) -> "Message":
        """Returns the message with other values of some of its fields, as `replace`, and with those fields that it
        hasn't: they are named, and have base types, as in `Writer.define`. `Writer.copy` writes it with a definition
        message of its own, where it is needed."""
        changes: dict[Any, Any] = {**(values or {}), **fields}
        known = self._definition.by_key
        new = {key: value for key, value in changes.items() if getattr(key, "key", key) not in known}
        made = added(self, new) if new else self
        return made.replace({getattr(key, "key", key): value for key, value in changes.items() if key not in new})

    def _not_there(self, key: Any) -> KeyError:
        """What `replace` raises of a field that the message hasn't."""
        if isinstance(key, str) and not self._is_known(key):
            return self._missing(key)
        of = self.name or f"message {self.number}"
        is_key = isinstance(key, (str, int)) or isinstance(key, tuple) and len(key) == 2
        named = label(key) if is_key else f"{key!r:.40}"
        return UnknownName(f"this {of} hasn't the field", named, (), ": adding(..) gives it one")

    def emptied(self, wanted: "Callable[[Field], bool]") -> "Message":
        """Returns the message with no value in each field for which `wanted` says so, which it is asked of every
        field."""
        block = bytearray(self._block)
        for entry in self._definition.entries:
            if wanted(Field(self._block, entry, self._definition)):
                pack = Packer(entry)
                block[pack.begins : pack.begins + pack.size] = pack.none
                if entry.key == 253 and entry.is_stamp:
                    _tell_time(block, pack.begins)
        return Message(bytes(block), self._definition)

    def native(self, key: Key) -> Value:
        """Returns the value of the developer field that stands for a field of the profile, such as "power" or 7: of the
        first that has one; where none has, the value of the field itself, or None. It raises UnknownName where neither
        the profile nor the caller has such a name."""
        number = self._definition.number_of(key)
        if number is None:
            if not isinstance(key, str):
                raise KeyError(key)
            raise UnknownName("the profile has no field", key, [*fields_of(self.number), *self._definition.names])
        for entry in self._definition.entries:
            if entry.native == number and entry.index is not None:
                value = entry.read(self._block)
                if value is not None:
                    return value
        own: Value = self.get(number)
        return own

    @property
    def times(self) -> dict[Key, Optional[Time]]:
        """The fields that are times, as `when` has them: `timestamp`, which is `time`, where the message has one; those
        that the profile calls times, such as `start_time`; those of the caller's `names`. `local_timestamp` is one by
        the clock of the place, and has no zone. None stands for no value."""
        found = {key: time_of(entry, self._block) for key, entry in self._definition.keys.items() if entry.type}
        if self.time is not None:
            found["timestamp"] = self.time
        return found

    @property
    def position(self) -> Optional[Position]:
        """The place in degrees; of a session or a lap that of its start. None where the message has none."""
        entries = self._definition.position
        if not entries:
            return None
        lat, long = (entry.read(self._block) for entry in entries)
        return Position(degrees(lat), degrees(long)) if isinstance(lat, int) and isinstance(long, int) else None

    def unit(self, key: Key) -> Optional[str]:
        """Returns the unit of a field, as 'bpm', or None where nothing names one. It raises KeyError where there is no
        such field."""
        return self._entry(key).unit

    def word(self, key: Key) -> Optional[str]:
        """Returns the word for the number of a field, as 'cycling' for the 2 of "sport", or None where there is none.
        It raises KeyError where there is no such field."""
        return word_of(self._definition, self._entry(key), self._block)

    def field(self, key: Key) -> Field:
        """Returns a field. It raises KeyError where the message has no such field."""
        return Field(self._block, self._entry(key), self._definition)

    def _entry(self, key: Key) -> Entry:
        entry = self._definition.by_key.get(key)
        if entry is None:
            raise self._missing(key)
        return entry

    @property
    def fields(self) -> tuple[Field, ...]:
        """All fields, in the order of the definition, and then all developer fields."""
        return tuple(Field(self._block, entry, self._definition) for entry in self._definition.entries)

    def as_dict(self) -> dict[str, Value]:
        """Returns the values by their names; where there is none, by `field_N`, or `dev_I_N`, I being the developer
        data index."""
        block = self._block
        return {name: entry.read(block) for name, entry in self._definition.labels.items()}

    @property
    def name(self) -> Optional[str]:
        """The name of the message in the profile, as 'record', or None."""
        return self._definition.name

    @property
    def number(self) -> int:
        """The global message number, as 20 for 'record'."""
        return self._definition.number

    @property
    def local(self) -> int:
        """The local message type, 0 to 15."""
        return self._block[AT_MESSAGE_LOCAL]

    @property
    def file(self) -> int:
        """The number of the file in the chain, counted from 1."""
        number: int = _FILE(self._block, AT_FILE)[0]
        return number

    @property
    def place(self) -> int:
        """The place of the message's first byte in the source, counted from 0."""
        place: int = _PLACE(self._block, AT_PLACE)[0]
        return place

    @property
    def time(self) -> Optional[Time]:
        """The time of the message, as `when` has it: that of field 253 where it is valid, else that of a compressed
        timestamp header; None where it has none."""
        return when(self.seconds)

    @property
    def seconds(self) -> Optional[int]:
        """The time of the message in seconds since 1989-12-31T00:00:00 UTC, or since the device began; None where it
        has none."""
        has_time = self._block[AT_MESSAGE_BITS] & TOLD_TIME
        seconds: Optional[int] = _TIME(self._block, AT_MESSAGE_TIME)[0] if has_time else None
        return seconds

    @property
    def header_time(self) -> Optional[Time]:
        """The time that a compressed timestamp header gives, as `when` has it, or None."""
        has_time = self._block[AT_MESSAGE_BITS] & TOLD_HEADER_TIME
        return when(_PLACE(self._block, AT_MESSAGE_HEADER_TIME)[0]) if has_time else None

    @property
    def time_offset(self) -> Optional[int]:
        """The time offset of a compressed timestamp header, 0 to 31; None where the header is a normal one."""
        offset = self._block[AT_MESSAGE_OFFSET]
        return None if offset == NO_OFFSET else offset

    def _amount(self, bit: int, at: int) -> Optional[int]:
        amount: int = _PLACE(self._block, at)[0] if self._block[AT_MESSAGE_BITS] & bit else None
        return amount

    def _merged(self, key: str) -> Optional[float]:
        for entry in merged(self._definition, key):
            value: Any = entry.read(self._block)
            if value is not None:
                return float(value)
        return None

    @property
    def altitude(self) -> Optional[float]:
        """Metres, of a record: its `enhanced_altitude`, else its `altitude`; None where it has none."""
        return self._merged(".altitude")

    @property
    def speed(self) -> Optional[float]:
        """Metres a second, of a record: its `enhanced_speed`, else its `speed`, else that of
        `compressed_speed_distance`; None where it has none."""
        return self._merged(".speed")

    @property
    def distance(self) -> Optional[float]:
        """Metres, of a record: its `distance`, else what is accumulated over the file from `compressed_speed_distance`;
        None where it has none."""
        return self._merged(".distance")

    @property
    def total_cycles(self) -> Optional[int]:
        """Cycles, accumulated over the file; None in a message without them."""
        return self._amount(TOLD_CYCLES, AT_MESSAGE_CYCLES)

    @property
    def accumulated_power(self) -> Optional[int]:
        """Watts, accumulated over the file; None in a message without it."""
        return self._amount(TOLD_POWER, AT_MESSAGE_POWER)

    def ready(self) -> dict[str, Any]:
        """Returns the values by their labels, each of a type that databases and JSON have: times as datetimes, places
        in degrees, words, several numbers as `name_0`, `name_1` and so on, bytes as text. A time that the device didn't
        know, and a float that is no finite number, are None."""
        return ready(self)

    def to_json(self, ready: bool = False) -> str:
        """Returns the message as a line of JSON, without its end, as the command `json` writes it; with `ready` its
        values are those of `ready`, and times are texts."""
        return ready_line(self) if ready else line(self)

    def __repr__(self) -> str:
        return f"<gazhdor.Message {self.name or self.number}: {self.as_dict()}>"

    def _repr_html_(self) -> str:
        """The fields as a table, for notebooks."""
        rows = [(name, value, self._definition.labels[name].unit or "") for name, value in self.as_dict().items()]
        told = ("".join(f"<td>{html.escape(str(cell))}</td>" for cell in row) for row in rows)
        cells = "".join(f"<tr>{row}</tr>" for row in told)
        title = html.escape(f"{self.name or f'message {self.number}'} {self.time or ''}".strip())
        return f"<table><caption>{title}</caption><tr><th>field</th><th>value</th><th>unit</th></tr>{cells}</table>"

    def __reduce__(self) -> Any:
        return Message, (self._block, self._definition)


def messages_of(blocks: bytes, runs: Iterator[Run]) -> Iterator[Message]:
    """The messages of some blocks."""
    for definition, first, count, length in runs:
        for at in range(first, first + count * length, length):
            yield Message(blocks[at : at + length], definition)
