"""What a caller says of a message that is to be written: its fields, and how many items each has."""
import functools
from collections.abc import Iterable
from typing import Any, NamedTuple, Optional, Union

from .._base_types import Base, base_named, base_of
from .._names import Names
from .._numbers import BYTES, STRING
from .._profile import Info, Kind, UnknownName, fields_of, info_of, name_of, number_of, profile
from .._read.values import Key, label
from .definitions import FieldDefinition, Form, form_of
from .developers import DeveloperField, Developers, byte, seen
from .items import several, text_bytes


Spec = Union[Key, DeveloperField, FieldDefinition, tuple[Any, Any], tuple[Any, Any, int]]


class Shape(NamedTuple):
    """A field of a message that is to be written. `size` is None where it is that of what is written."""

    key: Key
    base: Base
    size: Optional[int]
    number: int
    developer: Optional[int] = None
    info: Optional[Info] = None

    def form(self, message: int, size: int) -> Form:
        return form_of(message, FieldDefinition(self.number, self.base.code, size, self.developer), self.info)

    @property
    def least(self) -> int:
        """The size that it has where nothing is written."""
        return self.base.width if self.size is None else self.size

    def needed(self, value: Any, size: int) -> tuple[Any, int]:
        """A value, whose items may come one after another, and the size that it needs."""
        if self.size is not None or value is None:
            return value, size
        if self.base.kind == STRING:
            data = text_bytes(value, label(self.key))
            return value, min(255, max(size, len(data) + (not data.endswith(b"\0"))))
        if self.base.kind == BYTES:
            return value, min(255, len(value)) if isinstance(value, (bytes, bytearray, memoryview)) else size
        if not hasattr(value, "__iter__"):
            return value, size
        items, width = several(value), self.base.width
        return items, min(255 // width * width, max(size, len(items) * width))


def message_number(message: Kind, names: Optional[Names]) -> int:
    """The number of a message that a caller names."""
    if isinstance(message, bool) or not isinstance(message, (str, int)):
        raise TypeError(f"a message is named by its name or its number, and not by {type(message).__name__}")
    number = number_of(message, names)
    if number is None:
        more = "; one that has no name is named by its number"
        raise UnknownName("no message is named", str(message), [*profile(), *(names.messages if names else ())], more)
    if not 0 <= number <= 0xFFFF:
        raise ValueError(
            f"a message is 0 to 65535, and not {number}" if number < 2**64 else "a message is 0 to 65535"
        )
    return number


@functools.lru_cache(maxsize=64)
def field_numbers(message: int, names: Optional[Names]) -> dict[str, int]:
    """The numbers of the fields of a message that have names."""
    own = {number: named.name for number, named in names.fields(message).items() if named.name} if names else {}
    known = {name: number for name, number in fields_of(message).items() if number not in own}
    known.update((name, number) for number, name in own.items())
    return known


def _usual(message: int, number: int, names: Optional[Names]) -> Optional[Base]:
    """The base type that a field usually has."""
    named = names.fields(message).get(number) if names else None
    info = info_of(message, number)
    told = (named.base if named else None) or (info.base if info else None)
    return base_named(told) if told else None


class Shapes:
    """Makes the fields of a message of what a caller says. `developers` are the developer fields that the file
    describes."""

    def __init__(self, message: int, names: Optional[Names], developers: Developers) -> None:
        self._message, self._names, self._developers = message, names, developers

    def all(self, told: Union[str, Iterable[Spec]]) -> list[Shape]:
        """The shapes of fields, the developer fields last."""
        specs: list[Spec] = [*told.split()] if isinstance(told, str) else list(told)
        known = field_numbers(self._message, self._names) if self._developers else specs
        if all(type(spec) is str and spec in known for spec in specs):
            return list(_named(self._message, self._names, tuple(specs)))
        return self._all(specs)

    def _all(self, specs: list[Spec]) -> list[Shape]:
        shapes = [self.one(spec) for spec in specs]
        keys = [shape.key for shape in shapes]
        if len(set(keys)) < len(keys):
            raise ValueError(f"a field is named twice: {label(next(key for key in keys if keys.count(key) > 1))}")
        developers = sum(shape.developer is not None for shape in shapes)
        if developers > 255 or len(shapes) - developers > 255:
            raise ValueError("a definition message has at most 255 fields, and as many developer fields")
        return sorted(shapes, key=lambda shape: shape.developer is not None)

    def one(self, spec: Spec) -> Shape:
        if isinstance(spec, FieldDefinition):
            size, number = byte("a size", spec.size), byte("a field", spec.number)
            if spec.developer is not None:
                byte("a developer data index", spec.developer)
            base = base_of(byte("a base type", spec.base))
            return Shape(spec.key, base, size, number, spec.developer, self._info(spec.key))
        key: Any = spec
        told: Any = None
        count: Any = None
        if isinstance(spec, tuple) and not isinstance(spec, DeveloperField) and not _is_numbers(spec):
            if len(spec) not in (2, 3):
                raise ValueError(f"a field is (name, base type) or (name, base type, count), and not {len(spec)} items")
            key, told, count = (*spec, None)[:3]
        shape = self._developer(key, told) or self._field(key, told)
        if count is None:
            return shape
        return shape._replace(size=byte("a size", byte("a count", count) * shape.base.width))

    def _info(self, key: Key) -> Optional[Info]:
        developer = self._developers.get(key) if isinstance(key, tuple) else None
        return Info(developer.name, developer.unit, 1, 0, "") if developer else None

    def _developer(self, key: Any, told: Any) -> Optional[Shape]:
        """A developer field that is named by itself, by its numbers or by its name, where that isn't one of the
        profile."""
        found: Optional[DeveloperField] = seen(key) if isinstance(key, DeveloperField) else None
        if found is None and isinstance(key, (str, tuple)):
            found = self._developers.get(key)
        if found is None or isinstance(key, str) and key in field_numbers(self._message, self._names):
            if isinstance(key, tuple):
                raise UnknownName("the file describes no developer field", f"{key!r:.40}", self._developers.names())
            return None
        if told is not None and base_named(told).code != found.base:
            raise ValueError(f"{found.name!r} is described as {base_of(found.base).name}")
        info = Info(found.name, found.unit, 1, 0, "")
        return Shape(found.key, base_of(found.base), None, found.number, found.developer, info)

    def _field(self, key: Any, told: Any) -> Shape:
        if isinstance(key, str):
            known = field_numbers(self._message, self._names)
            if key not in known:
                of = name_of(self._message) or f"message {self._message}"
                others = [*known, *self._developers.names()]
                raise UnknownName(f"neither the profile nor the file has in {of} a field", key, others)
            number = known[key]
        else:
            number = byte("a field", key)
        base = base_named(told) if told is not None else _usual(self._message, number, self._names)
        if base is None:
            raise ValueError(f"nobody knows the base type of {label(key)}: give it, as ({key!r}, 'uint16')")
        return Shape(number, base, None, number)


@functools.lru_cache(maxsize=256)
def _named(message: int, names: Optional[Names], fields: tuple[str, ...]) -> list[Shape]:
    """The shapes of fields of the profile, or of the caller's, that are named."""
    return Shapes(message, names, Developers())._all([*fields])


def _is_numbers(spec: tuple[Any, ...]) -> bool:
    """Whether a tuple is the key of a developer field."""
    return len(spec) == 2 and all(isinstance(part, int) for part in spec)
