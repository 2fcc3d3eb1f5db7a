"""The developer fields that a file describes, by their numbers and their names."""
import numbers
import operator
from array import array
from collections.abc import Iterable, Iterator
from typing import Any, NamedTuple, Optional

_LEAST = 1 << 16  # So many bytes of descriptions that count no more are left where they are.
_NONE = bytes(4 * 256)
_MOST = 256  # So many names are kept of fields of which others have the numbers.
_LEARNED, _OWN = b"\0", b"\1"


class DeveloperField(NamedTuple):
    """A developer field that a file describes, of `Writer.describe`: it names the field in `define`, and where a
    message is written."""

    developer: int
    number: int
    name: str
    unit: str
    base: int

    @property
    def key(self) -> tuple[int, int]:
        return self.developer, self.number


def byte(what: str, told: Any) -> int:
    if isinstance(told, bool) or not isinstance(told, numbers.Integral):
        raise TypeError(f"{what} is a number, and not {type(told).__name__}")
    number = operator.index(told)
    if not 0 <= number <= 255:
        raise ValueError(f"{what} is 0 to 255, and not {number if number.bit_length() < 65 else 'so much'}")
    return number


def seen(field: DeveloperField) -> DeveloperField:
    """The same, if a file can have it."""
    byte("a developer data index", field.developer)
    byte("a field", field.number)
    byte("a base type", field.base)
    for text in (field.name, field.unit):
        if not isinstance(text, str):
            raise TypeError(f"a developer field has texts as name and unit, and not {type(text).__name__}")
    return field


class _Kept:
    """What descriptions say, one after another, and by index and number the place after the first byte of each."""

    def __init__(self) -> None:
        self.told, self.places, self.unused = bytearray(), dict[int, "array[int]"](), 0

    def put(self, index: int, number: int, told: bytes) -> None:
        begin = len(self.told)
        self.told += told
        places = self.places.setdefault(index, array("I", _NONE))
        if places[number]:
            self.unused += self.end(places[number]) - places[number] + 1
        places[number] = begin + 1

    def end(self, place: int) -> int:
        """Where the description ends that has its first byte before a place."""
        return self.told.index(0, self.told.index(0, place + 1) + 1) + 1

    def all(self) -> Iterator[tuple[int, int, int]]:
        """All that count, in their order: the place of each, its index and number."""
        found = ((index, enumerate(places)) for index, places in self.places.items())
        return iter(sorted((place, index, number) for index, all_ in found for number, place in all_ if place))

    def field(self, index: int, number: int) -> Optional[DeveloperField]:
        place = self.places[index][number] if index in self.places else 0
        if not place:
            return None
        name, unit = self.told[place + 1 : self.end(place) - 1].decode().split("\0")
        return DeveloperField(index, number, name, unit, self.told[place])

    def compact(self) -> "_Kept":
        """The same without what counts no more."""
        kept = _Kept()
        for place, index, number in self.all():
            kept.put(index, number, self.told[place - 1 : self.end(place)])
        return kept


class Developers:
    """What a file describes. A description may have four bytes, and a file ever other ones, so what is kept of one are
    its base type and its texts."""

    def __init__(self, fields: Iterable[DeveloperField] = ()) -> None:
        self._kept = _Kept()
        # the numbers by the names, where they were asked for
        self._named: Optional[dict[str, tuple[int, int]]] = None
        # those of which others have the numbers, the last ones
        self._others: dict[str, DeveloperField] = {}
        for field in fields:
            self.learn(field)

    def __bool__(self) -> bool:
        return bool(self._kept.places)

    def learn(self, field: DeveloperField) -> None:
        """Takes in a description, which has its numbers and its name from now on."""
        before = self._kept.field(*field.key)
        self._put(field, _LEARNED)
        if before is not None and before.name != field.name:
            self._keep(before)

    def learn_own(self, field: DeveloperField) -> bool:
        """Takes in one that came with a message, and says whether there is none of its numbers. What has a name or
        numbers before keeps them."""
        before = self._kept.field(*field.key)
        if before is None:
            self._put(field, _OWN)
        elif before.name != field.name and field.name not in self._others:
            self._keep(field)
        return before is None

    def _keep(self, field: DeveloperField) -> None:
        """Keeps a name of a field of which another one has the numbers."""
        self._others.pop(field.name, None)
        self._others[field.name] = field
        if len(self._others) > _MOST:
            del self._others[next(iter(self._others))]

    def _put(self, field: DeveloperField, how: bytes) -> None:
        told = how + bytes([field.base]) + f"{field.name}\0{field.unit}\0".encode()
        self._named = None
        self._kept.put(*field.key, told)
        if self._kept.unused > max(_LEAST, len(self._kept.told) // 2):
            self._kept = self._kept.compact()

    def get(self, key: Any) -> Optional[DeveloperField]:
        """The developer field of a name, or of an index and a number."""
        if isinstance(key, str):
            numbers = self._names().get(key)
            return self._kept.field(*numbers) if numbers else self._others.get(key)
        if not isinstance(key, tuple) or len(key) != 2:
            return None
        are_bytes = all(type(part) is int and 0 <= part <= 255 for part in key)
        return self._kept.field(*key) if are_bytes else None

    def names(self) -> list[str]:
        return [*self._names(), *self._others]

    def numbers(self, index: Any) -> list[int]:
        """The numbers of the fields of an index."""
        places = self._kept.places.get(index) if type(index) is int else None
        return [number for number, place in enumerate(places or ()) if place]

    def _names(self) -> dict[str, tuple[int, int]]:
        if self._named is not None:
            return self._named
        named: dict[str, tuple[int, int]] = {}
        for place, *key in self._kept.all():
            field = self._kept.field(*key)
            if field and (self._kept.told[place - 1 : place] == _LEARNED or field.name not in named):
                named[field.name] = field.key
        self._named = named
        return named
