"""The names of the proved profile, as profile.tsv has them, and what is said of a name that neither it nor a file
has."""
import functools
import itertools
from collections.abc import Iterable
from typing import TYPE_CHECKING, NamedTuple, Optional, Union

from ._library import packed

if TYPE_CHECKING:
    from ._names import Names
    from ._read.values import Definition

Kind = Union[str, int]
_MOST_NAMES, _MOST_LETTERS = 1000, 80  # So many names are compared, and none that is longer.


class Info(NamedTuple):
    """What the profile says of a field: an item `raw` stands for `raw / scale - offset` units; its base type is usually
    `base`; `type` is that of a time or of words, or empty."""

    name: str
    unit: str
    scale: int
    offset: int
    base: str
    type: str = ""


class Known(NamedTuple):
    """A message of the profile: its number, the numbers of its fields by their names, and what is said of them by their
    numbers."""

    number: int
    fields: dict[str, int]
    told: dict[int, Info]


# Field 253 has a name in all messages, and field 254 in those of the profile; they aren't in the table.
_INFO_OF_ALL = {253: Info("timestamp", "s", 1, 0, "uint32", "date_time")}
_OF_ALL = {"timestamp": 253}
_INDEX = {254: Info("message_index", "", 1, 0, "uint16")}


@functools.lru_cache(None)
def profile() -> dict[str, Known]:
    """The messages of the profile by their names."""
    found: dict[str, Known] = {}
    lines = (packed("profile.tsv") or b"").decode().splitlines()
    for line in lines[1:]:
        number, name, field, field_name, unit, scale, offset, kind, base = line.split("\t")
        of_all = {**_OF_ALL, "message_index": 254}, {**_INFO_OF_ALL, **_INDEX}
        known = found.setdefault(name, Known(int(number), *of_all))
        known.fields[field_name] = int(field)
        known.told[int(field)] = Info(field_name, unit, int(scale), int(offset), base, kind)
    return found


@functools.lru_cache(None)
def _by_number() -> dict[int, Known]:
    return {known.number: known for known in profile().values()}


@functools.lru_cache(None)
def _names() -> dict[int, str]:
    return {known.number: name for name, known in profile().items()}


def fields_of(number: int) -> dict[str, int]:
    """The fields that the profile names in a message: their numbers by their names."""
    known = _by_number().get(number)
    return known.fields if known else _OF_ALL


def name_of(number: int) -> Optional[str]:
    """The name of a message, or None."""
    return _names().get(number)


def info_of(message: int, field: int) -> Optional[Info]:
    """What the profile says of a field, or None."""
    known = _by_number().get(message)
    return (known.told if known else _INFO_OF_ALL).get(field)


def nearest_of(name: str, others: Iterable[str]) -> Optional[str]:
    """Of some names the one that is most like a name: that of which the fewest letters are put in, left out or changed.
    These are at most a third of the letters of the longer one; their case says nothing. Of several it is the first."""
    nearest, least = None, len(name) + _MOST_LETTERS
    for other in others:
        most = min(max(len(name), len(other)) // 3, least - 1)
        steps = _steps(name.lower(), other.lower(), most)
        if steps <= most:
            nearest, least = other, steps
    return nearest


def _steps(one: str, other: str, most: int) -> int:
    """How many letters one name has to change to be another; more than `most` where they are more."""
    if abs(len(one) - len(other)) > most:
        return most + 1
    row = list(range(len(other) + 1))
    for i, letter in enumerate(one, 1):
        before, row = row, [i]
        for k, wanted in enumerate(other):
            row.append(min(before[k + 1] + 1, row[k] + 1, before[k] + (letter != wanted)))
        if min(row) > most:
            return most + 1
    return row[-1]


class UnknownName(KeyError):
    """A name that neither the profile nor the file has, nor the names of the caller. `name` is the name, `nearest` the
    one that is most like it, or None."""

    def __init__(self, what: str, name: str, others: Iterable[str], more: str = "") -> None:
        super().__init__(what, name)
        self.name = name
        short = (other for other in others if len(other) <= _MOST_LETTERS)
        self._others: tuple[str, ...] = tuple(itertools.islice(short, _MOST_NAMES))
        self._what, self._more = what, more

    @property
    def nearest(self) -> Optional[str]:
        return nearest_of(self.name[:_MOST_LETTERS], self._others)

    def __str__(self) -> str:
        near = self.nearest
        return f"{self._what} {self.name!r}" + (f": is it {near!r}?" if near else self._more)

    def __reduce__(self) -> "tuple[type, tuple[str, str, tuple[str, ...], str]]":
        return UnknownName, (self._what, self.name, self._others, self._more)


def see_messages(kinds: Iterable[object], names: "Optional[Names]" = None) -> None:
    """Raises UnknownName for a name of a message that neither the profile nor the caller has. Numbers are good."""
    own = names.messages if names else {}
    for kind in kinds:
        if isinstance(kind, str) and kind not in profile() and kind not in own:
            more = "; one that has no name is asked for by its number"
            raise UnknownName("no message is named", kind, [*profile(), *own], more)


def see_fields(
    message: Kind,
    asked: Iterable[object],
    found: "Iterable[Definition]",
    own: Iterable[str] = (),
    names: "Optional[Names]" = None,
) -> None:
    """Raises UnknownName for a name of a field that the profile hasn't for this message, nor the caller, nor one of the
    definitions that the file has of it. Names that begin with a dot are those of `own`. Numbers, and (index, number),
    are good."""
    known: Optional[dict[str, int]] = None
    for key in asked:
        if not isinstance(key, str):
            continue
        if key.startswith("."):
            if key not in own:
                raise UnknownName("no message has", key, sorted(own))
            continue
        if known is None:
            known = _known(message, names)
            known.update((name, 0) for definition in found for name in definition.by_key if isinstance(name, str))
        if key not in known:
            what = f"neither the profile nor the file has in {_called(message)} a field"
            raise UnknownName(what, key, known, "; one that has no name is asked for by its number")


def number_of(message: Kind, names: "Optional[Names]" = None) -> Optional[int]:
    """The number of a message that is named by its name or its number."""
    if isinstance(message, int):
        return message
    if names and message in names.messages:
        return names.messages[message]
    return profile()[message].number if message in profile() else None


def _called(message: Kind) -> str:
    return message if isinstance(message, str) else name_of(message) or f"message {message}"


def _known(message: Kind, names: "Optional[Names]") -> dict[str, int]:
    """The fields that the profile, and the caller, name in a message."""
    number = number_of(message, names)
    known = dict(_OF_ALL if number is None else fields_of(number))
    if names and number is not None:
        known.update((of.name, field) for field, of in names.fields(number).items() if of.name)
    return known
