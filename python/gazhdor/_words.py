"""Words for the numbers of fields, as 'cycling' for 2 in a field of type sport. They are no part of what is proved."""
import functools
from collections.abc import Mapping
from typing import NamedTuple

from ._library import packed
from ._profile import UnknownName

Words = Mapping[int, str]


class Case(NamedTuple):
    """Where field `reference` of a message has `number`, the field in question is of type `type`."""

    reference: int
    number: int
    type: str


def _rows(file: str) -> list[list[str]]:
    return [line.split("\t") for line in (packed(file) or b"").decode().splitlines()[1:]]


@functools.lru_cache(None)
def words_by_type() -> dict[str, dict[int, str]]:
    """The words of each type, by their numbers."""
    found: dict[str, dict[int, str]] = {}
    for kind, number, word in _rows("words.tsv"):
        found.setdefault(kind, {})[int(number)] = word
    return found


@functools.lru_cache(None)
def _subfields() -> dict[tuple[int, int], list[Case]]:
    found: dict[tuple[int, int], list[Case]] = {}
    for message, field, reference, number, kind in _rows("subfields.tsv"):
        found.setdefault((int(message), int(field)), []).append(Case(int(reference), int(number), kind))
    return found


def cases_of(message: int, field: int) -> list[Case]:
    """What the type of a field depends on, where that is another field."""
    return _subfields().get((message, field), [])


def words(type: str) -> dict[int, str]:
    """Returns the words of a type by their numbers: of "sport" {0: 'generic', 1: 'running', ..}. It raises UnknownName
    where no type is named so."""
    known = words_by_type()
    if type not in known:
        raise UnknownName("no type of words is named", type, known)
    return dict(known[type])
