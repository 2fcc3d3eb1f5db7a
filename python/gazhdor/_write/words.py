"""Words that are written: the numbers that they stand for."""
from collections.abc import Mapping
from typing import Any, Optional

from .._numbers import SIGNED
from .._profile import nearest_of
from .._read.values import Definition, Entry, label
from .._read.words import Choice, choices
from .._words import Words
from ..errors import WrongValue


def _entry(definition: Definition, key: Any) -> Optional[Entry]:
    """The field of whole numbers, and of no times, that a key names."""
    entry = definition.by_key.get(getattr(key, "key", key))
    return entry if entry and entry.kind <= SIGNED and entry.type is None else None


def _has_word(value: Any) -> bool:
    return isinstance(value, str) or isinstance(value, (list, tuple)) and any(isinstance(item, str) for item in value)


def _number(entry: Entry, words: Words, word: str) -> int:
    for number, other in words.items():
        if other == word:
            return number
    near = nearest_of(word[:80], words.values())
    what = f"{word[:40]!r} is no word that it can have"
    raise WrongValue(what + (f": is it {near!r}?" if near else ""), label(entry.name or entry.key), word)


def _numbers(entry: Entry, words: Words, value: Any) -> Any:
    """A value with numbers in place of words."""
    if isinstance(value, str):
        return _number(entry, words, value)
    return [_number(entry, words, item) if isinstance(item, str) else item for item in value]


def _by_values(choice: Choice, definition: Definition, values: Mapping[Any, Any], block: Optional[bytes]) -> Words:
    """The words that count by what other fields get, or by what they have in the block of a message."""
    for of, number, words in choice.cases:
        told = [value for key, value in values.items() if _entry(definition, key) is of]
        has = told[0] if told else None if block is None else of.raw(block)
        if has == number:
            return words
    return choice.words


def numbered(definition: Definition, values: Mapping[Any, Any], block: Optional[bytes] = None) -> Mapping[Any, Any]:
    """The values that a message gets, each word as the number that it stands for. `block` is what the message has in
    other fields. A word that a field can't have is a `WrongValue`."""
    found, depending = dict(values), []
    for key, value in values.items():
        entry = _entry(definition, key)
        choice = choices(definition).get(id(entry)) if entry and _has_word(value) else None
        if entry and choice:
            if choice.cases:
                depending.append((key, entry, choice))
            else:
                found[key] = _numbers(entry, choice.words, value)
    for key, entry, choice in depending:
        found[key] = _numbers(entry, _by_values(choice, definition, found, block), values[key])
    return found


def numbered_columns(definition: Definition, columns: dict[Any, Any]) -> dict[Any, Any]:
    """Columns that are written, each word as the number that it stands for."""
    asked = {key: list(column) for key, column in columns.items() if _entry(definition, key) and _may_have(column)}
    asked = {key: column for key, column in asked.items() if any(map(_has_word, column))}
    if not asked:
        return columns
    found: dict[Any, Any] = {**columns, **asked}
    for row in range(len(next(iter(asked.values())))):
        try:
            told = numbered(definition, {key: column[row] for key, column in found.items()})
        except WrongValue as wrong:
            wrong.row = row
            raise
        for key in asked:
            asked[key][row] = told[key]
    return found


def _may_have(column: Any) -> bool:
    """Whether a column may have texts: it is a list, or an array of these or of objects."""
    return isinstance(column, list) or column.dtype.kind in "OU"
