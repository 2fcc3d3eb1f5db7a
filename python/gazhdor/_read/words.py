"""The words of a field of a definition, and what reads them."""
from typing import TYPE_CHECKING, Any, NamedTuple, Optional

from .._names import EXTRA
from .._numbers import SIGNED
from .._profile import info_of
from .._words import Words, cases_of, words_by_type

if TYPE_CHECKING:
    from .readers import Reader, Value
    from .values import Definition, Entry

_NONE: Words = {}


class Choice(NamedTuple):
    """The words of a field: where another field has a number, as the manufacturer 1, those of that case, and else
    `words`."""

    words: Words
    cases: "tuple[tuple[Entry, int, Words], ...]" = ()

    def by(self, block: bytes) -> Words:
        """The words that count in a message."""
        for entry, number, words in self.cases:
            if entry.raw(block) == number:
                return words
        return self.words


def choices(definition: "Definition") -> dict[int, Choice]:
    """The words of the fields of a definition, by what `id` says of their entries. It is made once."""
    found: Optional[dict[int, Choice]] = definition.made.get("words")
    if found is None:
        made = ((id(entry), _choice(definition, entry)) for entry in definition.entries)
        found = definition.made["words"] = {place: choice for place, choice in made if choice}
    return found


def _has_words(entry: "Entry") -> bool:
    """Whether its items may stand for words: whole numbers that aren't scaled, of a field of the protocol."""
    return entry.index is None and entry.kind <= SIGNED and not entry.is_scaled and entry.type is None


def _choice(definition: "Definition", entry: "Entry") -> Optional[Choice]:
    if not _has_words(entry):
        return None
    known = words_by_type()
    told = definition.named(entry.number).type
    if told is not None:
        return Choice(known[told]) if told in known else None
    info, extra = info_of(definition.number, entry.number), EXTRA.fields(definition.number).get(entry.number)
    kind = (info.type if info else None) or (extra.type if extra else None)
    cases = []
    for case in cases_of(definition.number, entry.number):
        of = definition.by_key.get(case.reference)
        if of and of.is_number and of.kind <= SIGNED:
            cases.append((of, case.number, known[case.type]))
    words = known.get(kind or "", _NONE)
    return Choice(words, tuple(cases)) if words or cases else None


def word_of(definition: "Definition", entry: "Entry", block: bytes) -> Optional[str]:
    """The word for the number that a field has."""
    choice = choices(definition).get(id(entry))
    if choice is None or entry.count != 1:
        return None
    value: Any = entry.read(block)
    return value if isinstance(value, str) else choice.by(block).get(value)


def word_reader(entry: "Entry", choice: Choice) -> "Reader":
    """What reads a field as its words; a number without one stays as it is."""
    numbers = entry.read

    def read(block: bytes) -> "Value":
        value: Any = numbers(block)
        words = choice.by(block) if choice.cases else choice.words
        if isinstance(value, tuple):
            told: Any = [words.get(item, item) for item in value]
            return tuple(told)
        return words.get(value, value)

    return read
