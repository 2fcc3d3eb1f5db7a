"""A field of a message, as it is when it is asked for."""
from typing import Any, Optional

from .readers import Exact, Raw, Value, read_exact, read_raw
from .values import Definition, Entry, label
from .words import word_of


class Field:
    """A field of a message.

    name       its name in the profile, or that which the file gives to a developer field; None where there is none
    number     its number
    developer  of a developer field its developer data index, else None
    base       the code of its base type, of a developer field by its description
    unit       its unit, as 'm/s', or None
    value      a whole number as an int; a scaled number, in its unit, and float32 and float64 as a float; several
               numbers as a tuple of these; a text as a str, up to its first zero; bytes as bytes. None stands for a
               number that is the invalid one of its base type, for an empty text, for bytes of type byte that are all
               0xFF, and for a field without bytes
    word       the word for the number that it has, as 'cycling' of a sport; None where there is none. It is also
               `value` where the messages were asked for with `words=True`
    native     of a developer field the number of the field that it stands for, by its description, else None
    exact      `value`, but a scaled whole number as a Decimal, with as many decimals as `to_csv` writes
    raw        what the file has: an int for each number, unscaled and invalid ones too, of a float its bits; all bytes
               of a text or of bytes
    """

    __slots__ = ("_block", "_entry", "_definition")

    def __init__(self, block: bytes, entry: Entry, definition: Definition) -> None:
        self._block, self._entry, self._definition = block, entry, definition

    @property
    def name(self) -> Optional[str]:
        return self._entry.name

    @property
    def number(self) -> int:
        return self._entry.number

    @property
    def developer(self) -> Optional[int]:
        return self._entry.index

    @property
    def base(self) -> int:
        return self._entry.base

    @property
    def unit(self) -> Optional[str]:
        return self._entry.unit

    @property
    def native(self) -> Optional[int]:
        return self._entry.native

    @property
    def value(self) -> Value:
        return self._entry.read(self._block)

    @property
    def word(self) -> Optional[str]:
        return word_of(self._definition, self._entry, self._block)

    @property
    def exact(self) -> Exact:
        return read_exact(self._entry, self.value, self.raw)

    @property
    def raw(self) -> Raw:
        return read_raw(self._entry, self._block)

    def _all(self) -> tuple[Any, ...]:
        of = self._entry
        shape = of.kind, of.width, of.scale, of.offset, of.invalid
        return (of.name, of.number, of.index, of.native, of.unit, *shape, self.raw)

    def __eq__(self, other: object) -> bool:
        if not isinstance(other, Field):
            return NotImplemented
        return self._all() == other._all()

    def __hash__(self) -> int:
        return hash(self._all())

    def __reduce__(self) -> Any:
        return _field, (self._block, self._definition, self._definition.entries.index(self._entry))

    def __repr__(self) -> str:
        unit = f" {self.unit}" if self.unit else ""
        return f"<gazhdor.Field {label(self.name or self._entry.key)}={self.value!r}{unit}>"


def _field(block: bytes, definition: Definition, place: int) -> Field:
    """A field that was copied or sent to another process."""
    return Field(block, definition.entries[place], definition)
