"""The fields that developer fields stand for, as field description messages say it (FIT protocol, "Developer
Fields")."""
from typing import Optional

from .._numbers import AT_DEFINITION_MESSAGE, SIGNED
from .values import Definition, Developer, Entry, developers

DESCRIPTION, DEVELOPER_DATA = OF_DEVELOPERS = 206, 207
_INDEX, _NUMBER, _TYPE, _MESSAGE, _FIELD = 0, 1, 2, 14, 15
_NO_MESSAGE, _NO_FIELD = 0xFFFF, 0xFF


def lone_number(entry: Optional[Entry], width: int, block: bytes) -> Optional[int]:
    """The lone number of such a width that a field has."""
    if entry is None or entry.width != width or entry.count != 1:
        return None
    return int.from_bytes(block[entry.begins : entry.begins + width], "little")


class Natives:
    """What the descriptions up to now say."""

    def __init__(self) -> None:
        # Of each developer field that stands for one the message, where it is of one, and the field.
        self._told: dict[Developer, tuple[Optional[int], int]] = {}

    def learn(self, definition: Definition, block: bytes) -> None:
        """Takes in a field description message."""
        get = definition.by_key.get
        index, number, kind = (lone_number(get(field), 1, block) for field in (_INDEX, _NUMBER, _TYPE))
        if index is None or number is None or kind is None:
            return  # It describes nothing, in the library neither.
        entry = get(_FIELD)
        native = lone_number(entry, 1, block) if entry and entry.kind <= SIGNED else None
        if native is None or native == _NO_FIELD:
            self._told.pop((index, number), None)
        else:
            message = lone_number(get(_MESSAGE), 2, block)
            self._told[index, number] = None if message == _NO_MESSAGE else message, native

    def of(self, definition: bytes) -> dict[Developer, int]:
        """The fields that developer fields of a definition stand for, by its block."""
        if not self._told:
            return {}
        number = int.from_bytes(definition[AT_DEFINITION_MESSAGE : AT_DEFINITION_MESSAGE + 2], "little")
        told = ((key, self._told.get(key)) for key in developers(definition))
        return {key: of[1] for key, of in told if of and of[0] in (None, number)}
