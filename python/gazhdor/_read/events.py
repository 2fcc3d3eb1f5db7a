"""All that files have, in their order: headers, definition messages, messages, ends."""
import struct
from collections.abc import Iterator
from typing import Any, Optional, Union

from .._names import Names
from .._numbers import (
    AT_DEFINITION_ARCHITECTURE,
    AT_DEFINITION_BITS,
    AT_DEFINITION_LOCAL,
    AT_DEFINITION_NUMBER,
    AT_DEFINITION_RESERVED,
    AT_FILE,
    AT_HEADER_DATA,
    AT_HEADER_PROFILE,
    AT_HEADER_PROTOCOL,
    AT_HEADER_REST,
    AT_HEADER_SIZE,
    AT_HEADER_SUM,
    AT_PLACE,
    BIG_ENDIAN,
    DEFINITION,
    FILE_HEADER,
    MESSAGE,
    SAYS_DEVELOPERS,
)
from .._write.definitions import KINDS, FieldDefinition, fields_of_block
from ..errors import StreamBroken
from .blocks import Walk
from .messages import Message
from .native_fields import Natives
from .values import Definition

_FRONT, _FILE = struct.Struct("<IBBB").unpack_from, struct.Struct("<I").unpack_from
_PLACE = struct.Struct("<Q").unpack_from
_DATA, _PROFILE = struct.Struct("<I").unpack_from, struct.Struct("<Q").unpack_from


class Event:
    """A header, a definition message or the end of a file. `file` is the number of the file in the chain, from 1,
    `place` the place of its first byte in the source, from 0."""

    __slots__ = ("_block",)

    def __init__(self, block: bytes) -> None:
        self._block = block

    @property
    def file(self) -> int:
        number: int = _FILE(self._block, AT_FILE)[0]
        return number

    @property
    def place(self) -> int:
        place: int = _PLACE(self._block, AT_PLACE)[0]
        return place

    def __eq__(self, other: object) -> bool:
        return type(other) is type(self) and self._block == other._block  # type: ignore[attr-defined]

    def __hash__(self) -> int:
        return hash(self._block)

    def __reduce__(self) -> Any:
        return type(self), (self._block,)

    def __repr__(self) -> str:
        return f"<gazhdor.{type(self).__name__} at {self.place}>"


class FileHeader(Event):
    """The header of a file.

    size      its size in bytes
    protocol  the version of the protocol, 16 times the first number and the second
    profile   the version of the profile, as 2132 for 21.32
    checksum  whether it has one: 'there', 'zeros' in place of it, or 'none'
    data      how many bytes of data come after it
    more      the bytes from place 14 on
    """

    __slots__ = ()

    @property
    def size(self) -> int:
        return self._block[AT_HEADER_SIZE]

    @property
    def protocol(self) -> int:
        return self._block[AT_HEADER_PROTOCOL]

    @property
    def profile(self) -> int:
        version: int = _PROFILE(self._block, AT_HEADER_PROFILE)[0]
        return version

    @property
    def checksum(self) -> str:
        return KINDS[self._block[AT_HEADER_SUM]]

    @property
    def data(self) -> int:
        size: int = _DATA(self._block, AT_HEADER_DATA)[0]
        return size

    @property
    def more(self) -> bytes:
        return self._block[AT_HEADER_REST : AT_HEADER_REST + max(0, self.size - 14)]


class DefinitionMessage(Event):
    """A definition message.

    number, name  global message number, and the name of the message, or None
    local         local message type
    big           whether its numbers and those of its messages are big endian
    reserved      its reserved byte
    fields        a `FieldDefinition` for each field, and then for each developer field: `number`, `base`, the code of
                  its base type, `size`, `developer`, the developer data index, or None
    says_developers  whether its record header says that there are developer fields
    """

    __slots__ = ("_definition",)

    def __init__(self, block: bytes, definition: Definition) -> None:
        super().__init__(block)
        self._definition = definition

    @property
    def number(self) -> int:
        return self._definition.number

    @property
    def name(self) -> Optional[str]:
        return self._definition.name

    @property
    def local(self) -> int:
        return self._block[AT_DEFINITION_LOCAL]

    @property
    def big(self) -> bool:
        return self._block[AT_DEFINITION_ARCHITECTURE] == BIG_ENDIAN

    @property
    def reserved(self) -> int:
        return self._block[AT_DEFINITION_RESERVED]

    @property
    def says_developers(self) -> bool:
        return self._block[AT_DEFINITION_BITS] & SAYS_DEVELOPERS != 0

    @property
    def fields(self) -> tuple[FieldDefinition, ...]:
        return fields_of_block(self._block)

    def __reduce__(self) -> Any:
        return DefinitionMessage, (self._block, self._definition)


class FileEnd(Event):
    """The end of a file, its checksum."""

    __slots__ = ()


Everything = Union[FileHeader, DefinitionMessage, Message, FileEnd]


class Events(Walk):
    """Goes through blocks, and makes of each an event."""

    def __init__(self, names: Optional[Names], words: bool = False) -> None:
        super().__init__(None, names, words)

    def events(self, blocks: bytes) -> Iterator[Everything]:
        at, end, current = 0, len(blocks), self._current
        while at < end:
            length, kind, first, local = _FRONT(blocks, at)
            block = blocks[at : at + length]
            at += length
            if kind == MESSAGE:
                definition = current[local][0] if local in current else None
                if definition is None:
                    raise StreamBroken("the block of a definition is lost")
                if local in self._describing:
                    self._natives.learn(self._describing[local], block)
                yield Message(block, definition)
            elif kind == DEFINITION:
                self._define(first, _PLACE(block, AT_DEFINITION_NUMBER)[0], block)
                definition = current[first][0]
                assert definition is not None
                yield DefinitionMessage(block, definition)
            elif kind == FILE_HEADER:
                self._natives, self._describing = Natives(), {}
                yield FileHeader(block)
            else:
                yield FileEnd(block)
