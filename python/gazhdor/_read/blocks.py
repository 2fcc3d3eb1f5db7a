"""Walks the blocks of events that the library makes (docs/BLOCKS.md): which messages there are, and of which
definitions."""
import struct
from collections.abc import Callable, Iterable, Iterator
from typing import Any, Optional, Union

from .._names import Names
from .._numbers import (
    AT_DEFINITION_MESSAGE,
    AT_HEADER_REST,
    AT_KIND,
    AT_MESSAGE_LOCAL,
    DEFINITION,
    FILE_HEADER,
    MESSAGE,
)
from .._profile import number_of, see_messages
from .._profile import Kind as Kind
from ..errors import StreamBroken
from .native_fields import DESCRIPTION, Natives
from .shared import definition_of
from .values import Definition

Only = Union[None, str, int, Iterable[Kind]]

# So many bytes of definitions are kept, beside the current ones, each with so many more. What is made of one takes
# thirty times as much.
_MOST, _MORE = 1 << 16, 64
# Each block has so many bytes, but for that of the end of a file, which says nothing here.
_FRONT, _LEAST = struct.Struct("<IBBB17xQ").unpack_from, AT_HEADER_REST
_NUMBER = struct.Struct("<H").unpack_from
_NOTHING = None, None


# Messages of one definition that follow one another: where the first block begins, how many there are, and how long
# each is.
Run = tuple[Definition, int, int, int]


def _count(blocks: bytes, first: int, length: int, local: int) -> int:
    """How many messages of one local message type stand one after another from a place on. No definition is between
    them, so all are of the same one, and each begins where the one before ends. It looks at one more, at two more, at
    four more and so on."""
    count = piece = 1
    kind, local_type = bytes([MESSAGE]), bytes([local])
    while True:
        at = first + count * length
        end = at + piece * length
        kinds, locals_ = blocks[at + AT_KIND : end : length], blocks[at + AT_MESSAGE_LOCAL : end : length]
        same = min(len(kinds) - len(kinds.lstrip(kind)), len(locals_) - len(locals_.lstrip(local_type)))
        count += same
        if same < piece:
            return count
        piece *= 2


def _wants(only: Only, names: Optional[Names]) -> Callable[[int], bool]:
    """What tells by its number whether a message is asked for."""
    if only is None:
        return lambda number: True
    kinds = {only} if isinstance(only, (str, int, bytes)) else set(only)
    for kind in kinds:
        if not isinstance(kind, (str, int)):
            raise TypeError(f"a message is named by its name or its number, and not by {type(kind).__name__}")
    see_messages(kinds, names)
    numbers = {number_of(kind, names) for kind in kinds if isinstance(kind, (str, int))}
    return lambda number: number in numbers


class Walk:
    """Goes through blocks, which may come in parts, and knows the definitions that came with earlier ones."""

    def __init__(self, only: Only = None, names: Optional[Names] = None, words: bool = False) -> None:
        self._wants, self._names, self._natives = _wants(only, names), names, Natives()
        self._words = words
        # the last definition of each local message type, where it is asked for, and which it is of all
        self._current: dict[int, tuple[Optional[Definition], int]] = {}
        # the last definition of each local message type, where it is of field descriptions
        self._describing: dict[int, Definition] = {}
        # what some definitions say, so that one which comes again isn't looked into again
        self._known: dict[Any, Definition] = {}
        self._room = _MOST

    def runs(self, blocks: bytes) -> Iterator[Run]:
        """Yields the messages that are asked for, those that follow one another together. All have to be taken before
        the next part."""
        at, end = 0, len(blocks)
        while at + _LEAST <= end:
            length, kind, first, second, which = _FRONT(blocks, at)
            if kind == MESSAGE:
                begin, count = at, 1
                at += length
                if at < end and blocks[at + AT_MESSAGE_LOCAL] == second and blocks[at + AT_KIND] == MESSAGE:
                    count = _count(blocks, begin, length, second)
                    at = begin + count * length
                definition, known = self._current.get(second, _NOTHING)
                if known != which:
                    raise StreamBroken("the block of a definition is lost")
                if second in self._describing:
                    for place in range(begin, at, length):
                        self._natives.learn(self._describing[second], blocks[place : place + length])
                if definition:
                    yield definition, begin, count, length
                continue
            if kind == DEFINITION:
                self._define(first, which, blocks[at : at + length])
            elif kind == FILE_HEADER:
                self._natives, self._describing = Natives(), {}
            at += length

    def _define(self, local: int, which: int, data: bytes) -> None:
        number: int = _NUMBER(data, AT_DEFINITION_MESSAGE)[0]
        self._current[local] = self._definition(number, data), which
        self._describing.pop(local, None)
        if number == DESCRIPTION:
            self._describing[local] = definition_of(data, None, {})

    def _definition(self, number: int, data: bytes) -> Optional[Definition]:
        if not self._wants(number):
            return None
        natives = self._natives.of(data)
        # What comes before the number of the message says nothing of messages but their length, which is that of their
        # fields.
        same = data[AT_DEFINITION_MESSAGE:], tuple(natives.items())
        found = self._known.pop(same, None)
        if found is None:
            found = definition_of(data, self._names, natives, self._words)
            self._room -= len(data) + _MORE
        # It is the last one that was used. Those before it go first.
        self._known[same] = found
        while self._room < 0 and len(self._known) > 1:
            first = next(iter(self._known))
            self._room += len(self._known.pop(first).data) + _MORE
        return found
