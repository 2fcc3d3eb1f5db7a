"""What definitions say, kept from one file to the next one: most files of a device have the same ones."""
import functools
import struct
from collections.abc import Mapping
from typing import Optional

from .._names import EXTRA, Names
from .._numbers import AT_DEFINITION_MESSAGE, AT_DEFINITION_MESSAGE_LENGTH, AT_FILE, AT_PLACE
from .values import Definition, Developer, told

_MOST, _LONGEST = 64, 2048  # So many are kept, and none whose block is longer.
_NUMBER = struct.Struct("<H").unpack_from


def definition_of(
    data: bytes, names: Optional[Names], natives: Mapping[Developer, int], words: bool = False
) -> Definition:
    """What the block of a definition says, with what the caller names. Where that are the names of the profile or of
    EXTRA it may be one that another file has had."""
    if len(data) > _LONGEST or names is not None and names is not EXTRA:
        return Definition(data, told(names, _NUMBER(data, AT_DEFINITION_MESSAGE)[0], natives, words))
    return _kept(_alone(data), names is not None, tuple(natives.items()), words)


@functools.lru_cache(maxsize=_MOST)
def _kept(data: bytes, is_extra: bool, natives: tuple[tuple[Developer, int], ...], words: bool) -> Definition:
    number: int = _NUMBER(data, AT_DEFINITION_MESSAGE)[0]
    return Definition(data, told(EXTRA if is_extra else None, number, dict(natives), words))


def _alone(data: bytes) -> bytes:
    """The block of a definition without its file, its place, and which one of all it is."""
    length = data[AT_DEFINITION_MESSAGE_LENGTH:AT_PLACE]
    front = data[:AT_FILE] + bytes(AT_DEFINITION_MESSAGE_LENGTH - AT_FILE) + length
    return front.ljust(AT_DEFINITION_MESSAGE, b"\0") + data[AT_DEFINITION_MESSAGE:]
