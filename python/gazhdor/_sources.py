"""The bytes of what a caller names: a path, bytes, or a binary file object."""
import contextlib
import io
import os
from collections.abc import Iterator
from typing import Any, Optional, Protocol, Union

from ._library import exact
from .errors import NotBinary, ReadFailed


class Readable(Protocol):
    """A binary file object: one that has `read`, which returns some bytes, and none at the end."""

    def read(self, __size: int) -> bytes: ...


Source = Union[str, "os.PathLike[str]", bytes, bytearray, memoryview, Readable]

_ALL, PIECE = 1 << 20, 1 << 16


def _read(file: Any, count: int, size: int) -> Any:
    """What a file object reads; what it raises is a ReadFailed. Bytes in memory raise nothing: what comes there is from
    elsewhere."""
    return file.read(size) if type(file) is io.BytesIO else _wrapped(count, file.read, size)


def _wrapped(count: int, call: Any, *given: Any) -> Any:
    try:
        return call(*given)
    except MemoryError:
        raise
    except Exception as error:
        raise ReadFailed(str(error) or type(error).__name__, count) from error


def pieces(file: Any, size: int = PIECE) -> Iterator[bytes]:
    """The bytes of a file object from where it is to its end, as many at once as it gives, and at most that many."""
    count = 0
    while True:
        piece = _read(file, count, size)
        if piece is None:
            raise ReadFailed("it has no bytes yet, and doesn't wait for them", count)
        if not isinstance(piece, (bytes, bytearray, memoryview)):
            raise NotBinary(f"the file object's read returned {type(piece).__name__}, and not bytes")
        piece = exact(piece)
        if not piece:
            return
        count += len(piece)
        yield piece


@contextlib.contextmanager
def opened(source: Source) -> Iterator[Any]:
    """The file object of a path, which is closed in the end, one of bytes, or a file object as it is."""
    if isinstance(source, (str, os.PathLike)):
        with open(source, "rb", buffering=0) as file:
            yield file
    elif isinstance(source, (bytes, bytearray, memoryview)):
        yield io.BytesIO(exact(source))
    elif isinstance(source, io.TextIOBase):
        raise NotBinary("the file object is opened as text, which has no bytes: open it as 'rb'")
    elif hasattr(source, "read"):
        yield source
    else:
        raise TypeError(f"a source is a path, bytes or a binary file object, and not {type(source).__name__}")


def bytes_of(source: Source) -> bytes:
    """All bytes of a source."""
    if isinstance(source, (bytes, bytearray, memoryview)):
        return exact(source)
    with opened(source) as file:
        size = max(PIECE, os.fstat(file.fileno()).st_size + 1) if isinstance(source, (str, os.PathLike)) else _ALL
        found = list(pieces(file, size))
    return found[0] if len(found) == 1 else b"".join(found)


def place_of(file: Any) -> Optional[int]:
    """Where a file object is, if it can go back there."""
    try:
        place: Optional[int] = file.tell() if file.seekable() else None
    except (AttributeError, OSError, ValueError):
        return None
    return place


def go_back(file: Any, place: int) -> None:
    _wrapped(0, file.seek, place)
