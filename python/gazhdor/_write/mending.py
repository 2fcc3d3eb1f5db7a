"""Mends what was broken off: all good records of it, and an end."""
import functools
import struct
from collections.abc import Iterable, Iterator
from typing import Optional, Union

from .._byte_order import in_order
from .._numbers import AT_PLACE, FILE_END
from .._read.streams import each, found
from .._sources import Source, bytes_of
from ..errors import FitError, judge
from .definitions import END
from .wholes import completed
from .writer import from_blocks

_FRONT = struct.Struct("<IB").unpack_from
_MOST = 2**32 - 1  # the size of the largest data section


@functools.lru_cache(None)
def _sums() -> list[int]:
    """What each two bytes make of a checksum of 0."""
    sums = list(range(65536))
    for _ in range(16):
        sums = [number >> 1 ^ (0xA001 if number & 1 else 0) for number in sums]
    return sums


def checksum(*parts: Union[bytes, memoryview]) -> bytes:
    """The two bytes that the FIT protocol has after these."""
    total, sums = 0, _sums()
    for part in parts:
        words = memoryview(part)[: len(part) // 2 * 2].cast("B").cast("H")
        for word in in_order(words):
            total = sums[total ^ word]
        if len(part) % 2:
            total = _after(total, part[-1])
    return struct.pack("<H", total)


def _after(total: int, byte: int) -> int:
    """The checksum after one byte more."""
    total ^= byte
    for _ in range(8):
        total = total >> 1 ^ (0xA001 if total & 1 else 0)
    return total


class _Parts:
    """A file object of bytes that lie in memory. It gives a few first, and then ever more, as the first may be
    refused."""

    def __init__(self, parts: Iterable[Union[bytes, memoryview]]) -> None:
        self._parts, self._size = [memoryview(part) for part in parts if len(part)], 256

    def read(self, size: int) -> bytes:
        if not self._parts:
            return b""
        self._size = min(size, 2 * self._size)
        part, self._parts[0] = self._parts[0][: self._size], self._parts[0][self._size :]
        if not len(self._parts[0]):
            del self._parts[0]
        return bytes(part)


def _blocks(*parts: Union[bytes, memoryview]) -> Iterator[bytes]:
    """The blocks of all good events at the front of these bytes, some at a time."""
    try:
        for blocks in each("blocks", _Parts(parts), partial=True, ahead=False):
            yield blocks[:]
    except FitError:
        pass


def _end_of_files(data: memoryview) -> int:
    """How many bytes the whole files have with which these begin."""
    end = 0
    for blocks in _blocks(data):
        at = 0
        while at < len(blocks):
            length, kind = _FRONT(blocks, at)
            if kind == FILE_END:
                end = int.from_bytes(blocks[at + AT_PLACE : at + AT_PLACE + 8], "little") + 2
            at += length
    return end


def _header(old: bytes, size: int) -> bytes:
    """A header with another size of the data section, and its checksum."""
    head = old[:4] + struct.pack("<I", size) + old[8:12]
    return head + (checksum(head) + old[14:] if len(old) > 13 else b"")


def _split(data: memoryview) -> Optional[tuple[bytes, memoryview, memoryview]]:
    """Header and data section of the file that these bytes begin, as far as they are there, and what comes after it.
    None where that can't be told, as they begin no header."""
    length = data[0]
    if length < 12 or len(data) < length or data[8:12] != b".FIT":
        return None
    head, body = bytes(data[:length]), data[length:]
    size: int = struct.unpack_from("<I", head, 4)[0]
    after = body[size + 2 :]
    if size and len(body) >= size + 2 and (not len(after) or after[8:12] == b".FIT"):
        return head, body[:size], after
    if 2 <= len(body) and size <= len(body):
        # The size was never filled in, or is wrong; there may be a checksum all the same.
        records = body[:-2]
        if body[-2:] in (checksum(head, records), checksum(_header(head, len(records)), records)):
            body = records
    return head, body, data[:0]


def _mended(data: memoryview) -> tuple[bytes, memoryview]:
    """The file that these bytes begin, with its good records, or nothing; and what comes after it."""
    parts = _split(data)
    if parts is None:
        return b"", data[:0]
    head, body, after = parts
    # With a larger size none of the records is refused for what can't follow it. What is told is whole, and has no end.
    blocks = b"".join(_blocks(_header(head, _MOST), body))
    if not blocks or len(blocks) == _FRONT(blocks, 0)[0]:
        return b"", after
    return from_blocks(blocks + END), after


def mend(source: Source, whole: bool = False) -> bytes:
    """Returns a good file, or chain of files, of one that was broken off or is damaged: of each file its records up to
    the first that is not whole or can't be, with the size and the checksums that belong to them. Good bytes stay as
    they are, and bytes after the last file that begin none are left out. With `whole` a file that has records and no
    session gets what it lacks: a lap of those that are in none, a session, an activity message, by what laps and
    records say. Where there is no good record it raises the fault, `Refused` or `Truncated`."""
    mended = _good(bytes_of(source))
    return completed(mended) if whole else mended


def _good(data: bytes) -> bytes:
    answer = found(data)
    if answer.good:
        return data
    made: list[Union[bytes, memoryview]] = []
    rest = memoryview(data)
    while len(rest):
        end = _end_of_files(rest)
        if end:
            made.append(rest[:end])
            rest = rest[end:]
        else:
            file, rest = _mended(rest)
            made.append(file)
    mended = b"".join(made)
    if not mended or not found(mended).good:
        judge(answer)
    return mended
