"""What reads the items of a field in the block of a message."""
import functools
import struct
from collections.abc import Callable
from decimal import Decimal
from typing import TYPE_CHECKING, Any, Optional, Union

from .._numbers import BYTES, FLOAT, STRING

if TYPE_CHECKING:
    from .values import Entry

Number = Union[int, float]
Value = Union[int, float, str, bytes, None, tuple[Optional[Number], ...]]
Exact = Union[int, float, Decimal, str, bytes, None, tuple[Union[int, float, Decimal, None], ...]]
Raw = Union[int, bytes, tuple[int, ...]]
Reader = Callable[[bytes], Value]


def as_value(entry: "Entry") -> Callable[[Number], Number]:
    """What makes the value of an item: `item / scale - offset`, of whole numbers the float that is nearest to it."""
    scale, offset = entry.scale, entry.offset
    shift = scale * offset
    if entry.kind == FLOAT:
        return lambda item: item / scale - offset
    return (lambda item: item - offset) if scale == 1 else (lambda item: (item - shift) / scale)


def reader(entry: "Entry") -> Reader:
    """What reads the value of a field in the block of a message."""
    if entry.count == 0:
        return lambda block: None
    if entry.kind == STRING:
        return _text_reader(entry)
    if entry.kind == BYTES:
        return _bytes_reader(entry)
    return _lone_reader(entry) if entry.count == 1 else _several_reader(entry)


def _text_reader(entry: "Entry") -> Reader:
    begins, ends = entry.begins, entry.begins + entry.count

    def read(block: bytes) -> Value:
        end = block.find(0, begins, ends)
        return block[begins : ends if end < 0 else end].decode("utf-8", "replace") or None

    return read


def _bytes_reader(entry: "Entry") -> Reader:
    begins, ends = entry.begins, entry.begins + entry.count
    nothing = bytes([0xFF]) * entry.count if entry.invalid == 0xFF else None

    def read(block: bytes) -> Value:
        data = block[begins:ends]
        return None if data == nothing else data

    return read


@functools.lru_cache(None)
def _items_of(code: str) -> Callable[[bytes, int], tuple[Any, ...]]:
    """What reads one item of a type. There are few of these, and definitions have many fields, so each is kept."""
    return struct.Struct("<" + code).unpack_from


def _lone_reader(entry: "Entry") -> Reader:
    if entry.kind == FLOAT:
        return _float_reader(entry)
    begins, invalid, items = entry.begins, entry.invalid, _items_of(entry.item_code)
    if entry.is_scaled:
        value = as_value(entry)

        def read_scaled(block: bytes) -> Value:
            item: int = items(block, begins)[0]
            return None if item == invalid else value(item)

        return read_scaled

    def read_plain(block: bytes) -> Value:
        item: int = items(block, begins)[0]
        return None if item == invalid else item

    return read_plain


def _float_reader(entry: "Entry") -> Reader:
    begins, invalid, value, scaled = entry.begins, entry.invalid, as_value(entry), entry.is_scaled
    items, numbers = _items_of(entry.item_code), _items_of(entry.float_code)

    def read_float(block: bytes) -> Value:
        if items(block, begins)[0] == invalid:
            return None
        number: float = numbers(block, begins)[0]
        return value(number) if scaled else number

    return read_float


def _several_reader(entry: "Entry") -> Reader:
    begins, invalid, value = entry.begins, entry.invalid, as_value(entry) if entry.is_scaled else None
    items = struct.Struct(f"<{entry.count}{entry.item_code}").unpack_from
    numbers = struct.Struct(f"<{entry.count}{entry.float_code}").unpack_from

    def read(block: bytes) -> Value:
        found = numbers(block, begins)
        if value:
            found = tuple(map(value, found))
        return tuple(None if item == invalid else number for item, number in zip(items(block, begins), found))

    return read


def read_raw(entry: "Entry", block: bytes) -> Raw:
    """The items as the file has them, the bits of floats as a number."""
    if entry.kind >= STRING:
        return block[entry.begins : entry.begins + entry.count]
    items: tuple[int, ...] = struct.unpack_from(f"<{entry.count}{entry.item_code}", block, entry.begins)
    return items[0] if entry.count == 1 else items


def read_exact(entry: "Entry", value: Value, raw: Raw) -> Exact:
    """A value, but where whole numbers are scaled, with the decimals that the scale needs."""
    if entry.kind >= FLOAT or not entry.is_scaled or isinstance(raw, bytes) or value is None:
        return value
    scale, offset = entry.scale, entry.offset

    def exact(item: int) -> Optional[Decimal]:
        if item == entry.invalid:
            return None
        if entry.decimals < 0:
            return Decimal(item) / Decimal(repr(scale)) - Decimal(repr(offset))
        return Decimal(f"{int((item - scale * offset) * 10**entry.decimals // scale)}e-{entry.decimals}")

    return exact(raw) if isinstance(raw, int) else tuple(map(exact, raw))
