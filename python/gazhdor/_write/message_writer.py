"""Messages of one kind that are written."""
import functools
from collections.abc import Mapping
from typing import TYPE_CHECKING, Any, Optional

from .._names import Names
from .._numbers import AT_MESSAGE_BITS, AT_MESSAGE_OFFSET, NO_OFFSET, TOLD_HEADER_TIME
from .._profile import UnknownName
from .._read.shared import definition_of
from .._read.values import Definition as Known
from .._times import HEADER_TIME, NO_TIME_BYTES
from ..errors import WrongValue
from .definitions import Kept, definition_block, empty_message
from .developers import DeveloperField, seen
from .field_shapes import Shape
from .item_columns import is_of_numbers, listed, put_column
from .items import Packer, packers
from .put import LOST, Blocks
from .words import numbered, numbered_columns

if TYPE_CHECKING:
    from .writer import Writer

_OFFSET = ".time_offset"
_LONE = (int, float, type(None))
_TEXTS = {str, list, tuple}
_MOST = 64  # So many layouts are kept, of fields that have now more items and now fewer.
Sizes = tuple[int, ...]


class Layout:
    """The fields of messages in their sizes: the block of the definition, what it says, and what makes blocks of
    messages."""

    __slots__ = ("sizes", "block", "known", "places", "empty", "_packers", "_time_at")

    def __init__(self, sizes: Sizes, block: bytes, known: Known) -> None:
        self.sizes, self.block, self.known = sizes, block, known
        self.places = {id(entry): place for place, entry in enumerate(self.known.entries)}
        self.empty, self._packers = bytes(empty_message(self.known)), packers(self.known)
        time = self.known.by_key.get(253)
        self._time_at = time.begins if time is not None and time.is_stamp else None

    def packer(self, key: Any) -> Packer:
        found = self._packers.get(key.key if isinstance(key, DeveloperField) else key)
        if found is not None:
            return found
        name = key if isinstance(key, str) else seen(key).name if isinstance(key, DeveloperField) else f"{key!r:.40}"
        raise UnknownName("the definition has no field", name, self.known.labels)

    def place(self, key: Any) -> int:
        """Which field of the definition a key names."""
        return self.places[id(self.packer(key).entry)]

    def resized(self, place: int, size: int) -> Sizes:
        return (*self.sizes[:place], size, *self.sizes[place + 1 :])

    def block_of(self, values: Mapping[Any, Any]) -> bytearray:
        """The block of a message with these values."""
        block, packs = bytearray(self.empty), self._packers
        for key, value in values.items():
            if key == _OFFSET:
                block[AT_MESSAGE_OFFSET] = _offset(value)
            else:
                pack = packs.get(key) or self.packer(key)
                block[pack.begins : pack.begins + pack.size] = pack(value)
        return block

    def last_time(self, blocks: Blocks) -> Optional[bytes]:
        """The time of the last one of some messages that has one."""
        length, at = len(self.empty), self._time_at
        for first in range(len(blocks) - length, -1, -length) if at is not None else ():
            time = blocks[first + at : first + at + 4]
            if time != NO_TIME_BYTES:
                return bytes(time)
        return bytes(blocks[HEADER_TIME]) if blocks[AT_MESSAGE_BITS] & TOLD_HEADER_TIME else None


class Definition:
    """What messages with the same fields are written with: `Writer.define` makes it. It goes with the file in which it
    was made."""

    def __init__(self, writer: "Writer", number: int, shapes: list[Shape], kept: Kept, local: Optional[int]) -> None:
        self._writer, self._number, self._shapes, self._kept, self._wanted = writer, number, shapes, kept, local
        # the layout of the last message, and others by their sizes
        self._layouts: dict[Sizes, Layout] = {}
        self._layout = self._laid(tuple(shape.least for shape in shapes))
        # the sizes of the fields of the last definition message that was written of itself
        self._begun: Optional[Sizes] = None

    def _laid(self, sizes: Sizes) -> Layout:
        """The layout of such sizes."""
        found = self._layouts.get(sizes)
        if found is None:
            found = _layout(self._number, tuple(self._shapes), sizes, self._kept, self._writer._names)
            if len(self._layouts) >= _MOST:
                self._layouts.clear()
            self._layouts[sizes] = found
        return found

    def __reduce__(self) -> Any:
        raise TypeError("a definition of a writer can't be copied or sent to another process")

    def see(self, values: Mapping[Any, Any]) -> tuple[Layout, bytearray]:
        """The block of a message with these values, with the layout in which each field has the size that it needs.
        What they can't have is raised."""
        layout = self._layout
        if _TEXTS & set(map(type, values.values())):
            values = numbered(layout.known, values)
        for key, value in values.items():
            if type(value) in _LONE or key == _OFFSET:
                continue
            place = layout.place(key)
            shown, size = self._shapes[place].needed(value, layout.sizes[place])
            if shown is not value:
                values = {**values, key: shown}
            if size != layout.sizes[place]:
                layout = self._laid(layout.resized(place, size))
        return layout, layout.block_of(values)

    def write(self, __values: Optional[Mapping[Any, Any]] = None, **fields: Any) -> None:
        """Writes a message with these values; a field that isn't named has none. Fields that are no words of Python are
        given by a mapping, as `{dev: 120, 3: 121}`, and there ".time_offset" is that of a compressed timestamp
        header."""
        layout, block = self.see({**__values, **fields} if __values else fields)
        if block[AT_MESSAGE_OFFSET] != NO_OFFSET:
            if self._wanted is None or self._wanted > 3:
                what = "a compressed timestamp header needs a local message type of 0 to 3"
                raise ValueError(f"{what}: define(.., local=0)")
            _tell_header_time(block, self._writer._last_time)
        self._put(layout, block)

    def begin(self) -> None:
        """Writes the definition message now, also where no message comes, or the same one stands already."""
        self._begin(self._layout)

    def _begin(self, layout: Layout) -> None:
        self._writer._define(layout.block)
        self._begun = layout.sizes

    def columns(self, __columns: Optional[Mapping[Any, Any]] = None, **fields: Any) -> None:
        """Writes a message for each row of columns of one length: lists, arrays of numpy, series of pandas, or whatever
        gives values one after another. None, NaN and NaT stand for no value, as does a field that isn't named. Where
        one of them doesn't fit, none is written."""
        layout = self._layout
        columns = numbered_columns(layout.known, listed({**({} if __columns is None else __columns), **fields}))
        rows = max(map(len, columns.values()), default=0)
        for key, column in columns.items():
            if not is_of_numbers(column):
                layout = self._fit_column(layout, key, column)
        blocks, length = bytearray(layout.empty) * rows, len(layout.empty)
        for key, column in columns.items():
            put_column(blocks, length, layout.packer(key), column)
        if rows:
            self._put(layout, blocks)

    def _fit_column(self, layout: Layout, key: Any, column: Any) -> Layout:
        """The layout in which a field has the size that the values of a column need."""
        place = layout.place(key)
        shape, size = self._shapes[place], layout.sizes[place]
        for row, value in enumerate(column):
            if type(value) not in _LONE:
                shown, size = shape.needed(value, size)
                if shown is not value:
                    column[row] = shown
        return self._laid(layout.resized(place, size))

    def _put(self, layout: Layout, blocks: bytearray) -> None:
        """Writes messages; before them, where the local message type is given, their definition message, if it isn't
        the last one."""
        if self._wanted is not None and self._begun != layout.sizes:
            self._begin(layout)
        self._writer._put(layout.known, layout.block, blocks, layout.last_time(blocks))
        self._layout = layout


@functools.lru_cache(maxsize=64)
def _layout(message: int, shapes: tuple[Shape, ...], sizes: Sizes, kept: Kept, names: Optional[Names]) -> Layout:
    """The layout of messages that have fields in such sizes."""
    block = definition_block(message, [shape.form(message, size) for shape, size in zip(shapes, sizes)], kept)
    return Layout(sizes, block, definition_of(block, names, {}))


def _offset(value: Any) -> int:
    if value is None:
        return NO_OFFSET
    if isinstance(value, bool) or not isinstance(value, int) or not 0 <= value <= 31:
        raise WrongValue(f"a time offset is 0 to 31, and not {value!r:.40}", _OFFSET, value, 0, 31)
    return value


def _tell_header_time(block: bytearray, before: Optional[bytes]) -> None:
    """Has the block of a message with a time offset tell the time that this is after the last one."""
    if before == LOST:
        what = "a call of the writer was interrupted, so nobody knows the time from which a time offset counts"
        raise RuntimeError(f"{what}: write a timestamp")
    if before is not None:
        last = int.from_bytes(before, "little")
        time = last + (block[AT_MESSAGE_OFFSET] - last & 31)
        block[HEADER_TIME] = (time & 0xFFFFFFFF).to_bytes(4, "little")
        block[AT_MESSAGE_BITS] |= TOLD_HEADER_TIME
