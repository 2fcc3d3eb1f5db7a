"""Columns that are written: the blocks of many messages at once."""
import array
import datetime
from collections.abc import Mapping
from typing import Any, Optional

from .._byte_order import in_order
from .._numbers import FLOAT, STRING
from .._times import EPOCH, SYSTEM_TIMES
from ..errors import WrongValue
from .items import CLEAR, SURE, Packer
from .number_arrays import is_array, items_of_array, items_of_list

_NUMBERS = {int, float, type(None)}


def listed(columns: Mapping[Any, Any]) -> dict[Any, Any]:
    """Each column as a list or an array, all of one length."""
    found: dict[Any, Any] = {}
    for key, column in columns.items():
        if isinstance(column, (str, bytes, bytearray)):
            raise TypeError(f"a column is a list or an array of values, and not {type(column).__name__}")
        column = _unmasked(column.to_numpy() if hasattr(column, "to_numpy") else column)
        found[key] = column if is_array(column) else list(column)
    lengths = {key: len(column) for key, column in found.items()}
    if len(set(lengths.values())) > 1:
        told = ", ".join(f"{key} {length}" for key, length in lengths.items())
        raise ValueError(f"the columns have different lengths: {told}")
    return found


def _unmasked(column: Any) -> Any:
    """A column; of a masked array of numpy its values, with None where it is masked."""
    mask = getattr(column, "mask", None)
    if mask is None or not hasattr(column, "filled"):
        return column
    if column.ndim != 1:
        return column.tolist()
    if not mask.any():
        return column.data
    return [None if is_masked else value for value, is_masked in zip(column.data, mask)]


def is_of_numbers(column: Any) -> bool:
    """Whether no value of a column can need more items than one."""
    return is_array(column) or set(map(type, column)) <= _NUMBERS


def put_column(block: bytearray, length: int, pack: Packer, column: Any) -> None:
    """Puts the values of a column into the blocks of messages, each of that length."""
    entry = pack.entry
    if entry.count != 1 or entry.kind >= STRING:
        _put_bytes(block, length, pack, column)
        return
    items = items_of_array(pack, column) if is_array(column) else items_of_list(pack, column)
    if items is None:
        # Times of an array stay such, which as plain numbers would be of any unit.
        is_plain = not isinstance(column, list) and column.dtype.kind != "M"
        items = _items_of_list(pack, column.tolist() if is_plain else list(column))
    view = memoryview(block).cast(entry.float_code)
    view[pack.begins // entry.width :: length // entry.width] = items
    view.release()


def _put_bytes(block: bytearray, length: int, pack: Packer, column: Any) -> None:
    made = bytearray()
    for row, value in enumerate(column):
        try:
            made += pack(value)
        except WrongValue as wrong:
            wrong.row = row
            raise
    for at in range(pack.size):
        block[pack.begins + at :: length] = made[at :: pack.size]


def _items_of_list(pack: Packer, column: list[Any]) -> memoryview:
    """The items of a column, as a block has them."""
    entry = pack.entry
    column = [
        _lone(pack, value, row) if isinstance(value, (list, tuple)) else value for row, value in enumerate(column)
    ]
    if entry.kind == FLOAT:
        made = bytearray()
        for row, value in enumerate(column):
            made += _of_row(pack, pack, _none_of_nan(value), row)
        return memoryview(made).cast(entry.float_code)
    items = _quick(pack, column)
    if not items:
        items = [_of_row(pack, pack.item, _none_of_nan(value), row) for row, value in enumerate(column)]
    return in_order(memoryview(array.array(entry.item_code, items)))


def _lone(pack: Packer, items: Any, row: int) -> Any:
    """The one item of a list, or None."""
    if len(items) > 1:
        raise WrongValue(f"it has {len(items)} items, and the field 1", pack.label, items, row=row)
    return items[0] if items else None


def _none_of_nan(value: Any) -> Any:
    """The value; None where it isn't a number, or no time, as `columns` has it."""
    return None if isinstance(value, (float, datetime.datetime)) and value != value else value


def _of_row(pack: Packer, make: Any, value: Any, row: int) -> Any:
    try:
        return make(value)
    except WrongValue as wrong:
        wrong.row = row
        raise


def _quick(pack: Packer, column: list[Any]) -> Optional[list[int]]:
    """The items of whole numbers, of floats or of times, all at once; None where one of them has to be looked at for
    itself."""
    types = set(map(type, column))
    if types == {int} and pack.takes_items:
        items = column
    elif types in ({float}, {datetime.datetime}):
        found = _steps(pack, column) if types == {float} else _seconds(pack, column)
        if found is None:
            return None
        items = found
    else:
        return None
    return items if pack.has(min(items), max(items)) and pack.entry.invalid not in items else None


def _seconds(pack: Packer, column: list[datetime.datetime]) -> Optional[list[int]]:
    if pack.entry.type != "date_time" or pack.entry.is_scaled:
        return None
    try:
        found = [int((time - EPOCH).total_seconds()) for time in column]
    except TypeError:
        return None
    return found if min(found) >= SYSTEM_TIMES else None


def _steps(pack: Packer, column: list[float]) -> Optional[list[int]]:
    scale, shift = float(pack.scale), float(pack.shift)
    if not (abs(shift) < SURE and abs(min(column)) * scale < SURE and abs(max(column)) * scale < SURE):
        return None
    steps = [value * scale + shift for value in column]
    try:
        items: list[int] = [round(step) for step in steps]
    except ValueError:
        return None
    for row, (step, item) in enumerate(zip(steps, items)):
        if abs(step - item) >= CLEAR:
            items[row] = pack.exactly(column[row])
    return items
