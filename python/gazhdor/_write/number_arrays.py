"""The items of arrays of numpy, all at once."""
from typing import Any, Optional

from .._numbers import FLOAT
from .._times import EPOCH, SYSTEM_TIMES
from .items import CLEAR, COARSE, MOST_COARSE, SURE, Packer

_UNIX = int(EPOCH.timestamp())
_WORTH = 1 << 12


def is_array(column: Any) -> bool:
    """Whether a column is an array of numbers or times, each a row."""
    dtype = getattr(column, "dtype", None)
    return getattr(dtype, "kind", "") in ("i", "u", "f", "M") and len(getattr(column, "shape", ())) == 1


def numpy_for(rows: int) -> Any:
    """The module numpy, where it is there and that many rows are worth it."""
    if rows < _WORTH:
        return None
    try:
        import numpy
    except ImportError:
        return None
    return numpy


def items_of_list(pack: Packer, column: list[Any]) -> Optional[memoryview]:
    """The items of a list of many numbers and None; None where one of them has to be looked at for itself, or numpy
    isn't there."""
    types = set(map(type, column)) - {type(None)}
    numpy = numpy_for(len(column)) if types in ({int}, {float}) else None
    if numpy is None or types == {int} and not _are_doubles(column):
        return None
    values = numpy.array(column, "f8")
    if types == {float} or pack.entry.kind == FLOAT:
        return items_of_array(pack, values)
    none = numpy.isnan(values)
    items = numpy.where(none, 0.0, values)
    return _packed(pack, items.astype("i8"), none) if pack.takes_items else None


def items_of_array(pack: Packer, column: Any) -> Optional[memoryview]:
    """The items of an array; None where one of its values has to be looked at for itself."""
    import numpy

    entry, kind = pack.entry, column.dtype.kind
    if entry.kind == FLOAT:
        return _floats(pack, column) if kind != "M" else None
    if kind == "M":
        none = numpy.isnat(column)
        if not entry.type or _is_too_coarse(column[~none]):
            return None
        items = column.astype("datetime64[s]").astype("i8") - _UNIX
        if entry.is_scaled or (items[~none] < SYSTEM_TIMES).any():
            return None
    elif kind == "f":
        none = numpy.isnan(column)
        found = _steps(pack, column.astype("f8"), none)
        if found is None:
            return None
        items = found
    else:
        none, items = None, column
        if not pack.takes_items:
            return None
    return _packed(pack, items, none)


def _are_doubles(column: list[Any]) -> bool:
    """Whether a double has each whole number of a list just as it is."""
    found = [number for number in column if number is not None]
    return bool(-(2**53) < min(found) and max(found) < 2**53)


def _is_too_coarse(times: Any) -> bool:
    """Whether some times, in a unit that is longer than a second, are too far off to be seconds."""
    import numpy

    unit, _ = numpy.datetime_data(times.dtype)
    is_far: bool = (numpy.abs(times.astype("i8")) >= MOST_COARSE).any()
    return bool(unit in COARSE) and bool(is_far)


def _packed(pack: Packer, items: Any, none: Any) -> Optional[memoryview]:
    """Items as a block has them, in the width of the field, where all of them can be, and the invalid one where there
    is none."""
    import numpy

    entry = pack.entry
    values = items if none is None else items[~none]
    if len(values) and not (pack.has(int(values.min()), int(values.max())) and not (values == entry.invalid).any()):
        return None
    made: Any = numpy.full(len(items), entry.invalid, "<" + entry.item_code)
    if none is None:
        made[:] = items
    else:
        made[~none] = values
    return memoryview(made.view("u1")).cast(entry.float_code)


def _floats(pack: Packer, column: Any) -> Optional[memoryview]:
    """Floats as a block has them, and the bits that stand for no value where one isn't a number."""
    import numpy

    width = pack.entry.width
    with numpy.errstate(over="ignore"):
        made: Any = column.astype(f"<f{width}")
    if (numpy.isinf(made) & ~numpy.isinf(column.astype("f8"))).any():
        return None
    made.view(f"<u{width}")[numpy.isnan(column.astype("f8"))] = pack.entry.invalid
    return memoryview(made.view("u1")).cast(pack.entry.float_code)


def _steps(pack: Packer, values: Any, none: Any) -> Any:
    """The steps that are nearest to values, as whole numbers."""
    import numpy

    scale, shift = float(pack.scale), float(pack.shift)
    values = numpy.where(none, 0.0, values)
    if not (abs(shift) < SURE and (numpy.abs(values) * scale < SURE).all()):
        return None
    steps = values * scale + shift
    near = numpy.rint(steps)
    unsure = numpy.abs(steps - near) >= CLEAR
    if unsure.any():
        near[unsure] = _halves(pack, values[unsure])
    return near.astype("i8")


def _halves(pack: Packer, values: Any) -> Any:
    """The steps of values that are nearly halves: by the exact product of a double and a scale below 2^26, and what was
    lost in the sum."""
    import numpy

    scale, shift = float(pack.scale), float(pack.shift)
    if pack.scale.denominator != 1 or pack.shift.denominator != 1 or not 0 < scale < 2**26:
        return numpy.array([pack.exactly(value) for value in values.tolist()], "f8")
    high = values * 134217729.0
    high -= high - values
    product = values * scale
    lost = (high * scale - product) + (values - high) * scale
    total = product + shift
    back = total - product
    lost += (product - (total - back)) + (shift - back)
    near = numpy.rint(total)
    # how far the total is from the next half on either side, with what was lost
    up, down = (total - near - 0.5) + lost, (total - near + 0.5) + lost
    near = numpy.where((up > 0) | (up == 0) & (near >= 0), near + 1, near)
    return numpy.where((down < 0) | (down == 0) & (near <= 0), near - 1, near)
