"""The items of a field that stand for a value: the way back of what `_values` reads."""
import datetime
import decimal
import itertools
import math
import numbers
import operator
import re
import struct
from fractions import Fraction
from typing import Any, Optional

from .._numbers import BYTES, FLOAT, SIGNED, STRING
from .._read.readers import as_value
from .._read.values import Definition, Entry, degrees, label
from .._times import EPOCH, SYSTEM_TIMES, when
from ..errors import WrongValue

_SYSTEM = re.compile(r"system\+(\d{1,9})", re.A).fullmatch
_NAIVE = EPOCH.replace(tzinfo=None)
_SECOND = datetime.timedelta(0, 1)
_SINGLE = struct.Struct("<f")
# Below this a double has all halves exactly, so that only what is nearly one has to be looked at closely.
SURE, CLEAR = 2.0**36, 0.4999
_MOST_DIGITS = 400
# Units of times that are longer than a second, and how many of them are surely not too many seconds.
COARSE, MOST_COARSE = ("Y", "M", "W", "D", "h", "m"), 2**30
_PLAIN = (int, float, str, bytes, list, tuple)


def shown(value: Any) -> str:
    """A value in a few words."""
    if isinstance(value, int) and value.bit_length() > 128:
        return f"a number of {value.bit_length()} bits"
    if isinstance(value, (str, bytes, bytearray)):
        return repr(value[:40]) + ("..." if len(value) > 40 else "")
    return repr(value)[:80] if isinstance(value, (int, float, datetime.datetime)) else f"a {type(value).__name__}"


def is_nothing(value: Any) -> bool:
    """Whether a value of another type stands for none: a number that isn't one, no time, what pandas calls NA, and
    numpy masked."""
    if value is None or type(value).__name__ in ("NAType", "MaskedConstant"):
        return True
    if isinstance(value, decimal.Decimal):
        return value.is_nan()
    is_one = isinstance(value, (numbers.Real, datetime.datetime)) or getattr(value, "dtype", None) is not None
    return is_one and getattr(value, "shape", ()) == () and bool(value != value)


def single(value: Any) -> float:
    """The number of 32 bits that is nearest to a whole number or a fraction, which is rounded once: a double that lies
    between two of them is moved to the side of the value."""
    near = float(value)
    if abs(near) >= 2.0**53 or not isinstance(value, int):
        below, above = math.nextafter(near, -math.inf), math.nextafter(near, math.inf)
        try:
            is_between = _SINGLE.pack(below) != _SINGLE.pack(above)
        except OverflowError:
            return near
        exact = Fraction(value)
        if is_between and exact != near:
            return above if exact > near else below
    return near


def rounded(top: int, bottom: int) -> int:
    """The whole number that is nearest to a fraction; of two the one that is further from zero."""
    return (2 * top + bottom) // (2 * bottom) if top >= 0 else -((bottom - 2 * top) // (2 * bottom))


class Packer:
    """What makes the items of a field of a value. A value is what `messages` gives: a number in the unit of the field,
    or None. Of a field in semicircles a float is degrees; a time may be a datetime, or the text 'system+N'."""

    __slots__ = (
        "entry", "begins", "size", "none", "_least", "_most", "_pack", "scale", "shift", "_is_plain", "_is_degrees",
        "_is_direct", "_by", "_from", "_ratio",
    )  # fmt: skip

    def __init__(self, entry: Entry) -> None:
        self.entry, self.begins, self.size = entry, entry.begins, entry.count * entry.width
        none = b"\xff" if entry.kind == BYTES else entry.invalid.to_bytes(entry.width, "little")
        self.none = none * entry.count
        bits = 8 * entry.width
        half = 2 ** (bits - 1)
        self._least, self._most = (-half, half - 1) if entry.kind == SIGNED else (0, 2**bits - 1)
        self._pack = struct.Struct("<" + entry.float_code).pack
        is_semicircles = entry.unit == "semicircles" and not entry.is_scaled
        self._is_degrees = entry.kind == SIGNED and entry.width == 4 and is_semicircles
        self.scale = Fraction(2**31, 180) if self._is_degrees else Fraction(entry.scale)
        self.shift = Fraction(0) if self._is_degrees else Fraction(entry.scale) * Fraction(entry.offset)
        self._is_plain = not entry.is_scaled
        self._is_direct = self.takes_items and entry.kind < FLOAT and entry.count == 1
        of, to = self.scale, self.shift
        self._by, self._from = float(of), float(to)
        self._ratio = (of.numerator * to.denominator, to.numerator * of.denominator), of.denominator * to.denominator

    # ---- of one number

    def item(self, value: Any) -> int:
        """The item of a whole number field that a value stands for."""
        if value is None:
            return self.entry.invalid
        if type(value) is not int and type(value) is not float:
            value = self._number(value)
            if value is None:
                return self.entry.invalid
        if type(value) is float:
            if value != value:
                return self.entry.invalid
            item = self._steps(value)
        elif type(value) is int and self.takes_items:
            item = value
        else:
            exact = value * self.scale + self.shift
            item = rounded(exact.numerator, exact.denominator)
        if not self._least <= item <= self._most or item == self.entry.invalid:
            raise self.wrong(value, item)
        return item

    def _steps(self, value: float) -> int:
        """The item of a float: exact, whatever is lost on the way."""
        if not math.isfinite(value):
            raise self.wrong(value)
        steps = value * self._by
        item = steps + self._from
        if abs(steps) < SURE and abs(item) < SURE:
            near = round(item)
            if abs(item - near) < CLEAR:
                return near
        return self.exactly(value)

    def exactly(self, value: float) -> int:
        """The step that is nearest to a float, of two the one that is further from zero."""
        of, parts = value.as_integer_ratio()
        top, bottom = self._ratio
        return rounded(of * top[0] + parts * top[1], parts * bottom)

    @property
    def takes_items(self) -> bool:
        """Whether a whole number that is written is the item itself."""
        return bool(self._is_plain or self._is_degrees)

    def has(self, least: int, most: int) -> bool:
        """Whether items from the one to the other fit."""
        return bool(self._least <= least and most <= self._most)

    def _number(self, value: Any) -> Any:
        """An int, a float or a fraction of any type of number or time; None of what stands for none."""
        if isinstance(value, bool) or getattr(getattr(value, "dtype", None), "kind", "") == "m":
            raise self.wrong(value)
        if is_nothing(value):
            return None
        if isinstance(value, (datetime.datetime, str)) or getattr(getattr(value, "dtype", None), "kind", "") == "M":
            return self._seconds(value)
        if isinstance(value, numbers.Integral):
            return operator.index(value)
        if isinstance(value, decimal.Decimal):
            digits = len(value.as_tuple().digits)
            if not value.is_finite() or abs(value.adjusted()) > _MOST_DIGITS or digits > _MOST_DIGITS:
                raise self.wrong(value)
            return Fraction(value)
        if isinstance(value, numbers.Rational):
            return Fraction(value)
        if isinstance(value, numbers.Real):
            return float(value)
        raise self.wrong(value)

    def _seconds(self, value: Any) -> Optional[int]:
        """The seconds that a time is, the fraction of a second left out."""
        if not self.entry.type or self.entry.is_scaled:
            raise self.wrong(value)
        if isinstance(value, str):
            told = _SYSTEM(value)
            if not told or int(told[1]) >= SYSTEM_TIMES:
                raise self.wrong(value)
            return int(told[1])
        is_local = self.entry.type == "local_date_time"
        if not isinstance(value, datetime.datetime):
            time = _time_of(value)
            if time is None:
                raise self.wrong(value)
            value = time
            value = value if is_local else value.replace(tzinfo=datetime.timezone.utc)
        if (value.tzinfo is None) != is_local:
            has = "has" if value.tzinfo else "has no"
            needs = "by the clock of the place has none" if is_local else "needs one"
            raise WrongValue(f"{value!r} {has} zone, and a time {needs}", self.label, value)
        seconds: int = (value - (_NAIVE if is_local else EPOCH)) // _SECOND
        if seconds < SYSTEM_TIMES:
            raise self.wrong(value)
        return seconds

    # ---- what is wrong

    @property
    def label(self) -> str:
        return label(self.entry.name or self.entry.key)

    def limits(self) -> tuple[Any, Any]:
        """The least and the greatest value that the field can have, in its unit."""
        entry = self.entry
        if entry.kind >= FLOAT:
            return None, None
        least, most = self._least + (entry.invalid == self._least), self._most - (entry.invalid == self._most)
        if self._is_plain:
            return least, most
        value = as_value(entry)
        return tuple(sorted((value(least), value(most))))  # type: ignore[return-value]

    def wrong(self, value: Any, item: Optional[int] = None, row: Optional[int] = None) -> WrongValue:
        """What is to be raised for a value."""
        least, most = self.limits()
        if self.entry.type and not self.entry.is_scaled:
            span = f"{least} to {most} seconds, a time of {when(SYSTEM_TIMES)} to {when(most)}"
        elif self._is_degrees:
            span = f"{least} to {most} semicircles, {degrees(least)} to {degrees(most)} degrees as a float"
        else:
            span = f"{least} to {most}"
        what = f"{shown(value)} is not within {span}"
        if item is not None and item == self.entry.invalid:
            what = f"{shown(value)} is the number that stands for no value, which is None here; it has {span}"
        return WrongValue(what, self.label, value, least, most, row)

    # ---- of a field

    def __call__(self, value: Any) -> bytes:
        """All bytes of the field."""
        entry = self.entry
        if self._is_direct and type(value) is int and self._least <= value <= self._most and value != entry.invalid:
            return self._pack(value)
        if type(value) is float and entry.kind < FLOAT and entry.count == 1:
            return self._pack(self.item(value))
        if value is None or type(value) not in _PLAIN and is_nothing(value):
            return self.none
        if entry.kind == STRING:
            return self._text(value)
        if entry.kind == BYTES:
            return self._bytes(value)
        if entry.count == 1 and not isinstance(value, (tuple, list)):
            return self._one(value)
        items = several(value)
        if len(items) > entry.count:
            many = "over 255" if len(items) > 255 else len(items)
            raise WrongValue(f"it has {many} items, and the field {entry.count}", self.label, value)
        found = b"".join(map(self._one, items))
        return found + self.none[len(found) :]

    def _one(self, value: Any) -> bytes:
        if self.entry.kind != FLOAT:
            return self._pack(self.item(value))
        if is_nothing(value):
            return self.none[: self.entry.width]
        if isinstance(value, (bool, str, datetime.datetime)) or not isinstance(value, (numbers.Real, decimal.Decimal)):
            raise self._no_float(value)
        try:
            number = float(value) if self.entry.width == 8 or isinstance(value, float) else single(value)
            made = self._pack(number)
        except (OverflowError, ValueError):
            raise self._no_float(value) from None
        if math.isinf(number) and value != number:
            raise self._no_float(value)
        return made

    def _no_float(self, value: Any) -> WrongValue:
        bits = 8 * self.entry.width
        return WrongValue(f"{shown(value)} is no number that {bits} bits of a float can have", self.label, value)

    def _text(self, value: Any) -> bytes:
        data = text_bytes(value, self.label)
        if len(data) > self.size:
            more = " or more" if len(data) > 255 else ""
            size = f"{len(data)} bytes{more}"
            raise WrongValue(f"{shown(value)} has {size}, and the field {self.size}", self.label, value)
        return data.ljust(self.size, b"\0")

    def _bytes(self, value: Any) -> bytes:
        if not isinstance(value, (bytes, bytearray, memoryview)):
            raise WrongValue(f"it has bytes, and {shown(value)} is none", self.label, value)
        front = memoryview(value) if isinstance(value, memoryview) else value
        data = bytes(front[: self.size + 1])
        if len(data) != self.size:
            count = "more" if len(data) > self.size else len(data)
            raise WrongValue(f"the field has {self.size} bytes, and these are {count}", self.label, value)
        return data


def _time_of(value: Any) -> Optional[datetime.datetime]:
    """The time of a datetime64 of numpy; None where no field can have it."""
    unit = str(value.dtype).partition("[")[2].rstrip("]")
    if unit[-1:] in COARSE and abs(int(value.astype("i8"))) >= MOST_COARSE:
        return None
    time = value.astype("datetime64[s]").item()
    return time if isinstance(time, datetime.datetime) else None


def text_bytes(value: Any, field: str) -> bytes:
    """The bytes of a text; of one that is far too long only the first. Bytes stand for themselves."""
    if isinstance(value, (bytes, bytearray)):
        return bytes(value[:256])
    if not isinstance(value, str):
        raise WrongValue(f"it has a text, and {shown(value)} is none", field, value)
    if "\0" in value[:256]:
        raise WrongValue(f"{shown(value)} has a zero, which ends a text", field, value)
    try:
        return value[:256].encode()
    except UnicodeEncodeError:
        raise WrongValue(f"{shown(value)} has a letter that UTF-8 hasn't", field, value) from None


def several(value: Any) -> list[Any]:
    """The items of a value: those of a list, a tuple, an array or whatever gives them one after another, or the one
    that it is. Of very many only the first are taken, which are too many."""
    is_one = isinstance(value, (str, bytes, bytearray, datetime.datetime, dict, set, frozenset))
    if is_one or not hasattr(value, "__iter__") or getattr(value, "shape", None) == ():
        return [value]
    return list(itertools.islice(value, 256))


def packers(definition: Definition) -> dict[Any, Packer]:
    """What packs each field of a definition, by its keys. It is made once."""
    found: Optional[dict[Any, Packer]] = definition.made.get("packers")
    if found is None:
        by_entry = {id(entry): Packer(entry) for entry in definition.entries}
        found = definition.made["packers"] = {key: by_entry[id(entry)] for key, entry in definition.by_key.items()}
    return found
