"""What would do in the place of a cell that `from_csv` refuses, by docs/CSV.md. It is told to a user who mends a text
by hand."""
import collections
import csv
import io
import itertools
import re
from collections.abc import Iterator
from decimal import Decimal
from typing import NamedTuple, Optional

from .._base_types import BASES, BYTE, base_named
from .._numbers import FLOAT, SIGNED
from .._profile import Info, info_of, name_of
from .._read.native_fields import DESCRIPTION

_MOST = 1 << 26  # A text of more characters gets no advice: it takes some seconds to find the place.
_NO_INFO = Info("", "", 1, 0, "")
_STRING = base_named("string").code
# Of the base types that are whole numbers the width, whether they have a sign, and the invalid number.
_WHOLE = {base.code: (base.width, base.kind == SIGNED, base.invalid) for base in BASES if base.kind <= SIGNED}
_FLOATS = {base.code: base.width for base in BASES if base.kind == FLOAT}
# Of each row what its cells may be, from the second on, where that needs nothing of the rows before.
_HEAD = "row,a,b,c,d,e,f"
_CELLS = {
    "file": (
        "12, or 14 to 255",
        "0 to 47",
        "0 to 65535",
        "none, where the header has 12 bytes, else sum or zero",
        "0x and two capital hexadecimal digits for each byte of the header after the fourteenth",
    ),
    "def": ("0 to 15", "0 to 255", "little or big", "0 to 65535", "0 to 255", "0 to 255, or empty"),
    "fdef": ("0 to 255", "0 to 255", "0 to 255"),
    "ddef": ("0 to 255", "0 to 255", "0 to 255"),
}  # fmt: skip


class _Field(NamedTuple):
    """A field that a row must follow for: its number, its size, its base type, and of a developer field its index."""

    number: int
    size: int
    code: int
    developer: Optional[int]


class _Rows:
    """What the rows up to now say of the next one."""

    def __init__(self) -> None:
        self.numbers: dict[int, int] = {}
        self.fields: dict[int, list[_Field]] = {}
        self.described: dict[tuple[int, int], tuple[int, str, str]] = {}
        self.next = ["row"]  # what the next row may begin with
        self.local = 0
        self.left: list[_Field] = []  # the fields of which rows must follow
        self.values: dict[int, str] = {}

    def take(self, cells: list[str]) -> None:
        """Takes in a row that is good."""
        kind = cells[0]
        if kind == "def":
            self.local, self.numbers[int(cells[1])], self.fields[int(cells[1])] = int(cells[1]), int(cells[4]), []
            self.next = ["fdef"] * int(cells[5]) + ["ddef"] * int(cells[6] or 0)
        elif kind in ("fdef", "ddef"):
            number, size, last = map(int, cells[1:4])
            code = last if kind == "fdef" else self.described.get((last, number), (BYTE.code, "", ""))[0]
            self.fields[self.local].append(_Field(number, size, code, None if kind == "fdef" else last))
            self.next.pop(0)
        elif kind == "data":
            self.local, self.values = int(cells[1]), {}
            self.left = list(self.fields[self.local])
        elif kind in ("field", "dev"):
            field = self.left.pop(0)
            if field.developer is None:
                self.values.setdefault(field.number, cells[2])
            if not self.left:
                self._describe()
        elif kind == "file":
            self.numbers, self.fields, self.described = {}, {}, {}
        self._see_next(kind)

    def says_nothing(self) -> bool:
        """Whether the fields of the message at hand say nothing of later rows."""
        return len(self.left) > 1 and self.numbers[self.local] != DESCRIPTION

    def skip(self, told: Iterator[list[str]]) -> int:
        """Passes by the rows of the fields, and returns how many they are."""
        count = len(self.left)
        collections.deque(itertools.islice(told, count), 0)
        self.left = []
        self._see_next("field")
        return count

    def _see_next(self, kind: str) -> None:
        if self.left:
            self.next = ["field" if self.left[0].developer is None else "dev"]
        elif kind in ("row", "end"):
            self.next = ["file"]
        elif kind not in ("def", "fdef", "ddef") or not self.next:
            self.next = ["def", "data", "end"]

    def _describe(self) -> None:
        told = self.values
        if self.numbers[self.local] == DESCRIPTION and all(told.get(field, "").isdecimal() for field in (0, 1, 2)):
            self.described[int(told[0]), int(told[1])] = int(told[2]), told.get(3, ""), told.get(8, "")


def _rows(text: str) -> Iterator[list[str]]:
    return filter(None, csv.reader(io.StringIO(text[1:] if text.startswith("\ufeff") else text, newline="")))


def advice(text: str, row: Optional[int], column: Optional[int]) -> Optional[str]:
    """What would do in a row, and its column, of a text; None where nothing is known."""
    if row is None or len(text) > _MOST:
        return None
    rows, told = _Rows(), _rows(text)
    try:
        count = 0
        while count < row - 1:
            rows.take(next(told))
            count += 1
            if count + len(rows.left) < row and rows.says_nothing():
                # All rows of the message come before the place.
                count += rows.skip(told)
        cells: list[str] = next(told, [])
        return _of_row(rows, cells) if column is None or column == 1 else _of_cell(rows, cells, column)
    except (csv.Error, ValueError, LookupError, ArithmeticError, StopIteration, RecursionError):
        return None  # The rows before aren't what they are taken for.


def _of_row(rows: _Rows, cells: list[str]) -> str:
    if rows.next == ["row"]:
        return f"the first row is {_HEAD}"
    wanted = " or ".join(sorted(set(rows.next), key=rows.next.index))
    if not cells:
        return f"the text ends where a row must follow that begins with {wanted}"
    return f"a row has seven cells, and not {len(cells)}" if len(cells) != 7 else f"{_shown(cells[0])}: {wanted}"


def _of_cell(rows: _Rows, cells: list[str], column: int) -> Optional[str]:
    kind, cell = cells[0], cells[column - 1]
    may = _CELLS.get(kind, ())
    if kind == "data":
        may = _of_data(rows, cells)
    elif kind in ("field", "dev"):
        may = _of_field(rows, cells[2])
    wanted = may[column - 2] if column - 2 < len(may) else "an empty cell"
    return f"{_shown(cell)}: {wanted}" if cell else wanted


def _shown(cell: str) -> str:
    """A cell as it may be written to a terminal."""
    return cell[:80] if cell[:80].isprintable() else ascii(cell[:80])


def _of_data(rows: _Rows, cells: list[str]) -> tuple[str, ...]:
    local = ", ".join(map(str, sorted(rows.numbers))) or "none, as nothing is defined"
    number = next((number for local, number in rows.numbers.items() if str(local) == cells[1]), None)
    name = "" if number is None else f"the message is {name_of(number) or f'message_{number}'}"
    of = f"a local message type that is defined: {local}"
    return of, "0 to 31, or empty", name, "the time that the rows before give, or empty"


def _of_field(rows: _Rows, value: str) -> tuple[str, ...]:
    field, message = rows.left[0], rows.numbers[rows.local]
    if field.developer is None:
        told = info_of(message, field.number) or _NO_INFO._replace(name=f"field_{field.number}")
    else:
        _, name, unit = rows.described.get((field.developer, field.number), (0, "", ""))
        told = _NO_INFO._replace(name=name or f"dev_{field.developer}_{field.number}", unit=unit)
    unit = f"the unit is {told.unit}" if told.unit else "an empty cell"
    return f"the name is {told.name}", _of_value(field, told, value), unit


def _of_value(field: _Field, told: Info, value: str) -> str:
    width = _WHOLE[field.code][0] if field.code in _WHOLE else _FLOATS.get(field.code, 1)
    if not field.size:
        return "an empty cell"
    if field.code == _STRING:
        return f"a text of at most {field.size} bytes in UTF-8"
    if field.code not in _WHOLE and field.code not in _FLOATS or field.size % width:
        return f"0x and {2 * field.size} capital hexadecimal digits"
    items, count = value.split("|"), field.size // width
    if len(items) != count:
        return f"{count} numbers, with | between them" if count > 1 else "one number"
    if field.code in _FLOATS:
        return f"0x and {2 * width} capital hexadecimal digits, which are the bits of the number"
    return next((said for said in (_of_number(item, field.code, told) for item in items) if said), "another number")


def _of_number(item: str, code: int, told: Info) -> Optional[str]:
    """What would do in place of a number; None where it is good."""
    width, has_sign, invalid = _WHOLE[code]
    least, most = (-(2 ** (8 * width - 1)), 2 ** (8 * width - 1) - 1) if has_sign else (0, 256**width - 1)
    is_scaled = (told.scale, told.offset) != (1, 0)
    decimals = next(count for count in range(10) if 10**count % told.scale == 0) if is_scaled else 0

    def shown(raw: int) -> str:
        return str(Decimal((raw - told.scale * told.offset) * 10**decimals // told.scale).scaleb(-decimals))

    if not item:
        return None
    if not re.fullmatch(r"-?(0|[1-9]\d{0,30})(\.\d{1,30})?", item, re.A):
        return f"a number with decimals, as {shown(0)}" if decimals else "a whole number, as 12"
    raw = (Decimal(item) + told.offset) * told.scale
    if raw != int(raw):
        return f"steps of {Decimal(10**decimals // told.scale).scaleb(-decimals)}"
    if not least <= raw <= most:
        return f"{shown(least + (invalid == least))} to {shown(most - (invalid == most))}"
    if raw == invalid:
        return "an empty cell, as this number stands for no value"
    return shown(int(raw)) if item != shown(int(raw)) else None
