"""Columns of messages: lists, numpy arrays and pandas frames, made of many blocks at once."""
import datetime
import importlib
from collections.abc import Callable, Iterable
from typing import Any, NamedTuple, Optional

from .._names import Told, names_of
from .._numbers import FLOAT
from .._profile import Kind
from .._sources import Source
from .._times import EPOCH, SYSTEM_TIMES
from .cells import DATE, DEGREES, LOCAL, VALUE, WORDS, Asked, Cell
from .column_parts import Part, Piece, Table, told
from .ready import ready_values, spread
from .values import Entry, Key, label

_UNIX = int(EPOCH.timestamp())


def _needed(name: str) -> Any:
    """A module that Gazhdor doesn't bring along."""
    try:
        return importlib.import_module(name)
    except ModuleNotFoundError as error:
        what = f"this call of gazhdor needs {name}, which isn't installed: pip install {name}"
        raise ModuleNotFoundError(what, name=error.name) from None


def _asked(message: Kind, fields: Optional[Iterable[Key]], times: bool, names: Told, words: bool, ready: bool) -> Asked:
    if isinstance(fields, (str, int)):
        raise TypeError("the fields are a list of names, and not one name")
    keys = None if fields is None else list(fields)
    return Asked(message, keys, times or ready, names_of(names), words or ready, ready)


# ---- lists


def _list(table: Table, pieces: list[Piece]) -> list[Any]:
    if len(pieces) == 1 and pieces[0][0].messages == table.rows:
        values: list[Any] = pieces[0][2]
        return values[:]
    column = table.rows * [None]
    for part, _, values in pieces:
        part.put(column, values)
    return column


def lists(
    source: Source,
    message: Kind,
    fields: Optional[Iterable[Key]] = None,
    partial: bool = False,
    *,
    times: bool = False,
    names: Told = None,
    words: bool = False,
    ready: bool = False,
) -> dict[Key, list[Any]]:
    """Returns a list for each of the fields, with the value in each message of one name or number, in their order: the
    values are those of `Message`, and None where a message has no such field. So `zip(*lists.values())` are rows.

    A field is named as in a `Message`. "timestamp" is the time of the message, also where that is from a compressed
    timestamp header, and 253 the field itself. With a dot before it an attribute of `Message` is named: ".time",
    ".seconds", ".file", ".place", ".local", ".speed", ".distance", ".total_cycles", ".accumulated_power"; ".latitude"
    and ".longitude" are its position in degrees. Without `fields` it is each field that one of the messages has, by its
    name where it has one, and "timestamp" first, where one of them has a time or that field. With `times` the fields
    that are times, as `start_time`, are told as `Message.times` has them. `names` are names of the caller's own, as for
    `messages`, and `words` are as there.

    With `partial` it is what comes before a fault; else a fault is raised, as `Refused` or `Truncated`. `UnknownName`
    is raised for a name that neither the profile nor the file has, and `TooManyCells` without `fields` where nearly all
    of very many cells would be empty."""
    table = Table(_asked(message, fields, times, names, words, ready), ready_values if ready else Part.values)
    table.read(source, partial)
    found = {key: _list(table, table.pieces(key)) for key in table.keys}
    if not ready:
        return found
    made: dict[Key, list[Any]] = {}
    made.update(spread({label(key): values for key, values in found.items()}).items())
    return made


# ---- arrays


class _Array(NamedTuple):
    """A column, and whether it has times in UTC, or words."""

    values: Any
    is_utc: bool
    is_words: bool


class _Arrays:
    """Makes arrays: of a field of one number by its items, which are kept as they are in the file; of any other one by
    a list."""

    def __init__(self, numpy: Any, asked: Asked) -> None:
        self.numpy, self.table, self._is_ready = numpy, Table(asked, self._take), asked.ready

    def _take(self, part: Part, cell: Cell) -> Any:
        entry = cell.entry
        if cell.others:
            return [self._take(part, one) for one in (cell._replace(others=()), *cell.others)]
        if not entry.is_number or cell.form == WORDS:
            return ready_values(part, cell) if self._is_ready else part.values(cell)
        items = self.numpy.frombuffer(part.view, "<" + entry.item_code).reshape(part.messages, -1)
        return items[:, entry.begins // entry.width].copy()

    def _numbers(self, cell: Cell, items: Any) -> Any:
        """As float64, and NaN for none."""
        entry = cell.entry
        if cell.others:
            first, *others = map(self._numbers, (cell._replace(others=()), *cell.others), items)
            for other in others:
                first = self.numpy.where(self.numpy.isnan(first), other, first)
            return first
        with self.numpy.errstate(invalid="ignore"):  # as of a float that is a signalling NaN
            numbers = self._floats(entry, items).astype("f8")
        if cell.form == DEGREES:
            numbers *= 180 / 2**31
        elif entry.is_scaled and entry.kind == FLOAT:
            numbers = numbers / entry.scale - entry.offset
        elif entry.is_scaled:
            numbers -= entry.scale * entry.offset
            numbers /= entry.scale
        numbers[items == entry.invalid] = self.numpy.nan
        return numbers

    def _floats(self, entry: Entry, items: Any) -> Any:
        return items.view("<" + entry.float_code)

    def _times(self, cell: Cell, items: Any) -> Any:
        seconds = items.astype("i8")
        times = (seconds + _UNIX).astype("M8[s]")
        times[(seconds < SYSTEM_TIMES) | (items == cell.entry.invalid)] = self.numpy.datetime64("NaT")
        return times

    def _objects(self, cell: Cell, items: Any) -> Any:
        """As lists have them."""
        values = items
        if cell.entry.is_number and cell.form != WORDS:
            values = told(cell, items.tolist(), self._floats(cell.entry, items).tolist())
        column = self.numpy.empty(len(values), object)
        # one by one, as tuples would be rows
        for row, value in enumerate(values):
            column[row] = value
        return column

    def column(self, key: Key) -> _Array:
        pieces, numpy = self.table.pieces(key), self.numpy
        make: Callable[..., Any] = self._objects
        forms = {cell.form for _, cell, _ in pieces}
        if all(cell.entry.is_number for _, cell, _ in pieces) and forms <= {VALUE, DEGREES}:
            make, empty, kind = self._numbers, numpy.nan, "f8"
        elif len(forms) == 1 and forms <= {DATE, LOCAL} and not any(cell.entry.is_scaled for _, cell, _ in pieces):
            make, empty, kind = self._times, "NaT", "M8[s]"
        else:
            empty, kind = None, "O"
        if len(pieces) == 1 and pieces[0][0].messages == self.table.rows:
            column = make(*pieces[0][1:])
        else:
            column = numpy.full(self.table.rows, empty, kind)
            for part, cell, items in pieces:
                column[part.where(numpy)] = make(cell, items)
        is_words = all(cell.entry.is_number and cell.form == WORDS for _, cell, _ in pieces) and bool(pieces)
        return _Array(column, kind == "M8[s]" and forms == {DATE}, is_words)

    def columns(self) -> dict[Key, _Array]:
        return {key: self.column(key) for key in self.table.keys}

    def labelled(self) -> dict[str, _Array]:
        labels = self.labels()
        return {labels[key]: array for key, array in self.columns().items()}

    def ready(self) -> dict[str, _Array]:
        """The columns by their labels, each with values of one type."""
        found = self.labelled()
        made: dict[str, _Array] = {}
        for name, array in found.items():
            is_plain = array.values.dtype.kind != "O"
            columns = {name: array.values} if is_plain else spread({name: array.values.tolist()})
            for own, values in columns.items():
                while own in made or own != name and own in found:
                    own += "_"
                made[own] = array if is_plain else _Array(self._of_list(values), False, array.is_words)
        return made

    def _of_list(self, values: list[Any]) -> Any:
        """Numbers as float64, and NaN for none; texts as they are."""
        is_text = any(isinstance(value, (str, datetime.datetime)) for value in values)
        return self.numpy.array(values, object if is_text else "f8")

    def labels(self) -> dict[Key, str]:
        """A label for each column. Developer fields whose names differ from another label by the case of letters alone
        have their numbers, as some databases don't tell them apart."""
        keys = self.table.keys
        developer = {key: self.table.developer(key) for key in keys}
        found = {key: label(key) for key in keys if developer[key] is None}
        taken: set[str] = {name.casefold() for name in found.values()}
        for key, numbers in developer.items():
            if numbers is not None:
                name = label(key)
                name = label(numbers) if name.casefold() in taken else name
                while name.casefold() in taken:
                    name += "_"
                taken.add(name.casefold())
                found[key] = name
        return {key: found[key] for key in keys}


def columns(
    source: Source,
    message: Kind,
    fields: Optional[Iterable[Key]] = None,
    partial: bool = False,
    *,
    times: bool = False,
    names: Told = None,
    words: bool = False,
    ready: bool = False,
) -> dict[Key, Any]:
    """Returns a numpy array for each of the fields, with the value in each message of one name or number, in their
    order.

    Numbers are float64, in the unit of the field, and NaN where a message has no value; float64 has not all whole
    numbers over 2^53. "timestamp" is the time of each message in UTC as datetime64[s], also that of a compressed
    timestamp header, and NaT where there is none or where the device didn't know it; the number 253 is the field
    itself. A field that is a text, bytes or several numbers in one of the messages gives an object array of what
    `Message` has, None where there is nothing. With `times` each field that is a time is datetime64[s], as "timestamp"
    is. With `words` each field whose numbers have words is an object array of these. `fields`, `partial`, `times` and
    `names` are as for `lists`, and so are the errors. It raises ModuleNotFoundError where numpy isn't installed."""
    arrays = _Arrays(_needed("numpy"), _asked(message, fields, times, names, words, ready))
    arrays.table.read(source, partial)
    if ready:
        return {name: array.values for name, array in arrays.ready().items()}
    return {key: array.values for key, array in arrays.columns().items()}


def frame(
    source: Source,
    message: Kind,
    fields: Optional[Iterable[Key]] = None,
    partial: bool = False,
    *,
    times: bool = False,
    names: Told = None,
    words: bool = False,
    ready: bool = False,
) -> Any:
    """Returns the arrays of `columns` as a DataFrame of pandas, a row for each message. The labels are the names, where
    there is none `field_N`, or `dev_I_N`, I being the developer data index; so is the label of a developer field whose
    name differs from another one by the case of letters alone. Times are in UTC, those by the clock of the place
    without a zone. Columns of words are categories. It raises ModuleNotFoundError where numpy or pandas isn't
    installed."""
    pandas = _needed("pandas")
    arrays = _Arrays(_needed("numpy"), _asked(message, fields, times, names, words, ready))
    arrays.table.read(source, partial)
    found = arrays.ready() if ready else arrays.labelled()
    table = pandas.DataFrame({name: array.values for name, array in found.items()})
    for name, array in found.items():
        if array.is_utc:
            table[name] = table[name].dt.tz_localize("UTC")
        elif array.is_words:
            table[name] = table[name].astype("category")
    return table
