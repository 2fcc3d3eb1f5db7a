"""What can be wrong: with the bytes or the text (FitError), with what they come from, and with the library itself."""
from typing import Any, Optional

from ._answers import Answer
from ._numbers import BLOCK, NO_MEMORY, REFUSED, TRUNCATED


class FitError(ValueError):
    """The bytes or the text are no FIT file. `answer` says where and why, and so do `place`, `reason`, `row` and
    `column`. `before` is what a call of a `Stream` made before it found that, and else None."""

    def __init__(self, answer: Answer) -> None:
        super().__init__(str(answer))
        self.answer = answer
        self.place, self.reason, self.row, self.column = answer.place, answer.reason, answer.row, answer.column
        self.before: Any = None
        self.advice: Optional[str] = None

    def __reduce__(self) -> "tuple[type[FitError], tuple[Answer], dict[str, Any]]":
        # As it is sent from one process to another.
        return type(self), (self.answer,), {"before": self.before, "advice": self.advice}


class Refused(FitError):
    """The byte at `place` is the first that cannot belong to any FIT file; `reason` says why."""


class Truncated(FitError):
    """The bytes end too soon, at `place`."""


class TextRefused(FitError):
    """A text that `from_csv` can't read, at `row` and `column`, or whose files have no bytes; then these are None.
    `advice` says what would do there, as '408.1: steps of 0.2', or is None."""

    def __str__(self) -> str:
        return f"{self.answer}: {self.advice}" if self.advice else str(self.answer)


class BlocksRefused(FitError):
    """Blocks of which `from_blocks` makes no file: the block `block`, counted from 0, which begins at `place`, can't
    stand where it is, and `reason` says why; or they say files that have no bytes, then these are None."""

    def __init__(self, answer: Answer) -> None:
        super().__init__(answer)
        self.block = answer.block

    def __str__(self) -> str:
        return str(self.answer) if self.block is not None else "no file has such blocks"


class WrongValue(ValueError):
    """A value that a field can't have, when a file is written. `field` is what names the field, `value` the value,
    `least` and `most` what the field can have, in its unit, or None where it has no numbers; `row` is the row of a
    column, counted from 0, else None."""

    def __init__(
        self,
        what: str,
        field: Any,
        value: Any,
        least: Any = None,
        most: Any = None,
        row: Optional[int] = None,
    ) -> None:
        super().__init__(what, field)
        self.what, self.field, self.value, self.least, self.most, self.row = what, field, value, least, most, row

    def __str__(self) -> str:
        return f"{self.field}{'' if self.row is None else f', row {self.row}'}: {self.what}"

    def __reduce__(self) -> "tuple[type[WrongValue], tuple[Any, ...]]":
        return type(self), (self.what, self.field, self.value, self.least, self.most, self.row)


class NotBinary(TypeError):
    """A file object gives something else than bytes, such as one that was opened as text."""


class ReadFailed(OSError):
    """A file could be opened, or was given open, but not read to its end. `count` is how many bytes came before; what
    the file itself raised is the cause (`__cause__`)."""

    def __init__(self, what: str, count: int) -> None:
        super().__init__(f"the read failed after {count} bytes: {what}")
        self.what, self.count = what, count

    def __reduce__(self) -> "tuple[type[ReadFailed], tuple[str, int]]":
        return type(self), (self.what, self.count)


class StreamBroken(RuntimeError):
    """A call of a `Stream` was left by an exception that has nothing to do with its bytes, as KeyboardInterrupt: what
    it made is lost, so the stream can't go on."""


class TooManyCells(ValueError):
    """Of all fields of such messages there would be very many cells, and nearly all of them empty: the fields have to
    be named. `columns` and `rows` are how many there would be."""

    def __init__(self, columns: int, rows: int) -> None:
        super().__init__(f"{columns} columns of {rows} rows would be nearly empty: name the fields that are needed")
        self.columns, self.rows = columns, rows

    def __reduce__(self) -> "tuple[type[TooManyCells], tuple[int, int]]":
        return type(self), (self.columns, self.rows)


class LibraryError(ImportError):
    """`import gazhdor` can't load the library. `path` is the file, where one was found."""

    def __init__(self, what: str, path: Optional[str] = None) -> None:
        super().__init__(what, name="gazhdor", path=path)


class LibraryMissing(LibraryError):
    """There is no library where it should be."""


class LibraryUnusable(LibraryError):
    """There is a file, but the system can't load it, or it is another library."""


class WrongVersion(LibraryError):
    """The library is of another version than the module, or older. A `Stream` raises it too, where the library has
    none."""


class WrongMachine(LibraryError):
    """The library is for another processor or system, and there is none for this one."""


def judge(answer: Answer) -> None:
    """Raises what is wrong."""
    if answer._status == NO_MEMORY:
        raise MemoryError("gazhdor: out of memory")
    if not answer.good:
        kind = {REFUSED: Refused, TRUNCATED: Truncated, BLOCK: BlocksRefused}.get(answer._status, TextRefused)
        raise kind(answer)


def judged(answer: Answer, partial: bool) -> None:
    """Raises what is wrong; of what may be had in part, only that memory was refused."""
    if answer._status == NO_MEMORY or not partial:
        judge(answer)
