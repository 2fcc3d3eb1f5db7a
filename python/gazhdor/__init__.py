"""FIT files from Python: check them, read their tables, convert them to text and back, and write them.

    import gazhdor

    answer = gazhdor.check("ride.fit")      # or bytes, or a binary file object
    if not answer.good:
        print(answer)                       # refused at byte 3258: FileSum
    for row in gazhdor.table("ride.fit"):
        print(row.timestamp, row.heart_rate)
    for message in gazhdor.messages("ride.fit", only="session"):
        print(message.time, message["total_elapsed_time"], message.unit("total_elapsed_time"))
    columns = gazhdor.columns("ride.fit", "record", ["timestamp", "heart_rate"])    # arrays of numpy
    with gazhdor.Stream("to_csv") as stream:                                        # bytes that come in pieces
        for piece in upload:
            text.write(stream.feed(piece))
        text.write(stream.finish())
    with gazhdor.Writer("new.fit") as out:                                          # a file of values
        out.write("record", timestamp=start, heart_rate=120)

Each call hands the bytes of the file to the proved library of Gazhdor. This lets other threads run meanwhile, but for
the calls of a writer. A file object is read from where it is to its end, or to a fault, and stays open.

All calls but `check` raise `Refused` or `Truncated` where the bytes are no FIT file. Each raises MemoryError where
memory is refused, `ReadFailed` where a read fails, `NotBinary` where a file object gives text, and OSError where a path
can't be opened. `import gazhdor` raises a `LibraryError` where the library can't be used. The variable GAZHDOR_LIBRARY
names another libgazhdor.so than the one beside this file, or in the tree that of release/.

From a shell: python3 -m gazhdor check|show|table|json|gpx|to-csv|from-csv|mend [FILE..], and edit and join
"""
import datetime
import itertools
from collections.abc import Iterator
from typing import Any, NamedTuple, Optional, Union

from ._answers import Answer
from ._library import VERSION as __version__
from ._library import library as _library
from ._library import text_of as _text_of
from ._names import EXTRA, Named, Names
from ._profile import UnknownName
from ._read.columns import columns, frame, lists
from ._read.events import DefinitionMessage, FileEnd, FileHeader
from ._read.gpx_parts import gpx
from ._read.fields import Field
from ._read.messages import Message, Position
from ._read.streams import Stream, blocks, messages
from ._read.streams import found as _found
from ._read.streams import rows as _rows
from ._read.readers import Value
from ._read.values import Key, degrees
from ._sources import Readable, Source
from ._sources import bytes_of as _bytes_of
from ._times import when
from ._write.csv_advice import advice as _advice
from ._write.definitions import FieldDefinition
from ._write.developers import DeveloperField
from ._write.activities import activity
from ._write.edits import edit
from ._write.joins import join
from ._write.mending import mend
from ._write.message_writer import Definition
from ._write.sinks import Sink, Writable
from ._write.writer import Writer, from_blocks
from ._words import words
from .errors import (
    BlocksRefused,
    FitError,
    LibraryError,
    LibraryMissing,
    LibraryUnusable,
    NotBinary,
    ReadFailed,
    Refused,
    StreamBroken,
    TextRefused,
    TooManyCells,
    Truncated,
    WrongMachine,
    WrongValue,
    WrongVersion,
)
from .errors import judge as _judge
from .errors import judged as _judged

__all__ = [
    "check",
    "table",
    "files",
    "table_text",
    "to_csv",
    "show",
    "from_csv",
    "gpx",
    "mend",
    "edit",
    "join",
    "activity",
    "messages",
    "lists",
    "columns",
    "frame",
    "blocks",
    "from_blocks",
    "when",
    "degrees",
    "words",
    "Names",
    "Named",
    "EXTRA",
    "Stream",
    "Writer",
    "Definition",
    "DeveloperField",
    "FieldDefinition",
    "FileHeader",
    "DefinitionMessage",
    "FileEnd",
    "Answer",
    "Row",
    "Message",
    "Field",
    "Position",
    "Key",
    "Value",
    "Source",
    "Readable",
    "Sink",
    "Writable",
    "FitError",
    "Refused",
    "Truncated",
    "TextRefused",
    "BlocksRefused",
    "WrongValue",
    "NotBinary",
    "UnknownName",
    "ReadFailed",
    "StreamBroken",
    "TooManyCells",
    "LibraryError",
    "LibraryMissing",
    "LibraryUnusable",
    "WrongVersion",
    "WrongMachine",
    "__version__",
]


def __dir__() -> list[str]:
    """The public names."""
    return [*__all__, "errors", *(name for name in globals() if name.startswith("__"))]


class Row(NamedTuple):
    """A record message. None stands where the file says nothing of a value.

    file           the number of the file in the chain, counted from 1
    timestamp      an aware datetime in UTC; where the device didn't know the time, the text 'system+N', N being seconds
    position_lat   degrees north
    position_long  degrees east
    altitude       metres
    distance       metres since the start
    speed          metres a second
    heart_rate     beats a minute
    cadence        turns a minute
    power          watts
    temperature    degrees Celsius
    """

    file: int
    timestamp: Union[datetime.datetime, str, None]
    position_lat: Optional[float]
    position_long: Optional[float]
    altitude: Optional[float]
    distance: Optional[float]
    speed: Optional[float]
    heart_rate: Optional[float]
    cadence: Optional[float]
    power: Optional[float]
    temperature: Optional[float]


def check(source: Source) -> Answer:
    """Returns whether `source` is a FIT file or several, one after another. It raises nothing where they aren't good:
    the answer says where and why. It reads the source piece by piece, up to that with the first byte that is
    refused."""
    answer = _found(source)
    _judged(answer, partial=True)
    return answer


def _converted(call: Any, source: Source, partial: bool) -> str:
    answer, text = _text_of(call, _bytes_of(source))
    _judged(answer, partial)
    return text.decode()


def table_text(source: Source, partial: bool = False) -> str:
    """Returns the table of the record messages as CSV text: a line with the names of `Row`, and then a line for each
    message, with its units. With `partial` it is the text of what comes before a fault; else a fault is raised, as
    `Refused` or `Truncated`."""
    return _converted(_library.gazhdor_table, source, partial)


def to_csv(source: Source, partial: bool = False) -> str:
    """Returns all of the file as CSV text of seven columns, of which `from_csv` makes the same bytes again. `partial`
    as for `table_text`."""
    return _converted(_library.gazhdor_to_csv, source, partial)


def show(source: Source, partial: bool = False) -> str:
    """Returns the messages with their names, units and times, a line each. `partial` as for `table_text`."""
    return _converted(_library.gazhdor_show, source, partial)


def from_csv(text: Union[str, bytes, bytearray, memoryview]) -> bytes:
    """Returns the bytes of the FIT file or files that a CSV text describes: a str, or its bytes in UTF-8, and no path.
    It raises `TextRefused` where the text describes none, with the row and the column that aren't allowed, and what
    would do there."""
    if not isinstance(text, (str, bytes, bytearray, memoryview)):
        raise TypeError(f"from_csv takes a text or its bytes, and not {type(text).__name__}")
    answer, data = _text_of(_library.gazhdor_from_csv, text.encode() if isinstance(text, str) else bytes(text))
    try:
        _judge(answer)
    except TextRefused as refused:
        shown = text if isinstance(text, str) else bytes(text).decode("utf-8", "replace")
        refused.advice = _advice(shown, refused.row, refused.column)
        raise
    return data


def _when(cell: str) -> Union[datetime.datetime, str, None]:
    return datetime.datetime.fromisoformat(cell[:-1] + "+00:00") if cell.endswith("Z") else cell or None


def table(source: Source, partial: bool = False) -> Iterator[Row]:
    """Yields a Row for each record message. The source is read, piece by piece, as rows are asked for. `partial` as for
    `messages`."""
    for cells in _rows(source, partial):
        yield Row(int(cells[0]), _when(cells[1]), *(float(cell) if cell else None for cell in cells[2:]))


def files(source: Source, partial: bool = False) -> Iterator[tuple[int, Iterator[Row]]]:
    """Yields (number, rows) for each file that has record messages, the rows being those of `table`."""
    return itertools.groupby(table(source, partial), key=lambda row: row.file)
