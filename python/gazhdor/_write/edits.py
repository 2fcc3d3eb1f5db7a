"""Changes of whole files: fields emptied, times moved, a part cut out."""
import datetime
import re
from collections.abc import Iterable, Iterator
from typing import NamedTuple, Optional, Union

from .._names import EXTRA
from .._numbers import (
    AT_MESSAGE_BITS,
    AT_MESSAGE_CYCLES,
    AT_MESSAGE_DISTANCE,
    AT_MESSAGE_OFFSET,
    AT_MESSAGE_POWER,
    AT_MESSAGE_SPEED,
    NO_OFFSET,
    NO_TIME,
    TOLD_CYCLES,
    TOLD_DISTANCE,
    TOLD_HEADER_TIME,
    TOLD_POWER,
    TOLD_SPEED,
    TOLD_TIME,
)
from .._profile import UnknownName, number_of, profile
from .._read.events import FileEnd
from .._read.messages import Message
from .._read.streams import Files, chained, messages
from .._read.values import Definition, Entry
from .._sources import Source, bytes_of
from .._times import EPOCH, HEADER_TIME, OWN_TIME, SYSTEM_TIMES
from ..errors import WrongValue
from .cuts import Cut, Span
from .field_shapes import field_numbers
from .items import Packer
from .places import is_place
from .sinks import Sink
from .summaries import RECORD, Anew
from .writer import Copies, Writer

_POSITION = "position"
_TIMES = ("timestamp", "start_time", "local_timestamp")
_TIMESTAMP = 253
# Of fields of records, by their numbers, what a reader tells of them beside their values: speed and sums, each by its
# bit and its place in the block.
_TOLD = {
    8: [(TOLD_SPEED, AT_MESSAGE_SPEED), (TOLD_DISTANCE, AT_MESSAGE_DISTANCE)],
    18: [(TOLD_CYCLES, AT_MESSAGE_CYCLES)],
    28: [(TOLD_POWER, AT_MESSAGE_POWER)],
}
# The same of the fields that have these sums whole, by their names and numbers.
_WHOLE = {("distance", 5): 8, ("total_cycles", 19): 18, ("accumulated_power", 29): 28}


class Change(NamedTuple):
    """What is changed of a file: the fields that are emptied, the seconds by which times are moved, and the first and
    the last second that stay."""

    drop: tuple[str, ...] = ()
    shift: int = 0
    begin: Optional[int] = None
    end: Optional[int] = None

    @property
    def is_cut(self) -> bool:
        return self.begin is not None or self.end is not None


class _Named(NamedTuple):
    """What may name a field: the name and number of its message, and its own."""

    message: Optional[str]
    message_number: int
    field: Optional[str]
    number: Optional[int]

    def is_of(self, word: str) -> bool:
        """Whether a word names it: FIELD, or MESSAGE.FIELD, each a name or a number."""
        if word == self.field:
            return True
        message, _, field = word.rpartition(".")
        if message and message not in (self.message, str(self.message_number)):
            return False
        return field == self.field or self.number is not None and field == str(self.number)


def _known_names() -> set[str]:
    names = {name for known in profile().values() for name in known.fields}
    told = (named for number in EXTRA.messages.values() for named in EXTRA.fields(number).values())
    return names.union(named.name for named in told if named.name)


class _Plan(NamedTuple):
    """What is emptied in the messages of a definition, by what it is called, which of their fields are times, whether
    times in headers are left out, what a reader tells of the fields that are emptied, and what isn't written whole."""

    dropped: list[tuple[str, Packer]]
    times: list[Packer]
    drops_headers: bool
    told: list[tuple[int, int]]
    wholes: list[tuple[int, int]]


class _Editor:
    """Makes the changes of messages."""

    def __init__(self, change: Change) -> None:
        self._change = change
        self.counts: dict[tuple[str, str], int] = {}
        self._met: set[str] = set()

    def _plan(self, definition: Definition) -> "_Plan":
        """What is changed in the messages of a definition. It is kept with the definition, of which there may be very
        many."""
        of, plan = definition.made.get("edit", (None, None))
        if of is not self:
            dropped: list[tuple[str, Packer]] = []
            told: list[tuple[int, int]] = []
            for entry in definition.entries:
                if self._drops(definition, entry):
                    pack = Packer(entry)
                    dropped.append((pack.label, pack))
                    if definition.number == RECORD and entry.index is None:
                        told += _TOLD.get(entry.number, ())
            times = [Packer(entry) for entry in definition.entries if entry.type and not entry.is_scaled]
            of_header = _Named(definition.name, definition.number, "timestamp", _TIMESTAMP)
            named = {key: _Named(definition.name, definition.number, *key) for key in _WHOLE}
            whole = [of for key, of in _WHOLE.items() if any(map(named[key].is_of, self._change.drop))]
            wholes = [_TOLD[of][-1] for of in whole if definition.is_counted]
            plan = _Plan(dropped, times, any(map(of_header.is_of, self._change.drop)), told, wholes)
            definition.made["edit"] = self, plan
        found: _Plan = plan
        return found

    def _drops(self, definition: Definition, entry: Entry) -> bool:
        number = entry.number if entry.index is None else None
        named = _Named(definition.name, definition.number, entry.name, number)
        words = {word for word in self._change.drop if word != _POSITION and named.is_of(word)}
        if _POSITION in self._change.drop and is_place(definition.number, entry):
            words.add(_POSITION)
        self._met |= words
        return bool(words)

    def anew(self, made: Anew) -> Anew:
        """A message that was made anew, of records whose fields are emptied. Its own are left out, and its times
        moved."""
        number = profile()[made.message].number
        fields = field_numbers(number, EXTRA)
        named = ((name, _Named(made.message, number, name, fields[name])) for name in made.values)
        stay = [name for name, told in named if not any(map(told.is_of, self._change.drop))]
        shift = self._change.shift
        times = {name: _later(made.values[name], shift, name) for name in _TIMES if name in stay}
        return Anew(made.message, {**{name: made.values[name] for name in stay}, **times})

    def untold(self, message: Message) -> Message:
        """A message of which no sum is told that a reader makes of a field which is emptied."""
        return _without(message, self._plan(message._definition).told) if self._change.drop else message

    def changed(self, message: Message) -> Message:
        if not self._change.drop and not self._change.shift:
            return message
        definition = message._definition
        plan, block = self._plan(definition), bytearray(message._block)
        for label, pack in plan.dropped:
            if block[pack.begins : pack.begins + pack.size] != pack.none:
                block[pack.begins : pack.begins + pack.size] = pack.none
                self._count(definition, label)
        _untell(block, plan.told)
        if plan.drops_headers and block[AT_MESSAGE_OFFSET] != NO_OFFSET:
            block[AT_MESSAGE_OFFSET] = NO_OFFSET
            self._count(definition, "timestamp")
        if self._change.shift:
            self._move(block, plan.times)
        return Message(bytes(block), definition)

    def put(self, found: Union[Message, Anew, None], out: Writer) -> None:
        """Writes what stands where a message was, with the changes."""
        if isinstance(found, Anew):
            self.anew(found).write(out)
        elif found is not None:
            changed = self.changed(found)
            out.copy(_without(changed, self._plan(changed._definition).wholes) if self._change.drop else changed)

    def _count(self, definition: Definition, label: str) -> None:
        named = definition.name or f"message_{definition.number}", label
        self.counts[named] = self.counts.get(named, 0) + 1

    def _move(self, block: bytearray, times: list[Packer]) -> None:
        shift = self._change.shift
        for pack in times:
            block[pack.begins : pack.begins + 4] = _moved(block[pack.begins : pack.begins + 4], shift, pack.label)
        told = block[AT_MESSAGE_BITS]
        if told & TOLD_HEADER_TIME and int.from_bytes(block[HEADER_TIME], "little") >= SYSTEM_TIMES:
            block[AT_MESSAGE_OFFSET] = block[AT_MESSAGE_OFFSET] + shift & 31
            block[HEADER_TIME] = _moved(block[HEADER_TIME], shift, "timestamp")
        if told & TOLD_TIME:
            block[OWN_TIME] = _moved(block[OWN_TIME], shift, "timestamp")

    def see_met(self) -> None:
        """Raises UnknownName for a word that names nothing that the file, the profile or EXTRA has."""
        for word in set(self._change.drop) - self._met - {_POSITION}:
            message, _, field = word.rpartition(".")
            if message and not message.isdecimal() and number_of(message, EXTRA) is None:
                raise UnknownName("no message is named", message, [*profile(), *EXTRA.messages])
            if not field.isdecimal() and field not in _known_names():
                raise UnknownName("neither the profile nor the file has a field", field, _known_names())


def _without(message: Message, told: list[tuple[int, int]]) -> Message:
    """A message that doesn't tell these sums."""
    if not told:
        return message
    block = bytearray(message._block)
    _untell(block, told)
    return Message(bytes(block), message._definition)


def _untell(block: bytearray, told: list[tuple[int, int]]) -> None:
    for bit, place in told:
        block[AT_MESSAGE_BITS] &= ~bit
        block[place : place + 8] = b"\xff" * 8


def _moved(item: bytearray, shift: int, field: str) -> bytes:
    return _later(int.from_bytes(item, "little"), shift, field).to_bytes(4, "little")


def _later(time: int, shift: int, field: str) -> int:
    """A time, moved; the device's own time, and no time, stay."""
    if time == NO_TIME or time < SYSTEM_TIMES:
        return time
    if not SYSTEM_TIMES <= time + shift < NO_TIME:
        what = f"{time} seconds, moved by {shift}, are no time any more"
        raise WrongValue(what, field, time + shift, SYSTEM_TIMES, NO_TIME - 1)
    return time + shift


Counts = dict[tuple[str, str], int]


def edit(
    source: Source,
    sink: Sink,
    *,
    drop: Union[str, Iterable[str]] = (),
    shift: Union[int, datetime.timedelta] = 0,
    begin: Union[None, int, str, datetime.datetime] = None,
    end: Union[None, int, str, datetime.datetime] = None,
) -> Counts:
    """Writes a file, or a chain of files, with changes, and returns how many values were emptied of each field, by the
    names of message and field.

    drop        the fields that are emptied: "position", which is all places, the name of a field, or "MESSAGE.FIELD",
                each a name or a number
    shift       seconds, or a timedelta, by which all times are moved
    begin, end  the first and the last second that stay: seconds, as `Message.seconds`, a datetime or a text with a zone

    Times are cut before they are moved. Messages with another time are left out. One without a time has that of the
    last one before it in its file; what comes before the first time, and messages 0, 206 and 207, stay. Distances begin
    at 0 again where records before are left out. Each lap and session stays that has a part in the span: as it is,
    where all of it is there, else made anew by what the records say, with its sport, and its calories by its part of
    the time. It raises ValueError where no record has a time in the span, and UnknownName for a field that nothing
    names."""
    words = (drop,) if isinstance(drop, str) else tuple(drop)
    for word in words:
        if not isinstance(word, str):
            raise TypeError(f"a field that is emptied is named by a text, and not by {type(word).__name__}")
    seconds = shift // datetime.timedelta(0, 1) if isinstance(shift, datetime.timedelta) else shift
    return change(source, sink, Change(words, seconds, _second(begin), _second(end)))


def _second(time: Union[None, int, str, datetime.datetime]) -> Optional[int]:
    if isinstance(time, datetime.datetime):
        return _since_epoch(time)
    return time_of(time) if isinstance(time, str) else time


def change(source: Source, sink: Sink, change: Change) -> Counts:
    """Does what `edit` says."""
    editor = _Editor(change)
    with Copies(sink, EXTRA) as out:
        if change.is_cut:
            for files, cut in _cuts(bytes_of(source), change):
                _put_cut(files, cut, editor, out)
        else:
            for event in messages(source, names=EXTRA, everything=True):
                if isinstance(event, Message):
                    editor.put(event, out)
                else:
                    out.copy(event)
        editor.see_met()
    return editor.counts


def _cuts(data: bytes, change: Change) -> Iterator[tuple[Files, Cut]]:
    """The files of a chain, and what stays of each. It raises ValueError where nothing does of any."""
    span, changed = Span(change.begin, change.end), _Editor(change._replace(shift=0)).changed

    def read(some: bytes) -> tuple[Files, Cut]:
        files = Files(some)
        return files, Cut(files, span, changed)

    parts, before = chained(data), []
    for some in parts:
        found = read(some)
        if not found[1].is_empty:
            break
        before.append(some)
    else:
        raise ValueError("no record has a time in that span")
    yield from map(read, before)
    yield found
    del found  # Nothing of it is held any more.
    yield from map(read, parts)


def _put_cut(files: Files, cut: Cut, editor: _Editor, out: Writer) -> None:
    for event in files.events():
        if isinstance(event, Message):
            editor.put(cut.of(event.file).kept(editor.untold(event)), out)
            continue
        if isinstance(event, FileEnd):
            for anew in cut.of(event.file).rest():
                editor.put(anew, out)
        out.copy(event)


def time_of(word: str) -> int:
    """The seconds that a time of a command line is: `2026-05-17T07:30:00Z`, with any zone, or a number of seconds."""
    if word.isdecimal():
        return int(word)
    return _since_epoch(datetime.datetime.fromisoformat(re.sub("[zZ]$", "+00:00", word)))


def _since_epoch(time: datetime.datetime) -> int:
    if time.tzinfo is None:
        raise ValueError("a time needs a zone, as 2026-05-17T07:30:00Z")
    return (time - EPOCH) // datetime.timedelta(0, 1)
