"""Bytes that come in pieces: what is made of each piece, and of a source that is read piece by piece."""
import csv
import itertools
import os
import threading
import weakref
from collections.abc import Callable, Iterator
from typing import TYPE_CHECKING, Any, Generic, Literal, Optional, TypeVar, Union, overload

from .._answers import Answer
from .._library import Opened, check, exact
from .._names import EXTRA, Told, names_of
from .._numbers import STREAM_CHECK, STREAM_MESSAGES, STREAM_SHOW, STREAM_TABLE, STREAM_TO_CSV
from .._sources import PIECE, Source, bytes_of, go_back, opened, pieces, place_of
from ..errors import FitError, StreamBroken, judge, judged
from .blocks import Only, Walk
from .events import DefinitionMessage, Events, Everything
from .messages import Message, messages_of

Made = TypeVar("Made", str, bytes, list[Message])

_SHORT, _TOGETHER = 1 << 15, 1 << 14
_PART = 1 << 13  # What is made of so many bytes is held at once, and is up to 180 times as long.
# What is kept of short files may take so many bytes: of an event its block and so many more, and of a definition so
# many times its block.
_ROOM, _OF_EVENT, _OF_DEFINITION = 1 << 20, 128, 20

_KINDS = {
    "check": STREAM_CHECK,
    "show": STREAM_SHOW,
    "table": STREAM_TABLE,
    "to_csv": STREAM_TO_CSV,
    "blocks": STREAM_MESSAGES,
    "messages": STREAM_MESSAGES,
}


class Stream(Generic[Made]):
    """FIT files that come in pieces. It keeps what the next piece needs, and no more for more bytes.

    kind   what is made of them: "show", "table" and "to_csv" the text of the functions `show`, `table_text` and
           `to_csv`, piece by piece; "messages" lists of `Message`, with `only`, `names` and `words` as for `messages`;
           "blocks" the bytes of docs/BLOCKS.md; "check" nothing, an empty str
    files  how many files have ended so far

    All that `feed` and `finish` return, one after another, is what the function makes of all bytes. Where bytes are
    refused or end too soon, they raise what it raises, `Refused` or `Truncated`; its `before` is what was made before
    that, and each later call raises the same. After `finish` and `close` a call raises ValueError. Where threads share
    a stream, one call waits for another; a call within another call of the same thread, as in a signal handler, is a
    RuntimeError. Where any other exception leaves a call, as KeyboardInterrupt does, the piece wasn't taken, or each
    later call raises `StreamBroken`. In a process that was forked a stream goes on from where it was, unless another
    thread was using it: then it is broken there.
    """

    if TYPE_CHECKING:

        @overload
        def __init__(self: "Stream[str]", kind: Literal["check", "show", "table", "to_csv"]) -> None:
            ...

        @overload
        def __init__(self: "Stream[bytes]", kind: Literal["blocks"]) -> None:
            ...

        @overload
        def __init__(
            self: "Stream[list[Message]]",
            kind: Literal["messages"],
            only: Only = None,
            names: Told = None,
            words: bool = False,
        ) -> None:
            ...

    def __init__(self, kind: str, only: Only = None, names: Told = None, words: bool = False) -> None:
        if kind not in _KINDS:
            raise ValueError(f"a stream is one of {', '.join(_KINDS)}, and not {kind!r}")
        if (only is not None or names is not None or words) and kind != "messages":
            what = "has no messages of which there may be only some, or other names, or words"
            raise TypeError(f"a stream of {kind} {what}")
        self._make = _maker(kind, only, names, words)
        self._lock = threading.RLock()
        # the thread that is in a call, and whether all that was made up to now was returned
        self._user: Optional[int] = None
        self._is_whole = True
        self._fault: Optional[Answer] = None
        self._opened: Optional[Opened] = Opened(_KINDS[kind])
        self.files = 0
        self._judge(self._opened, b"")
        _streams.add(self)

    def _judge(self, opened: Opened, data: bytes) -> Any:
        """What was made of the bytes of a call, where its answer is good; else the fault is kept, and the stream
        closed."""
        if opened.answer.good:
            self.files = opened.answer.files
            return self._make(data)
        self._fault, self._opened = opened.answer, None
        opened.close()
        try:
            judge(opened.answer)
        except FitError as fault:
            fault.before = self._make(data)
            raise

    def _see_unused(self) -> None:
        if self._user == threading.get_ident():
            raise RuntimeError("this thread is using the stream, in a call that hasn't ended")

    def _open(self) -> Opened:
        if self._fault is not None:
            judge(self._fault)
        if not self._is_whole:
            raise StreamBroken("a call of the stream was interrupted, and what it made is lost")
        if self._opened is None:
            raise ValueError("the stream is closed")
        return self._opened

    def _made(self, call: Callable[..., bytes], *given: bytes) -> Made:
        """What a call of the library makes. An interrupt comes before the library is called, or is seen by `except`."""
        is_begun = False
        try:
            with self._lock:
                self._see_unused()
                try:
                    self._user = threading.get_ident()
                    opened = self._open()
                    self._is_whole, is_begun = False, True
                    made: Made = self._judge(opened, call(opened, *given))
                    if call is Opened.finish:
                        self._opened = None
                        opened.close()
                    self._is_whole, self._user = True, None
                except BaseException:
                    self._user = None
                    raise
            return made
        except BaseException:
            if is_begun:
                self._is_whole = False
            raise

    def feed(self, piece: Union[bytes, bytearray, memoryview]) -> Made:
        """Takes the next bytes, of any length, and returns what they complete: whole lines, whole messages."""
        if not isinstance(piece, (bytes, bytearray, memoryview)):
            raise TypeError(f"a piece is bytes, and not {type(piece).__name__}")
        return self._made(Opened.feed, exact(piece))

    def finish(self) -> Made:
        """Says that no more bytes come, closes the stream, and returns what is still to come."""
        return self._made(Opened.finish)

    def close(self) -> None:
        """Closes the stream, at whatever byte it is. It may be closed twice."""
        with self._lock:
            self._see_unused()
            opened, self._opened = self._opened, None
            if opened:
                opened.close()

    def _forked(self) -> None:
        """In a new process, which has this thread alone."""
        self._lock = threading.RLock()
        if self._user not in (None, threading.get_ident()):
            self._user, self._is_whole = None, False

    def __reduce__(self) -> Any:
        raise TypeError("a stream can't be copied or sent to another process")

    def __enter__(self) -> "Stream[Made]":
        return self

    def __exit__(self, *error: object) -> None:
        self.close()


_streams: "weakref.WeakSet[Stream[Any]]" = weakref.WeakSet()


def _forked() -> None:
    for stream in list(_streams):
        stream._forked()


os.register_at_fork(after_in_child=_forked)


def _maker(kind: str, only: Only, names: Told, words: bool) -> Callable[[bytes], Any]:
    """What makes a kind's result of the bytes of the library."""
    if kind == "blocks":
        return bytes
    if kind != "messages":
        return bytes.decode
    walk = Walk(only, names_of(names), words)
    return lambda blocks: list(messages_of(blocks, walk.runs(blocks)))


def found(source: Source) -> Answer:
    """What is found of a source. It is read up to the piece with the first byte that is refused."""
    if isinstance(source, (bytes, bytearray, memoryview)):
        return check(bytes_of(source))
    with opened(source) as file:
        return _found(file)


def _found(file: Any) -> Answer:
    checking = Opened(STREAM_CHECK)
    for piece in pieces(file):
        checking.feed(piece)
        if not checking.answer.good:
            return checking.answer
    checking.finish()
    return checking.answer


def each(kind: str, source: Source, partial: bool, ahead: bool = True, most: int = PIECE) -> Iterator[bytes]:
    """What is made of a source, of so many bytes at once at most. A fault is raised after what comes before it. Without
    `partial`, and unless it needn't be known ahead, it is raised at once where the source can go back."""
    making = Opened(_KINDS[kind])
    for piece in checked_pieces(source, partial or not ahead):
        for at in range(0, 1 if piece is None else len(piece), most):
            made = making.finish() if piece is None else making.feed(piece[at : at + most])
            judged(making.answer, partial=True)
            yield made
            judge(making.answer)


def checked_pieces(source: Source, partial: bool) -> Iterator[Optional[bytes]]:
    """The pieces of a source, and None at its end. Without `partial` a fault is raised at once where the source can go
    back."""
    with opened(source) as file:
        place = None if partial else place_of(file)
        if place is not None:
            judge(_found(file))
            go_back(file, place)
        yield from pieces(file)
        yield None


def blocks(source: Source, partial: bool = False) -> bytes:
    """Returns the blocks of all that the files have (docs/BLOCKS.md), of which `from_blocks` makes the same bytes
    again. With `partial` they are those of what comes before a fault; else a fault is raised, as `Refused` or
    `Truncated`."""
    made: list[bytes] = []
    try:
        made.extend(each("blocks", source, partial, ahead=False))
    except FitError:
        if not partial:
            raise
    return b"".join(made)


if TYPE_CHECKING:

    @overload
    def messages(
        source: Source,
        only: Only = None,
        partial: bool = False,
        names: Told = None,
        everything: Literal[False] = False,
        words: bool = False,
    ) -> Iterator[Message]:
        ...

    @overload
    def messages(
        source: Source,
        only: None = None,
        partial: bool = False,
        names: Told = None,
        *,
        everything: Literal[True],
        words: bool = False,
    ) -> Iterator[Everything]:
        ...

    @overload
    def messages(
        source: Source,
        only: Only = None,
        partial: bool = False,
        names: Told = None,
        *,
        words: bool = False,
        ready: Literal[True],
    ) -> Iterator[dict[str, Any]]:
        ...


def messages(
    source: Source,
    only: Only = None,
    partial: bool = False,
    names: Told = None,
    everything: bool = False,
    words: bool = False,
    ready: bool = False,
) -> Iterator[Any]:
    """Yields a Message for each data message; with `only`, a name or a number or several of these, for such messages
    alone, and makes nothing of the others. The source is read, piece by piece, as messages are asked for. With
    `partial` a fault is raised after the messages before it, else before the first message, as `Refused` or
    `Truncated`; of a file object that can't go back to where it was, as a pipe, also after those before it. `names` has
    names, units and scales beside the profile's: a dict, the path of a text, or `Names`. With `words` a number that has
    a word is that word, as 'cycling' for a sport. With `everything` it yields in their places what else files have,
    too: a `FileHeader`, a `DefinitionMessage`, a `FileEnd`. With `ready` it yields in place of a Message a dict of its
    values, as `Message.ready` returns it."""
    if everything:
        if only is not None or ready:
            raise TypeError("everything is all messages as they are, and not only some, or their values")
        events = Events(names_of(names), words)
        for blocks in each("blocks", source, partial, most=_PART):
            yield from events.events(blocks)
        return
    walk = Walk(only, names_of(names), words)
    for blocks in each("blocks", source, partial, most=_PART):
        found = messages_of(blocks, walk.runs(blocks))
        yield from (message.ready() for message in found) if ready else found


def _first(events: Iterator[Everything]) -> Iterator[Everything]:
    """The first events, for which there is room."""
    room, definitions = _ROOM, set()
    for event in events:
        room -= len(event._block) + _OF_EVENT
        if type(event) is DefinitionMessage and id(event._definition) not in definitions:
            definitions.add(id(event._definition))
            room -= _OF_DEFINITION * len(event._block)
        yield event
        if room < 0:
            return


class Files:
    """Good files, as `chained` has them, which are read several times, with the names of EXTRA. Of short ones what was
    made of them is kept."""

    def __init__(self, data: bytes) -> None:
        self._data, self._is_short = data, len(data) <= _SHORT
        self._kept: Optional[list[Everything]] = None

    def events(self) -> Iterator[Everything]:
        """All that they have."""
        if self._kept is not None:
            return iter(self._kept)
        found = messages(self._data, names=EXTRA, everything=True, partial=True)
        if not self._is_short:
            return found
        begin = list(_first(found))
        rest = next(found, None)
        if rest is not None:
            self._is_short = False
            return itertools.chain(begin, [rest], found)
        self._kept = begin
        return iter(begin)

    def messages(self, *numbers: int) -> Iterator[Message]:
        """The messages of some numbers."""
        if not self._is_short:
            return messages(self._data, only=numbers, names=EXTRA, partial=True)
        return (event for event in self.events() if type(event) is Message and event.number in numbers)


def chained(data: bytes) -> Iterator[bytes]:
    """The files of a chain, one after another, and short ones together, up to so many bytes. A fault is raised before
    the first."""
    judge(check(data))
    begin = at = 0
    while at < len(data):
        # header, data section and checksum
        end = at + data[at] + int.from_bytes(data[at + 4 : at + 8], "little") + 2
        if at > begin and end - begin > _TOGETHER:
            yield data[begin:at]
            begin = at
        at = end
    yield data[begin:]


def rows(source: Source, partial: bool) -> Iterator[list[str]]:
    """The rows of the table, without the first line."""
    lines = (line for text in each("table", source, partial) for line in text.decode().splitlines())
    next(lines, None)
    return csv.reader(lines)
