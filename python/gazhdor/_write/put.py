"""Files in the making, which a writer of the library keeps: messages are put into them one after another."""
import ctypes
import weakref
from typing import Any, Optional, Union

from .._answers import Answer
from .._library import WriterBox, exact, made_by, writer_calls
from ..errors import judge
from .distances import Counters, Sums, after, counters

Blocks = Union[bytes, bytearray]

_put = writer_calls["messages"]
# The time of the last message where nobody knows it, as a call was interrupted.
LOST = b""


def _given(blocks: Blocks) -> Any:
    """What the library is given of bytes; many that can change aren't copied."""
    return ctypes.byref(ctypes.c_char.from_buffer(blocks)) if type(blocks) is bytearray else exact(blocks)


class Chain:
    """Files one after another. The library has their bytes, and what a reader of these would know. A call of it is done
    or not, whatever exception comes before it or after it."""

    __slots__ = ("_box", "_known", "time", "sums", "__weakref__")

    def __init__(self) -> None:
        self._box = WriterBox()
        # the time of the last message that has one, as a block has it
        self.time: Optional[bytes] = None
        # what a reader of the last file has accumulated
        self.sums: Sums = {}
        # the block of the last definition, and the counters that its messages have
        self._known: tuple[bytes, Counters] = b"", ()
        weakref.finalize(self, writer_calls["close"], self._box).atexit = False
        judge(writer_calls["open"](self._box))

    def begin(self, header: bytes) -> None:
        """Begins a file by the block of a header; the file before it ends."""
        before, self.time, self.sums = (self.time, self.sums), LOST, None
        answer: Answer = writer_calls["file"](self._box, header, len(header))
        self.time, self.sums = (None, {}) if answer.good else before
        judge(answer)

    def define(self, definition: bytes) -> None:
        """Puts a definition message as its block has it."""
        definition = exact(definition)
        judge(writer_calls["definition"](self._box, definition, len(definition)))

    def put(self, definition: bytes, blocks: Blocks, time: Optional[bytes]) -> Answer:
        """Puts messages by the block of their definition, and a definition message where they need one. `time` is that
        of the last one that has a time. After a fault those before the one that is refused are there."""
        known = self._known
        if known[0] is not definition:
            known = self._known = definition, counters(definition)
        if known[1]:
            return self._count(known[1], definition, blocks, time)
        return self._put(definition, blocks, time)

    def _count(self, of: Counters, definition: bytes, blocks: Blocks, time: Optional[bytes]) -> Answer:
        """Puts messages that count on, and takes in what a reader has accumulated with them."""
        before, sums = self.sums, after(self.sums, of, blocks)
        self.sums = None
        answer = self._put(definition, blocks, time)
        if not answer._status or not answer._row:
            self.sums = before if answer._status else sums
        return answer

    def _put(self, definition: bytes, blocks: Blocks, time: Optional[bytes]) -> Answer:
        before, self.time = self.time, LOST
        given = blocks if type(blocks) is bytes else _given(blocks)
        answer: Answer = _put(self._box, exact(definition), len(definition), given, len(blocks))
        if not answer._status:
            self.time = time or before
        elif not answer._row:
            self.time = before
        return answer

    def finish(self) -> bytes:
        """The bytes of all files."""
        answer, data = made_by(writer_calls["finish"], self._box)
        judge(answer)
        return data
