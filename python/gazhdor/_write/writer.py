"""Files that are written from values, and from what others have."""
from collections.abc import Iterable, Iterator, Mapping
from typing import Any, Optional, Union

from .._base_types import base_named
from .._library import exact, library, text_of
from .._names import Told, names_of
from .._numbers import AT_KIND, AT_MESSAGE_BITS, AT_MESSAGE_LOCAL, TOLD_TIME, UNWRITABLE
from .._profile import Kind
from .._read.events import DefinitionMessage, Everything, FileEnd, FileHeader
from .._read.messages import Message
from .._read.native_fields import DESCRIPTION, DEVELOPER_DATA, lone_number
from .._read.values import Definition as Known
from .._times import OWN_TIME
from ..errors import BlocksRefused, judge
from .definitions import KINDS, Kept, block_for, header_block
from .developers import DeveloperField, Developers, byte
from .describing import described, not_described
from .distances import kept
from .field_shapes import Shapes, Spec, message_number
from .message_writer import Definition
from .put import Blocks, Chain
from .sinks import Sink, sink_of, write

_LOCALS = 16
_PROFILE = 21158  # the release that the names of the module are of


def from_blocks(blocks: Union[bytes, bytearray, memoryview]) -> bytes:
    """Returns the bytes of the file or files that blocks say (docs/BLOCKS.md), as `blocks` and `Stream("blocks")` give
    them. It raises `BlocksRefused` where they say none, with the number and the place of the block that can't stand
    where it is, and the reason."""
    if not isinstance(blocks, (bytes, bytearray, memoryview)):
        raise TypeError(f"from_blocks takes the bytes of blocks, and not {type(blocks).__name__}")
    answer, data = text_of(library.gazhdor_from_messages, exact(blocks))
    if answer._status == UNWRITABLE:
        raise BlocksRefused(answer)
    judge(answer)
    return data


class Writer:
    """A FIT file that is written from values: to a path or a binary file object, at the end of `with`, whole or not at
    all.

        with gazhdor.Writer("ride.fit") as out:
            out.write("file_id", type=4, manufacturer=255, time_created=start)
            record = out.define("record", "timestamp heart_rate position_lat position_long")
            record.write(timestamp=start, heart_rate=120, position_lat=47.3, position_long=8.57)

    Values are those that `messages` gives: numbers in the unit of the field, None for no value. A time may be a
    datetime; of a field in semicircles an int is semicircles and a float degrees. A value between two steps of the
    field becomes the nearest; what doesn't fit is a `WrongValue`. Where an exception leaves the `with`, nothing is
    written. `names` has names, units, scales and base types beside the profile's. A writer is used by one thread at a
    time.
    """

    def __init__(self, sink: Sink, names: Told = None) -> None:
        self._sink, self._names = sink_of(sink), names_of(names)
        # the files; none before something is written
        self._chain: Optional[Chain] = None
        self._is_finished = False
        # what the current file describes, and what `write` has made for it
        self._developers = Developers()
        self._indices: set[Optional[int]] = set()
        # the developer fields of the last messages that have some
        self._own: tuple[DeveloperField, ...] = ()
        self._kinds: dict[Any, Definition] = {}

    # ---- what is written

    def file(
        self,
        protocol: int = 0x20,
        profile: int = _PROFILE,
        size: int = 14,
        checksum: str = "there",
        more: bytes = b"",
    ) -> None:
        """Begins a file, which ends the one before it: the next of a chain. The first begins by itself, as this without
        arguments. The header has that size, of which `more` is what comes after place 14; its checksum is 'there',
        'zeros' or 'none', as only one of 12 bytes can."""
        if checksum not in KINDS:
            raise ValueError(f"a checksum is one of {', '.join(KINDS)}, and not {checksum!r}")
        numbers = ("a protocol", protocol, 0x2F), ("a profile", profile, 0xFFFF), ("a size", size, 0xFF)
        for what, number, most in numbers:
            if isinstance(number, bool) or not isinstance(number, int) or not 0 <= number <= most:
                raise ValueError(f"{what} is 0 to {most}")
        if size != (12 if checksum == "none" else 14 + len(more)) or checksum == "none" and more:
            raise ValueError("a header has 12 bytes and no checksum, or 14 and those that come after it")
        self._begin(header_block(size, protocol, profile, KINDS.index(checksum), bytes(more)))

    def define(
        self,
        message: Kind,
        fields: Union[str, Iterable[Spec]],
        local: Optional[int] = None,
        big: bool = False,
        reserved: int = 0,
        says_developers: Optional[bool] = None,
    ) -> Definition:
        """Returns what messages of a name or number are written with, which have these fields: names in one text, or a
        list of names, numbers, developer fields, and `(name, base type)` or `(name, base type, count)`, where the field
        isn't as usual. A field has as many items, a text as many bytes, as what is written needs, unless `count` says
        it. Its definition message has the local message type `local`, or one that is free, and is written before the
        first message."""
        number = message_number(message, self._names)
        shapes = Shapes(number, self._names, self._developers).all(fields)
        if local is not None and byte("a local message type", local) >= _LOCALS:
            raise ValueError(f"a local message type is 0 to 15, and not {local}")
        kept = Kept(local or 0, bool(big), byte("a reserved byte", reserved), says_developers)
        if says_developers is False and any(shape.developer is not None for shape in shapes):
            raise ValueError("a record header that says that there are no developer fields can't have any")
        return Definition(self, number, shapes, kept, local)

    def write(self, __message: Kind, __values: Optional[Mapping[Any, Any]] = None, **fields: Any) -> None:
        """Writes a message of a name or number with these fields, and its definition message, where none is there for
        such fields. Fields that are no words of Python are given by a mapping, as `{"Form power": 120, 3: 121}`."""
        values = {**(__values or {}), **fields}
        names = [key for key in values if not isinstance(key, str) or key[:1] != "."]
        kind = __message, tuple(sorted(map(repr, names)))
        if kind not in self._kinds:
            self._kinds[kind] = self.define(__message, names)
        self._kinds[kind].write(values)

    def describe(
        self,
        name: str,
        unit: str = "",
        base: Union[str, int] = "uint16",
        index: int = 0,
        number: Optional[int] = None,
        native: Optional[tuple[Kind, int]] = None,
        application: Optional[bytes] = None,
    ) -> DeveloperField:
        """Describes a developer field, and returns it: it can be named in `define`, and is a key of values. It has the
        developer data index `index`, and the next number that is free. `native` says that it stands for a field of a
        message, as `("record", 7)`. `application` has the 16 bytes of the application that it is of; they are written
        with the first field of an index."""
        if application is not None and (not isinstance(application, (bytes, bytearray)) or len(application) != 16):
            raise ValueError("an application is named by 16 bytes")
        index = byte("a developer data index", index)
        free = max(self._developers.numbers(index), default=-1) + 1
        field = byte("the number of a developer field", free if number is None else number)
        told: dict[Any, Any] = {
            "developer_data_index": index,
            "field_definition_number": field,
            "fit_base_type_id": base_named(base).code,
        }
        told.update({"field_name": name, "units": unit or None})
        fields: list[Spec] = list(told)
        if native is not None:
            if not isinstance(native, (tuple, list)) or len(native) != 2:
                raise ValueError('a field that it stands for is a message and a number, as ("record", 7)')
            told.update({14: message_number(native[0], self._names), 15: native[1]})
            fields += [(14, "uint16"), (15, "uint8")]
        definition = self.define(DESCRIPTION, fields)
        definition.see(told)
        if index not in self._indices:
            own = {"application_id": bytes(application)} if application else {}
            self.write(DEVELOPER_DATA, {"developer_data_index": index, **own})
        definition.write(told)
        described = self._developers.get((index, field))
        assert described is not None
        return described

    def copy(self, event: Everything) -> None:
        """Writes what `messages` gives: a message, as it is or with other values (`replace`), and, with `everything`,
        headers and definition messages; a file ends where the next one begins. What isn't changed keeps its bytes. A
        message is read as it was: it brings its definition message along where that isn't there, the descriptions of
        its developer fields where these are described in another way, a timestamp where its time is in its header and
        would be another one after other messages, and whole what a reader would accumulate otherwise."""
        if isinstance(event, Message):
            event = kept(event, self._chain.sums if self._chain else {})
            block, definition = event._block, event._definition
            time = block[OWN_TIME] if block[AT_MESSAGE_BITS] & TOLD_TIME else None
            self._put(definition, block_for(definition, block[AT_MESSAGE_LOCAL]), block, time)
        elif isinstance(event, DefinitionMessage):
            self._define(event._block)
        elif isinstance(event, FileHeader):
            self._begin(event._block)
        elif not isinstance(event, FileEnd):
            raise TypeError(f"what is copied is what messages gives, and not {type(event).__name__}")

    # ---- the end

    def finish(self) -> None:
        """Writes the file, as the end of `with` does. After that the writer can't be used. Where that fails, as on a
        full disk, nothing is lost, and it can be called again; a file object may have got a part then."""
        self._see_usable()
        if self._chain is None:
            self.discard()
            raise ValueError("nothing was written, and no file is empty")
        write(self._sink, self._chain.finish())
        self.discard()

    def discard(self) -> None:
        """Forgets all, and writes nothing. After that the writer can't be used."""
        self._is_finished = True
        self._chain = None

    def __reduce__(self) -> Any:
        raise TypeError("a writer can't be copied or sent to another process")

    def __enter__(self) -> "Writer":
        return self

    def __exit__(self, kind: object, *error: object) -> None:
        if kind is not None:
            self.discard()
        elif not self._is_finished:
            self.finish()

    # ---- the files

    def _see_usable(self) -> None:
        if self._is_finished:
            raise ValueError("the writer is finished")

    @property
    def _last_time(self) -> Optional[bytes]:
        """The time of the last message that has one."""
        return self._chain.time if self._chain else None

    def _begin(self, header: bytes) -> None:
        """Begins a file. Of what was known of the one before only names may be left if this is interrupted."""
        self._see_usable()
        chain = self._chain or Chain()
        self._kinds, self._indices, self._own = {}, set(), ()
        chain.begin(header)
        self._chain = chain
        self._developers = Developers()

    def _begun(self) -> Chain:
        """The files; where there is none, one with the usual header, which is this writer's with its first message."""
        self._see_usable()
        if self._chain is not None:
            return self._chain
        chain = Chain()
        chain.begin(header_block(14, 0x20, _PROFILE, KINDS.index("there"), b""))
        return chain

    def _define(self, block: bytes) -> None:
        """Writes a definition message."""
        chain = self._begun()
        chain.define(block)
        self._chain = chain

    def _put(self, known: Known, definition: bytes, blocks: Blocks, time: Optional[bytes]) -> None:
        """Writes messages of a definition; `time` is that of the last one which has a time. Where one is refused, those
        before it are written."""
        chain = self._begun()
        if known.number == DESCRIPTION:
            self._learn(known, blocks)
        answer = chain.put(definition, blocks, time)
        is_put = answer.good
        if is_put or answer._row:
            self._chain = chain
            own = known.made.get("described")
            if own is None or own and own is not self._own:
                self._learn_own(described(known))
        if not is_put:
            if answer.reason == "Described":
                raise not_described(known)
            judge(answer)
        if known.number == DEVELOPER_DATA:
            self._indices |= {lone_number(known.by_key.get(3), 1, block) for block in _each(blocks)}

    def _learn_own(self, own: tuple[DeveloperField, ...]) -> None:
        """Takes in the developer fields of messages that were put, which were described with these if they weren't. What
        was named before keeps its name."""
        for of in own:
            if self._developers.learn_own(of):
                self._indices.add(of.developer)
        self._own = own

    def _learn(self, known: Known, blocks: Blocks) -> None:
        """Takes in what descriptions say, before they are written: a name that nothing has then names nothing wrong."""
        self._kinds = {}
        for block in _each(blocks):
            index, number, base = (lone_number(known.by_key.get(key), 1, block) for key in (0, 1, 2))
            if index is not None and number is not None and base is not None:
                told = Message(block, known)
                name, unit = (str(told.get(key) or "") for key in (3, 8))
                self._developers.learn(DeveloperField(index, number, name, unit, base))


class Copies(Writer):
    """A writer of messages that are copied, or have fields of the profile alone: it keeps no names of developer fields,
    of which a file may have ever other ones."""

    def _learn(self, known: Known, blocks: Blocks) -> None:
        pass

    def _learn_own(self, own: tuple[DeveloperField, ...]) -> None:
        self._own = own


def _each(blocks: Blocks) -> Iterator[bytes]:
    """The blocks of messages of one definition."""
    length = int.from_bytes(blocks[:AT_KIND], "little")
    return (bytes(blocks[at : at + length]) for at in range(0, len(blocks), length))
