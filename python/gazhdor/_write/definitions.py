"""What a definition message says of its fields, and its block (docs/BLOCKS.md)."""
import struct
from collections.abc import Iterable
from typing import NamedTuple, Optional

from .._base_types import Base, base_of
from .._numbers import (
    AT_DEFINITION_FIELDS,
    AT_DEFINITION_LOCAL,
    AT_DEFINITION_MESSAGE_LENGTH,
    AT_DEFINITION_NAME,
    AT_ENTRY_NAME,
    AT_HEADER_REST,
    AT_MESSAGE_COUNTED_ITEMS,
    AT_MESSAGE_ITEMS,
    BYTES,
    DEFINITION,
    DEFINITION_FORMAT,
    ENTRY_FORMAT,
    FILE_END,
    FILE_HEADER,
    HEADER_FORMAT,
    IS_COUNTED,
    LEAST_BLOCK,
    MESSAGE,
    MESSAGE_FORMAT,
    NO_OFFSET,
    NO_TIME,
    SAYS_DEVELOPERS,
)
from .._profile import Info, info_of, name_of
from .._read.values import Definition, Key, first_entry

_HEADER, _DEFINITION = struct.Struct(HEADER_FORMAT), struct.Struct(DEFINITION_FORMAT)
_ENTRY, _MESSAGE = struct.Struct(ENTRY_FORMAT), struct.Struct(MESSAGE_FORMAT)
_COUNTS = struct.Struct("<HH").unpack_from  # of fields, and of developer fields
_NO_INFO = Info("", "", 1, 0, "")
END = struct.pack("<IB", LEAST_BLOCK, FILE_END).ljust(LEAST_BLOCK, b"\0")
KINDS = ("none", "zeros", "there")
_MOST_LETTERS = 1 << 12


class FieldDefinition(NamedTuple):
    """A field as a definition message has it: its number, the code of its base type, its size in bytes, and of a
    developer field its developer data index. Of a developer field the code is that of its description."""

    number: int
    base: int
    size: int
    developer: Optional[int] = None

    @property
    def key(self) -> Key:
        return self.number if self.developer is None else (self.developer, self.number)

    @property
    def shape(self) -> Base:
        """The base type, or bytes, where its width doesn't divide the size."""
        base = base_of(self.base)
        return base._replace(kind=BYTES, width=1) if self.size % base.width else base


class Form(NamedTuple):
    """What is said of a field beside its definition: its name, unit, scale and offset."""

    field: FieldDefinition
    info: Info


class Kept(NamedTuple):
    """What a definition message has beside its fields: local message type, architecture, reserved byte, and whether it
    says that there are developer fields; None leaves that to the fields."""

    local: int = 0
    big: bool = False
    reserved: int = 0
    says_developers: Optional[bool] = None


def filled(data: bytes) -> bytes:
    return data + bytes(-len(data) % 8)


def _text(words: str) -> bytes:
    # No file has names, so one that is longer than an entry may be is cut.
    return filled(words[:_MOST_LETTERS].encode("utf-8", "replace") + b"\0")


def header_block(size: int, protocol: int, profile: int, kind: int, more: bytes) -> bytes:
    """The block of a header."""
    data = filled(more)
    return _HEADER.pack(AT_HEADER_REST + len(data), FILE_HEADER, size, protocol, kind, 0, 0, 0, profile) + data


def form_of(message: int, field: FieldDefinition, info: Optional[Info] = None) -> Form:
    """What the profile says of a field. Floats, texts and bytes stand for themselves."""
    told = info or (None if field.developer is not None else info_of(message, field.number)) or _NO_INFO
    return Form(field, told if field.shape.kind < 2 else told._replace(scale=1, offset=0))


def _entry(form: Form, begins: int) -> bytes:
    field, shape, info = form.field, form.field.shape, form.info
    name, unit = _text(info.name), _text(info.unit)
    unit_at = AT_ENTRY_NAME + len(name)
    numbers = unit_at + len(unit), unit_at, field.number, field.developer is not None, field.developer or 0, field.base
    items = shape.kind, shape.width, field.size // shape.width, 0, begins, info.scale, info.offset, shape.invalid
    return _ENTRY.pack(*numbers, *items) + name + unit


def definition_block(message: int, forms: Iterable[Form], kept: Kept = Kept(), is_counted: bool = False) -> bytes:
    """The block of a definition message, of which the messages may have what is accumulated before their items."""
    entries: list[bytes] = []
    begins, developers = AT_MESSAGE_COUNTED_ITEMS if is_counted else AT_MESSAGE_ITEMS, 0
    for form in forms:
        entries.append(_entry(form, begins))
        begins += form.field.size + -form.field.size % 8
        developers += form.field.developer is not None
    rest = _text(name_of(message) or "") + b"".join(entries)
    says = developers > 0 if kept.says_developers is None else kept.says_developers
    bits = (SAYS_DEVELOPERS if says else 0) | (IS_COUNTED if is_counted else 0)
    counts = message, len(entries) - developers, developers, bits
    front = AT_DEFINITION_NAME + len(rest), DEFINITION, kept.local, kept.big, kept.reserved, 0, begins, 0, 0
    return _DEFINITION.pack(*front, *counts) + rest


def empty_message(definition: Definition, local: int = 0) -> bytearray:
    """The block of a message whose fields have no values."""
    length: int = struct.unpack_from("<I", definition.data, AT_DEFINITION_MESSAGE_LENGTH)[0]
    block = bytearray(length)
    _MESSAGE.pack_into(block, 0, length, MESSAGE, 0, local, NO_OFFSET, 0, NO_TIME, 0, 0, NO_TIME)
    for entry in definition.entries:
        size = entry.count * entry.width
        none = b"\xff" * size if entry.kind == BYTES else entry.invalid.to_bytes(entry.width, "little") * entry.count
        block[entry.begins : entry.begins + size] = none
    return block


def block_for(definition: Definition, local: int) -> bytes:
    """The block of a definition, for a local message type."""
    data, at = definition.data, AT_DEFINITION_LOCAL
    if data[at] == local:
        return data
    made: dict[int, bytes] = definition.made.setdefault("locals", {})
    if local not in made:
        made[local] = data[:at] + bytes([local]) + data[at + 1 :]
    return made[local]


def fields_of_block(data: bytes) -> tuple[FieldDefinition, ...]:
    """The fields of the block of a definition message, the developer fields last."""
    fields, developers = _COUNTS(data, AT_DEFINITION_FIELDS)
    at = first_entry(data)
    found = []
    for _ in range(fields + developers):
        length, number, developer, index, code, width, count = struct.unpack_from("<H2xBBBBxBB", data, at)
        found.append(FieldDefinition(number, code, width * count, index if developer else None))
        at += length
    return tuple(found)
