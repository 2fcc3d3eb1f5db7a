"""Messages that get fields which they don't have."""
from collections.abc import Mapping
from typing import TYPE_CHECKING, Any

from .._numbers import (
    AT_DEFINITION_ARCHITECTURE,
    AT_DEFINITION_LOCAL,
    AT_DEFINITION_RESERVED,
    AT_KIND,
    AT_MESSAGE_COUNTED_ITEMS,
    AT_MESSAGE_ITEMS,
    BIG_ENDIAN,
)
from .._profile import Info
from .._read.values import Definition, Entry
from .definitions import FieldDefinition, Form, Kept, definition_block, empty_message, form_of
from .developers import DeveloperField, Developers, seen
from .field_shapes import Shape, Shapes

if TYPE_CHECKING:
    from .._read.messages import Message


def _form(entry: Entry) -> Form:
    """A field as a message has it."""
    field = FieldDefinition(entry.number, entry.base, entry.count * entry.width, entry.index)
    told = Info(entry.name or "", entry.unit or "", 1, 0, "") if entry.index is not None else None
    return form_of(0, field, told) if told else form_of(-1, field, _info(entry))


def _info(entry: Entry) -> Info:
    """What is said of a field, as far as the block of a definition can say it."""
    is_whole = isinstance(entry.scale, int) and isinstance(entry.offset, int) and entry.scale > 0 <= entry.offset
    scale, offset = (int(entry.scale), int(entry.offset)) if is_whole else (1, 0)
    return Info(entry.name or "", entry.unit or "", scale, offset, "")


def added(message: "Message", values: Mapping[Any, Any]) -> "Message":
    """The message with such fields, which it hasn't had, at the end of its own, or of its developer fields."""
    definition = message._definition
    developers = Developers(seen(key) for key in values if isinstance(key, DeveloperField))
    shapes = Shapes(definition.number, definition.caller_names, developers)
    new = [(shapes.one(key), value) for key, value in values.items()]
    made = _wider(definition, [(shape, shape.needed(value, shape.least)[1]) for shape, value in new])
    block = empty_message(made, message.local)
    begin = AT_MESSAGE_COUNTED_ITEMS if definition.is_counted else AT_MESSAGE_ITEMS
    block[AT_KIND:begin] = message._block[AT_KIND:begin]
    for old, entry in zip(definition.entries, (made.entries[k] for k in _places(definition, new))):
        size = old.count * old.width
        block[entry.begins : entry.begins + size] = message._block[old.begins : old.begins + size]
    return type(message)(bytes(block), made).replace({shape.key: value for shape, value in new})


def _places(definition: Definition, new: "list[tuple[Shape, Any]]") -> list[int]:
    """Where the fields of a definition are among those of the wider one, in which developer fields come last."""
    more = sum(shape.developer is None for shape, _ in new)
    return [k if entry.index is None else k + more for k, entry in enumerate(definition.entries)]


def _wider(definition: Definition, new: "list[tuple[Shape, int]]") -> Definition:
    """The definition with more fields. It is kept with the one that it is made of."""
    known = definition.made.setdefault("wider", {})
    what = tuple((shape.key, shape.base.code, size) for shape, size in new)
    if what not in known:
        forms = [_form(entry) for entry in definition.entries]
        forms += [shape.form(definition.number, size) for shape, size in new]
        forms.sort(key=lambda form: form.field.developer is not None)
        data = definition.data
        is_big = data[AT_DEFINITION_ARCHITECTURE] == BIG_ENDIAN
        kept = Kept(data[AT_DEFINITION_LOCAL], is_big, data[AT_DEFINITION_RESERVED])
        if len(known) == _MOST:
            known.clear()
        block = definition_block(definition.number, forms, kept, definition.is_counted)
        known[what] = Definition(block, definition.told)
    made: Definition = known[what]
    return made


_MOST = 16  # So many wider definitions are kept with each one.
