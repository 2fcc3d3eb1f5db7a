"""Files that the tests of what Python writes make by the module gazhdor, and how a file goes through its values and
back."""
import io
import struct

from fits import checksum

import gazhdor


def written(*steps, **how):
    """The bytes of a file that is written by calls of a writer."""
    sink = io.BytesIO()
    with gazhdor.Writer(sink, **how) as out:
        for step in steps:
            step(out)
    return sink.getvalue()


def whole(*records, profile=21158):
    """A file as the writer begins one: version 2.0 of the protocol."""
    data = b"".join(records)
    head = struct.pack("<BBHI4s", 14, 32, profile, len(data), b".FIT")
    head += checksum(head)
    return head + data + checksum(head + data)


def one(message, values, fields=None, **how):
    """The data section of a file with one message, but for its definition message: the bytes of its fields."""

    def step(out):
        out.define(message, fields or list(values), local=0).write(values)

    data = written(step, **how)
    (field,) = [event for event in gazhdor.messages(data, everything=True) if isinstance(event, gazhdor.Message)]
    return data[field.place + 1 : -2]


def through_values(data, names=None):
    """The file that is written from the values of all that a file has."""
    sink = io.BytesIO()
    definitions = {}
    with gazhdor.Writer(sink, names) as out:
        for event in gazhdor.messages(data, everything=True, names=names):
            if isinstance(event, gazhdor.FileHeader):
                out.file(event.protocol, event.profile, event.size, event.checksum, event.more)
            elif isinstance(event, gazhdor.DefinitionMessage):
                made = out.define(event.number, event.fields, event.local, event.big, event.reserved,
                    event.says_developers)
                made.begin()
                definitions[event.local] = made
            elif isinstance(event, gazhdor.Message):
                definitions[event.local].write({**dict(event), ".time_offset": event.time_offset})
    return sink.getvalue()


def copied(data, change=lambda message: message):
    sink = io.BytesIO()
    with gazhdor.Writer(sink) as out:
        for event in gazhdor.messages(data, everything=True):
            out.copy(change(event) if isinstance(event, gazhdor.Message) else event)
    return sink.getvalue()


def told(message):
    """What a message tells; one whose time was in its header may have it as a timestamp."""
    fields = [(f.number, f.developer, f.name, f.unit, f.base, repr(f.raw)) for f in message.fields]
    return message.number, message.time, [field for field in fields if field[:2] != (253, None)]


_WHOLE = (5, 19, 29)  # the fields of a record that have whole what a reader accumulates


def amounts(message):
    """Distance, cycles and power of a record: by their fields, or as a reader accumulates them, a distance in whole
    centimetres. None where the field is there without a value, and of a type that hasn't room for each."""
    fields = {field.number: field for field in reversed(message.fields) if field.developer is None}
    metres = message.distance if message.get(5) is None else None
    sums = (metres and int(100 * metres + 0.5) / 100, message.total_cycles, message.accumulated_power)

    def has_room(key):
        return key not in fields or fields[key].base == 0x86 and isinstance(fields[key].raw, int)

    return [repr(message.get(key) if message.get(key) is not None else value if has_room(key) else None)
        for key, value in zip(_WHOLE, sums)]


def read(message):
    """What a reader is told of a message, which may have got a timestamp, and its sums whole."""
    number, time, fields = told(message)
    if number != 20:
        return number, time, fields, None
    return number, time, [field for field in fields if field[0] not in _WHOLE or field[1] is not None], amounts(message)
