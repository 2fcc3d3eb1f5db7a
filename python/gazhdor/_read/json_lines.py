"""A message as a line of JSON."""
import datetime
import json
import math
from collections.abc import Callable
from typing import TYPE_CHECKING, Any, NamedTuple, Optional

from .._times import Time
from .cells import counted
from .readers import Reader
from .values import Definition

if TYPE_CHECKING:
    from .messages import Message

_encoded: Callable[[Any], str] = json.JSONEncoder(ensure_ascii=False, allow_nan=False, separators=(",", ":")).encode
# What some programs take for the end of a line.
_ENDS = {ord(end): f"\\u{ord(end):04x}" for end in "\x85\u2028\u2029"}


def _text(value: Any) -> str:
    return _encoded(value).translate(_ENDS)


class _Known(NamedTuple):
    """What the lines of all messages of a definition have: their name and number; each field with its name before it;
    their units."""

    front: str
    fields: list[tuple[str, Reader]]
    units: str


def _known(definition: Definition) -> _Known:
    """What is made of a definition once."""
    known: Optional[_Known] = definition.made.get("json")
    if known is None:
        name = _text(definition.name or f"message_{definition.number}")
        units = {name: entry.unit for name, entry in definition.labels.items() if entry.unit}
        fields = [(f",{_text(name)}:", entry.read) for name, entry in definition.labels.items()]
        if fields:
            fields[0] = fields[0][0][1:], fields[0][1]
        front = f'{{"message":{name},"number":{definition.number},"file":'
        known = definition.made["json"] = _Known(front, fields, f'}},"units":{_text(units)}}}')
    return known


def _time(time: Optional[Time]) -> str:
    if time is None:
        return "null"
    return f'"{time.isoformat()[:19]}Z"' if isinstance(time, datetime.datetime) else f'"{time}"'


def _plain(value: Any) -> Any:
    """A value as JSON has it: bytes as in the CSV text, and null for what is no finite number."""
    return "0x" + value.hex().upper() if isinstance(value, bytes) else value


def _value(value: Any) -> str:
    if value is None:
        return "null"
    if type(value) is int:
        return repr(value)
    if type(value) is float:
        return repr(value) if math.isfinite(value) else "null"
    if type(value) is tuple:
        return f"[{','.join(map(_value, value))}]"
    return _text(_plain(value))


def line(message: "Message") -> str:
    """The message as a line of JSON, without its end: what it is and where, its time, what is accumulated, the values
    of its fields, and their units. A field without a name is `field_N`, or `dev_I_N`, I being its developer data
    index."""
    block, known = message._block, _known(message._definition)
    where = f'{message.file},"place":{message.place},"local":{message.local}'
    parts = [known.front, f'{where},"time":{_time(message.time)}']
    for name, entry in counted(message._definition):
        amount = entry.read(block)
        if amount is not None:
            parts.append(f',"{name}":{_value(amount)}')
    parts.append(',"fields":{')
    parts.extend([front + _value(read(block)) for front, read in known.fields])
    parts.append(known.units)
    return "".join(parts)


def ready_line(message: "Message") -> str:
    """The message as a line of JSON whose values are ready to use, as `Message.ready` gives them: times as texts."""
    known = {"message": message.name or f"message_{message.number}", "number": message.number}
    where = {"file": message.file, "place": message.place, "local": message.local, "time": _shown(message.time)}
    return _text({**known, **where, "fields": {name: _shown(value) for name, value in message.ready().items()}})


def _shown(value: Any) -> Any:
    """A value, of a time its text; one in UTC ends in Z."""
    if not isinstance(value, datetime.datetime):
        return value
    return value.isoformat()[:19] + ("Z" if value.tzinfo else "")
