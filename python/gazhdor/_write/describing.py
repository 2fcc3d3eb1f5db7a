"""Developer fields of messages that are put: the library describes them where a file doesn't. Here is what they are
called from then on, and which one can't be described."""
from typing import Optional

from .._base_types import BYTE
from .._read.values import Definition, Entry, label
from .developers import DeveloperField

_MOST = 254  # the bytes that a name or a unit may have in a description


class NotDescribed(ValueError):
    """A message can't be put, as a developer field of it would be read as another one; `field` is that."""

    def __init__(self, entry: Entry) -> None:
        self.field = label(entry.key)
        what = "can't be described: its name or its unit can't be written, or another of its numbers has others"
        if not _is_described(entry):
            what = "isn't described where it comes from, and is in this file"
        super().__init__(f"the developer field {self.field} {what}")


def described(definition: Definition) -> tuple[DeveloperField, ...]:
    """The developer fields of a definition that are described where it comes from."""
    found: Optional[tuple[DeveloperField, ...]] = definition.made.get("described")
    if found is None:
        found = definition.made["described"] = tuple(map(_field, filter(_is_described, _own(definition))))
    return found


def not_described(definition: Definition) -> NotDescribed:
    """What is raised where a developer field can't be described as it is where it comes from: the first that no message
    could describe, or else the first that has no description there."""
    own = _own(definition)
    wrong = next((entry for entry in own if not _is_written(entry)), None)
    return NotDescribed(wrong or next((entry for entry in own if not _is_described(entry)), own[0]))


def _own(definition: Definition) -> list[Entry]:
    return [entry for entry in definition.entries if entry.index is not None]


def _field(entry: Entry) -> DeveloperField:
    return DeveloperField(entry.index or 0, entry.number, entry.name or "", entry.unit or "", entry.base)


def _is_described(entry: Entry) -> bool:
    return bool(entry.name or entry.unit) or entry.base != BYTE.code


def _is_written(entry: Entry) -> bool:
    """Whether a description can have its name and its unit, which are read back."""
    texts = f"{entry.name or ''}{entry.unit or ''}"
    lengths = [len((text or "").encode()) for text in (entry.name, entry.unit)]
    return max(lengths) <= _MOST and not any(letter < " " or letter == "\x7f" for letter in texts)
