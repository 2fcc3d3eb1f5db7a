"""A line on a terminal that says how far a command has come, where that takes over a second."""
import os
import sys
import time
from typing import Any, Optional

_AFTER, _EACH = 1.0, 0.2  # seconds until the line is there, and between two of them
_LONGEST = 40  # So many letters of a name are shown.


def shown(name: str) -> str:
    """A name as a line shows it: letters that would move the cursor, end the line or hide others by their numbers."""
    return "".join(letter if _is_shown(letter) else _escaped(letter) for letter in name)


def _is_shown(letter: str) -> bool:
    """Whether it is printed as it is; a byte that is no UTF-8 is."""
    return letter.isprintable() or "\udc80" <= letter <= "\udcff"


def _escaped(letter: str) -> str:
    return letter.encode("unicode_escape", "backslashreplace").decode()


class Progress:
    """The line. It isn't there in a pipe, or where the terminal shows what is written."""

    def __init__(self, is_text_shown: bool = False) -> None:
        self._stream: Any = sys.stderr if _is_terminal(sys.stderr) and not is_text_shown else None
        self._began = time.monotonic()
        self._next = self._began + _AFTER
        self._is_there = False
        self._size: Optional[int] = None
        self._name, self._count, self._files = "", 0, 0

    def begin(self, name: str, size: Optional[int]) -> None:
        """A file, of that many bytes where that is known."""
        name = shown("standard input" if name == "-" else name)
        self._name = name if len(name) <= _LONGEST else "..." + name[-_LONGEST:]
        self._size, self._count, self._files = size, 0, self._files + 1

    def forget_size(self) -> None:
        """The file is packed: nobody knows how many bytes it has."""
        self._size = None

    def step(self, count: int) -> None:
        """So many bytes more were read."""
        self._count += count
        now = time.monotonic() if self._stream else 0.0
        if self._stream and now >= self._next:
            self._next, self._is_there = now + _EACH, True
            self._stream.write(f"\r\x1b[K{self._line()}")
            self._stream.flush()

    def _line(self) -> str:
        number = f"file {self._files}: " if self._files > 1 else ""
        far = f"{self._count / 1e6:.1f} MB"
        if self._size and self._count <= self._size:
            far += f" of {self._size / 1e6:.1f}, {100 * self._count // self._size} %"
        name = self._name.encode(self._stream.encoding or "ascii", "replace").decode(self._stream.encoding or "ascii")
        return f"{number}{name}: {far}"

    def clear(self) -> None:
        """Takes the line away, before something else is written."""
        if self._is_there:
            self._is_there = False
            self._stream.write("\r\x1b[K")
            self._stream.flush()


def _is_terminal(stream: Any) -> bool:
    try:
        return stream is not None and stream.isatty() and os.environ.get("TERM") != "dumb"
    except ValueError:
        return False
