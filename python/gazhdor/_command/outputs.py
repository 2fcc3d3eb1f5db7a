"""What is written: to standard output, or to the file of --output."""
import os
import sys
from typing import Any, Optional

from .faults import NotWritten, Usage
from .progress import Progress, shown


def see_no_terminal(command: str, output: Optional[str]) -> None:
    """Raises Usage where bytes would go to a terminal."""
    if output in (None, "-") and sys.stdout is not None and sys.stdout.isatty():
        raise Usage(f"{command}: what it writes is no text, and the output is a terminal: name a file for it")


def see_other_files(output: Optional[str], paths: list[str]) -> None:
    """Raises Usage where a file is to be read and written."""
    if output in (None, "-"):
        return
    for path in paths:
        if path != "-" and _is_same(path, str(output)):
            raise Usage(f"{shown(path)} would be read and written: name another file")


def _is_same(one: str, other: str) -> bool:
    try:
        return os.path.samefile(one, other)
    except OSError:
        return False


class Output:
    """Takes bytes. A file is opened when the first come, or in the end."""

    def __init__(self, path: Optional[str], progress: Progress) -> None:
        self._path, self._progress = path, progress
        self._file: Any = None

    def write(self, data: bytes) -> None:
        self._progress.clear()
        try:
            self._opened().write(data)
        except OSError as error:
            raise NotWritten from error

    def _opened(self) -> Any:
        if self._path in (None, "-"):
            return sys.stdout.buffer
        if self._file is None:
            self._file = open(str(self._path), "wb")
        return self._file

    def close(self) -> None:
        """Sees that all is written."""
        try:
            self._opened().flush()
            if self._file is not None:
                self._file.close()
        except OSError as error:
            raise NotWritten from error
