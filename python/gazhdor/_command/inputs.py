"""What is read: files by their paths, those of folders, standard input; packed ones are unpacked."""
import contextlib
import os
import stat
import sys
from collections.abc import Iterator
from typing import Any, NamedTuple, Optional

from .faults import NoFitFile
from .kinds import FRONT, kind_of
from .progress import Progress

_ENDINGS = (".fit", ".fit.gz", ".zip")
_GZIP, _ZIP = b"\x1f\x8b", b"PK"


class Path(NamedTuple):
    """A file that is asked for. `error` says why a folder can't be read, `found` that nobody named the file itself."""

    name: str
    found: bool = False
    error: Optional[str] = None


def paths_of(names: list[str], recursive: bool) -> Iterator[Path]:
    """The files of these names, in their order; with `recursive` those of folders, in the order of their names."""
    for name in names or ["-"]:
        if recursive and name != "-" and os.path.isdir(name):
            is_empty = True
            for path in _in_folder(name):
                is_empty = False
                yield path
            if is_empty:
                yield Path(name, error="there is no FIT file in it")
        else:
            yield Path(name)


def _in_folder(top: str) -> Iterator[Path]:
    """The FIT files in a folder and those in it. Links to folders aren't followed, and what is no file, as a pipe, is
    passed over."""
    left = [top]
    while left:
        name = left.pop()
        if name != top and not os.path.isdir(name):
            yield Path(name, found=True)
            continue
        try:
            with os.scandir(name) as entries:
                inside = sorted(entries, key=lambda entry: entry.name)
        except OSError as error:
            yield Path(name, error=error.strerror or str(error))
            continue
        left += [entry.path for entry in reversed(inside) if _is_wanted(entry)]


def _is_wanted(entry: "os.DirEntry[str]") -> bool:
    try:
        if entry.is_dir(follow_symlinks=False):
            return True
        return entry.name.lower().endswith(_ENDINGS) and stat.S_ISREG(entry.stat().st_mode)
    except OSError:
        return False


class Input:
    """The bytes of a file, unpacked, as a file object of which pieces are read. `front` are its first bytes."""

    def __init__(self, file: Any, progress: Progress, packed: bool = True) -> None:
        self._progress, self._before = progress, b""
        self.front, self.is_read = b"", False
        begin = self._begin(file)
        self._file = file
        if packed and begin in (_GZIP, _ZIP):
            from .archives import gunzipped, unzipped  # which takes a while, and is seldom needed

            progress.forget_size()
            self._file = gunzipped(_After(begin, file)) if begin == _GZIP else unzipped(file, begin)
            self._before = b""

    def _begin(self, file: Any) -> bytes:
        """The first two bytes, which are also the first that are read."""
        while len(self._before) < 2:
            data = file.read(2 - len(self._before))
            if not data:
                break
            self._before += data
        return self._before

    def read(self, size: int) -> bytes:
        data: bytes = self._before + self._file.read(size - len(self._before))
        self._before, self.is_read = b"", True
        if len(self.front) < FRONT:
            self.front += data[: FRONT - len(self.front)]
        self._progress.step(len(data))
        return data

    @property
    def kind(self) -> Optional[str]:
        """What it is, where it is known to be no FIT file."""
        return kind_of(self.front)

    @property
    def kind_of_text(self) -> Optional[str]:
        """What it is, where it is known to be no CSV text."""
        kind = "a FIT file" if self.front[8:12] == b".FIT" else self.kind
        return None if kind == "text" else kind


class _Standard:
    """Standard input, which gives the bytes that are there. Nobody knows what it had before."""

    def __init__(self) -> None:
        if sys.stdin is None:
            raise OSError("there is no standard input")
        buffer: Any = sys.stdin.buffer
        self.read = buffer.read1
        self.fileno = sys.stdin.fileno


class _After:
    """A file object with some bytes before it."""

    def __init__(self, before: bytes, file: Any) -> None:
        self._before, self._file = before, file

    def read(self, size: int) -> bytes:
        data: bytes = self._before[:size] or self._file.read(size)
        self._before = self._before[size:]
        return data


@contextlib.contextmanager
def opened(path: Path, progress: Progress, packed: bool = True) -> Iterator[Input]:
    """A file that is asked for. It raises OSError where it can't be opened, and NotUnpacked."""
    if path.error:
        raise OSError(path.error)
    with contextlib.ExitStack() as stack:
        name = path.name
        file: Any = _Standard() if name == "-" else stack.enter_context(open(name, "rb", buffering=0))
        progress.begin(name, _size(file))
        yield Input(file, progress, packed)


def _size(file: Any) -> Optional[int]:
    try:
        told = os.fstat(file.fileno())
    except (AttributeError, OSError, ValueError):
        return None
    return told.st_size if stat.S_ISREG(told.st_mode) else None


def is_passed_over(path: Path, error: BaseException) -> bool:
    """Whether a file of a folder is none that is asked for: a zip file of other things."""
    return path.found and isinstance(error, NoFitFile)
