"""Where a file goes: to a path, as a whole or not at all, or into a binary file object."""
import contextlib
import errno
import io
import os
import stat
from typing import Any, Optional, Protocol, Union

from ..errors import NotBinary


class Writable(Protocol):
    """A binary file object: one that has `write`."""

    def write(self, __data: bytes) -> Any:
        ...


Sink = Union[str, "os.PathLike[str]", Writable]

# What opens something that another process has open, as /dev/stdout: it isn't replaced, and what stands there stays.
_OPENED = ("/dev/", "/proc/")
# A file that can't be made beside another one, or can't take its place, as one that is mounted by itself.
_NOT_BESIDE = (errno.EACCES, errno.EPERM, errno.EROFS, errno.EBUSY, errno.EXDEV)


def sink_of(sink: Any) -> Any:
    """The sink, a path as it is from the root on. It raises what is known to be wrong with it before there is something
    to write."""
    if isinstance(sink, (str, os.PathLike)):
        whole = os.path.abspath(os.fsdecode(sink))
        path = os.path.realpath(whole)
        if os.path.isdir(path):
            raise IsADirectoryError(errno.EISDIR, os.strerror(errno.EISDIR), os.fspath(sink))
        if not os.path.isdir(os.path.dirname(path)) and not os.path.exists(whole):
            raise FileNotFoundError(errno.ENOENT, os.strerror(errno.ENOENT), os.fspath(sink))
        return whole
    if isinstance(sink, io.TextIOBase):
        raise NotBinary("the file object is opened as text, which has no bytes: open it as 'wb'")
    if not hasattr(sink, "write"):
        raise TypeError(f"a file is written to a path or a binary file object, and not to {type(sink).__name__}")
    return sink


def write(sink: Any, data: bytes) -> None:
    """Writes all bytes of a file to what `sink_of` returned."""
    if isinstance(sink, str):
        _write_path(sink, data)
        return
    rest = memoryview(data)
    while len(rest):
        count = sink.write(rest if len(rest) < len(data) else data)
        if count is None:
            if isinstance(sink, io.RawIOBase):
                raise BlockingIOError(errno.EAGAIN, "the file object takes no bytes yet, and doesn't wait")
            return
        if isinstance(count, bool) or not isinstance(count, int) or not 0 < count <= len(rest):
            raise OSError(f"the file object's write returned {count!r:.40}, and not how many bytes it took")
        rest = rest[count:]


def _write_path(path: str, data: bytes) -> None:
    """A file at a path is made beside it, and takes its place when it is whole. What can't be replaced is written to as
    it is: a device, a pipe, what another process has open, and a file whose folder takes no other one."""
    mode = os.stat(path).st_mode if os.path.exists(path) else None
    if path.startswith(_OPENED) or mode is not None and not stat.S_ISREG(mode):
        _write_there(path, data, "ab")
        return
    whole = os.path.realpath(path)
    try:
        _replace(whole, data, mode)
    except OSError as error:
        if mode is None or error.errno not in _NOT_BESIDE:
            raise
        _write_there(whole, data, "wb")


def _write_there(path: str, data: bytes, how: str) -> None:
    with open(path, how, buffering=0) as file:
        rest = memoryview(data)
        while len(rest):
            rest = rest[file.write(rest) :]


def _replace(path: str, data: bytes, mode: Optional[int]) -> None:
    folder = os.path.dirname(path)
    made = os.path.join(folder, f".gazhdor-{os.getpid()}-{os.urandom(4).hex()}")
    try:
        with open(made, "xb") as file:
            if mode is not None:
                os.chmod(made, stat.S_IMODE(mode))
            file.write(data)
            file.flush()
            os.fsync(file.fileno())
        os.replace(made, path)
    except BaseException as error:
        with contextlib.suppress(FileNotFoundError):
            os.unlink(made)
        if isinstance(error, OSError) and error.filename == made:
            error.filename = path
        raise
    _sync(folder)


def _sync(folder: str) -> None:
    """Has the new name of a file outlast a loss of power, where the system can do that."""
    with contextlib.suppress(OSError):
        opened = os.open(folder, os.O_RDONLY)
        try:
            os.fsync(opened)
        finally:
            os.close(opened)
