"""What is packed: one FIT file in a gzip file or in a zip file, which is unpacked as it is read."""
import gzip
import io
import zipfile
import zlib
from typing import Any

from .._sources import PIECE
from .faults import NoFitFile, NotUnpacked

MOST = 1 << 28  # A file may unpack to so many bytes, and a zip file from a pipe may have so many.
_LONGEST_LIST = 1 << 20  # So many bytes the list of a zip file's files may have.
_STORED, _DEFLATED, _ENCRYPTED = 0, 8, 1


class _Bounded:
    """Reads what is unpacked, up to a most."""

    def __init__(self, file: Any, kind: str) -> None:
        self._file, self._kind, self._left = file, kind, MOST

    def read(self, size: int) -> bytes:
        try:
            data: bytes = self._file.read(size)
        except EOFError:
            raise NotUnpacked(f"the {self._kind} ends too soon") from None
        except (gzip.BadGzipFile, zipfile.BadZipFile, zlib.error) as error:
            raise NotUnpacked(f"the {self._kind} is damaged: {error}") from None
        self._left -= len(data)
        if self._left < 0:
            raise NotUnpacked(f"the {self._kind} has more than {MOST:,} bytes in it: unpack it, if it may have")
        return data


class _InSteps:
    """A zip file of which no more is read at once than its list of files may have."""

    def __init__(self, file: Any) -> None:
        self._file = file
        self.seek, self.tell = file.seek, file.tell

    def seekable(self) -> bool:
        return True

    def read(self, size: int = -1) -> bytes:
        data: bytes = self._file.read(min(size, _LONGEST_LIST + 1) if size >= 0 else _LONGEST_LIST + 1)
        if len(data) > _LONGEST_LIST:
            raise zipfile.BadZipFile("the list of its files is too long")
        return data


def gunzipped(file: Any) -> Any:
    """What reads the bytes that a gzip file has."""
    return _Bounded(gzip.GzipFile(fileobj=file, mode="rb"), "gzip file")


def _seekable(file: Any, front: bytes) -> Any:
    """The file, where it can go to any place of it, or else a copy of its bytes."""
    try:
        file.seek(0)
        return file
    except (AttributeError, OSError, ValueError):
        pass
    parts, size = [front], len(front)
    while True:
        part = file.read(PIECE)
        if not part:
            return io.BytesIO(b"".join(parts))
        parts.append(part)
        size += len(part)
        if size > MOST:
            raise NotUnpacked(f"a zip file of more than {MOST:,} bytes isn't read from a pipe")


def unzipped(file: Any, front: bytes) -> Any:
    """What reads the one FIT file in a zip file, of which the first bytes were read."""
    try:
        steps: Any = _InSteps(_seekable(file, front))
        return _Bounded(_one_of(zipfile.ZipFile(steps)), "zip file")
    except (zipfile.BadZipFile, UnicodeDecodeError, NotImplementedError, ValueError) as error:
        if isinstance(error, NotUnpacked):
            raise
        raise NotUnpacked(f"the zip file is damaged: {error}") from None


def _one_of(archive: zipfile.ZipFile) -> Any:
    named = [one for one in archive.infolist() if one.filename.lower().endswith(".fit")]
    found = [one for one in named if not _is_beside(one.filename)]
    if not found:
        raise NoFitFile("a zip file without a FIT file")
    if len(found) > 1:
        raise NotUnpacked(f"a zip file with {len(found)} FIT files: unpack it")
    if found[0].flag_bits & _ENCRYPTED:
        raise NotUnpacked("a zip file with a password: unpack it")
    if found[0].compress_type not in (_STORED, _DEFLATED):
        raise NotUnpacked("a zip file that is packed in an unusual way: unpack it")
    return archive.open(found[0])


def _is_beside(name: str) -> bool:
    """Whether it is what macOS puts beside each file."""
    return name.startswith("__MACOSX/") or name.rpartition("/")[2].startswith("._")
