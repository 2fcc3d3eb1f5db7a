"""Finds the library, loads it and calls it."""
import ctypes
import os
import pkgutil
import platform
import sys
import weakref
from typing import Any, Optional, Union

from ._answers import Answer
from .errors import LibraryMissing, LibraryUnusable, WrongMachine, WrongVersion

NAME = {"win32": "gazhdor.dll", "darwin": "libgazhdor.dylib"}.get(sys.platform, "libgazhdor.so")
HERE = os.path.dirname(os.path.abspath(__file__))
# The module stands in the folder python/ of a tree, unless it was installed; the tree has the library and the version
# for it.
TREE = os.path.dirname(os.path.dirname(HERE))
_SOURCES = os.path.join(TREE, "release", "SOURCES")
IN_TREE = os.path.basename(os.path.dirname(HERE)) == "python" and os.path.exists(_SOURCES)


class _Text(ctypes.Structure):
    _fields_ = [("bytes", ctypes.c_void_p), ("length", ctypes.c_size_t)]
    bytes: Optional[int]
    length: int


class _Stream(ctypes.Structure):
    _fields_ = [("at", ctypes.c_void_p)]


class WriterBox(ctypes.Structure):
    """What is held of a writer of the library."""

    _fields_ = [("at", ctypes.c_void_p)]


def packed(name: str) -> Optional[bytes]:
    """The bytes of a file beside this module, which may be in a folder or a zip file; None where it isn't there."""
    try:
        return pkgutil.get_data("gazhdor", name)
    except OSError:
        return None


def _see_machine() -> None:
    system, machine = platform.system(), platform.machine()
    if system != "Linux" or machine not in ("x86_64", "aarch64") or sys.maxsize < 2**32:
        bits = 8 * ctypes.sizeof(ctypes.c_void_p)
        what = "the released libraries of gazhdor are for 64-bit Python on x86_64 Linux and on aarch64 Linux"
        help = "pip install, of the folder python/ of the project's files, compiles one where there is a C compiler"
        raise WrongMachine(f"{what}, and this is {bits}-bit Python on {machine} {system}: {help}")


def _opened(path: str, beside: bool = False) -> ctypes.CDLL:
    try:
        return ctypes.CDLL(path)
    except OSError as error:
        if beside:
            _see_machine()
        raise LibraryUnusable(f"{path} can't be loaded: {error}", path) from None


def _find() -> tuple[str, ctypes.CDLL]:
    named = os.environ.get("GAZHDOR_LIBRARY")
    if named:
        if not os.path.exists(named):
            raise LibraryMissing(f"{named} isn't there, which GAZHDOR_LIBRARY names", named)
        return named, _opened(os.path.abspath(named))
    beside = os.path.join(HERE, NAME)
    if os.path.exists(beside):
        return beside, _opened(beside, beside=True)
    inside = packed(NAME)
    if inside is not None:
        # The module is in a zip file, of which the system loads nothing. A library that is loaded needs its file no
        # more, but for Windows, where nothing may write a file that is open, nor remove one that is loaded.
        if NAME.endswith(".dll"):
            raise LibraryUnusable(f"{beside} is in a zip file, of which Windows loads nothing: unpack it", beside)
        import tempfile

        with tempfile.NamedTemporaryFile(prefix="gazhdor-", suffix=NAME) as file:
            file.write(inside)
            file.flush()
            return beside, _opened(file.name, beside=True)
    released = os.path.join(TREE, "release", f"{platform.machine()}-linux", NAME)
    if IN_TREE and os.path.exists(released):
        return released, _opened(released)
    # Before version 1.0 another second number may mean other calls, so the system's library has it in its name.
    installed = ".".join([NAME, *VERSION.split(".")[:2]])
    try:
        return NAME, ctypes.CDLL(installed)
    except OSError:
        _see_machine()
        what = f"{beside} isn't there, and the system has no {installed}: install the wheel, or set GAZHDOR_LIBRARY"
        raise LibraryMissing(what, beside) from None


def _load(version: str) -> ctypes.CDLL:
    path, library = _find()
    try:
        library.gazhdor_version.argtypes, library.gazhdor_version.restype = (), ctypes.c_char_p
        library.gazhdor_check.argtypes, library.gazhdor_check.restype = (ctypes.c_char_p, ctypes.c_size_t), Answer
        library.gazhdor_free.argtypes, library.gazhdor_free.restype = (_Text,), None
        for name in ("table", "to_csv", "show", "from_csv", "messages", "from_messages"):
            call = getattr(library, f"gazhdor_{name}")
            call.argtypes, call.restype = (ctypes.c_char_p, ctypes.c_size_t, ctypes.POINTER(_Text)), Answer
        stream, text = ctypes.POINTER(_Stream), ctypes.POINTER(_Text)
        library.gazhdor_open.argtypes, library.gazhdor_open.restype = (stream, ctypes.c_uint32), Answer
        library.gazhdor_feed.argtypes = stream, ctypes.c_char_p, ctypes.c_size_t, text
        library.gazhdor_feed.restype = Answer
        library.gazhdor_finish.argtypes, library.gazhdor_finish.restype = (stream, text), Answer
        library.gazhdor_close.argtypes, library.gazhdor_close.restype = (stream,), None
        _load_writer(ctypes.PyDLL(path, handle=library._handle))
    except AttributeError as error:
        raise LibraryUnusable(f"{path} isn't a library of gazhdor {version}: {error}", path) from None
    told = library.gazhdor_version().decode()
    if told != version:
        raise WrongVersion(f"{path} is version {told}, and the module gazhdor is version {version}", path)
    return library


# The calls of a writer, while which no other thread runs, nor can the process be forked: no call comes within another.
writer_calls: dict[str, Any] = {}


def _load_writer(library: ctypes.PyDLL) -> None:
    box, bytes_ = ctypes.POINTER(WriterBox), (ctypes.c_void_p, ctypes.c_size_t)
    given: dict[str, tuple[Any, ...]] = {"open": (), "close": (), "file": bytes_, "definition": bytes_}
    given.update(messages=(*bytes_, *bytes_), finish=(ctypes.POINTER(_Text),))
    for name, types in given.items():
        call = writer_calls[name] = getattr(library, f"gazhdor_writer_{name}")
        call.argtypes, call.restype = (box, *types), None if name == "close" else Answer


def _version() -> str:
    told = packed("VERSION")
    if told is None and IN_TREE:
        try:
            with open(os.path.join(TREE, "VERSION"), "rb") as file:
                told = file.read()
        except OSError:
            pass
    return (told or b"unknown").decode().strip()


VERSION = _version()
library = _load(VERSION)
_nothing = ctypes.create_string_buffer(1)
_MOST_AT_ONCE = 2**30  # ctypes.string_at counts in a C int.


def exact(data: Union[bytes, bytearray, memoryview]) -> bytes:
    """The bytes themselves: a copy of all that aren't of the type bytes alone, as a type that is made of it may lie
    about its length."""
    return data if type(data) is bytes else bytes(memoryview(data))


def check(data: bytes) -> Answer:
    """What is found of some bytes."""
    data = exact(data)
    answer: Answer = library.gazhdor_check(data, len(data))
    return answer


def _no_text() -> _Text:
    return _Text(ctypes.addressof(_nothing), 0)


def _copied(text: _Text) -> bytes:
    if text.length <= _MOST_AT_ONCE:
        return ctypes.string_at(text.bytes or 0, text.length)
    array: Any = (ctypes.c_char * text.length).from_address(text.bytes or 0)
    made: bytes = array[:]
    return made


class _Owner:
    """What a text of the library is freed with."""

    __slots__ = ("__weakref__",)


def made_by(call: Any, *given: Any) -> tuple[Answer, bytes]:
    """The answer of a call, and what it makes. The library's memory is freed also where an exception comes."""
    text, owner = _no_text(), _Owner()
    weakref.finalize(owner, library.gazhdor_free, text).atexit = False
    answer: Answer = call(*given, ctypes.byref(text))
    return answer, _copied(text)


def text_of(call: Any, data: bytes) -> tuple[Answer, bytes]:
    """The answer of a call, and what it makes of some bytes."""
    data = exact(data)
    return made_by(call, data, len(data))


def _close(stream: _Stream, text: _Text, callers: list[int]) -> None:
    """Closes a stream, and frees a text that was left. A stream that another process was calling when this one was
    forked may be half changed here, so it is left as it is."""
    if all(caller == os.getpid() for caller in callers):
        library.gazhdor_free(text)
        library.gazhdor_close(stream)


class Opened:
    """A stream of the library, of one of its kinds. It is used by one thread at a time, and not after a call that ended
    in an exception."""

    def __init__(self, kind: int) -> None:
        self._stream, self._text = _Stream(), _no_text()
        self._callers: list[int] = []
        self.close = weakref.finalize(self, _close, self._stream, self._text, self._callers)
        self.close.atexit = False
        self.answer: Answer = library.gazhdor_open(self._stream, kind)

    def _made(self, call: Any, *given: Any) -> bytes:
        """What a call makes; `answer` says what was found."""
        text = self._text
        self._callers.append(os.getpid())
        self.answer = call(self._stream, *given, ctypes.byref(text))
        self._callers.clear()
        if not text.length:
            return b""
        made = _copied(text)
        # It is forgotten before it is freed, so that nothing frees it again.
        done, text.length = _Text(text.bytes, text.length), 0
        library.gazhdor_free(done)
        return made

    def feed(self, piece: bytes) -> bytes:
        """What the piece completes."""
        piece = exact(piece)
        return self._made(library.gazhdor_feed, piece, len(piece))

    def finish(self) -> bytes:
        """What is still to come at the end of the bytes."""
        return self._made(library.gazhdor_finish)
