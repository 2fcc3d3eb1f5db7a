"""What a file is that is no FIT file, by its first bytes."""
import codecs
from typing import Optional

FRONT = 512  # so many bytes are looked at

_BEGINS = (
    (b"\x1f\x8b", "a gzip file"),
    (b"PK\x03\x04", "a zip file"),
    (b"PK\x05\x06", "an empty zip file"),
    (b"BZh", "a bzip2 file"),
    (b"\xfd7zXZ\0", "an xz file"),
    (b"\x28\xb5\x2f\xfd", "a zstd file"),
    (b"7z\xbc\xaf\x27\x1c", "a 7z file"),
    (b"Rar!", "a rar file"),
    (b"%PDF", "a PDF"),
    (b"\x89PNG", "a picture"),
    (b"\xff\xd8\xff", "a picture"),
    (b"GIF8", "a picture"),
    (b"SQLite format 3", "a database of SQLite"),
    (b"\x7fELF", "a program"),
)
_TAGS = (("<!doctype html", "a web page"), ("<html", "a web page"), ("<", "XML"), ("{", "JSON"), ("[", "JSON"))


def kind_of(front: bytes) -> Optional[str]:
    """What a file with these first bytes is; None where that isn't known, or where it may be a FIT file."""
    if not front:
        return "empty"
    if front[8:12] == b".FIT":
        return None
    for begin, kind in _BEGINS:
        if front.startswith(begin):
            return kind
    text = _text(front)
    return None if text is None else _kind_of_text(text)


def _text(front: bytes) -> Optional[str]:
    """The bytes as text, if they look like it. A letter may be cut at their end."""
    if front[:2] in (b"\xff\xfe", b"\xfe\xff"):
        return front.decode("utf-16", "replace")
    try:
        text = codecs.getincrementaldecoder("utf-8-sig")().decode(front)
    except UnicodeDecodeError:
        return None
    is_text = all(letter.isprintable() or letter in "\r\n\t\f" for letter in text) and text.strip()
    return text if is_text else None


def _kind_of_text(text: str) -> str:
    begin = text.lstrip().lower()
    if begin.startswith("<"):
        for name, kind in (("<gpx", "GPX"), ("<trainingcenterdatabase", "TCX")):
            if name in begin:
                return kind
    return next((kind for tag, kind in _TAGS if begin.startswith(tag)), "text")
