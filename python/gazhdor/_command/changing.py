"""The commands that write FIT files: edit, join, mend."""
import argparse
import contextlib
import os
import sys
from typing import Any

from .. import check, mend
from .._sources import bytes_of
from .._write.edits import Change, change
from .._write.joins import join
from .faults import NotWritten, Usage
from .inputs import Input, Path, opened
from .outputs import see_no_terminal
from .progress import Progress, shown


class Sources:
    """The files that a command reads, while they are open."""

    def __init__(self, progress: Progress) -> None:
        self._progress, self._stack = progress, contextlib.ExitStack()
        self._opened: list[tuple[str, Input]] = []

    def open(self, paths: list[str]) -> list[Any]:
        for path in paths:
            self._opened.append((path, self._stack.enter_context(opened(Path(path), self._progress))))
        return [source for _, source in self._opened]

    def told(self, fault: object) -> str:
        """A fault, with the name of the file that was read last, and what that is if it is none of FIT."""
        read = [(path, source) for path, source in self._opened if source.is_read]
        if not read:
            return str(fault)
        path, source = read[-1]
        return f"{shown(path)}: {fault}" + (f" (this is {source.kind})" if source.kind else "")

    def close(self) -> None:
        self._stack.close()


def _sink(path: str) -> Any:
    return sys.stdout.buffer if path == "-" else path


def run_edit(asked: argparse.Namespace, sources: Sources, progress: Progress) -> None:
    """Does `edit`, and says on standard error how often each field was emptied."""
    if len(asked.files) != 2:
        raise Usage("edit: it takes IN and OUT")
    source, into = asked.files
    see_no_terminal("edit", into)
    asked_for = Change(tuple(asked.drop), asked.shift, asked.begin, asked.end)
    counts = change(sources.open([source])[0], _sink(into), asked_for)
    progress.clear()
    for (message, field), count in sorted(counts.items()):
        sys.stderr.write(f"emptied: {shown(message)} {shown(field)}, {count} times\n")


def run_join(asked: argparse.Namespace, sources: Sources, progress: Progress) -> None:
    """Does `join`."""
    *paths, into = asked.files or [""]
    if len(paths) < 2:
        raise Usage("join: it takes two FILEs or more, and OUT")
    see_no_terminal("join", into)
    join(sources.open(paths), _sink(into), asked.one)


def run_mend(asked: argparse.Namespace, sources: Sources, progress: Progress) -> None:
    """Does `mend`, and says on standard error what was wrong."""
    if len(asked.files) > 2:
        raise Usage("mend: it takes IN, and OUT")
    source, into = [*(asked.files or ["-"]), "-"][:2]
    see_no_terminal("mend", into)
    if into != "-" and os.path.exists(into) and not asked.force and not _is_device(into):
        raise Usage(f"{shown(into)} is there already: --force replaces it")
    data = bytes_of(sources.open([source])[0])
    made = mend(data, whole=asked.whole)
    progress.clear()
    if len(made) < len(data) or made != data[: len(made)]:
        print(f"{shown(source)}: {check(data)}; mended: {len(made)} of {len(data)} bytes", file=sys.stderr)
    _write(into, made)


def _is_device(path: str) -> bool:
    return not os.path.isfile(path) and not os.path.isdir(path)


def _write(path: str, data: bytes) -> None:
    try:
        if path == "-":
            sys.stdout.buffer.write(data)
        else:
            with open(path, "wb") as file:
                file.write(data)
    except OSError as error:
        raise NotWritten from error
