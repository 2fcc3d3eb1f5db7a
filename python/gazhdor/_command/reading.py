"""The commands that read files one after another, and write what they say: check, show, table, to-csv, from-csv, json,
gpx."""
import argparse
import json
import os
import sys
from collections.abc import Iterator
from typing import Any, Optional

from .. import EXTRA, Answer, FitError, Names, check, from_csv
from .._read.gpx_parts import parts
from .._read.json_lines import line, ready_line
from .._read.streams import each, messages
from .._sources import bytes_of
from .faults import NotUnpacked, Usage
from .inputs import Input, Path, is_passed_over, opened, paths_of
from .outputs import Output, see_no_terminal, see_other_files
from .progress import Progress, shown

_TEXTS = {"show": "show", "to-csv": "to_csv", "table": "table"}


def _names(asked: argparse.Namespace) -> Optional[Names]:
    """The names that json uses beside those of the profile."""
    found: Optional[Names] = None
    for told in getattr(asked, "names", None) or []:
        try:
            more = EXTRA if told is None else Names(told)
        except (OSError, ValueError) as error:
            raise Usage(f"--names: {error}") from None
        found = found | more if found else more
    return found


class _Reader:
    """Does one of these commands on files."""

    def __init__(self, command: str, asked: argparse.Namespace, progress: Progress) -> None:
        self._command, self._asked, self._progress = command, asked, progress
        self._names = _names(asked)
        self._output = Output(getattr(asked, "output", None), progress)

    def _made(self, path: str, source: Input) -> Iterator[bytes]:
        """What is written of a file, as it is read; what is wrong with the file is raised after that."""
        command = self._command
        if command == "check":
            answer = check(source)
            yield self._checked(path, answer, None if answer.good else self._kind(source))
            if not answer:
                raise FitError(answer)
        elif command == "from-csv":
            yield from_csv(bytes_of(source))
        elif command == "json":
            line_of = ready_line if self._asked.ready else line
            for message in messages(source, partial=True, names=self._names, words=not self._asked.numbers):
                yield f"{line_of(message)}\n".encode()
        elif command == "gpx":
            yield from (part.encode() for part in parts(source, partial=True))
        else:
            yield from each(_TEXTS[command], source, partial=True)

    def _checked(self, path: str, answer: Answer, kind: Optional[str]) -> bytes:
        if self._asked.json:
            told = {"good": answer.good, "files": answer.files, "place": answer.place, "reason": answer.reason}
            return self._json_line(path, **told, **{"is": kind}, text=str(answer))
        count = f", {answer.files} file{'s' * (answer.files > 1)}" if answer.good else ""
        return os.fsencode(shown(path)) + f": {answer}{count}{_named(kind)}\n".encode()

    def _kind(self, source: Input) -> Optional[str]:
        return source.kind_of_text if self._command == "from-csv" else source.kind

    def _json_line(self, path: str, **told: Any) -> bytes:
        name = os.fsencode(path).decode("utf-8", "replace")
        return (json.dumps({"file": name, **told}) + "\n").encode()

    def done(self, path: Path) -> int:
        """Does the command on one file, and returns the status."""
        source: Optional[Input] = None
        try:
            with opened(path, self._progress, packed=self._command != "from-csv") as source:
                for part in self._made(path.name, source):
                    self._output.write(part)
        except FitError as error:
            kind = self._kind(source) if source else None
            return self._said(path, 1, None if self._command == "check" else f"{error}{_named(kind)}")
        except MemoryError:
            return self._said(path, 3, "out of memory")
        except (OSError, NotUnpacked) as error:
            cause = error.__cause__ if isinstance(error.__cause__, NotUnpacked) else error
            if is_passed_over(path, cause):
                return 0
            if isinstance(cause, NotUnpacked):
                return self._failed(path, 1, str(cause))
            return self._failed(path, 4, str(getattr(error, "strerror", None) or error))
        return 0

    def _failed(self, path: Path, status: int, fault: str) -> int:
        if self._command == "check" and self._asked.json:
            self._output.write(self._json_line(path.name, good=False, error=fault))
        return self._said(path, status, fault)

    def _said(self, path: Path, status: int, fault: Optional[str]) -> int:
        """Says on standard error what is wrong."""
        self._progress.clear()
        if fault:
            sys.stdout.flush()
            print(f"{shown(path.name)}: {fault}", file=sys.stderr)
        return status

    def all(self) -> int:
        """Does the command on all files, and returns the worst status."""
        recursive = getattr(self._asked, "recursive", False)
        worst = max((self.done(path) for path in paths_of(self._asked.files, recursive)), default=0)
        self._progress.clear()
        self._output.close()
        return worst


def _named(kind: Optional[str]) -> str:
    """What a file is, where it is known to be no FIT file."""
    return f" (this is {kind})" if kind else ""


def run_reader(command: str, asked: argparse.Namespace, progress: Progress) -> int:
    """Does a command on all files that the words name."""
    output = getattr(asked, "output", None)
    if command == "from-csv":
        see_no_terminal(command, output)
    see_other_files(output, asked.files)
    return _Reader(command, asked, progress).all()
