"""Does what the words of a command line say, and returns the exit status."""
import argparse
import os
import sys

from .. import FitError, __version__
from .changing import Sources, run_edit, run_join, run_mend
from .faults import NotUnpacked, NotWritten, Usage
from .parsing import parsed, parser_of, usage_of, wanted
from .progress import Progress, shown
from .reading import run_reader

_CHANGING = {"edit": run_edit, "join": run_join, "mend": run_mend}
_USAGE, _MEMORY, _INPUT, _INTERRUPTED = 2, 3, 4, 130


def _helped(program: str, words: list[str]) -> bool:
    """Whether the words ask for help or the version, which is then written."""
    if words[:1] in (["-h"], ["--help"]) or words == ["help"]:
        print(usage_of(program), end="")
    elif words[:1] == ["--version"]:
        print(f"gazhdor {__version__}")
    elif words[:1] == ["help"]:
        parser_of(program, wanted(words[1])).print_help()
    elif {"-h", "--help"} & set(words[: words.index("--") if "--" in words else None]):
        parser_of(program, wanted(words[0])).print_help()
    else:
        return False
    return True


def _changed(command: str, asked: argparse.Namespace, progress: Progress) -> int:
    """Does a command that writes a FIT file. Where the status isn't 0, nothing is written."""
    sources = Sources(progress)
    try:
        _CHANGING[command](asked, sources, progress)
        return 0
    except Usage:
        raise
    except FitError as error:
        status, said = 1, sources.told(error)
    except (ValueError, KeyError) as error:
        status, said = 1 if isinstance(error, NotUnpacked) else _USAGE, str(error)
    except MemoryError:
        status, said = _MEMORY, "out of memory"
    except OSError as error:
        cause = error.__cause__
        name = f"{shown(str(error.filename))}: " if error.filename else ""
        status, said = _INPUT, f"{name}{error.strerror or error}"
        if isinstance(cause, NotUnpacked):
            status, said = 1, sources.told(cause)
    finally:
        sources.close()
    progress.clear()
    sys.stderr.write(f"{command}: {said}\n")
    return status


def _done(program: str, words: list[str]) -> int:
    try:
        if _helped(program, words):
            return 0
        command = wanted(words[0] if words else None)
        asked = parsed(program, command, words[1:])
        is_text = command not in ("check", *_CHANGING) and not getattr(asked, "output", None)
        progress = Progress(is_text and sys.stdout.isatty())
        return _changed(command, asked, progress) if command in _CHANGING else run_reader(command, asked, progress)
    except Usage as error:
        print(error, file=sys.stderr)
        if not words or "usage:" not in str(error):
            print(f"`{program} --help` says what there is", file=sys.stderr)
        return _USAGE


def _closed() -> None:
    """What wasn't written isn't tried once more at the end."""
    os.dup2(os.open(os.devnull, os.O_WRONLY), sys.stdout.fileno())


def run(program: str, words: list[str]) -> int:
    """The exit status. Where nobody reads the output any more, that is 4, as the program has it, and nothing is said of
    it; 130 where the user stops it."""
    if sys.stdout is None:
        print("there is no standard output", file=sys.stderr)
        return _INPUT
    try:
        status = _done(program, words)
        sys.stdout.flush()
        return status
    except KeyboardInterrupt:
        _closed()
        return _INTERRUPTED
    except (OSError, NotWritten) as failure:
        error = failure.__cause__ if isinstance(failure, NotWritten) else failure
        if isinstance(error, OSError) and not isinstance(error, BrokenPipeError):
            print(f"output: {error.strerror}", file=sys.stderr)
        _closed()
        return _INPUT
