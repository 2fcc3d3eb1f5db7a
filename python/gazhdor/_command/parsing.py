"""The words of a command line."""
import argparse
import re
from typing import Any, NamedTuple, NoReturn, Optional

from .._write.edits import time_of
from .faults import Usage


class Command(NamedTuple):
    """What a command takes, and what it is for."""

    words: str
    summary: str


COMMANDS = {
    "check": Command("[-r] [--json] [FILE]..", "say whether files are FIT files, and where and why not"),
    "show": Command("[-r] [-o OUT] [FILE]..", "write the messages with names, units and times"),
    "table": Command("[-r] [-o OUT] [FILE]..", "write a row of CSV for each record: time, place, heart rate .."),
    "to-csv": Command("[-r] [-o OUT] [FILE]..", "write all of a file as CSV, of which from-csv makes it again"),
    "from-csv": Command("[-o OUT] [FILE]..", "make the FIT file that such a CSV describes"),
    "json": Command(
        "[-r] [-o OUT] [--extra] [--names TSV].. [--numbers | --ready] [FILE]..",
        "write a line of JSON for each message",
    ),
    "gpx": Command("[-r] [-o OUT] [FILE]..", "write the track as GPX"),
    "mend": Command("[-f] [--whole] [IN [OUT]]", "make a good file of one that was broken off or is damaged"),
    "edit": Command(
        "[--drop FIELD].. [--shift TIME] [--from TIME] [--to TIME] IN OUT",
        "write a copy with fields emptied, times moved, or a part alone",
    ),
    "join": Command("[--one] FILE FILE.. OUT", "write several files as one: as a chain, or as one activity"),
}
_READERS = ("check", "show", "table", "to-csv", "json", "gpx")
_SECONDS = {"d": 86400, "h": 3600, "m": 60, "s": 1}


class Parser(argparse.ArgumentParser):
    """A parser that raises what is wrong."""

    def error(self, message: str) -> NoReturn:
        raise Usage(f"{message}\n{self.format_usage().strip()}")


def seconds_of(word: str) -> int:
    """The seconds of a time to move by: 3600, -45, 1h30m, 2d, -1h5s."""
    told = re.fullmatch(r"([+-]?)(?:(\d+)|((?:\d+[dhms])+))", word, re.A)
    if not told:
        raise argparse.ArgumentTypeError(f"{word!r} is no time to move by, as 3600, 1h30m or -45s")
    parts = re.findall(r"(\d+)([dhms])", told[3] or f"{told[2]}s", re.A)
    letters = [letter for _, letter in parts]
    if sorted(set(letters), key="dhms".index) != letters:
        what = f"{word!r} is no time to move by: days, hours, minutes and seconds come in this order"
        raise argparse.ArgumentTypeError(what)
    total = sum(int(number) * _SECONDS[letter] for number, letter in parts)
    return -total if told[1] == "-" else total


def _time(word: str) -> int:
    try:
        return time_of(word)
    except ValueError as error:
        raise argparse.ArgumentTypeError(f"{word}: {error}") from None


def parser_of(program: str, command: str) -> Parser:
    """What understands the words after a command."""
    told, name = COMMANDS[command], f"{program} {command}"
    text = f"{told.summary[0].upper()}{told.summary[1:]}."
    parser = Parser(name, usage=f"{name} {told.words}", description=text, allow_abbrev=False)
    add = parser.add_argument
    if command in _READERS:
        what = "a FIT file, also one in a gzip or zip file; - is standard input, as is no FILE"
        add("files", nargs="*", metavar="FILE", help=what)
        add("-r", "--recursive", action="store_true", help="read the FIT files in folders, too")
    if command == "from-csv":
        add("files", nargs="*", metavar="FILE", help="a CSV text; - is standard input, as is no FILE")
    if command in ("show", "table", "to-csv", "json", "gpx", "from-csv"):
        add("-o", "--output", metavar="OUT", help="write to this file")
    _OWN.get(command, lambda add: None)(add)
    return parser


def _check(add: Any) -> None:
    add("--json", action="store_true", help="write a line of JSON for each FILE")


def _json(add: Any) -> None:
    what = "name the fields that the profile of the library hasn't, too"
    add("--extra", action="append_const", dest="names", const=None, help=what)
    add("--names", action="append", metavar="TSV", help="name fields and messages as this text says")
    add("--numbers", action="store_true", help="write numbers where there are words for them, as 2 for cycling")
    add("--ready", action="store_true", help="write values ready to use: times as texts, places in degrees")


def _mend(add: Any) -> None:
    what = "the file that is mended, and the one that is written; without OUT it is standard output"
    add("files", nargs="*", metavar="IN [OUT]", help=what)
    add("-f", "--force", action="store_true", help="write OUT also where it is there already")
    add("--whole", action="store_true", help="add the lap, the session and the activity that are lacking")


def _edit(add: Any) -> None:
    what = "the file that is read, and the one that is written; - is standard input, or output"
    add("files", nargs="*", metavar="IN OUT", help=what)
    what = "empty a field: FIELD, MESSAGE.FIELD, by names or numbers, or 'position', which is all places"
    add("--drop", action="append", default=[], metavar="FIELD", help=what)
    add("--shift", type=seconds_of, default=0, metavar="TIME", help="move all times, as 3600, 1h30m or -45s")
    add("--from", type=_time, dest="begin", metavar="TIME", help="leave out what is before, as 2026-05-17T07:30:00Z")
    add("--to", type=_time, dest="end", metavar="TIME", help="leave out what is after")


def _join(add: Any) -> None:
    add("files", nargs="*", metavar="FILE FILE.. OUT", help="the files that are joined, and the one that is written")
    add("--one", action="store_true", help="make one activity of them, with distances that go on")


_OWN = {"check": _check, "json": _json, "mend": _mend, "edit": _edit, "join": _join}


def parsed(program: str, command: str, words: list[str]) -> argparse.Namespace:
    """What the words after a command say. It raises Usage for what isn't understood."""
    end = words.index("--") if "--" in words else len(words)
    front, rest = _with_values(words[:end]), words[end + 1 :]
    asked = parser_of(program, command).parse_intermixed_args(front)
    asked.files = [*asked.files, *rest]
    return asked


def _with_values(words: list[str]) -> list[str]:
    """The words, --shift together with the next one, which may begin with a minus."""
    made: list[str] = []
    for word in words:
        if made and made[-1] == "--shift":
            made[-1] = f"--shift={word}"
        else:
            made.append(word)
    return made


def usage_of(program: str) -> str:
    """The help of the whole."""
    width = max(map(len, COMMANDS)) + 2
    lines = "".join(f"  {name:{width}}{told.summary}\n" for name, told in COMMANDS.items())
    more = f"`{program} COMMAND --help` says more of a command.\n"
    statuses = "Exit status: 0 good; 1 refused or truncated; 2 words not understood; 3 out of memory;\n"
    statuses += "4 not opened, not read or not written; 130 stopped.\n"
    return f"usage: {program} COMMAND [OPTION].. [FILE]..\n\n{lines}\n{more}{statuses}"


def wanted(told: Optional[str]) -> str:
    """A command that there is."""
    if told not in COMMANDS:
        raise Usage(f"there is no command {told!r}" if told else "a command is missing")
    return str(told)
