"""The track of a ride as GPX 1.1, a text that maps and other programs read."""
import csv
import re
from collections.abc import Iterator
from typing import Any, Optional

from .._library import VERSION
from .._sources import Source
from ..errors import FitError
from .messages import Message
from .streams import Stream, checked_pieces

_HEAD = f"""<?xml version="1.0" encoding="UTF-8"?>
<gpx version="1.1" creator="gazhdor {VERSION}" xmlns="http://www.topografix.com/GPX/1/1" \
xmlns:gpxtpx="http://www.garmin.com/xmlschemas/TrackPointExtension/v1" \
xmlns:pwr="http://www.garmin.com/xmlschemas/PowerExtension/v1">
"""
_BEGIN, _NEXT, _END, _FOOT = "<trk><trkseg>\n", "</trkseg><trkseg>\n", "</trkseg></trk>\n", "</gpx>\n"
# Numbers of the profile: messages, the event of the timer, and its types.
_RECORD, _EVENT, _TIMER, _START, _STOPS = 20, 21, 0, 0, (1, 4, 8, 9)
_DECIMAL = re.compile(r"-?\d+(\.\d+)?", re.A).fullmatch
_TIME = re.compile(r"\d{4}-\d\d-\d\dT\d\d:\d\d:\d\dZ", re.A).fullmatch


def _number(cell: str, least: float, most: float) -> Optional[str]:
    """The cell, where it is a number that may be there."""
    return cell if _DECIMAL(cell) and least <= float(cell) <= most else None


def _element(name: str, text: Optional[str]) -> str:
    return "" if text is None else f"<{name}>{text}</{name}>"


def _point(cells: list[str]) -> str:
    """The point of a row of the table; an empty text where it has no place on the earth."""
    lat, long = _number(cells[2], -90, 90), _number(cells[3], -180, 180)
    if lat is None or long is None:
        return ""
    more = _element("gpxtpx:atemp", _number(cells[10], -273.15, 1e6))
    more += _element("gpxtpx:hr", _number(cells[7], 1, 255)) + _element("gpxtpx:cad", _number(cells[8], 0, 254))
    more = f"<gpxtpx:TrackPointExtension>{more}</gpxtpx:TrackPointExtension>" if more else ""
    more += _element("pwr:PowerInWatts", _number(cells[9], 0, 65534))
    more = f"<extensions>{more}</extensions>" if more else ""
    time = _element("time", cells[1] if _TIME(cells[1]) else None)
    return f'<trkpt lat="{lat}" lon="{long}">{_element("ele", _number(cells[4], -1e6, 1e6))}{time}{more}</trkpt>\n'


class _Timer:
    """Whether the timer of a ride was stopped, and has begun again."""

    def __init__(self) -> None:
        self._is_stopped = self._begins = False

    def take(self, event: Message) -> None:
        if event.get(0) == _TIMER and event.get(1) == _START:
            self._begins = self._begins or self._is_stopped
            self._is_stopped = False
        elif event.get(0) == _TIMER and event.get(1) in _STOPS:
            self._is_stopped = True

    def has_begun(self) -> bool:
        """Whether it has begun again since this was asked before."""
        begins, self._begins = self._begins, False
        return begins


def _made(stream: Stream[Any], piece: Optional[bytes]) -> tuple[Any, Optional[FitError]]:
    """What a stream makes of a piece, and what is wrong with it."""
    try:
        return (stream.finish() if piece is None else stream.feed(piece)), None
    except FitError as fault:
        return fault.before, fault


def _told(source: Source, partial: bool) -> Iterator[tuple[Message, list[str]]]:
    """The events of the timer, and the records, each with its row of the table."""
    table, told = Stream("table"), Stream("messages", only=(_RECORD, _EVENT))
    is_first = True
    for piece in checked_pieces(source, partial):
        text, fault = _made(table, piece)
        rows = csv.reader(text.splitlines()[is_first and bool(text) :])
        is_first = is_first and not text
        for message in _made(told, piece)[0]:
            yield message, next(rows) if message.number == _RECORD else []
        if fault:
            raise fault


def parts(source: Source, partial: bool = False) -> Iterator[str]:
    """The text, part by part. A fault is raised after its end."""
    fault: Optional[FitError] = None
    yield _HEAD
    file = track = 0
    timer, is_empty = _Timer(), True
    try:
        for message, cells in _told(source, partial):
            if message.file != file:
                file, timer = message.file, _Timer()
            if message.number == _EVENT:
                timer.take(message)
                continue
            if message.file != track:
                yield (_END if track else "") + _BEGIN
                track, is_empty = message.file, True
            point = _point(cells)
            if point and timer.has_begun() and not is_empty:
                yield _NEXT
            is_empty = is_empty and not point
            yield point
    except FitError as error:
        fault = error
    yield (_END if track else "") + _FOOT
    if fault:
        raise fault


def gpx(source: Source, partial: bool = False) -> str:
    """Returns the track of the record messages as GPX 1.1: a track for each file, a segment for each stretch from a
    start of the timer to a stop, and a point for each message that has a place, with altitude and time, and
    temperature, heart rate, cadence and power as extensions that Garmin defined. `partial` as for `table_text`."""
    made: list[str] = []
    try:
        made.extend(parts(source, partial))
    except FitError:
        if not partial:
            raise
    return "".join(made)
