"""What an activity lacks that was broken off, or has samples alone: laps, a session, the activity message."""
import io
from typing import Any, Optional

from .._names import EXTRA
from .._read.events import FileEnd
from .._read.streams import Files, chained
from .summaries import RECORD, SESSION_ENDS, Anew, Outline, Ride, activity_of, outlines
from .writer import Copies, Writer


def _lacking(ride: Ride, sport: Optional[dict[str, Any]]) -> list[Anew]:
    """The messages that a file lacks: none where it has a session, or no record with a time."""
    told = ride.told
    if ride.all.start is None or len(told.sessions):
        return []
    start, end, count = ride.all.start, ride.all.end, len(told.laps)
    # laps that go on after the last record are those of a file that has more, and was broken off
    is_cut = told.laps.last is not None and told.laps.last > end
    last = ride.last_lap(count)
    made = [last] if last else []
    of_laps = told.laps_ran + sum(lap.values["total_timer_time"] for lap in made)
    ran = float(told.timer.ran(start, end)) if is_cut else float(of_laps)
    counts = {"first_lap_index": 0, "num_laps": count + len(made)}
    values = {"message_index": 0, **ride.all.told(start, end, ran), **(sport or told.sport), **counts}
    made.append(Anew("session", {**values, **SESSION_ENDS}))
    return made if told.activity is not None else [*made, activity_of(end, 1, ran, told.zone)]


def completed(data: bytes, sport: Optional[dict[str, Any]] = None) -> bytes:
    """The files of a chain, each with the lap, the session and the activity message that it lacks."""
    sink = io.BytesIO()
    with Copies(sink, EXTRA) as out:
        for some in chained(data):
            _complete(Files(some), sport, out)
    return sink.getvalue()


def _complete(files: Files, sport: Optional[dict[str, Any]], out: Writer) -> None:
    told = outlines(files)
    rides: dict[int, Ride] = {}
    for record in files.messages(RECORD):
        if record.file not in rides:
            rides[record.file] = Ride(told.get(record.file, Outline()))
        rides[record.file].take(record)
    for event in files.events():
        if isinstance(event, FileEnd) and event.file in rides:
            for anew in _lacking(rides[event.file], sport):
                anew.write(out)
        out.copy(event)
