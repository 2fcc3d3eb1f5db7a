"""An activity of samples, in one call."""
import io
from collections.abc import Mapping
from typing import Any, Optional, Union

from .._names import Told
from .._read.columns import lists
from .item_columns import listed
from .sinks import Sink, sink_of, write
from .wholes import completed
from .writer import Writer

_ACTIVITY, _DEVELOPMENT = 4, 255  # of file_id: its type, and the manufacturer of what isn't sold
_TIMER, _START, _STOP_ALL = 0, 0, 4


def activity(
    columns: Mapping[Any, Any], sport: Union[str, int] = "generic", sink: Optional[Sink] = None, names: Told = None
) -> bytes:
    """Returns the bytes of the FIT file of an activity: a file_id, the start and the end of the timer, a record for
    each row, a lap, a session and an activity message, which say what the records come to. With `sink` it is also
    written there.

    `columns` are those of the records, as for `Definition.columns`, by the names of fields: a mapping of lists or
    arrays, or a DataFrame. "timestamp" has to be one, in the order of time. `sport` is a word or a number of the
    profile, as "cycling". A value that doesn't fit is a `WrongValue`, with its row, and so is a sport."""
    target = None if sink is None else sink_of(sink)
    _see_sport(sport)
    found = listed(dict(columns))
    times = found.get("timestamp")
    if times is None or not len(times):
        raise ValueError("an activity has a timestamp for each of its records, and one record or more")
    made = io.BytesIO()
    with Writer(made, names) as out:
        out.write("file_id", type=_ACTIVITY, manufacturer=_DEVELOPMENT, time_created=times[0])
        out.write("event", timestamp=times[0], event=_TIMER, event_type=_START)
        out.define("record", list(found)).columns(found)
        out.write("event", timestamp=times[-1], event=_TIMER, event_type=_STOP_ALL)
    _see_times(lists(made.getvalue(), "record", [".seconds"])[".seconds"])
    data = completed(made.getvalue(), {"sport": sport})
    if target is not None:
        write(target, data)
    return data


def _see_sport(sport: Union[str, int]) -> None:
    """Raises WrongValue for what a session can't have as its sport."""
    with Writer(io.BytesIO()) as out:
        out.write("session", sport=sport)


def _see_times(seconds: list[Optional[int]]) -> None:
    """Raises ValueError for times that aren't there, or go back."""
    last = 0
    for row, time in enumerate(seconds):
        if time is None or time < last:
            what = "has no timestamp" if time is None else "comes before the one before it"
            raise ValueError(f"row {row} {what}: the records of an activity are in the order of their times")
        last = time
