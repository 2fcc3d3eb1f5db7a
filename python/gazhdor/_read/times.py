"""The times that fields have."""
import datetime
from typing import Any, Optional

from .._times import Time, when
from .values import Entry


def time_of(entry: Entry, block: bytes) -> Optional[Time]:
    """The time of a field that is one: one by the clock of the place has no zone."""
    seconds: Any = entry.read(block)
    time = when(seconds)
    if entry.type == "local_date_time" and isinstance(time, datetime.datetime):
        return time.replace(tzinfo=None)
    return time
