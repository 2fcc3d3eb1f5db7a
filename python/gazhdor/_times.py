"""Times of the FIT protocol, in seconds since 1989-12-31T00:00:00 UTC."""
import datetime
from typing import Optional, Union

from ._numbers import AT_MESSAGE_HEADER_TIME, AT_MESSAGE_TIME, NO_TIME

Time = Union[datetime.datetime, str]

EPOCH = datetime.datetime(1989, 12, 31, tzinfo=datetime.timezone.utc)
# Where the block of a message has its time, and that of its compressed header; and what stands there for none.
OWN_TIME = slice(AT_MESSAGE_TIME, AT_MESSAGE_TIME + 4)
HEADER_TIME = slice(AT_MESSAGE_HEADER_TIME, AT_MESSAGE_HEADER_TIME + 4)
NO_TIME_BYTES = NO_TIME.to_bytes(4, "little")
# What is counted from the epoch, up to the last second of the year 9999.
_MOST = int((datetime.datetime.max.replace(tzinfo=datetime.timezone.utc) - EPOCH).total_seconds())
SYSTEM_TIMES = 0x10000000  # A time below is the device's own, which didn't know the time of day.


def when(seconds: Optional[int]) -> Optional[Time]:
    """Returns the time that a field of type date_time stands for, in seconds since 1989-12-31T00:00:00 UTC: an aware
    datetime in UTC; below 268,435,456 the text 'system+N', as the device didn't know the time. None stands for None,
    and for what is no time, as a number below 0 or one of the year 10,000."""
    if seconds is None or not 0 <= seconds < _MOST:
        return None
    return f"system+{seconds}" if seconds < SYSTEM_TIMES else EPOCH + datetime.timedelta(0, seconds)
