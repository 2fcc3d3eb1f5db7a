"""Which fields tell a place. `c/edit.c` has the same rule."""
import re
from typing import Optional

from .._base_types import base_named
from .._numbers import BYTES, FLOAT, STRING
from .._read.values import Entry

_SINT32 = base_named("sint32").code
_MEASURED = {"semicircles", "semicircle", "deg", "degree", "degrees", "\u00b0"}
_EARTH = re.compile(r"(^|[^a-z])(lat|latitude|long|lon|lng|longitude)([^a-z]|$)", re.I)
_SPOT = re.compile(r"(^|[^a-z])(position|pos|location|place|gps|geo|coordinates?|address|city)([^a-z]|$)", re.I)
_ANGLE = re.compile(
    r"(^|[^a-z])(heading|course|bearing|azimuth|yaw|pitch|roll|tilt|lean|angle|slope|phase)([^a-z]|$)", re.I
)
# Texts of places that the profile of the library doesn't name: the location of weather_conditions.
_TEXTS = {(128, 8)}


def is_place(message: int, entry: Entry) -> bool:
    """Whether a field of a message tells a place:

    - a whole number of 32 bits with a sign, as latitudes and longitudes are kept, whatever it is called, also by the
      code that some devices write for it, without its highest bit; but for one with a unit of something else;
    - any other number of 32 or 64 bits, a text, or bytes, that is named as latitude or longitude;
    - a float in degrees that isn't named as an angle, and a float, text or bytes named as a position;
    - a text that is a place by its message and its number.
    """
    name, unit = entry.name or "", (entry.unit or "").lower()
    if entry.base & 0x1F == _SINT32 & 0x1F and (not unit or unit in _MEASURED):
        return True
    if entry.kind < STRING and entry.width < 4:
        return False
    if _EARTH.search(name):
        return True
    if entry.kind == FLOAT and unit in _MEASURED:
        return not _ANGLE.search(name)
    if entry.kind in (STRING, BYTES) and (message, _number(entry)) in _TEXTS:
        return True
    return entry.kind >= FLOAT and bool(_SPOT.search(name))


def _number(entry: Entry) -> Optional[int]:
    return entry.number if entry.index is None else None
