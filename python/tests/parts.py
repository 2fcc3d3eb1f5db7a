"""Parts of recordings, and what the tests of these read of them."""
import collections
import functools
import io

import support  # noqa: F401, it has gazhdor found

import gazhdor

PLACES = 20
DESCRIPTION = 206
STAYS = (0, DESCRIPTION, 207)  # file_id, and what describes developer fields


def part(data, begin, end):
    """The bytes of a part; None where no record is in it."""
    sink = io.BytesIO()
    try:
        gazhdor.edit(data, sink, begin=begin, end=end)
    except ValueError as error:
        assert str(error) == "no record has a time in that span", error
        return None
    return sink.getvalue()


def joined(parts):
    sink = io.BytesIO()
    gazhdor.join(parts, sink, one=True)
    return sink.getvalue()


@functools.lru_cache(maxsize=100)
def messages(data):
    """The messages of a file, by their names."""
    found = collections.defaultdict(list)
    for message in gazhdor.messages(data, names=gazhdor.EXTRA):
        found[message.name].append(message)
    return found


def of(data, name):
    return messages(data).get(name, [])


def beats(data):
    return [time for message in of(data, "hrv") for time in message.values("time")]


def counted(records):
    """The cycles and watts that records are told of all before them: by a field, or as a reader accumulates them."""
    return [(cycles if cycles is not None else m.total_cycles, power if power is not None else m.accumulated_power)
        for m, cycles, power in ((m, m.get(19), m.get(29)) for m in records)]


def timed(records):
    """What records with a time say, in the order of their times; a time in a header may have become a timestamp."""
    found = [m for m in records if m.seconds is not None]
    return sorted(
        (m.seconds, repr({key: value for key, value in m.items() if key not in ("distance", "timestamp")}))
        for m in found
    )


def whole(record):
    """All that a record says but for its distance, and what is written of what was accumulated; the time of a header
    may have become a timestamp."""
    fields = [(f.number, f.developer, f.name, f.unit, f.base, repr(f.raw)) for f in record.fields]
    left_out = ((253, None), (5, None), (19, None), (29, None))
    return record.seconds, repr([field for field in fields if field[:2] not in left_out])


def ran(data):
    """The seconds in which the timer ran up to each of some times, by the events."""
    events = [(m.seconds, m["event_type"]) for m in of(data, "event") if m.get("event") == 0]
    if not events:
        return lambda time: time

    def up_to(time):
        total, since = 0, None
        for at, kind in events:
            if at > time:
                break
            if kind == 0:
                since = at if since is None else since
            elif since is not None:
                total, since = total + at - since, None
        return total + (time - since if since is not None else 0)

    return up_to


def places(times, r, always):
    """Seconds at which a recording is cut: at random times of its records, and where these are few, at all of them but
    the first, and `always` at others from before them to after them."""
    cuts = set(r.sample(times[1:], min(PLACES, len(times) - 1))) if times else set()
    while always and times and len(cuts) < PLACES:
        cuts.add(r.randrange(max(times[0] - PLACES, 1), times[-1] + PLACES))
    return sorted(cuts)


def cut(data, r, always=True):
    """The parts of a recording that is cut at 20 places, with the spans; the whole of one without times."""
    cuts = places(sorted({m.seconds for m in of(data, "record") if m.seconds is not None}), r, always)
    spans = list(zip([None, *cuts], [*(cut - 1 for cut in cuts), None]))
    found = [(span, part(data, *span)) for span in spans]
    return [(span, made) for span, made in found if made is not None]


def inside(data, span):
    """Whether all messages with a time are of the span; file_id and descriptions have none of their own."""
    begin, end = span
    times = [m.seconds for found in messages(data).values() for m in found
        if m.seconds is not None and m.number not in STAYS]
    return not times or (begin is None or min(times) >= begin) and (end is None or max(times) <= end)


def undescribed(data):
    """The developer fields that messages have before their file describes them."""
    found, described, file = set(), set(), None
    for message in gazhdor.messages(data, names=gazhdor.EXTRA):
        if message.file != file:
            described, file = set(), message.file
        if message.number == DESCRIPTION:
            described.add((message["developer_data_index"], message["field_definition_number"]))
        own = {(field.developer, field.number) for field in message.fields if field.developer is not None}
        found |= own - described
    return found


def laps_ran(data):
    return sum(m.get("total_timer_time", m.get("total_elapsed_time", 0)) for m in of(data, "lap"))


def sessions_ran(data):
    return sum(m["total_timer_time"] for m in of(data, "session"))


def metres(records):
    """From the first distance that records tell to the last one; 0 where none is told."""
    told = [m.distance for m in records if m.distance is not None]
    return told[-1] - told[0] if told else 0
