#!/usr/bin/env python3
"""Puts the heart rates of a second file into a ride: python3 merge_heart_rates.py RIDE OTHER INTO [SECONDS]

As where a strap was paired with another watch. Each record of the ride gets the heart rate that the second file has nearest to its time, not
further from it than 5 SECONDS, and keeps its own where there is none. A record without that field gets one. All else keeps its bytes; laps and
sessions keep the heart rates that they have.
"""
import bisect
import sys

import gazhdor

HEART_RATE, RECORD = 3, 20


class Rates:
    """The heart rates of a file by their times."""

    def __init__(self, source, most):
        columns = gazhdor.lists(source, "record", [".seconds", "heart_rate"])
        found = sorted((time, rate) for time, rate in zip(columns[".seconds"], columns["heart_rate"]) if time is not None and rate is not None)
        self.times, self.rates, self.most = [time for time, _ in found], [rate for _, rate in found], most

    def at(self, time):
        """The rate that is nearest to a time, or None."""
        if time is None:
            return None
        place = bisect.bisect_left(self.times, time)
        near = [(abs(self.times[at] - time), at) for at in (place - 1, place) if 0 <= at < len(self.times)]
        distance, at = min(near, default=(self.most + 1, 0))
        return self.rates[at] if distance <= self.most else None


def merge(ride, other, into, most=5):
    """Writes the ride with the heart rates of the other file, and returns how many records got one."""
    rates, count, wider = Rates(other, most), 0, {}
    with gazhdor.Writer(into) as out:
        for event in gazhdor.messages(ride, everything=True):
            if isinstance(event, gazhdor.DefinitionMessage):
                wider.pop(event.local, None)
                if event.number == RECORD and all(field.key != HEART_RATE for field in event.fields):
                    wider[event.local] = out.define(event.number, [*event.fields, "heart_rate"], event.local, event.big, event.reserved)
                    continue
            if isinstance(event, gazhdor.Message) and event.number == RECORD:
                rate = rates.at(event.seconds)
                count += rate is not None
                if event.local in wider:
                    values = {field.number if field.developer is None else (field.developer, field.number): field.value for field in event.fields}
                    wider[event.local].write({**values, HEART_RATE: rate, ".time_offset": event.time_offset})
                    continue
                if rate is not None:
                    event = event.replace(heart_rate=rate)
            out.copy(event)
    return count


def main():
    if len(sys.argv) not in (4, 5):
        sys.exit(__doc__)
    count = merge(*sys.argv[1:4], *map(int, sys.argv[4:]))
    print(f"{count} records have a heart rate of {sys.argv[2]}")


if __name__ == "__main__":
    main()
