#!/usr/bin/env python3
"""Takes the places out of a FIT file: python3 anonymise.py RIDE INTO

It empties each field that tells a place, as `edit --drop position` does, in all messages: besides `position_lat` and `position_long` of the
records, boxes around sessions and laps, starts, ends and marked points have places too, many in fields and messages that no profile names.
It says which fields it has emptied, and leaves all else: times, altitude, texts such as the names of routes, serial numbers, and bytes of
which nobody says what they are. So have a look at the result, by `fit to-csv`, before you give it away.
"""
import io
import sys

import gazhdor


def anonymised(source):
    """The bytes of a FIT file, or chain of files, without places, and how many values of each field are emptied."""
    into = io.BytesIO()
    counts = gazhdor.edit(source, into, drop="position")
    return into.getvalue(), counts


def main():
    if len(sys.argv) != 3:
        sys.exit(__doc__)
    data, counts = anonymised(sys.argv[1])
    with open(sys.argv[2], "xb") as file:
        file.write(data)
    for (message, field), count in sorted(counts.items()):
        print(f"emptied: {message} {field}, {count} times")
    print("left: times, altitude, texts, serial numbers, and bytes of which nobody says what they are")


if __name__ == "__main__":
    main()
