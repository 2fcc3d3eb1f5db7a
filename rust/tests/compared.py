#!/usr/bin/env python3
"""Makes what the tests of Rust compare with: compared.py FOLDER COUNT FILE..

Into the folder come these files, random activities of that count, what the module of Python makes of the first of them by edit, join, mend, gpx and
activity, and compared.tsv: a line for each call, with its inputs, its options, and the file that it made, which is none where it raised."""
import os
import random
import sys

TREE = os.path.dirname(os.path.dirname(os.path.dirname(os.path.abspath(__file__))))
sys.path[:0] = [os.path.join(TREE, "python"), os.path.join(TREE, "python", "tests"), os.path.join(TREE, "js", "tests")]
sys.dont_write_bytecode = True
import gazhdor  # noqa: E402
from activities import activity, strayed  # noqa: E402
from edited import Calls, add  # noqa: E402

COMPARED = 12  # of so many activities all calls are compared
SAMPLED = ("timestamp", "distance", "heart_rate", "altitude", "position_lat", "position_long", "power")
SPORTS = ("cycling", "running", "swimming", "generic")


def samples(r):
    """The columns of an activity by their names: whole numbers, some of them none."""
    count, time = r.randrange(1, 40), 1147937400
    rows, steps = [], [r.randrange(1, 9) for _ in range(count)]
    for step in steps:
        time += step
        rows.append([time, r.randrange(9000), r.randrange(40, 220), r.randrange(-400, 4000), r.randrange(-(2**30), 2**30),
            r.randrange(-(2**30), 2**30), r.randrange(500)])
    names = ["timestamp", *r.sample(SAMPLED[1:], r.randrange(1, len(SAMPLED)))]
    at = {name: SAMPLED.index(name) for name in names}
    return {name: [row[at[name]] if name == "timestamp" or r.random() < 0.9 else None for row in rows] for name in names}


def sample(calls, r, number):
    """The call of activity for random samples, which are written as lines of a text."""
    columns, sport, name = samples(r), r.choice(SPORTS), f"samples-{number}.tsv"
    lines = ("\t".join([field, *("" if value is None else str(value) for value in values)]) for field, values in columns.items())
    calls.put(name, "\n".join(lines).encode())
    calls.take("activity", [name], lambda: gazhdor.activity(columns, sport=sport), sport=sport)


def line(told):
    options = {key: value for key, value in told["options"].items() if value not in (0, False)}
    words = [f"{key}={','.join(value) if isinstance(value, (list, tuple)) else value}" for key, value in options.items()]
    return "\t".join([told["call"], ",".join(told["inputs"]), told.get("made", ""), *words])


def main():
    folder, count, *paths = sys.argv[1:]
    calls, r, names = Calls(folder), random.Random(11), []
    for path in paths:
        with open(path, "rb") as file:
            data = file.read()
        names.append(os.path.basename(path))
        add(calls, r, names[-1], data)
    for number in range(int(count)):
        data = activity(number)
        calls.put(f"activity-{number}.fit", data)
        if number < COMPARED:
            names.append(f"activity-{number}.fit")
            add(calls, r, names[-1], data)
            calls.take("mend", [names[-1]], lambda data=data: gazhdor.mend(data))
            add(calls, r, f"strayed-{number}.fit", strayed(number)[0])
            sample(calls, r, number)
    for name in names:
        with open(os.path.join(folder, name), "rb") as file:
            data = file.read()
        calls.take("gpx", [name], lambda data=data: gazhdor.gpx(data).encode())
        calls.take("gpx", [f"short-{name}"], lambda name=name: gazhdor.gpx(os.path.join(folder, f"short-{name}"), partial=True).encode(), partial=True)
    with open(os.path.join(folder, "compared.tsv"), "w", encoding="utf-8") as file:
        file.writelines(line(told) + "\n" for told in calls.told)


main()
