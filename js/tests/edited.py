#!/usr/bin/env python3
"""Makes recordings, and what the module of Python makes of these and of others by edit, join and mend: edited.py FOLDER FILE..

Into the folder come 50 random activities, what is made, and edited.json: a list of calls, each with its inputs, its options, and the file that it made or
the kind of its fault."""
import io
import json
import os
import random
import sys

TREE = os.path.dirname(os.path.dirname(os.path.dirname(os.path.abspath(__file__))))
sys.path[:0] = [os.path.join(TREE, "python"), os.path.join(TREE, "python", "tests")]
sys.dont_write_bytecode = True
import gazhdor  # noqa: E402
from activities import activity, strayed  # noqa: E402

ACTIVITIES = 50
DROPS = (["position"], ["heart_rate"], ["record.heart_rate", "lap.9", "hrv.0"], ["20.5", "position", "total_distance"], ["position_lat"])


class Calls:
    """What the calls of Python make, into a folder."""

    def __init__(self, folder):
        self.folder, self.told = folder, []

    def put(self, name, data):
        with open(os.path.join(self.folder, name), "wb") as file:
            file.write(data)

    def take(self, call, inputs, make, **options):
        """Makes a call, and returns what it made."""
        told = {"call": call, "inputs": inputs, "options": options}
        try:
            data = make()
            told["made"] = f"made-{len(self.told)}.fit"
            self.put(told["made"], data)
        except (ValueError, KeyError) as error:
            told["fault"], data = type(error).__name__, None
        self.told.append(told)
        return told.get("made")

    def edit(self, name, data, **options):
        def make():
            sink = io.BytesIO()
            gazhdor.edit(data, sink, **options)
            return sink.getvalue()

        return self.take("edit", [name], make, **options)

    def join(self, names, one):
        def make():
            sink = io.BytesIO()
            sources = [os.path.join(self.folder, name) for name in names]
            gazhdor.join(sources, sink, one=one)
            return sink.getvalue()

        return self.take("join", names, make, one=one)


def times_of(data):
    return sorted({message.seconds for message in gazhdor.messages(data, only="record") if message.seconds})


def add(calls, r, name, data):
    """The calls for one file."""
    calls.put(name, data)
    times = times_of(data)
    calls.edit(name, data)
    for drop in DROPS:
        calls.edit(name, data, drop=drop)
    calls.edit(name, data, shift=r.choice((3600, -45, 7, 31)))
    for _ in range(3 if times else 0):
        at = r.choice(times) + r.choice((0, 0, 1))
        first = calls.edit(name, data, end=at)
        second = calls.edit(name, data, begin=at + 1, shift=0)
        calls.edit(name, data, begin=r.choice(times), end=at + r.randrange(50), drop=r.choice(DROPS), shift=r.choice((0, 60)))
        if first and second:
            calls.join([first, second], True)
            calls.join([first, second], False)
    calls.take("mend", [name], lambda: gazhdor.mend(data, whole=True), whole=True)
    short = data[: r.randrange(len(data) // 2, len(data))]
    calls.put(f"short-{name}", short)
    calls.take("mend", [f"short-{name}"], lambda: gazhdor.mend(short, whole=True), whole=True)


def main():
    folder, *paths = sys.argv[1:]
    calls, r = Calls(folder), random.Random(7)
    for path in paths:
        with open(path, "rb") as file:
            add(calls, r, os.path.basename(path), file.read())
    names = []
    for k in range(ACTIVITIES):
        names.append(f"activity-{k}.fit")
        add(calls, r, names[-1], activity(k))
        add(calls, r, f"strayed-{k}.fit", strayed(k)[0])
    for k in range(0, ACTIVITIES, 2):
        calls.join(names[k : k + 2], True)
        calls.join(names[k : k + 2], False)
    with open(os.path.join(folder, "edited.json"), "w", encoding="utf-8") as file:
        json.dump(calls.told, file)


if __name__ == "__main__":
    main()
