"""Measures what the module gazhdor writes: writes.py FILE KIND ROUNDS

It prints rows of the last table of bench/blocks: blocks to bytes, a million rows by columns, and each message of FILE copied, copied with two
other values, and written by its values. Times are processor time of this process; of each the best counts. What comes out is compared first."""
import io
import random
import sys
import time

import gazhdor

PATH, KIND, ROUNDS = sys.argv[1], sys.argv[2], int(sys.argv[3])
ROWS = 1_000_000
with open(PATH, "rb") as file:
    DATA = file.read()


def copied(change):
    sink = io.BytesIO()
    with gazhdor.Writer(sink) as out:
        for event in gazhdor.messages(DATA, everything=True):
            out.copy(change(event) if isinstance(event, gazhdor.Message) else event)
    return sink.getvalue()


def without_place(message):
    return message.replace(position_lat=None, heart_rate=121) if "position_lat" in message and "heart_rate" in message else message


def by_values():
    sink, made = io.BytesIO(), {}
    with gazhdor.Writer(sink) as out:
        for event in gazhdor.messages(DATA, everything=True):
            if isinstance(event, gazhdor.FileHeader):
                out.file(event.protocol, event.profile, event.size, event.checksum, event.more)
            elif isinstance(event, gazhdor.DefinitionMessage):
                made[event.local] = out.define(event.number, event.fields, event.local, event.big, event.reserved, event.says_developers)
                made[event.local].begin()
            elif isinstance(event, gazhdor.Message):
                made[event.local].write({**dict(event), ".time_offset": event.time_offset})
    return sink.getvalue()


def columns():
    r = random.Random(1)
    found = {"timestamp": [10**9 + k for k in range(ROWS)], "heart_rate": [r.randrange(200) for _ in range(ROWS)], "power": [r.randrange(500) for _ in range(ROWS)]}
    found.update({"altitude": [round(r.uniform(0, 1000), 1) for _ in range(ROWS)], "distance": [r.uniform(0, 1e6) for _ in range(ROWS)], "speed": [r.uniform(0, 30) for _ in range(ROWS)]})
    return found


def by_columns(found):
    sink = io.BytesIO()
    with gazhdor.Writer(sink) as out:
        out.define("record", list(found)).columns(found)
    return sink.getvalue()


def took(work):
    best = None
    for _ in range(ROUNDS):
        start = time.process_time()
        work()
        used = time.process_time() - start
        best = used if best is None else min(best, used)
    return best


def row(what, of, work):
    print(f"| {what} | {of} | {took(work):.2f} s |")


def main():
    of = f"{KIND}, {len(DATA) / 1e6:.1f} MB"
    blocks = gazhdor.blocks(DATA)
    assert gazhdor.from_blocks(blocks) == copied(lambda message: message) == by_values() == DATA
    row("`from_blocks`", of, lambda: gazhdor.from_blocks(blocks))
    row("`copy` of each message", of, lambda: copied(lambda message: message))
    row("`copy` of each record with two other values", of, lambda: copied(without_place))
    row("`write` of each message by its values", of, by_values)
    if KIND != "plain":
        return
    lists = columns()
    row("`columns` of lists", "a million rows of six fields", lambda: by_columns(lists))
    try:
        import numpy
    except ImportError:
        return
    arrays = {key: numpy.array(column) for key, column in lists.items()}
    assert by_columns(arrays) == by_columns(lists)
    row("`columns` of arrays", "a million rows of six fields", lambda: by_columns(arrays))


main()
