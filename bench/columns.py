"""Measures columns of the module gazhdor for each record: columns.py FILE KIND ROUNDS

It prints rows of the second table of bench/blocks. Times are processor time of this process; of each the best counts. Values are compared first
with those of messages, one after another, which are measured by turns with them."""
import sys
import time

import gazhdor
from gazhdor._read.json_lines import line

PATH, KIND, ROUNDS = sys.argv[1], sys.argv[2], int(sys.argv[3])
THREE = ["timestamp", "heart_rate", "speed"]
RECORDS = len(gazhdor.lists(PATH, "record", [".place"])[".place"])
ALL = list(gazhdor.lists(PATH, "record"))


def sum_of(columns):
    """The sum of all numbers of some columns, but of the time: of lists of numbers each of them."""
    total = 0.0
    for key, column in columns.items():
        for value in column if key != "timestamp" else ():
            values = value if isinstance(value, tuple) else (value,)
            total += sum(number for number in values if number is not None and number == number)
    return total


def of_messages(keys):
    """What `lists` has, by messages."""
    messages = list(gazhdor.messages(PATH, only="record"))
    return {key: [message.get(key) for message in messages] for key in keys}


def took(work):
    start = time.process_time()
    work()
    return 1e6 * (time.process_time() - start) / RECORDS


def row(what, work, keys=ALL):
    if abs(sum_of(work()) - sum_of(of_messages(keys))) > 1e-9 * abs(sum_of(of_messages(keys))):
        sys.exit(f"columns.py: {what}: not the same as by messages")
    one, other = map(min, zip(*((took(work), took(lambda: of_messages(keys))) for _ in range(ROUNDS))))
    print(f"| {what} | {KIND} | {one:.2f} µs | {other:.2f} µs |", flush=True)


row("`lists`, all fields", lambda: gazhdor.lists(PATH, "record"))
row("`lists`, three fields", lambda: gazhdor.lists(PATH, "record", THREE), THREE)
try:
    import numpy
except ModuleNotFoundError:
    print("bench/blocks: there is no numpy, so its rows are left out", file=sys.stderr)
else:
    row("`columns`, all fields", lambda: gazhdor.columns(PATH, "record"))
    row("`columns`, three fields", lambda: gazhdor.columns(PATH, "record", THREE), THREE)
best = min(took(lambda: [line(message) for message in gazhdor.messages(PATH, only="record")]) for _ in range(ROUNDS))
print(f"| a line of JSON | {KIND} | {best:.2f} µs | |", flush=True)
