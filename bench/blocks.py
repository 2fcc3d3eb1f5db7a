"""Measures messages and columns of the module gazhdor beside reading its texts: blocks.py FILE KIND ROUNDS

It prints rows of the table of bench/blocks. Times are processor time of this process; of each the best counts, and the two of a row are
measured by turns. What comes out of the two is compared first."""
import csv
import io
import sys
import time

import gazhdor

PATH, KIND, ROUNDS = sys.argv[1], sys.argv[2], int(sys.argv[3])
COLUMNS = ["altitude", "distance", "speed", "heart_rate", "cadence", "power", "temperature"]
with open(PATH, "rb") as file:
    DATA = file.read()


def sum_of(values):
    return sum(value for value in values if value is not None)


def by_messages():
    """The sum of a field of all records."""
    return sum_of(message.get("heart_rate") for message in gazhdor.messages(PATH, only="record"))


def by_rows():
    """The same of the rows of `to_csv`."""
    record, total = False, 0.0
    for row in csv.reader(io.StringIO(gazhdor.to_csv(PATH))):
        if row[0] == "data":
            record = row[3] == "record"
        elif record and row[0] == "field" and row[1] == "heart_rate" and row[2]:
            total += float(row[2])
    return total


def by_lists():
    """The sum of seven columns."""
    return sum(sum_of(column) for column in gazhdor.lists(PATH, "record", COLUMNS).values())


def by_table():
    return sum(sum_of(row[4:]) for row in gazhdor.table(PATH))


def by_columns():
    numpy = sys.modules["numpy"]
    return sum(numpy.nansum(column) for column in gazhdor.columns(PATH, "record", COLUMNS).values())


def by_pandas():
    pandas = sys.modules["pandas"]
    return pandas.read_csv(io.StringIO(gazhdor.table_text(PATH)))[COLUMNS].sum().sum()


def took(work):
    start = time.process_time()
    work()
    return time.process_time() - start


def row(what, one, beside, other):
    if abs(one() - other()) > 1e-9 * abs(other()):
        sys.exit(f"blocks.py: {what}: not the same as {beside}")
    best = [min(times) for times in zip(*((took(one), took(other)) for _ in range(ROUNDS)))]
    size = len(DATA) / 1e6
    print(f"| {what} | {KIND}, {size:.0f} MB | {best[0]:.3f} s | {size / best[0]:.0f} MB/s | {beside} {best[1]:.3f} s | {best[0] / best[1]:.2f} |", flush=True)


def has(*names):
    try:
        for name in names:
            __import__(name)
    except ModuleNotFoundError as error:
        print(f"bench/blocks: there is no {error.name}, so its row is left out", file=sys.stderr)
        return False
    return True


row("`messages` in Python, one field", by_messages, "rows of `to_csv`, read by `csv`", by_rows)
row("`lists` in Python, seven columns", by_lists, "`table`", by_table)
if has("numpy", "pandas"):
    row("`columns` in Python, seven columns", by_columns, "`table_text`, read by pandas", by_pandas)
row("`messages` of a path", by_messages, "of bytes in memory", lambda: sum_of(m.get("heart_rate") for m in gazhdor.messages(DATA, only="record")))
row("`check` of a path", lambda: gazhdor.check(PATH).files, "of bytes in memory", lambda: gazhdor.check(DATA).files)
