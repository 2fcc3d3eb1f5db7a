"""Loads the record messages of many rides into a new database of sqlite3: load_rides.py DATABASE PROCESSES FILE..

Each process fills a database of its own, of which this one makes one: a row of `ride` for each file with what was found of it, and
a row of `record` for each record message, also of those before a fault. A file that can't be read or loaded has no records, and its
finding says why. In a path bytes that aren't UTF-8 stand as \\xff. Run it with PYTHONPATH naming the folder python/."""
import csv
import functools
import itertools
import multiprocessing
import os
import sqlite3
import sys
import tempfile
import time

import gazhdor

TABLES = (
    "create table ride (id integer primary key, path text, finding text)",
    "create table record (ride integer, file integer, timestamp text, position_lat real, position_long real, altitude real,"
    " distance real, speed real, heart_rate real, cadence real, power real, temperature real)",
)
# Fields of `record` by their numbers, so that no developer field stands for one; 78 and 73 are enhanced_altitude and enhanced_speed.
FIELDS = (".file", ".seconds", 0, 1, 78, 2, 5, ".distance", 73, 6, ".speed", 3, 4, 7, 13)
NUMBERS = {int, float, type(None)}
ROW = "(?, ?, ?, ?, ?, ?, ?, ?, ?, ?, ?, ?)"
ONE, TEN = "insert into record values " + ROW, "insert into record values " + ", ".join(10 * [ROW])
SECONDS = [f"{second:02}+00:00" for second in range(60)]


@functools.lru_cache(maxsize=1000)
def minute(number):
    return str(gazhdor.when(60 * number))[:17]


def times(seconds):
    """Times as text. A minute is made once."""
    if None in seconds or (seconds and min(seconds) < 2**28):
        return [None if second is None else str(gazhdor.when(second)) for second in seconds]
    return [minute(second // 60) + SECONDS[second % 60] for second in seconds]


def degrees(semicircles):
    return [None if number is None else number * (180 / 2**31) for number in semicircles]


def either(first, *others):
    """Of columns of the same thing the first value that is there."""
    for other in others:
        if None in first:
            first = [two if one is None else one for one, two in zip(first, other)]
    return first


def columns(data):
    """The columns of `record` but its first. It raises TypeError where a field is several numbers in one message, a text or bytes."""
    found = gazhdor.lists(data, "record", FIELDS, partial=True).values()
    file, seconds, lat, lon, enhanced_altitude, altitude, distance, accumulated, enhanced_speed, speed, compressed, *others = found
    numbers = (either(enhanced_altitude, altitude), either(distance, accumulated), either(enhanced_speed, speed, compressed), *others)
    if not all(NUMBERS.issuperset(map(type, column)) for column in numbers):
        raise TypeError
    return (file, times(seconds), degrees(lat), degrees(lon), *numbers)


def table(data):
    """The same of any file, in more time."""
    rows = csv.reader(gazhdor.table_text(data, partial=True).splitlines())
    next(rows)
    for file, when, *cells in rows:
        yield (int(file), when.replace("T", " ").replace("Z", "+00:00") or None, *(float(cell) if cell else None for cell in cells))


def begin(folder):
    """What a process does first: it makes its own database, which needs no journal in a file."""
    global into
    into = sqlite3.connect(os.path.join(folder, f"{os.getpid()}.db"))
    for statement in ("pragma journal_mode = memory", "pragma synchronous = off", *TABLES):
        into.execute(statement)


def insert(number, columns):
    """Inserts records, ten by a statement, which takes three quarters of the time. It returns how many they are."""
    file, *others = columns
    rows = zip(itertools.repeat(number), file, *others)
    cells = itertools.chain.from_iterable(itertools.islice(rows, len(file) // 10 * 10))
    into.executemany(TEN, zip(*(120 * [cells])))
    into.executemany(ONE, rows)
    return len(file)


def as_text(path):
    """A path as the database has it: text, whatever bytes the name of a file has."""
    return os.fsencode(path).decode("utf-8", "backslashreplace")


def load(job):
    """What a process does with a file. It returns its size, how many records it has, and whether it is good."""
    number, path = job
    size = count = 0
    try:
        with open(path, "rb") as file:
            data = file.read()
        size, finding = len(data), str(gazhdor.check(data))
        try:
            count = insert(number, columns(data))
        except (TypeError, OverflowError):
            into.rollback()
            count = insert(number, zip(*table(data)))
    except OSError as error:
        finding = str(error)
    except Exception as error:  # one file that can't be loaded doesn't end the others
        into.rollback()
        finding = "out of memory" if isinstance(error, MemoryError) else f"not loaded: {error!r}"
    into.execute("insert into ride values (?, ?, ?)", (number, as_text(path), finding))
    into.commit()
    return size, count, finding == "ok"


def join(database, folder):
    """Makes one database of those in a folder."""
    first, *others = os.listdir(folder)
    os.rename(os.path.join(folder, first), database)
    whole = sqlite3.connect(database)
    for name in others:
        whole.execute("attach ? as part", (os.fsencode(os.path.join(folder, name)),))
        with whole:
            whole.execute("insert into ride select * from part.ride")
            whole.execute("insert into record select * from part.record")
        whole.execute("detach part")
    whole.close()


def main(database, processes, paths):
    started = time.perf_counter()
    with tempfile.TemporaryDirectory(dir=os.path.dirname(os.path.abspath(database))) as folder:
        with multiprocessing.Pool(processes, begin, (folder,)) as pool:
            done = list(pool.imap_unordered(load, enumerate(paths), chunksize=4))
            # A process that had nothing to do makes its tables first.
            pool.close()
            pool.join()
        join(database, folder)
    total, count, good = map(sum, zip(*done))
    took = time.perf_counter() - started
    print(f"{len(paths)} files, {len(paths) - good} not good, {count} rows, {total / 1e6:.1f} MB in {took:.2f} s with {processes} processes")


if __name__ == "__main__":
    if len(sys.argv) < 4 or not sys.argv[2].isdigit() or int(sys.argv[2]) == 0:
        sys.exit("usage: load_rides.py DATABASE PROCESSES FILE..")
    if os.path.exists(sys.argv[1]):
        sys.exit(f"load_rides.py: {sys.argv[1]} is there already")
    main(sys.argv[1], int(sys.argv[2]), sys.argv[3:])
