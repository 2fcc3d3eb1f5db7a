"""How much memory edit, join and copies hold at their most: ten times the bytes that are read and written, of files of
each shape that costs most."""
import concurrent.futures
import os
import subprocess
import sys
import tempfile
import tracemalloc
import unittest

from support import RIDE, left_out
from fits import STRING, UINT32, UINT8, define, fit, packed

from gazhdor._write.told import _Column

ENUM, TIME = 0, 1147937400
STAMP = (253, 4, UINT32)
RECORD = define(15, 20, [STAMP]) + packed("<BI", 15, TIME)
MEASURED = f"""
import gazhdor, io, sys
how, path = sys.argv[1:]

def told(name):
    with open("/proc/self/status") as lines:
        return next(1024 * int(line.split()[1]) for line in lines if line.startswith(name))

def changed(data):
    sink = io.BytesIO()
    if how == "edit":
        gazhdor.edit(data, sink, drop="heart_rate", shift=5, begin={TIME - 1})
    elif how == "copy":
        with gazhdor.Writer(sink) as out:
            for event in gazhdor.messages(data, everything=True):
                out.copy(event)
    else:
        gazhdor.join([data], sink, one=True)
    return sink.getvalue()

with open({RIDE!r}, "rb") as file:
    changed(file.read())  # What is made once is there.
with open(path, "rb") as file:
    data = file.read()
with open("/proc/self/clear_refs", "w") as file:
    file.write("5")
before = told("VmRSS")
print(max(len(data), len(changed(data))), told("VmHWM") - before)
"""


def described(k):
    return bytes([1, 0, 0, UINT8]) + f"{k:7}\0".encode()


def other(k):
    """A definition of eight fields that is another one for each number, and a message of it."""
    return define(0, 20, [(4 * place + (k >> 2 * place & 3), 1, UINT8) for place in range(8)]) + bytes(9)


def wide(k):
    """The same of 255 fields, most of them without bytes."""
    sizes = [k >> place & 1 for place in range(12)]
    return define(0, 20, [(place, size, UINT8) for place, size in enumerate(sizes + 243 * [0])]) + bytes(1 + sum(sizes))


def developed(k):
    """A definition of 255 developer fields, and a message of it."""
    return define(0, 300 + k, [], [(number, 0, 0) for number in range(255)]) + b"\0"


NAMED = define(1, 206, [(0, 1, UINT8), (1, 1, UINT8), (2, 1, UINT8), (3, 8, STRING)])
LONG = define(1, 206, [(0, 1, UINT8), (1, 1, UINT8), (2, 1, UINT8), (3, 254, STRING), (8, 254, STRING)]) + b"".join(
    bytes([1, 0, number, UINT8]) + f"{number:253}\0{number:<253}\0".encode() for number in range(255))
# Of each shape what makes a file of so many messages, and how many make a megabyte.
SHAPES = {
    "laps": (lambda count: fit(RECORD, define(0, 19, [STAMP]), *(packed("<BI", 0, TIME + k) for k in range(count))),
        200000),
    "events": (lambda count: fit(RECORD, define(0, 21, [STAMP, (0, 1, ENUM), (1, 1, ENUM)]),
        *(packed("<BIBB", 0, TIME + k, 0, k & 1) for k in range(count))), 150000),
    "small files": (lambda count: b"".join(fit(define(0, 20, [STAMP]), packed("<BI", 0, TIME + k)) for k in range(count)),
        30000),
    "a field, described with ever other names": (lambda count: fit(RECORD, NAMED, *map(described, range(count))), 85000),
    "definitions": (lambda count: fit(RECORD, *map(other, range(count))), 27000),
    "wide definitions": (lambda count: fit(RECORD, *map(wide, range(count))), 1340),
    "fields with long names": (lambda count: fit(RECORD, LONG, *map(developed, range(count))), 1190),
}


class Peaks(unittest.TestCase):
    def test_ten_times_the_bytes(self):
        if not os.path.exists("/proc/self/clear_refs"):
            left_out("there is no /proc/self/clear_refs, so no memory of edit, join and copies is measured")
        cases = [(name, how) for name in SHAPES for how in ("edit", "join", "copy")]
        with concurrent.futures.ThreadPoolExecutor(os.cpu_count()) as pool:
            for (name, how), (size, most) in zip(cases, pool.map(self.taken, cases)):
                with self.subTest(name, how=how):
                    self.assertLess(most, 10 * size)

    def taken(self, case):
        """How many bytes a program reads or writes, and how much memory it takes at most, beside what was there."""
        (make, count), how = SHAPES[case[0]], case[1]
        with tempfile.NamedTemporaryFile() as file:
            file.write(make(count))
            file.flush()
            done = subprocess.run([sys.executable, "-c", MEASURED, how, file.name], stdout=subprocess.PIPE, check=True)
        size, most = map(int, done.stdout.split())
        return size, most

    def test_laps(self):
        """A lap may have one byte in its file, and its time in the header: of its end some more bytes are kept."""
        tracemalloc.start()
        try:
            ends = _Column()
            for row in range(100000):
                ends.put(row, TIME + row)
            self.assertLess(tracemalloc.get_traced_memory()[0], 700000)
        finally:
            tracemalloc.stop()
        odd = [None, 0, 1 - 2**32, 2**32 - 1, 2**32, -(2**40), "system+5", 1.5, -1]
        for row, value in enumerate(odd, 100002):
            ends.put(row, value)
        self.assertEqual([ends.get(row, "none") for row in range(99999, 100002 + len(odd) + 1)],
            [TIME + 99999, "none", "none", *odd, "none"])


if __name__ == "__main__":
    unittest.main()
