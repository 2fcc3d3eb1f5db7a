"""What streams of the module gazhdor must answer, and calls that read a file object piece by piece: what the calls on
all bytes answer, of known files and of the ride, in each two pieces and byte by byte."""
import copy
import io
import itertools
import os
import pickle
import random
import subprocess
import sys
import threading
import tracemalloc
import unittest

from support import BYTES, RIDE, folder, known, left_out
from fits import DESCRIBE, SMALL, UINT16, UINT32, UINT8, any_file, define, describe, fit

import gazhdor
from gazhdor import _numbers as n
from gazhdor._library import library, text_of
from gazhdor._read.streams import each

WORK = folder()
KNOWN = known()
TEXTS = {"show": gazhdor.show, "table": gazhdor.table_text, "to_csv": gazhdor.to_csv}
KINDS = [*TEXTS, "check", "messages", "blocks"]


def told(messages):
    return [(message.place, repr(message)) for message in messages]


def whole(kind, data):
    """What one call makes of all bytes, with the fault that comes then."""
    answer = gazhdor.check(data)
    found = [] if kind == "messages" else ""
    if kind in TEXTS:
        found = TEXTS[kind](data, partial=True)
    if kind == "messages":
        try:
            for message in gazhdor.messages(data, partial=True):
                found.append(message)
        except gazhdor.FitError:
            pass
        found = told(found)
    return found, str(answer), answer.files


def fed(kind, pieces, **how):
    """What a stream makes of the pieces, with the fault, and how many pieces it took."""
    made, count = [], 0
    with gazhdor.Stream(kind, **how) as stream:
        try:
            for piece in pieces:
                made.append(stream.feed(piece))
                count += 1
            made.append(stream.finish())
            finding = "ok"
        except gazhdor.FitError as fault:
            made.append(fault.before)
            finding = str(fault)
    if kind == "messages":
        return told(itertools.chain(*made)), finding, stream.files if finding == "ok" else 0, count
    return type(made[0])().join(made), finding, stream.files if finding == "ok" else 0, count


def blocks_of(source):
    try:
        yield from each("blocks", source, partial=True)
    except gazhdor.FitError:
        pass


def bytes_alone(data):
    return [data[at : at + 1] for at in range(len(data))]


class Streams(unittest.TestCase):
    def test_known_files(self):
        """All in two pieces, and byte by byte; so each front, and with each byte changed."""
        for data in KNOWN.values():
            for at in range(len(data) + 1):
                self.see(data, [data[:at], data[at:]])
                self.see(data[:at], bytes_alone(data[:at]))
                changed = data[:at] + bytes(byte ^ 0x55 for byte in data[at : at + 1]) + data[at + 1 :]
                self.see(changed, [changed[:at], changed[at:]])

    def see(self, data, pieces):
        for kind in ("check", "show", "table", "to_csv", "messages"):
            *found, count = fed(kind, pieces)
            self.assertEqual(tuple(found), whole(kind, data))
            answer = gazhdor.check(data)
            if answer.reason:
                self.assertEqual(count, next(k for k in range(len(pieces)) if answer.place < sum(map(len,
                    pieces[: k + 1]))))

    def test_ride(self):
        r = random.Random(20260104)
        for data in (BYTES, BYTES[:2000], BYTES[:2500] + b"\xff" + BYTES[2501:], 2 * BYTES + b"\x0d"):
            ends = sorted(r.randrange(len(data)) for _ in range(30))
            self.see(data, [data[begin:end] for begin, end in zip([0, *ends], [*ends, len(data)])])
            self.see(data, [data])

    def test_pieces(self):
        """A piece is bytes of any kind, or none; nothing else."""
        pieces = [b"", bytearray(BYTES[:100]), memoryview(BYTES)[100:1000], memoryview(BYTES[::-1])[::-1][1000:], b""]
        self.assertEqual(fed("table", pieces)[:2], (gazhdor.table_text(BYTES), "ok"))
        with gazhdor.Stream("check") as stream:
            for piece in ("text", None, 5, [1]):
                with self.assertRaises(TypeError) as caught:
                    stream.feed(piece)
                self.assertEqual(str(caught.exception), f"a piece is bytes, and not {type(piece).__name__}")
            stream.feed(BYTES)
            stream.finish()

    def test_kinds(self):
        for kind in ("rows", "Table", 2, None):
            with self.assertRaises(ValueError):
                gazhdor.Stream(kind)
        with self.assertRaises(TypeError):
            gazhdor.Stream("table", only="lap")
        self.assertEqual([type(gazhdor.Stream(kind).feed(b"")) for kind in KINDS], [str, str, str, str, list, bytes])

    def test_only(self):
        for only in ("lap", 20, ["record", 0], ()):
            found = fed("messages", [BYTES[at : at + 100] for at in range(0, len(BYTES), 100)], only=only)
            self.assertEqual(found[0], told(gazhdor.messages(BYTES, only=only)))
        with self.assertRaises(TypeError):
            gazhdor.Stream("messages", only=1.5)

    def test_blocks(self):
        """Blocks come whole, and their messages are those of the stream of messages."""
        data, at = KNOWN["both"], 0
        blocks = fed("blocks", bytes_alone(data))[0]
        self.assertEqual(blocks, fed("blocks", [data])[0])
        kinds = []
        while at < len(blocks):
            kinds.append(blocks[at + n.AT_KIND])
            at += int.from_bytes(blocks[at + n.AT_LENGTH : at + n.AT_LENGTH + 4], "little")
        self.assertEqual((kinds, at), ([1, 2, 3, 2, 3, 4, 1, 2, 2, 3, 3, 3, 2, 3, 4], len(blocks)))

    def test_blocks_of_all_bytes(self):
        """In pieces, and of a file object or of bytes, they are those of the library's call on all bytes."""
        r = random.Random(20260130)
        for data in (*KNOWN.values(), BYTES, 3 * BYTES, BYTES[:2000], *(any_file(r) for _ in range(10))):
            whole = text_of(library.gazhdor_messages, data)[1]
            self.assertEqual(fed("blocks", [data[at : at + 100] for at in range(0, len(data), 100)])[0], whole)
            for source in (data, io.BytesIO(data)):
                self.assertEqual(b"".join(blocks_of(source)), whole)

    def test_files(self):
        stream, found = gazhdor.Stream("check"), []
        for piece in bytes_alone(KNOWN["both"]):
            stream.feed(piece)
            found.append(stream.files)
        self.assertEqual(found, 51 * [0] + 70 * [1] + [2])

    def test_after_the_end(self):
        """After a good end, and once it is closed, a stream takes nothing more."""
        for ends in ([gazhdor.Stream.finish], [gazhdor.Stream.finish, gazhdor.Stream.close], [gazhdor.Stream.close],
                2 * [gazhdor.Stream.close]):
            stream = gazhdor.Stream("show")
            stream.feed(BYTES)
            for end in ends:
                end(stream)
            for call in (lambda: stream.feed(b""), lambda: stream.feed(BYTES), stream.finish):
                with self.assertRaises(ValueError) as caught:
                    call()
                self.assertEqual((type(caught.exception), str(caught.exception)), (ValueError, "the stream is closed"))
            stream.close()
            self.assertEqual(stream.files, 1)

    def test_after_a_fault(self):
        for data, kind, place, reason in ((b"\x0d", gazhdor.Refused, 0, "HeaderSize"),
                (BYTES + b"\x0d", gazhdor.Refused, len(BYTES), "HeaderSize"),
                (BYTES[:2000], gazhdor.Truncated, 2000, None)):
            stream = gazhdor.Stream("table")
            with self.assertRaises(kind) as first:
                stream.feed(data)
                stream.finish()
            self.assertIsInstance(first.exception.before, str)
            for again in (lambda: stream.feed(data), stream.finish, lambda: stream.feed(b"")):
                with self.assertRaises(kind) as caught:
                    again()
                self.assertEqual((caught.exception.place, caught.exception.reason, caught.exception.before),
                    (place, reason, None))
            stream.close()
            with self.assertRaises(kind):
                stream.feed(b"")

    def test_what_is_before_is_sent(self):
        stream = gazhdor.Stream("messages")
        with self.assertRaises(gazhdor.Refused) as caught:
            stream.feed(BYTES + b"\x0d")
        sent = pickle.loads(pickle.dumps(caught.exception))
        self.assertEqual((str(sent), told(sent.before)), (str(caught.exception), told(gazhdor.messages(BYTES))))
        for call in (pickle.dumps, copy.copy):
            with self.assertRaises(TypeError) as caught:
                call(stream)
            self.assertEqual(str(caught.exception), "a stream can't be copied or sent to another process")

    def test_threads(self):
        """Four threads, with a stream each, and with one for all, which they feed by turns."""
        wanted, found, shared = gazhdor.table_text(BYTES), [], gazhdor.Stream("check")

        def work():
            for size in (1000, 77, 500):
                found.append(fed("table", [BYTES[at : at + size] for at in range(0, len(BYTES), size)])[0] == wanted)
            for _ in range(20):
                shared.feed(BYTES)

        four = [threading.Thread(target=work) for _ in range(4)]
        for thread in four:
            thread.start()
        for thread in four:
            thread.join()
        self.assertEqual((found, shared.files), (12 * [True], 80))


class Few(io.RawIOBase):
    """A file that gives few bytes at once. It says that it can go back, or that it can't; it counts what was read."""

    def __init__(self, data, size=100, back=False):
        self.data, self.size, self.back, self.at, self.count = data, size, back, 0, 0

    def seekable(self):
        return self.back

    def tell(self):
        return self.at

    def seek(self, place, whence=0):
        self.at = place
        return place

    def read(self, size=-1):
        self.asked = size
        begin, self.at = self.at, min(self.at + self.size, len(self.data))
        self.count += self.at - begin
        return self.data[begin : self.at]


class Sources(unittest.TestCase):
    # Definitions that come in one piece and are used in later ones, and one field by its number and by its name.
    odd = fit(DESCRIBE, define(0, 20, [(3, 1, UINT8)], [(0, 1, 0)]), b"\0\5\6", describe(0, 0, UINT8, b"Own", b"W"),
        define(1, 20, [(2, 2, UINT16)], [(0, 1, 0)]), 30 * b"\1\0\1\7", 30 * b"\0\1\2", b"\1\0\1\7")

    def test_messages(self):
        for data in (self.odd, BYTES, SMALL, 3 * BYTES):
            for size, back in itertools.product((1, 100, 1000, 1 << 20), (False, True)):
                file = Few(data, size, back)
                self.assertEqual(told(gazhdor.messages(file)), told(gazhdor.messages(data)))
                self.assertEqual((file.at, file.asked, file.closed), (len(data), 65536, False))
                self.assertEqual(told(gazhdor.messages(Few(data, size, back), only="record")),
                    told(gazhdor.messages(data, only=20)))
        self.assertEqual(told(gazhdor.messages(RIDE)), told(gazhdor.messages(BYTES)))

    def test_tables(self):
        for data in (BYTES, SMALL, 3 * BYTES):
            for size in (1, 100, 1 << 20):
                self.assertEqual(list(gazhdor.table(Few(data, size))), list(gazhdor.table(data)))
        self.assertEqual([(n, len(list(rows))) for n, rows in gazhdor.files(Few(2 * BYTES))],
            [(n, len(list(rows))) for n, rows in gazhdor.files(2 * BYTES)])

    def test_faults(self):
        """A source that can go back is judged first; of another one the messages and rows before a fault come first, as
        with `partial`."""
        for data, kind in ((BYTES[:2000], gazhdor.Truncated), (BYTES + b"\xff\xff", gazhdor.Refused)):
            for call in (gazhdor.messages, gazhdor.table):
                before = self.up_to_fault(kind, call(data, partial=True))
                self.assertTrue(before)
                for file, partial, wanted in ((Few(data), False, before), (Few(data), True, before),
                        (Few(data, back=True), True, before), (Few(data, back=True), False, [])):
                    self.assertEqual(self.up_to_fault(kind, call(file, partial=partial)), wanted)
                path = os.path.join(WORK, "bad.fit")
                with open(path, "wb") as file:
                    file.write(data)
                self.assertEqual(self.up_to_fault(kind, call(path)), [])
                self.assertEqual(self.up_to_fault(kind, call(path, partial=True)), before)

    def up_to_fault(self, kind, found):
        before = []
        with self.assertRaises(kind):
            for one in found:
                before.append(repr(one))
        return before

    def test_check_stops(self):
        """A file is read up to the piece with the byte that is refused, and no further."""
        file = Few(BYTES[:1000] + b"\xff" * 5000)
        answer = gazhdor.check(file)
        self.assertEqual((str(answer), file.count), (str(gazhdor.check(file.data)), answer.place // 100 * 100 + 100))
        self.assertEqual([str(gazhdor.check(Few(BYTES, size))) for size in (1, 100, 5000)], 3 * ["ok"])
        self.assertEqual(gazhdor.check(Few(3 * BYTES)).files, 3)
        self.assertEqual(str(gazhdor.check(Few(BYTES[:77]))), "truncated at byte 77")

    def many(self, seed):
        """Files, and how many bytes of each are read at once."""
        r = random.Random(seed)
        random_files = [b"".join(any_file(r) for _ in range(3)) for _ in range(10)]
        return [(self.odd, 1), (self.odd, 50), (BYTES, 77), (BYTES, 1000),
            *((data, size) for data in random_files for size in (97, 1000, 5000))]

    def test_lists(self):
        for data, size in self.many(20260105):
            for fields in (None, ["timestamp", ".place", 3, *(["Own"] if data == self.odd else []), (0, 0),
                    "altitude"]):
                found, wanted = gazhdor.lists(Few(data, size), "record", fields), gazhdor.lists(data, "record", fields)
                self.assertEqual((list(found), repr(found)), (list(wanted), repr(wanted)))
        for call in (gazhdor.lists, gazhdor.columns) if self.has_numpy() else (gazhdor.lists,):
            with self.assertRaises(gazhdor.Truncated):
                call(Few(BYTES[:2000]), "record")
            found = call(Few(BYTES[:2000]), "record", [".place"], partial=True)
            self.assertEqual(list(found[".place"]), gazhdor.lists(BYTES[:2000], "record", [".place"],
                partial=True)[".place"])

    def has_numpy(self):
        try:
            import numpy
        except ModuleNotFoundError:
            return False
        return bool(numpy)

    def test_columns(self):
        if not self.has_numpy():
            left_out("there is no numpy, so columns of pieces aren't tried")
        for data, size in self.many(20260106):
            for fields in (None, ["timestamp", ".place", 3, *(["Own"] if data == self.odd else []), (0, 0),
                    "altitude"]):
                found, wanted = gazhdor.columns(Few(data, size), "record", fields), gazhdor.columns(data, "record",
                    fields)
                self.assertEqual(list(found), list(wanted))
                for key in found:
                    self.assertEqual((found[key].dtype, repr(list(found[key]))),
                        (wanted[key].dtype, repr(list(wanted[key]))))

    def test_memory(self):
        """What Python itself takes for messages of a source doesn't grow with the source."""
        peaks = []
        for count in (100, 500):
            tracemalloc.start()
            with open(os.path.join(WORK, "chain.fit"), "wb") as file:
                file.write(count * BYTES)
            found = sum(1 for _ in gazhdor.messages(file.name, only="lap"))
            peaks.append(tracemalloc.get_traced_memory()[1])
            tracemalloc.stop()
            self.assertEqual(found, count)
        self.assertLess(peaks[1], 1.2 * peaks[0] + 500 * len(BYTES))

    def test_memory_of_the_process(self):
        """With all that the library takes, a chain of 10 MB needs a few megabytes more than one of a ride, in pieces of
        a file."""
        path = os.path.join(WORK, "long.fit")
        with open(path, "wb") as file:
            file.write(3000 * BYTES)
        program = """
import re, sys, gazhdor
def most():
    with open("/proc/self/status") as file:
        return 1024 * int(re.search(r"VmHWM:\\s*(\\d+) kB", file.read()).group(1))
before = most()
laps = sum(1 for _ in gazhdor.messages(sys.argv[1], only="lap"))
rows = sum(1 for _ in gazhdor.table(sys.argv[1]))
print(laps, gazhdor.check(sys.argv[1]).files, rows, most() - before)
"""
        said = subprocess.run([sys.executable, "-c", program, path], stdout=subprocess.PIPE, check=True).stdout.split()
        self.assertEqual([int(word) for word in said[:3]], [3000, 3000, 3000 * len(list(gazhdor.table(BYTES)))])
        self.assertLess(int(said[3]), 8000000)

    def test_many_definitions(self):
        """Nor with how many definitions come, each another one."""
        definitions, peaks = [define(0, 1000 + k, [(n, 4, UINT32) for n in range(100)]) for k in range(900)], []
        for count in (300, 900):
            data = fit(*definitions[:count])
            tracemalloc.start()
            self.assertEqual(list(gazhdor.messages(Few(data, 65536))), [])
            peaks.append(tracemalloc.get_traced_memory()[1])
            tracemalloc.stop()
        self.assertLess(peaks[1], 1.3 * peaks[0])


if __name__ == "__main__":
    unittest.main()
