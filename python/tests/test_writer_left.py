"""What is left of a writer where an exception comes at any place of a call, or threads use it at once: nothing is lost,
and no good value is refused."""
import contextlib
import functools
import io
import itertools
import os
import random
import sys
import threading
import unittest

from fits import DESCRIBE, UINT32, UINT8, define, describe, fit, packed
from made import told, written

import gazhdor

TIME = 10**9


class Between(Exception):
    """It comes from elsewhere, as KeyboardInterrupt does."""


# What keeps something of a writer; the rest of the module only makes values.
KEEPING = tuple(os.path.join("_write", name) for name in ("writer.py", "message_writer.py", "describing.py", "put.py"))


PACKAGE = os.path.join(os.path.dirname(gazhdor.__file__), "")


def is_keeping(name):
    return name.endswith(KEEPING)


def is_own(name):
    """Whether code of the module has this file name."""
    return name.startswith(PACKAGE)


def executed(call, nth=0, is_traced=is_keeping):
    """How many instructions a call executes in some files, and whether an exception left it, which comes at the nth."""
    count = 0

    def trace(frame, event, _):
        nonlocal count
        if event == "opcode":
            count += 1
            if count == nth:
                raise Between
        elif event == "call":
            if not is_traced(frame.f_code.co_filename):
                return None
            frame.f_trace_opcodes, frame.f_trace_lines = True, False
        return trace

    sys.settrace(trace)
    try:
        call()
        return count, False
    except Between:
        return count, True
    finally:
        sys.settrace(None)


@functools.lru_cache(maxsize=None)
def read(data):
    """How many files there are, and what their messages tell but for those that name developers."""
    return gazhdor.check(data).files, [told(m) for m in gazhdor.messages(data) if m.number != 207]


class Holds:
    """A file object that has what was written last."""

    data = b""

    def write(self, data):
        self.data = bytes(data)
        return len(data)


class Interrupts(unittest.TestCase):
    """An exception at one instruction after another of each call: all of what was asked for is written or, of several
    messages, the first ones; what comes after is written, and the call itself once more."""

    @classmethod
    def setUpClass(cls):
        definition = define(0, 20, [(253, 4, UINT32)]), define(1, 20, [(3, 1, UINT8)], [(0, 1, 0)])
        source = fit(DESCRIBE, describe(0, 0, UINT8, b"Strain", b"N"), *definition, packed("<BI", 0, TIME + 100),
            bytes([0xA0 | TIME + 110 & 31, 70, 5]))
        cls.events = list(gazhdor.messages(source, everything=True))
        cls.plain, cls.compressed = [m for m in gazhdor.messages(source) if m.number == 20]

    def calls(self):
        header, definition = self.events[0], self.events[1]
        return {
            "copy": lambda out, record: out.copy(self.plain),
            "copy with a description and a timestamp": lambda out, record: out.copy(self.compressed),
            "copy of a header": lambda out, record: out.copy(header),
            "copy of a definition message": lambda out, record: out.copy(definition),
            "write": lambda out, record: record.write(timestamp=TIME + 1, heart_rate=70),
            "write of a new kind": lambda out, record: out.write("sport", name="a name", sport="cycling"),
            "write of more items": lambda out, record: record.write(timestamp=TIME + 1, heart_rate=[70, 71]),
            "columns": lambda out, record: record.columns(timestamp=[TIME + 1, TIME + 2], heart_rate=[70, 71]),
            "columns of more items": lambda out, record: record.columns(heart_rate=[[70], [71, 72, 73]]),
            "describe": lambda out, record: out.describe("power", "watts", native=("record", 7)),
            "file": lambda out, record: out.file(profile=7),
            "begin": lambda out, record: record.begin(),
        }

    def test_each_instruction(self):
        for name, call in self.calls().items():
            for is_begun in (True, False):
                with self.subTest(name, is_begun=is_begun):
                    self.see(call, is_begun)

    def see(self, call, is_begun):
        """Each instruction of a call, of a writer that has written something and of a new one."""
        never, once, twice = (self.made(is_begun, *count * [call])[1:] for count in range(3))
        for nth in itertools.count(1):
            def left(out, record):
                return executed(lambda: call(out, record), nth)[1]

            was_left, files, found = self.made(is_begun, left)
            self.assertIn(files, (never[0], once[0]), nth)
            self.assertTrue(found == never[1] or self.begins(found, once[1]), (nth, found))
            if nth % 5 == 0:
                _, files, found = self.made(is_begun, left, call)
                self.assertIn(files, (once[0], twice[0]), nth)
                self.assertIn(found[-2:], (once[1][-2:], twice[1][-2:]), nth)
            if not was_left:
                break
        self.assertGreater(nth, 30)

    def test_finish(self):
        """Each instruction of the last call, which can be called once more where it was left."""
        wanted = written(lambda out: out.copy(self.plain))
        for nth in itertools.count(1):
            sink = Holds()
            out = gazhdor.Writer(sink)
            out.copy(self.plain)
            was_left = executed(out.finish, nth, lambda name: is_keeping(name) or name.endswith("sinks.py"))[1]
            if was_left:
                with contextlib.suppress(ValueError):
                    out.finish()
            self.assertEqual(sink.data, wanted, nth)
            self.assertRaises(ValueError, out.finish)
            if not was_left:
                break
        self.assertGreater(nth, 30)

    def test_anywhere(self):
        """3,000 exceptions at random places of the whole module, in one writer."""
        r, sink, wanted, left = random.Random(6), io.BytesIO(), [], 0
        counts = [(call, self.length(call)) for call in self.calls().values()]
        with gazhdor.Writer(sink) as out:
            record = out.define("record", "timestamp heart_rate")
            while left < 3000:
                call, count = r.choice(counts)
                left += executed(lambda: call(out, record), r.randrange(1, count), is_own)[1]
                record.write(timestamp=TIME + len(wanted), heart_rate=9)
                wanted.append(TIME + len(wanted))
        found = gazhdor.messages(sink.getvalue(), only="record")
        self.assertEqual([m.seconds for m in found if m.values("heart_rate") == (9,)], wanted)

    def length(self, call):
        """How many instructions of the module a call executes, the second time."""
        counts = []
        self.made(True, call, lambda out, record: counts.append(executed(lambda: call(out, record), 0, is_own)[0]))
        return counts[0]

    def test_threads(self):
        """Threads that use a writer at once, though they shouldn't, lose nothing."""
        sink = io.BytesIO()
        with gazhdor.Writer(sink) as out:
            out.copy(self.plain)
            threads = [threading.Thread(target=lambda: [out.copy(self.plain) for _ in range(3000)]) for _ in range(4)]
            for thread in threads:
                thread.start()
            for thread in threads:
                thread.join()
        self.assertEqual(sum(1 for _ in gazhdor.messages(sink.getvalue())), 12001)

    def made(self, is_begun, *calls):
        """What the last of some calls returned, and the files and messages that are read, with one after all calls."""
        sink, returned = io.BytesIO(), None
        with gazhdor.Writer(sink) as out:
            if is_begun:
                out.write("record", timestamp=TIME, heart_rate=60)
            record = out.define("record", "timestamp heart_rate")
            for call in calls:
                returned = call(out, record)
            out.write("record", timestamp=TIME + 1000, heart_rate=61)
        return (returned, *read(sink.getvalue()))

    def begins(self, found, wanted):
        """Whether it is the first of what is written, and what comes after the call."""
        return found[:-1] == wanted[: len(found) - 1] and found[-1] == wanted[-1]


if __name__ == "__main__":
    unittest.main()
