"""What the module gazhdor must do where something comes between: an exception at any place of a call, a call within a
call, a new process; and of bytes that lie about their length, and texts that are longer than a C int counts."""
import ctypes
import io
import mmap
import os
import random
import re
import signal
import subprocess
import sys
import unittest

from support import BYTES, RIDE, left_out
from fits import UINT8, define, fit

import gazhdor
from gazhdor._read.blocks import Walk
from gazhdor._library import library
from gazhdor._read.messages import messages_of

HERE = os.path.dirname(os.path.abspath(__file__))


# Before, Python may raise after a call has returned and before its caller has the result, which is then fed once more.
EXACT = sys.version_info >= (3, 11)


class Between(Exception):
    """It comes from elsewhere, as KeyboardInterrupt does."""


# Definitions that change the places of values: a heart rate stands where a cadence stood, in messages of one length.
CHANGES = fit(
    *(define(0, 20, [(number, 1, UINT8) for number in order]) + b"".join(bytes([0,
        *(10 * number + k for number in order)]) for k in range(3))
    for order in 10 * ((3, 4, 13), (4, 13, 3), (13, 3, 4)))
)
PIECES = [CHANGES[at : at + 7] for at in range(0, len(CHANGES), 7)]


def told(messages):
    return [(message.place, message.as_dict()) for message in messages]


WANTED = told(gazhdor.messages(CHANGES))


class Feeding:
    """Feeds the pieces, each once more where an exception from elsewhere leaves the call, and sees that nothing else is
    wrong."""

    def __init__(self, case):
        self.case, self.interrupts, self.broken, self.is_in_call = case, 0, 0, False

    def again(self, call):
        while True:
            try:
                self.is_in_call = True
                made = call()
                self.is_in_call = False
                return made
            except Between:
                self.is_in_call = False
                self.interrupts += 1
            except BaseException:
                self.is_in_call = False
                raise

    def all_pieces(self):
        stream, found = gazhdor.Stream("messages"), []
        try:
            for piece in PIECES:
                found.append(self.again(lambda: stream.feed(piece)))
            found.append(self.again(stream.finish))
        except gazhdor.StreamBroken:
            self.broken += 1
            for call in (stream.finish, lambda: stream.feed(b"")):
                self.case.assertRaises(gazhdor.StreamBroken, lambda: self.again(call))
            return self.again(stream.close)
        self.case.assertEqual(told(message for part in found for message in part), WANTED)


class Interrupts(unittest.TestCase):
    def test_at_any_time(self):
        """A signal handler raises at random, in 3,000 feeds and more: no message is lost but where the stream says so,
        and no value is wrong."""
        r, feeding, feeds = random.Random(20260129), Feeding(self), 0

        def handler(*_):
            if feeding.is_in_call:
                raise Between

        before, hook = signal.signal(signal.SIGALRM, handler), getattr(sys, "unraisablehook", None)
        # Where it comes in what frees a stream, Python tells that, and goes on.
        sys.unraisablehook = lambda told: None
        try:
            while feeds < 3000 or (feeding.broken < 30 and feeds < 100000):
                signal.setitimer(signal.ITIMER_REAL, r.uniform(1e-5, 6e-4), r.uniform(1e-4, 6e-4) if EXACT else 0)
                try:
                    feeding.all_pieces()
                except gazhdor.FitError:
                    self.assertFalse(EXACT)
                feeds += len(PIECES)
        finally:
            signal.setitimer(signal.ITIMER_REAL, 0)
            signal.signal(signal.SIGALRM, before)
            sys.unraisablehook = hook
        self.assertGreater(feeding.broken, 20)

    def test_at_each_line(self):
        """An exception at each line of the module in turn, of a feed in the middle and of the last call."""
        for last in (False, True):
            ends, feeding = 0, Feeding(self)
            for nth in range(1000):
                if not self.raised_at(nth, last, feeding):
                    break
                ends = nth
            self.assertGreater(ends, 15)
            self.assertEqual(feeding.interrupts, ends + 1)
            self.assertGreater(feeding.broken, 5)

    def raised_at(self, nth, last, feeding):
        """Whether a line was left: the nth that the module executes from the feed of the middle on, or in `finish`."""
        lines, stream, found = [0], gazhdor.Stream("messages"), []

        def trace(frame, event, _):
            if "gazhdor" not in frame.f_code.co_filename or "weakref" in frame.f_code.co_filename:
                return None
            if event == "line":
                lines[0] += 1
                if lines[0] == nth + 1:
                    raise Between
            return trace

        def traced(call):
            sys.settrace(trace)
            try:
                return call()
            finally:
                sys.settrace(None)

        for k, call in enumerate([*(lambda piece=piece: stream.feed(piece) for piece in PIECES), stream.finish]):
            try:
                found.append(traced(call) if k == (len(PIECES) if last else 40) else call())
            except Between:
                feeding.interrupts += 1
                try:
                    found.append(call())
                except (gazhdor.StreamBroken, ValueError):
                    feeding.broken += 1
                    self.assertRaises(gazhdor.StreamBroken, lambda: stream.feed(b""))
                    stream.close()
                    return True
        self.assertEqual(told(message for part in found for message in part), WANTED)
        return lines[0] > nth

    def test_blocks_that_are_lost(self):
        """A message isn't read by a definition that isn't its own, nor where its definition is lost."""
        with gazhdor.Stream("blocks") as stream:
            parts = [stream.feed(CHANGES[:at]) if at == 24 else stream.feed(CHANGES[at - 1 : at])
                for at in range(24, len(CHANGES) + 1)]
        for lost in range(len(parts)):
            walk = Walk()
            try:
                found = told(message for k, part in enumerate(parts) if k != lost
                    for message in messages_of(part, walk.runs(part)))
            except gazhdor.StreamBroken:
                found = []
            self.assertEqual([one for one in found if one not in WANTED], [])

    def test_nothing_leaks(self):
        """Texts of calls that are interrupted are freed."""
        program = f"""
import re, signal, sys, gazhdor
data = 2000 * open({RIDE!r}, "rb").read()
class Between(Exception): pass
def handler(*_): raise Between
signal.signal(signal.SIGALRM, handler)
def now():
    with open("/proc/self/status") as file:
        return 1024 * int(re.search(r"VmRSS:\\s*(\\d+) kB", file.read()).group(1))
def interrupted():
    in_pieces = lambda data: gazhdor.Stream("to_csv").feed(data)
    for call in (gazhdor.to_csv, lambda data: list(gazhdor.messages(data)), in_pieces):
        try:
            signal.setitimer(signal.ITIMER_REAL, 0.005)
            call(data)
        except Between:
            continue
        raise SystemExit("it wasn't interrupted")
interrupted()
before = now()
for _ in range(5): interrupted()
print(now() - before)
"""
        done = subprocess.run([sys.executable, "-c", program], stdout=subprocess.PIPE, check=True)
        self.assertLess(int(done.stdout), 1e8)


class Within(unittest.TestCase):
    """Calls within a call. Each test is a program of its own, that it may not hang."""

    def run_program(self, program):
        head = f"""
import os, signal, sys, threading, warnings
warnings.simplefilter("ignore")
import gazhdor
from gazhdor._library import library
data = open({RIDE!r}, "rb").read()
real = library.gazhdor_feed
stream = gazhdor.Stream("table")
def meanwhile(call):
    def feed(*given):
        library.gazhdor_feed = real
        call()
        return real(*given)
    library.gazhdor_feed = feed
"""
        with subprocess.Popen([sys.executable, "-c", head + program], stdout=subprocess.PIPE,
                start_new_session=True) as started:
            try:
                said, _ = started.communicate(timeout=20)
            except subprocess.TimeoutExpired:
                os.killpg(started.pid, signal.SIGKILL)
                self.fail("it hangs")
        self.assertEqual((started.returncode, said), (0, b"good\n"))

    def test_signal(self):
        """A handler that closes, feeds or ends the stream that the same thread is feeding gets an error, and so does
        who is fed."""
        self.run_program("""
for call in (lambda: stream.close(), lambda: stream.finish(), lambda: stream.feed(b"")):
    stream = gazhdor.Stream("table")
    signal.signal(signal.SIGUSR1, lambda *_: call())
    meanwhile(lambda: os.kill(os.getpid(), signal.SIGUSR1))
    for kind in (RuntimeError, gazhdor.StreamBroken):
        try: stream.feed(data)
        except kind as error: assert type(error) is kind, error
        else: raise SystemExit("no error")
    stream.close()
print("good")
""")

    def test_finalizer(self):
        self.run_program("""
class Closes:
    def __del__(self):
        try: stream.close()
        except RuntimeError as error: found.append(str(error))
found = []
meanwhile(lambda: Closes() and None)
assert stream.feed(data) + stream.finish() == gazhdor.table_text(data)
assert found == ["this thread is using the stream, in a call that hasn't ended"], found
print("good")
""")

    def test_piece(self):
        """What a piece does as it is copied is done before the stream is used."""
        self.run_program("""
class Closes(bytes):
    def __bytes__(self):
        stream.close()
        return bytes(len(self))
    def __len__(self):
        stream.close()
        return 5
assert stream.feed(Closes(data)) + stream.finish() == gazhdor.table_text(data)
print("good")
""")

    def test_threads_wait(self):
        self.run_program("""
done = []
other = threading.Thread(target=lambda: done.append(stream.feed(data[1000:]) + stream.finish()))
meanwhile(other.start)
first = stream.feed(data[:1000])
other.join()
assert first + done[0] == gazhdor.table_text(data)
print("good")
""")

    def test_fork(self):
        """In a new process a stream goes on; where another thread was feeding it, it is broken there, and closed by
        nobody."""
        self.run_program("""
def in_child(work):
    child = os.fork()
    if not child:
        os._exit(not work())
    assert os.waitpid(child, 0)[1] == 0
def is_broken():
    for call in (lambda: stream.feed(b""), stream.finish):
        try: call()
        except gazhdor.StreamBroken: continue
        return False
    stream.close()
    return True
first = stream.feed(data[:1000])
in_child(lambda: first + stream.feed(data[1000:]) + stream.finish() == gazhdor.table_text(data))
is_in, may_go = threading.Event(), threading.Event()
meanwhile(lambda: (is_in.set(), may_go.wait()))
done = []
other = threading.Thread(target=lambda: done.append(stream.feed(data[1000:])))
other.start()
is_in.wait()
in_child(is_broken)
may_go.set()
other.join()
assert first + done[0] + stream.finish() == gazhdor.table_text(data)
print("good")
""")


class Lies(bytes):
    """Bytes that say they are longer, as bytes too."""

    def __len__(self):
        return 10**7

    def __bytes__(self):
        return self


class LiesToo(bytearray):
    def __len__(self):
        return 10**7


class Lengths(unittest.TestCase):
    def test_lies(self):
        text = gazhdor.to_csv(BYTES)
        for kind in (Lies, LiesToo):
            lies, wanted = kind(BYTES), [repr(message) for message in gazhdor.messages(BYTES)]
            for source in (lies, io.BytesIO(BYTES), Returns([kind(BYTES[:999]), kind(BYTES[999:])])):
                self.assertEqual(str(gazhdor.check(source)), "ok")
            for source in (lies, Returns([lies])):
                self.assertEqual([repr(message) for message in gazhdor.messages(source)], wanted)
            self.assertEqual((gazhdor.to_csv(lies), gazhdor.from_csv(kind(text.encode()))), (text, BYTES))
            with gazhdor.Stream("to_csv") as stream:
                self.assertEqual(stream.feed(lies) + stream.finish(), text)

    def test_read_failed(self):
        """How many bytes came before, where they are items of four bytes each."""
        with self.assertRaises(gazhdor.ReadFailed) as caught:
            gazhdor.check(Returns([memoryview(BYTES[:2000]).cast("I"), memoryview(BYTES[2000:2400]).cast("H"),
                OSError("broken")]))
        self.assertEqual((caught.exception.count, str(caught.exception)),
            (2400, "the read failed after 2400 bytes: broken"))
        self.assertEqual(str(gazhdor.check(Returns([memoryview(BYTES[:2000]).cast("I"), BYTES[2000:]]))), "ok")

    def test_long_texts(self):
        """A piece that gives more than 2 GiB, and more than 4 GiB, of which nothing is cut. A library that isn't one
        hands out zeros."""
        with open("/proc/meminfo") as file:
            free = 1024 * int(re.search(r"MemAvailable:\s*(\d+) kB", file.read()).group(1))
        for length in (2**31 + 5, 2**32 + 5):
            if free < length + 2**32:
                left_out(f"there is no memory for a text of {length} bytes, so none is tried")
            self.see_long(length)

    def see_long(self, length):
        real, free, freed = library.gazhdor_feed, library.gazhdor_free, []
        with mmap.mmap(-1, length) as zeros:
            zeros[length - 3 :] = b"end"
            at = ctypes.c_char.from_buffer(zeros)

            def feed(stream, piece, count, text):
                answer = real(stream, piece, count, text)
                text._obj.bytes, text._obj.length = ctypes.addressof(at), length
                return answer

            library.gazhdor_feed, library.gazhdor_free = feed, lambda text: freed.append(text.length)
            try:
                found = gazhdor.Stream("blocks").feed(b"")
            finally:
                library.gazhdor_feed, library.gazhdor_free = real, free
                del at
        self.assertEqual((len(found), found[-4:], [count for count in freed if count]), (length, b"\0end", [length]))


class Returns:
    """A file that returns, or raises, one thing after another."""

    def __init__(self, things):
        self.things = iter([*things, b""])

    def read(self, size):
        thing = next(self.things)
        if isinstance(thing, Exception):
            raise thing
        return thing


if __name__ == "__main__":
    unittest.main()
