"""Whether what is read from files is written back through values, and by copies, to the same bytes."""
import io
import random
import unittest

from support import BYTES, bytes_at, recording
from fits import SMALL, any_file
from made import amounts, copied, read, through_values, written

import gazhdor

KINDS = ("plain", "developer", "compressed", "turns", "definitions", "strings", "interleaved", "small")


class BothWays(unittest.TestCase):
    def test_ride(self):
        for chain in (BYTES, 2 * BYTES, SMALL, SMALL + BYTES):
            self.assertEqual(through_values(chain), chain)
            self.assertEqual(copied(chain), chain)

    def test_recordings(self):
        """Each kind of recording, through its values and back to the same bytes."""
        for kind in KINDS:
            data = bytes_at(recording(kind, "40k"))
            with self.subTest(kind):
                self.assertEqual(through_values(data), data)
                self.assertEqual(through_values(data, gazhdor.EXTRA), data)
                self.assertEqual(copied(data), data)

    def test_random(self):
        """Copies of files of random definitions and data have their bytes."""
        r = random.Random(3)
        for _ in range(80):
            data = any_file(r)
            self.assertEqual(copied(data), data)

    def test_alone(self):
        """Messages that are copied without their definition messages bring these along."""
        r = random.Random(4)
        for _ in range(40):
            messages = list(gazhdor.messages(any_file(r)))
            again = list(
                gazhdor.messages(written(*(lambda out, m=m: out.copy(m) for m in messages)))) if messages else []
            told = [[(repr(m.raw), m.developer, m.number) for m in message.fields] for message in messages]
            self.assertEqual([[(repr(m.raw), m.developer, m.number) for m in message.fields] for message in again],
                told)


class Mixed(unittest.TestCase):
    def test_all_at_once(self):
        """Messages of several files, with their definition messages and without, some left out, between messages that
        are written from values by definitions of all local message types."""
        r = random.Random(9)
        for _ in range(60):
            sources = [any_file(r) for _ in range(r.randrange(1, 4))]
            readers = [gazhdor.messages(source, everything=True) for source in sources]
            sink, wanted, own = io.BytesIO(), [], []
            with gazhdor.Writer(sink) as out:
                out.file()
                event = None
                reader = readers.pop()
                while reader:
                    event = next(reader, None)
                    if event is None:
                        reader = readers.pop() if readers else None
                        out.file()
                        own = []
                    elif isinstance(event, gazhdor.Message):
                        if event.number == 206 or r.random() < 0.6:
                            out.copy(event)
                            wanted.append(read(event))
                    elif isinstance(event, gazhdor.DefinitionMessage) and r.random() < 0.5 and event.number != 206:
                        out.copy(event)
                    if r.random() < 0.3:
                        if len(own) < 20 and r.random() < 0.5:
                            own.append(out.define(5000 + len(own), [(7, "uint16")],
                                r.choice((None, None, r.randrange(16)))))
                        if own:
                            which = r.choice(own)
                            which.write({7: len(wanted) % 60000})
                            number, value = 5000 + own.index(which), len(wanted) % 60000
                            wanted.append((number, None, [(7, None, None, None, 132, repr(value))], None))
            found = [read(message) for message in gazhdor.messages(sink.getvalue())]
            self.assertEqual(found, wanted)


class Accumulated(unittest.TestCase):
    """Rides whose distance, cycles and power a reader accumulates: what is copied of them is told the same, by
    arithmetic, whichever messages are left out."""

    def ride(self, r, start):
        """The bytes of a ride, and the time, metres, cycles and watts of each of its records."""
        sums, told, sink = [r.randrange(4096), r.randrange(256), r.randrange(65536)], [], io.BytesIO()
        with gazhdor.Writer(sink) as out:
            fields = ["timestamp", (8, "byte", 3), (18, "uint8"), (28, "uint16")]
            record = out.define("record", fields)
            for time in range(start, start + 30):
                packed = ((sums[0] & 0xFFF) << 12 | 300).to_bytes(3, "little")
                cycles, power = (value % of for value, of in zip(sums[1:], (256, 65536)))
                has = cycles < 255, power < 65535
                record.write({253: time, 8: packed, 18: cycles if has[0] else None, 28: power if has[1] else None})
                told.append((time, sums[0] / 16, *(value if is_there else None for value, is_there in zip(sums[1:], has))))
                sums = [value + r.randrange(most) for value, most in zip(sums, (4096, 100, 30000))]
        return sink.getvalue(), told

    def see(self, data, told):
        records = list(gazhdor.messages(data, only="record"))
        self.assertEqual([m.seconds for m in records], [time for time, *_ in told])
        for message, (_, metres, *counts) in zip(records, told):
            self.assertLessEqual(abs(message.distance - metres), 0.0051)
            self.assertEqual(amounts(message)[1:], list(map(repr, counts)))

    def test_left_out(self):
        r = random.Random(12)
        for _ in range(50):
            data, told = self.ride(r, 1147937400)
            self.see(data, told)
            kept = sorted(r.sample(range(len(told)), r.randrange(1, len(told))))
            records = list(gazhdor.messages(data))
            self.see(written(*(lambda out, k=k: out.copy(records[k]) for k in kept)), [told[k] for k in kept])

    def test_by_turns(self):
        """Records of two rides by turns, in one file; and what isn't changed keeps its bytes."""
        r = random.Random(13)
        for _ in range(20):
            (one, ones), (two, others) = self.ride(r, 1147937400), self.ride(r, 1147937400)
            pairs = zip(gazhdor.messages(one), gazhdor.messages(two), ones, others)
            chosen = [(a, told) if r.random() < 0.5 else (b, other) for a, b, told, other in pairs]
            self.see(written(*(lambda out, m=m: out.copy(m) for m, _ in chosen)), [told for _, told in chosen])
            self.assertEqual(copied(one + two), one + two)


if __name__ == "__main__":
    unittest.main()
