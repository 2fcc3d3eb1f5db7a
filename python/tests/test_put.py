"""Whether a reader of what is written is told what was put: messages of other files, alone and mixed, what no file can
have, and how much memory is taken."""
import io
import os
import random
import subprocess
import sys
import tempfile
import unittest

from fits import (
    BYTE, DESCRIBE, FLOAT32, SMALL, UINT16, UINT32, UINT8, any_file, checksum, define, describe, fit, packed,
)
from made import read, told, written

import gazhdor

TIME = 10**9


def copies(messages):
    """What is read of messages that are copied one after another."""
    return list(gazhdor.messages(written(*(lambda out, m=m: out.copy(m) for m in messages))))


class Times(unittest.TestCase):
    def test_left_out(self):
        """Of 31 records 20 s apart, whose times are in their headers, each third is left out."""
        definition = define(0, 20, [(253, 4, UINT32)]), define(1, 20, [(3, 1, UINT8)])
        source = fit(*definition, packed("<BI", 0, TIME),
            *(bytes([0xA0 | TIME + 20 * k & 31, k]) for k in range(1, 32)))
        kept = [m for k, m in enumerate(gazhdor.messages(source, only="record")) if k % 3]
        self.assertEqual([m.seconds for m in kept[:3]], [TIME + 20, TIME + 40, TIME + 80])
        self.assertEqual([(m.seconds, m["heart_rate"]) for m in copies(kept)],
            [(m.seconds, m["heart_rate"]) for m in kept])

    def test_offsets(self):
        """Each offset at each difference of times up to a minute."""
        for offset in range(32):
            source = fit(define(0, 20, [(253, 4, UINT32)]), define(1, 20, [(3, 1, UINT8)]), packed("<BI", 0, TIME),
                bytes([0xA0 | TIME + offset & 31, 7]))
            *_, message = gazhdor.messages(source)
            for difference in (-TIME, *range(-60, 61)):
                data = written(lambda out: out.write("record", timestamp=TIME + offset - difference),
                    lambda out: out.copy(message))
                *_, found = gazhdor.messages(data)
                self.assertEqual((found.seconds, found["heart_rate"]), (TIME + offset, 7))
                self.assertEqual(found.time_offset is not None, 0 <= difference < 32)

    def test_no_time(self):
        """A message without a time gets none, whatever its header has."""
        source = fit(define(0, 20, [(3, 1, UINT8)]), *(bytes([0x80 | k, 120 + k]) for k in range(3)))
        data = written(lambda out: out.write("record", timestamp=TIME),
            *(lambda out, m=m: out.copy(m) for m in gazhdor.messages(source)))
        self.assertEqual([m.seconds for m in gazhdor.messages(data)], [TIME, None, None, None])
        into = io.BytesIO()
        gazhdor.join([written(lambda out: out.write("record", timestamp=TIME)), source], into, one=True)
        self.assertEqual([m.seconds for m in gazhdor.messages(into.getvalue(), only="record")],
            [TIME, None, None, None])

    def test_dropped(self):
        """Where timestamps are dropped, times of headers don't come back as such."""
        source = fit(define(0, 20, [(253, 4, UINT32)]), define(1, 20, [(3, 1, UINT8)]), packed("<BI", 0, TIME),
            *(bytes([0xA0 | TIME + k & 31, k]) for k in range(1, 5)))
        into = io.BytesIO()
        counts = gazhdor.edit(source, into, drop="timestamp")
        found = [(m.seconds, m.get("heart_rate"), len(m.fields)) for m in gazhdor.messages(into.getvalue())]
        self.assertEqual((counts, found), ({("record", "timestamp"): 5}, [(None, None, 1),
            *((None, k, 1) for k in range(1, 5))]))

    def test_file_end(self):
        """A message that comes after all that a file has is in that file."""
        data = written(*(lambda out, m=m: out.copy(m) for m in gazhdor.messages(SMALL, everything=True)),
            lambda out: out.write("sport", sport=2))
        self.assertEqual(([m.name for m in gazhdor.messages(data)][-1], gazhdor.check(data).files), ("sport", 1))

    def test_offsets_of_values(self):
        """A time offset that is given counts from the last time that was written, by whatever call."""
        *_, message = gazhdor.messages(fit(define(0, 20, [(253, 4, UINT32)]), packed("<BI", 0, TIME + 64)))
        steps = [lambda out: out.write("record", timestamp=TIME), lambda out: out.copy(message),
            lambda out: out.define("record", "timestamp").columns(timestamp=[TIME + 90, TIME + 100, None])]
        for last, count in ((TIME, 1), (TIME + 64, 2), (TIME + 100, 3)):
            data = written(*steps[:count],
                lambda out: out.define("record", "heart_rate", local=1).write({3: 7, ".time_offset": last + 5 & 31}))
            *_, found = gazhdor.messages(data)
            self.assertEqual((found.seconds, found.time_offset), (last + 5, last + 5 & 31))


class Developers(unittest.TestCase):
    def described(self, code, name, unit, value):
        """A file with a developer field, and its message."""
        source = fit(DESCRIBE, describe(0, 0, code, name, unit), define(0, 20, [], [(0, len(value), 0)]), b"\0" + value)
        *_, message = gazhdor.messages(source)
        return source, message

    def test_next_file(self):
        """In the next file of a chain a developer field is described anew."""
        source, message = self.described(UINT8, b"Strain", b"N", b"\5")
        data = written(*(lambda out, m=m: out.copy(m) for m in gazhdor.messages(source)), lambda out: out.file(),
            lambda out: out.copy(message))
        *_, found = gazhdor.messages(data)
        self.assertEqual((found.file, found["Strain"], found.unit("Strain")), (2, 5, "N"))

    def test_other_type(self):
        """One that is described here in another way is described anew, and again as it was before."""
        _, single = self.described(FLOAT32, b"Ratio", b"", packed("<f", 1.5))
        other, count = self.described(UINT32, b"Count", b"", packed("<I", 77))
        found = copies([*gazhdor.messages(other), single, count, single])
        self.assertEqual([dict(m) for m in found if m.number == 20],
            [{"Count": 77}, {"Ratio": 1.5}, {"Count": 77}, {"Ratio": 1.5}])

    def test_described_with_messages(self):
        """What a message brings along is described once in a file, can be named from then on, and has its number."""
        _, message = self.described(UINT8, b"Strain", b"N", b"\5")
        data = written(lambda out: out.copy(message), lambda out: out.copy(message),
            lambda out: out.write("record", {"Strain": 6}), lambda out: out.write("record", {(0, 0): 7}),
            lambda out: out.write("record", {out.describe("Lean", "deg", "sint8"): -8}),
            lambda out: out.file(), lambda out: out.copy(message))
        found = [(m.file, m.number, dict(m)) for m in gazhdor.messages(data)]
        index = {"developer_data_index": 0}
        keys = "field_definition_number", "fit_base_type_id", "field_name", "units"
        told = [{**index, **dict(zip(keys, values))} for values in ((0, 2, "Strain", "N"), (1, 1, "Lean", "deg"))]
        self.assertEqual(found, [(1, 207, index), (1, 206, told[0]), *((1, 20, {"Strain": k}) for k in (5, 5, 6, 7)),
            (1, 206, told[1]), (1, 20, {"Lean": -8}), (2, 207, index), (2, 206, told[0]), (2, 20, {"Strain": 5})])

    def test_named_before(self):
        """What a file has a name for keeps it where messages come that have it otherwise."""
        _, message = self.described(UINT8, b"Strain", b"N", b"\5")
        data = written(lambda out: out.describe("Lean", "deg", "sint8"), lambda out: out.copy(message),
            lambda out: out.write("record", {"Lean": -8}), lambda out: out.write("record", {"Strain": 6}),
            lambda out: out.write("record", {(0, 0): -9}))
        self.assertEqual([dict(m) for m in gazhdor.messages(data, only="record")],
            [{"Strain": 5}, {"Lean": -8}, {"Strain": 6}, {"Lean": -9}])

    def test_unwritten(self):
        """One whose name or unit no description can have isn't written, and nothing of it."""
        wanted = written(lambda out: out.write("record", heart_rate=60))
        for name, unit in ((255 * "n", ""), ("Lean", 300 * "u"), ("a\nb", ""), ("Lean", "\x7f")):
            def step(out, of=gazhdor.DeveloperField(0, 9, name, unit, UINT8)):
                out.write("record", heart_rate=60)
                with self.assertRaisesRegex(ValueError, "dev_0_9 can't be described"):
                    out.define("record", [of]).write({of: 1})

            self.assertEqual(written(step), wanted)

    def test_undescribed(self):
        """One that nothing describes isn't written where it would be read as another one."""
        other, _ = self.described(UINT8, b"Strain", b"N", b"\5")
        *_, bare = gazhdor.messages(fit(define(0, 20, [], [(0, 1, 0)]), b"\0\5"))
        self.assertEqual([told(m) for m in copies([bare])], [told(bare)])
        kept = list(gazhdor.messages(other))
        sink = io.BytesIO()
        with gazhdor.Writer(sink) as out:
            for message in kept:
                out.copy(message)
            with self.assertRaisesRegex(ValueError, "dev_0_0 isn't described"):
                out.copy(bare)
        self.assertEqual([told(m) for m in gazhdor.messages(sink.getvalue())], [told(m) for m in kept])

    def test_mixed(self):
        """Messages of random files, one of the one and one of the other, tell what they told, but for those of which a
        developer field isn't described."""
        r, refused, count = random.Random(71), 0, 0
        for _ in range(60):
            sources = [list(gazhdor.messages(any_file(r))) for _ in range(2)]
            kept, sink = [], io.BytesIO()
            with gazhdor.Writer(sink) as out:
                out.file()
                for _ in range(r.randrange(1, 60)):
                    message = r.choice(r.choice(sources))
                    if message.number == 206:
                        continue
                    try:
                        out.copy(message)
                        kept.append(read(message))
                    except ValueError as error:
                        self.assertIn("isn't described", str(error))
                        refused += 1
            found = [read(m) for m in gazhdor.messages(sink.getvalue()) if m.number not in (206, 207)]
            self.assertEqual(found, kept)
            count += len(kept)
        self.assertLess(refused, count // 5)


class Accumulated(unittest.TestCase):
    def ride(self, begin, count=30):
        """Records that have distance, cycles and power only as a reader accumulates them: 31.25 m, 7 cycles and 5,000 W
        each."""
        fields = [(253, 4, UINT32), (8, 3, BYTE), (18, 1, UINT8), (28, 2, UINT16)]
        return fit(define(0, 20, fields), *(packed("<BI", 0, begin + k) + packed("<I", (k * 500 & 0xFFF) << 12)[:3]
            + packed("<BH", k * 7 & 0xFF, k * 5000 & 0xFFFF) for k in range(count)))

    def records(self, data):
        return list(gazhdor.messages(data, only="record"))

    def test_cut(self):
        """What is accumulated stays as it was told where records before are left out; distances begin at 0."""
        into = io.BytesIO()
        gazhdor.edit(self.ride(TIME), into, begin=TIME + 10)
        found = self.records(into.getvalue())
        self.assertEqual([(m.distance, m["total_cycles"], m["accumulated_power"]) for m in found],
            [(31.25 * k, 7 * (k + 10), 5000 * (k + 10)) for k in range(20)])

    def test_joined(self):
        into = io.BytesIO()
        gazhdor.join([self.ride(TIME, 33), self.ride(TIME + 1000, 33)], into, one=True)
        found = self.records(into.getvalue())
        self.assertEqual([m.distance for m in found], [31.25 * k for k in (*range(33), *range(32, 65))])
        self.assertEqual([(m["total_cycles"], m["accumulated_power"]) for m in found[33:]],
            [(7 * k, 5000 * k) for k in range(33)])
        (session,) = gazhdor.messages(into.getvalue(), only="session")
        self.assertEqual(session["total_distance"], 2000)


class NoFile(unittest.TestCase):
    """What no file can have is refused by the call that says it, and nothing else is lost."""

    def test_fields(self):
        sink = io.BytesIO()
        with gazhdor.Writer(sink) as out:
            out.write("record", heart_rate=1)
            with self.assertRaisesRegex(ValueError, "255 fields"):
                out.define(999, [(number, "uint8") for number in range(256)])
            out.define(999, [(number, "uint8") for number in range(255)]).write({0: 7})
        self.assertEqual([len(m.fields) for m in gazhdor.messages(sink.getvalue())], [1, 255])

    def test_timestamp(self):
        """A message of 255 fields, whose header would say another time, and which has no room for a timestamp."""
        fields = [(number, 1, UINT8) for number in range(200)] + [(number % 200, 1, UINT8) for number in range(55)]
        source = fit(define(0, 20, [(253, 4, UINT32)]), define(1, 999, fields), packed("<BI", 0, TIME),
            bytes([0xA0 | TIME + 5 & 31]) + bytes(255))
        first, message = gazhdor.messages(source)
        self.assertEqual((message.seconds, len(message.fields)), (TIME + 5, 255))
        sink = io.BytesIO()
        with gazhdor.Writer(sink) as out:
            out.write("record", heart_rate=1)
            with self.assertRaises(gazhdor.BlocksRefused) as caught:
                out.copy(message)
            self.assertEqual(caught.exception.reason, "Full")
            self.assertIn("255 fields", caught.exception.answer.explanation)
            out.copy(first)
            out.copy(message)
        self.assertEqual([m.seconds for m in gazhdor.messages(sink.getvalue())], [None, TIME, TIME + 5])

    def test_zeros(self):
        """Zeros don't stand for a header checksum that is 0: of a file of two bytes of data some profile has it."""
        def step(out):
            out.file(checksum="zeros", profile=profile)
            out.define(0, []).write({})

        profile = 0
        head = written(step)[:12]
        profile = next(number for number in range(65536)
            if checksum(head[:2] + packed("<H", number) + head[4:]) == b"\0\0")
        found = written(step)
        self.assertTrue(gazhdor.check(found))
        header, *_ = gazhdor.messages(found, everything=True)
        self.assertEqual((header.profile, header.checksum, found[12:14]), (profile, "there", b"\0\0"))


MEMORY = """
import gazhdor, io, resource, sys
how, path = sys.argv[1:]
sink = io.BytesIO()
if how == "copy":
    with gazhdor.Writer(sink) as out:
        for event in gazhdor.messages(path, everything=True):
            out.copy(event)
elif how == "edit":
    gazhdor.edit(path, sink, drop="position")
else:
    gazhdor.join([path, path], sink, one=True)
print(len(sink.getvalue()), 1024 * resource.getrusage(resource.RUSAGE_SELF).ru_maxrss)
"""


class Memory(unittest.TestCase):
    def test_small_messages(self):
        """No more is taken than ten times a file, whose messages have few bytes each."""
        for how, size, counts in (("copy", 2, (70000, 170000)), ("edit", 7, (25000, 65000)),
                ("join", 7, (25000, 65000))):
            with tempfile.TemporaryDirectory() as folder:
                taken = [self.taken(how, os.path.join(folder, "file"), fit(define(0, 20, [(200, size, BYTE)]),
                    bytes(count * (size + 1)))) for count in counts]
            self.assertLess(taken[1] - taken[0], 10 * (size + 1) * (counts[1] - counts[0]), how)

    def taken(self, how, path, data):
        """How much memory a program takes at most."""
        with open(path, "wb") as file:
            file.write(data)
        done = subprocess.run([sys.executable, "-c", MEMORY, how, path], stdout=subprocess.PIPE, check=True)
        length, most = map(int, done.stdout.split())
        self.assertGreaterEqual(length, len(data))
        return most


if __name__ == "__main__":
    unittest.main()
