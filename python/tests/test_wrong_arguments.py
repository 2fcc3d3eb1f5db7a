"""What calls of writing say of random wrong arguments: their own words, and no fault from within."""
import datetime
import decimal
import fractions
import io
import random
import unittest

from support import RIDE

import gazhdor

LONE = (None, True, 0, 1, -1, 3, 20, 206, 253, 255, 256, 65535, 65536, 2**64, -(2**70), 10**400, 0.5, 1e308, float("inf"),
    float("nan"), "", "record", "heart_rate", "sport", "none such", "uint16", "string", 300 * "x", "\0", "\ud800", b"", b"ab",
    bytes(16), bytearray(b"a"), memoryview(b"abc"), (), (1,), (3, "uint8"), (3, "uint8", 2), (3, "uint8", 2, 5), (0, 0),
    (0, 300), (1, 2, 3), object(), int, len, datetime.datetime(2026, 1, 1), datetime.timedelta(1), 1j, slice(1),
    datetime.datetime(1, 1, 1, tzinfo=datetime.timezone.utc), decimal.Decimal("1e999"), decimal.Decimal("nan"),
    fractions.Fraction(1, 3), gazhdor.DeveloperField(0, 300, "a", "b", 2), gazhdor.DeveloperField("x", None, 3, 4, 5),
    gazhdor.FieldDefinition(3, 2, 1), gazhdor.FieldDefinition("a", None, 300), gazhdor.FieldDefinition(3, 2, 1, 999))
KEYS = [one for one in LONE if not isinstance(one, (bytearray, slice))]


class Wrong(unittest.TestCase):
    def setUp(self):
        self.random = random.Random(73)
        self.record = next(m for m in gazhdor.messages(RIDE, only="record"))

    def value(self, depth=0):
        r = self.random
        if depth > 2 or r.random() < 0.7:
            return r.choice(LONE)
        items = [self.value(depth + 1) for _ in range(r.randrange(4))]
        return r.choice((list, tuple, lambda items: {key: 1 for key in items if type(key) in (str, int, float, bytes)}))(items)

    def key(self):
        return self.random.choice(KEYS)

    def named(self, *names):
        return {name: self.value() for name in names if self.random.random() < 0.5}

    def calls(self, out, record):
        value, key, named = self.value, self.key, self.named
        yield lambda: out.define(value(), value())
        yield lambda: out.define("record", [value()], **named("local", "big", "reserved", "says_developers"))
        yield lambda: out.describe("a", **named("unit", "base", "index", "number", "native", "application"))
        yield lambda: out.describe(value())
        yield lambda: out.file(**named("protocol", "profile", "size", "checksum", "more"))
        yield lambda: out.write(value(), heart_rate=value())
        yield lambda: out.write("record", {key(): value()})
        yield lambda: record.write({key(): value()}, heart_rate=value())
        yield lambda: record.columns(timestamp=value(), heart_rate=value())
        yield lambda: record.columns({key(): [value()]})
        yield lambda: out.copy(value())
        yield lambda: self.record.replace({key(): value()})
        yield lambda: self.record.adding({key(): value()})
        yield lambda: gazhdor.Names({key(): value()})

    def test_own_words(self):
        for number in range(14):
            out = gazhdor.Writer(io.BytesIO())
            record = out.define("record", "timestamp heart_rate")
            for _ in range(500):
                try:
                    list(self.calls(out, record))[number]()
                except (TypeError, ValueError, gazhdor.UnknownName) as error:
                    self.assertNotIn("unpack", str(error), number)
                    self.assertNotIsInstance(error, UnicodeError, number)
                except Exception as error:
                    self.fail(f"call {number}: {error!r}")

    def test_no_descriptors(self):
        """A number is no path of names: what is opened by it isn't closed."""
        with open(RIDE, "rb") as file:
            self.assertRaises(TypeError, gazhdor.Writer, io.BytesIO(), names=file.fileno())
            self.assertEqual(file.read(0), b"")


if __name__ == "__main__":
    unittest.main()
