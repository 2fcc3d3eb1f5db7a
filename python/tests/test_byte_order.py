"""What the module gazhdor reads and writes on a machine with big endian. Here such a machine is played: what reads or
makes many numbers at once, as that machine has them, gives them with their bytes turned round."""
import array
import contextlib
import io
import sys
import types
import unittest
from unittest import mock

from support import BYTES
from fits import FLOAT32, FLOAT64, SINT16, UINT32, UINT64, checksum, define, fit, packed

import gazhdor
from gazhdor._byte_order import in_order
from gazhdor._read import column_parts
from gazhdor._write import item_columns, mending


def turned(numbers):
    found = array.array(numbers.typecode, numbers)
    found.byteswap()
    return found


class View:
    """A memoryview of bytes on such a machine."""

    def __init__(self, data):
        self._data = memoryview(data)

    def __bytes__(self):
        return bytes(self._data)

    def __getitem__(self, places):
        return View(self._data[places])

    def cast(self, code):
        return self if code == "B" else memoryview(turned(array.array(code, bytes(self._data))))


@contextlib.contextmanager
def big_endian():
    ours = types.SimpleNamespace(array=lambda code, numbers: turned(array.array(code, numbers)))
    with contextlib.ExitStack() as stack:
        stack.enter_context(mock.patch.object(sys, "byteorder", "big"))
        for module in (column_parts, mending):
            stack.enter_context(mock.patch.object(module, "memoryview", View, create=True))
        stack.enter_context(mock.patch.object(item_columns, "array", ours))
        yield


FIELDS = [(253, 4, UINT32), (5, 4, UINT32), (2, 8, FLOAT64), (6, 4, FLOAT32), (0, 2, SINT16), (1, 8, UINT64)]
NUMBERS = [(1_000_000_001, 2**32 - 2, 454.25, -0.375, -2, 2**63 + 5), (1_000_000_002, 3, 1e300, 5.0, 0x7FFE, 7)]
ROWS = [(1_000_000_001, 2**32 - 2, 454.25, -0.375, -2, 2**63 + 5), (1_000_000_002, None, None, 5.0, None, 7)]


def written():
    out = io.BytesIO()
    with gazhdor.Writer(out) as writer:
        writer.write("file_id", type=4)
        kinds = {201: "uint32", 202: "float64", 203: "float32", 204: "sint16", 205: "uint64"}
        columns = map(list, zip(*ROWS))
        writer.define("record", [253, *kinds.items()]).columns(dict(zip([253, *kinds], columns)))
    return out.getvalue()


@unittest.skipIf(sys.byteorder == "big", "this machine is one, so the other tests show it")
class ByteOrder(unittest.TestCase):
    def test_in_order(self):
        numbers = memoryview(array.array("H", [1, 2, 0xFFFE]))
        self.assertEqual(in_order(numbers).tolist(), [1, 2, 0xFFFE])
        with big_endian():
            self.assertEqual(in_order(numbers).tolist(), [0x100, 0x200, 0xFEFF])

    def test_columns(self):
        for message in ("record", "session"):
            wanted = gazhdor.lists(BYTES, message, ready=True)
            with big_endian():
                self.assertEqual(gazhdor.lists(BYTES, message, ready=True), wanted)
        for big in (False, True):
            data = [b"\0" + packed((">" if big else "<") + "IIdfhQ", *row) for row in NUMBERS]
            file = fit(define(0, 20, FIELDS, big=big), *data)
            wanted = gazhdor.lists(file, "record")
            self.assertEqual([wanted[name] for name in ("altitude", "speed")], [[454.25, 1e300], [-0.375, 5.0]])
            with big_endian():
                self.assertEqual(gazhdor.lists(file, "record"), wanted)

    def test_written(self):
        wanted = written()
        with big_endian():
            self.assertEqual(written(), wanted)

    def test_checksum(self):
        """Of the ride, and of parts of it, in one piece and in two, of which each may have an odd byte."""
        for end in (0, 1, 2, 14, 15, len(BYTES) - 2):
            wanted = checksum(BYTES[:end])
            for cut in sorted({0, min(1, end), end // 2, end}):
                with big_endian():
                    self.assertEqual(mending.checksum(BYTES[:cut], memoryview(BYTES)[cut:end]), wanted)


if __name__ == "__main__":
    unittest.main()
