"""What the module gazhdor says of floating point numbers: a float32 as speed and a float64 as altitude stand for
themselves, in both byte orders, where whole numbers are scaled by the profile."""
import struct
import unittest

from fits import FLOAT32, FLOAT64, UINT16, define, fit

import gazhdor

SPEED, ALTITUDE = 6, 2
FLOATS = [(SPEED, 4, FLOAT32), (ALTITUDE, 8, FLOAT64)]
FILE = fit(
    define(0, 20, FLOATS),
    b"\0" + struct.pack("<fd", 5.0, 454.25),
    b"\0" + b"\xff" * 12,
    define(1, 20, FLOATS, big=True),
    b"\1" + struct.pack(">fd", -0.375, 1e300),
    define(2, 20, [(SPEED, 2, UINT16), (ALTITUDE, 2, UINT16)]),
    b"\2" + struct.pack("<HH", 5000, (454 + 500) * 5 + 1),
    define(3, 20, [(SPEED, 8, FLOAT32)]),
    b"\3" + struct.pack("<ff", 1.5, 2.25),
)
WANTED = [(5.0, 454.25), (None, None), (-0.375, 1e300), (5.0, 454.2), ((1.5, 2.25), None)]


class Floats(unittest.TestCase):
    def test_values(self):
        found = []
        for message in gazhdor.messages(FILE):
            fields = {field.name: field for field in message.fields}
            found.append(tuple(fields[name].value if name in fields else None for name in ("speed", "altitude")))
        self.assertEqual(found, WANTED)

    def test_pieces(self):
        stream = gazhdor.Stream("messages")
        found = [message for place in range(0, len(FILE), 7) for message in stream.feed(FILE[place : place + 7])]
        found += stream.finish() or []
        self.assertEqual([message.get("speed") for message in found], [speed for speed, altitude in WANTED])

    def test_rows(self):
        """`to_csv` has the bits of a float, and the number that a whole number stands for."""
        cells = [line.split(",") for line in gazhdor.to_csv(FILE).splitlines()]
        speeds = [cell[2] for cell in cells if cell[:2] == ["field", "speed"]]
        self.assertEqual([speeds[0], speeds[3]], ["0x40A00000", "5.000"])


if __name__ == "__main__":
    unittest.main()
