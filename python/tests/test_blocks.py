"""Whether `from_blocks` answers as block_model.py does, which has the page docs/BLOCKS.md alone: of the blocks of known
files, of those files, cut at each byte, and with each byte and number of their blocks changed."""
import io
import os
import pickle
import random
import struct
import tempfile
import unittest

from support import BYTES, RIDE
from fits import BYTE, DESCRIBE, SMALL, STRING, UINT16, UINT32, UINT8, any_file, define, describe, fit, packed
import block_model

import gazhdor
from gazhdor import _numbers as n

FULL = os.environ.get("GAZHDOR_FULL") == "1"


def told(blocks):
    """What from_blocks answers, as the model says it."""
    try:
        return "good", gazhdor.from_blocks(blocks)
    except gazhdor.BlocksRefused as refused:
        return ("unwritable",) if refused.block is None else ("block", refused.block, refused.place, refused.reason)


# All that a file may have, in few bytes: a developer field with its description, both architectures, a compressed
# header, a field that is no multiple of its width, one of no bytes, one of several numbers, a text, and a definition
# that only says that there are developer fields.
LITTLE = define(0, 20, [(253, 4, UINT32), (3, 1, UINT8), (5, 3, UINT16), (9, 0, UINT8)], [(7, 2, 0), (8, 3, 0)])
BIG = define(1, 78, [(0, 4, UINT16), (8, 5, STRING), (1, 2, BYTE)], [], big=True)
TELLING = fit(DESCRIBE, describe(0, 7, UINT16, b"Form", b"W"), LITTLE, b"\0" + bytes(range(1, 14)), BIG,
    b"\1" + bytes(range(20, 31)), b"\x85" + bytes(range(40, 53)), b"\xa5" + bytes(11))
CHAIN = SMALL + fit(define(2, 0, [(0, 1, 0)], None, True), b"\2\4")


class Blocks(unittest.TestCase):
    def agree(self, blocks, *how):
        wanted, found = block_model.from_blocks(blocks), told(blocks)
        self.assertEqual(found, wanted, how)
        return found[-1] if found[0] == "block" else found[0]

    def test_files(self):
        """Blocks of files come back to their bytes, by the model too."""
        files = [TELLING, CHAIN, SMALL, 3 * SMALL, BYTES]
        r = random.Random(5)
        files += [any_file(r) for _ in range(60)]
        for data in files:
            blocks = gazhdor.blocks(data)
            self.assertEqual(told(blocks), ("good", data))
            self.assertEqual(block_model.from_blocks(blocks), ("good", data))
            with gazhdor.Stream("blocks") as stream:
                self.assertEqual(stream.feed(data) + stream.finish(), blocks)

    def test_headers(self):
        for size in (12, 14, 15, 20, 255):
            for kind in range(3):
                rest = bytes(max(0, size - 14 + -(size - 14) % 8))
                self.agree(header(size, 0x10, kind, 2132, rest) + END, size, kind)

    def test_places(self):
        """Items may be anywhere in the block of a message, as the entries say, and be those of several fields."""
        blocks = bytearray(gazhdor.blocks(SMALL))
        at = [place for place, block in walk(blocks) if block[n.AT_KIND] == n.DEFINITION][0]
        name = at + n.AT_DEFINITION_NAME
        entry = name + (blocks.index(0, name) - name) // 8 * 8 + 8
        for begins in (0, 4, 24, 41, 44, 52, 53, 200, 2**32 - 1):
            changed = blocks[:]
            changed[entry + n.AT_ENTRY_ITEMS : entry + n.AT_ENTRY_ITEMS + 4] = packed("<I", begins)
            self.agree(bytes(changed), begins)

    def test_cut(self):
        for data in (TELLING, CHAIN):
            blocks = gazhdor.blocks(data)
            reasons = {self.agree(blocks[:end], end) for end in range(len(blocks))}
            self.assertEqual(reasons, {"Cut"} if data is TELLING else {"Cut", "good"})
            for end in range(0, len(blocks), 8):
                self.agree(blocks[end:], end)

    def test_bytes_changed(self):
        """Each byte of the blocks, changed to each other one: of a header, definitions, messages, an end."""
        blocks = gazhdor.blocks(TELLING)
        found = set()
        for place in range(len(blocks)):
            changed = bytearray(blocks)
            for value in range(256) if FULL else {0, 1, 2, 3, 4, 5, 13, 14, 15, 16, 31, 32, 0x2F, 0x30, 127, 128, 254,
                    255, blocks[place] ^ 1, blocks[place] ^ 128}:
                changed[place] = value
                found.add(self.agree(bytes(changed), place, value))
        self.assertEqual(found, {"good", *block_model.REASONS})

    def test_numbers_changed(self):
        blocks = gazhdor.blocks(TELLING)
        for place in range(0, len(blocks) - 8, 2):
            for width in (2, 4, 8):
                if place % width == 0:
                    known = int.from_bytes(blocks[place : place + width], "little")
                    most = 256**width - 1
                    for value in {0, 24, 31, 32, 33, 40, most, most - 7, most // 2, known + 1 & most, known + 8 & most,
                            known - 1 & most, known - 8 & most, 2 * known & most}:
                        self.agree(blocks[:place] + value.to_bytes(width, "little") + blocks[place + width :], place,
                            value)

    def test_blocks_moved(self):
        """Blocks left out, repeated and put in another order."""
        parts = [block for _, block in walk(gazhdor.blocks(TELLING))]
        for one in range(len(parts)):
            self.agree(b"".join(parts[:one] + parts[one + 1 :]), one)
            for other in range(len(parts)):
                self.agree(b"".join(parts[:other] + [parts[one]] + parts[other:]), one, other)

    def test_random(self):
        r = random.Random(8)
        sources = [gazhdor.blocks(any_file(r)) for _ in range(20)]
        for _ in range(3000 if FULL else 500):
            blocks = bytearray(r.choice(sources))
            for _ in range(r.randrange(1, 4)):
                blocks[r.randrange(len(blocks))] = r.choice((0, 1, 2, 3, 4, 255, r.randrange(256)))
            self.agree(bytes(blocks[: r.choice((len(blocks), r.randrange(len(blocks)) // 8 * 8))]))

    def test_unwritable(self):
        # the true checksum of this header is 0, for which zeros can't stand
        head = header(14, 32, n.ZERO_SUM, 46477)
        self.assertEqual(self.agree(head + END), "unwritable")
        with self.assertRaises(gazhdor.BlocksRefused) as caught:
            gazhdor.from_blocks(head + END)
        self.assertEqual((str(caught.exception), caught.exception.block), ("no file has such blocks", None))

    def test_error(self):
        with self.assertRaises(gazhdor.BlocksRefused) as caught:
            gazhdor.from_blocks(gazhdor.blocks(SMALL)[32:])
        error = caught.exception
        self.assertEqual((error.block, error.place, error.reason, error.row, str(error)),
            (0, 0, "Kind", None, "block 0 at 0 refused: Kind"))
        self.assertEqual(error.answer.explanation, "Block 0, which begins at 0, is of a kind that can't stand there.")
        self.assertIsInstance(error, ValueError)
        sent = pickle.loads(pickle.dumps(error))
        self.assertEqual((type(sent), sent.block, sent.place, sent.reason), (gazhdor.BlocksRefused, 0, 0, "Kind"))
        for no_blocks in ("text", None, 5, RIDE):
            with self.assertRaises(TypeError):
                gazhdor.from_blocks(no_blocks)

    def test_sources(self):
        """Blocks of any source, of what comes before a fault, and of bytes of any type."""
        blocks = gazhdor.blocks(RIDE)
        for kind in (bytearray, memoryview):
            self.assertEqual(gazhdor.from_blocks(kind(blocks)), gazhdor.from_blocks(blocks))
        with open(RIDE, "rb") as file:
            self.assertEqual(gazhdor.blocks(file), blocks)
        with tempfile.TemporaryFile() as file:
            file.write(SMALL[:-1])
            file.seek(0)
            self.assertEqual(gazhdor.blocks(file, partial=True), gazhdor.blocks(SMALL)[:-24])
        with self.assertRaises(gazhdor.Truncated):
            gazhdor.blocks(io.BytesIO(SMALL[:-1]))


def header(size, protocol, checksum, profile, rest=b""):
    """The block of a header, of which the size of the data isn't read."""
    return struct.pack("<IBBBBIIQQ", n.AT_HEADER_REST + len(rest), n.FILE_HEADER, size, protocol, checksum, 0, 0, 0,
        profile) + rest


END = struct.pack("<IBBBBIIQ", n.LEAST_BLOCK, n.FILE_END, 0, 0, 0, 0, 0, 0)


def walk(blocks):
    at = 0
    while at < len(blocks):
        length = int.from_bytes(blocks[at + n.AT_LENGTH : at + n.AT_LENGTH + 4], "little")
        yield at, bytes(blocks[at : at + length])
        at += length


if __name__ == "__main__":
    unittest.main()
