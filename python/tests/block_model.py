"""What `from_blocks` makes of blocks, worked out here by docs/BLOCKS.md and the protocol alone: the bytes of the files
that they say, or the first block that can't stand where it is, its place, and the reason."""
import struct

from fits import checksum

from gazhdor import _numbers as n

CUT, KIND, HEADER, LOCAL, ARCHITECTURE, ENTRIES, SIZE, OFFSET, UNDEFINED, ITEMS = range(1, 11)
REASONS = ("Cut", "Kind", "Header", "Local", "Architecture", "Entries", "Size", "Offset", "Undefined", "Items")
WIDTHS = {0x83: 2, 0x84: 2, 0x8B: 2, 0x85: 4, 0x86: 4, 0x88: 4, 0x8C: 4, 0x89: 8, 0x8E: 8, 0x8F: 8, 0x90: 8}
BYTE, DESCRIPTION, MOST_FILES, MOST_DATA = 13, 206, 2**24 - 1, 2**32 - 1


class Fault(Exception):
    """The reason why a block can't stand where it is."""


class Unwritable(Exception):
    """The files that blocks say have no bytes."""


def need(condition, reason):
    if not condition:
        raise Fault(reason)


def number(block, at, width):
    return int.from_bytes(block[at : at + width], "little")


def cut(blocks, at):
    """The block that begins at a place: it has at least 24 bytes, and a multiple of 8."""
    length = number(blocks, at + n.AT_LENGTH, 4)
    need(at + n.LEAST_BLOCK <= len(blocks) and n.LEAST_BLOCK <= length <= len(blocks) - at and length % 8 == 0, CUT)
    return blocks[at : at + length]


def item_width(code, size):
    """How wide the items of a field are: as its base type, where that divides the size."""
    width = WIDTHS.get(code, 1)
    return 1 if size % width else width


def says_developers(block):
    """Whether a definition message says which developer fields there are."""
    return block[n.AT_DEFINITION_BITS] & n.SAYS_DEVELOPERS


class File:
    """A file of which some blocks have come."""

    def __init__(self, block):
        need(len(block) >= n.AT_HEADER_REST, HEADER)
        self.size, self.protocol = block[n.AT_HEADER_SIZE], block[n.AT_HEADER_PROTOCOL]
        self.sum = block[n.AT_HEADER_SUM]
        self.profile = number(block, n.AT_HEADER_PROFILE, 8)
        need(self.protocol < 0x30 and self.profile < 65536 and self.sum <= n.OWN_SUM, HEADER)
        end = n.AT_HEADER_REST + self.size - 14
        need(self.size == 12 if self.sum == n.NO_SUM else self.size >= 14 and len(block) >= end, HEADER)
        self.more = block[n.AT_HEADER_REST : end] if self.sum else b""
        self.data = bytearray()
        # of each local message type whether it is big endian, its message, and of each field its number, place, width,
        # items, or no number
        self.definitions = {}
        self.codes = {}

    @staticmethod
    def entries(block):
        """The entries of a definition, those of the fields first."""
        fields, developers = number(block, n.AT_DEFINITION_FIELDS, 2), number(block, n.AT_DEFINITION_DEVELOPERS, 2)
        name = n.AT_DEFINITION_NAME
        need(len(block) > name and 0 in block[name:], ENTRIES)
        at = name + (block.index(0, name) - name) // 8 * 8 + 8
        need(at <= len(block) and fields < 256 and developers < 256 and (says_developers(block) or developers == 0),
            ENTRIES)
        found = []
        for place in range(fields + developers):
            length = number(block, at + n.AT_ENTRY_LENGTH, 2)
            need(n.AT_ENTRY_NAME <= length <= len(block) - at and block[at + n.AT_ENTRY_DEVELOPER] == (place >= fields),
                ENTRIES)
            found.append(block[at : at + length])
            at += length
        need(at == len(block), ENTRIES)
        return found

    def define(self, block):
        local, big = block[n.AT_DEFINITION_LOCAL], block[n.AT_DEFINITION_ARCHITECTURE]
        reserved = block[n.AT_DEFINITION_RESERVED]
        need(local < 16, LOCAL)
        need(big <= n.BIG_ENDIAN, ARCHITECTURE)
        fields, developers, last = [], [], []
        for entry in self.entries(block):
            of, developer, index = entry[n.AT_ENTRY_NUMBER], entry[n.AT_ENTRY_DEVELOPER], entry[n.AT_ENTRY_INDEX]
            code, width, count = entry[n.AT_ENTRY_BASE_TYPE], entry[n.AT_ENTRY_WIDTH], entry[n.AT_ENTRY_COUNT]
            size = width * count
            need(size < 256 and item_width(self.codes.get((index, of), BYTE) if developer else code, size) == width,
                SIZE)
            (developers if developer else fields).append(bytes([of, size, index if developer else code]))
            last.append((None if developer else of, number(entry, n.AT_ENTRY_ITEMS, 4), width, count))
        says, message = says_developers(block), number(block, n.AT_DEFINITION_MESSAGE, 2)
        head = struct.pack(">BBBHB" if big else "<BBBHB", 0x40 | says << 5 | local, reserved, big, message, len(fields))
        self.data += head + b"".join(fields) + (bytes([len(developers)]) + b"".join(developers) if says else b"")
        self.definitions[local] = big, message, last

    def message(self, block):
        local, offset = block[n.AT_MESSAGE_LOCAL], block[n.AT_MESSAGE_OFFSET]
        need(local < (16 if offset == n.NO_OFFSET else 4), LOCAL)
        need(offset < 32 or offset == n.NO_OFFSET, OFFSET)
        need(local in self.definitions, UNDEFINED)
        big, message, fields = self.definitions[local]
        need(all(at + width * count <= len(block) for _, at, width, count in fields), ITEMS)
        self.data.append(local if offset == n.NO_OFFSET else 0x80 | local << 5 | offset)
        only = {}
        for of, at, width, count in fields:
            items = [block[k : k + width] for k in range(at, at + width * count, width)]
            self.data += b"".join(item[::-1] if big else item for item in items)
            if of is not None:
                only.setdefault(of, items[0][0] if count == width == 1 else None)
        told = [only.get(of) for of in (0, 1, 2)]
        if message == DESCRIPTION and None not in told:
            self.codes[told[0], told[1]] = told[2]

    def bytes(self):
        if len(self.data) > MOST_DATA:
            raise Unwritable
        head = struct.pack("<BBHI4s", self.size, self.protocol, self.profile, len(self.data), b".FIT")
        if self.sum == n.ZERO_SUM and checksum(head) == b"\0\0":
            raise Unwritable
        head += (b"", b"\0\0", checksum(head))[self.sum] + self.more
        return head + bytes(self.data) + checksum(head + bytes(self.data))


def stand(file, block, files):
    """The file after a block; None after its end."""
    kind = block[n.AT_KIND]
    if file is None:
        need(kind == n.FILE_HEADER and len(files) < MOST_FILES, KIND)
        return File(block)
    need(kind in (n.DEFINITION, n.MESSAGE, n.FILE_END), KIND)
    if kind == n.FILE_END:
        files.append(file)
        return None
    (file.define if kind == n.DEFINITION else file.message)(block)
    return file


def from_blocks(blocks):
    """("good", the bytes), ("block", its number from 0, its place, the reason) or ("unwritable",)."""
    at = count = 0
    file, files = None, []
    try:
        while at < len(blocks):
            block = cut(blocks, at)
            file = stand(file, block, files)
            at, count = at + len(block), count + 1
        need(file is None and files, CUT)
        return "good", b"".join(file.bytes() for file in files)
    except Fault as fault:
        return "block", count, at, REASONS[fault.args[0] - 1]
    except Unwritable:
        return ("unwritable",)
