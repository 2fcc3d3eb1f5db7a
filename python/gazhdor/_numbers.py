"""The numbers of the library and of its blocks (docs/BLOCKS.md), by their names. Written by profile/make."""

# What a block tells.
FILE_HEADER = 1
DEFINITION = 2
MESSAGE = 3
FILE_END = 4

# Where each block has these.
AT_LENGTH = 0
AT_KIND = 4
AT_FILE = 8
AT_PLACE = 16

# Where the block of a header has these.
AT_HEADER_SIZE = 5
AT_HEADER_PROTOCOL = 6
AT_HEADER_SUM = 7
AT_HEADER_DATA = 12
AT_HEADER_PROFILE = 24
AT_HEADER_REST = 32

# Where the block of a definition message has these.
AT_DEFINITION_LOCAL = 5
AT_DEFINITION_ARCHITECTURE = 6
AT_DEFINITION_RESERVED = 7
AT_DEFINITION_MESSAGE_LENGTH = 12
AT_DEFINITION_NUMBER = 24
AT_DEFINITION_MESSAGE = 32
AT_DEFINITION_FIELDS = 34
AT_DEFINITION_DEVELOPERS = 36
AT_DEFINITION_BITS = 38
AT_DEFINITION_NAME = 40

# Where the block of a data message has these.
AT_MESSAGE_BITS = 5
AT_MESSAGE_LOCAL = 6
AT_MESSAGE_OFFSET = 7
AT_MESSAGE_TIME = 12
AT_MESSAGE_DEFINITION = 24
AT_MESSAGE_HEADER_TIME = 32
AT_MESSAGE_ITEMS = 40
AT_MESSAGE_SPEED = 40
AT_MESSAGE_DISTANCE = 48
AT_MESSAGE_CYCLES = 56
AT_MESSAGE_POWER = 64
AT_MESSAGE_COUNTED_ITEMS = 72

# Where the entry of a field in a definition has these.
AT_ENTRY_LENGTH = 0
AT_ENTRY_UNIT = 2
AT_ENTRY_NUMBER = 4
AT_ENTRY_DEVELOPER = 5
AT_ENTRY_INDEX = 6
AT_ENTRY_BASE_TYPE = 7
AT_ENTRY_KIND = 8
AT_ENTRY_WIDTH = 9
AT_ENTRY_COUNT = 10
AT_ENTRY_DECIMALS = 11
AT_ENTRY_ITEMS = 12
AT_ENTRY_SCALE = 16
AT_ENTRY_OFFSET = 20
AT_ENTRY_INVALID = 24
AT_ENTRY_NAME = 32

# The bits of a data message: what it tells.
TOLD_TIME = 1
TOLD_HEADER_TIME = 2
TOLD_SPEED = 4
TOLD_DISTANCE = 8
TOLD_CYCLES = 16
TOLD_POWER = 32

# The bits of a definition message.
SAYS_DEVELOPERS = 1
IS_COUNTED = 2

# What the items of a field stand for. Of a string and of bytes each item is one byte.
UNSIGNED = 0
SIGNED = 1
FLOAT = 2
STRING = 3
BYTES = 4

# The architecture of a definition message.
LITTLE_ENDIAN = 0
BIG_ENDIAN = 1

# The checksum of a header.
NO_SUM = 0
ZERO_SUM = 1
OWN_SUM = 2

# What stands for none in the block of a data message.
NO_TIME = 0xFFFFFFFF
NO_OFFSET = 255

# The least length of these.
LEAST_BLOCK = 24
LEAST_ENTRY = 48

# The numbers of a block up to what has no length of its own, and of an entry, as `struct` packs them.
HEADER_FORMAT = "<IBBBBIIQQ"
DEFINITION_FORMAT = "<IBBBBIIQQHHHH"
MESSAGE_FORMAT = "<IBBBBIIQQQ"
ENTRY_FORMAT = "<HHBBBBBBBBIIIQ"

# What a call found.
GOOD = 0
REFUSED = 1
TRUNCATED = 2
NO_MEMORY = 3
TEXT = 4
UNWRITABLE = 5
CLOSED = 6
NO_KIND = 7
BLOCK = 8

# What is made of the pieces of a stream.
STREAM_CHECK = 0
STREAM_SHOW = 1
STREAM_TABLE = 2
STREAM_TO_CSV = 3
STREAM_MESSAGES = 4

# Each base type: its name, its code, what its items stand for, the bytes of one, and the item that stands for no value.
BASE_TYPES = (
    ("enum", 0x00, UNSIGNED, 1, 0xFF),
    ("sint8", 0x01, SIGNED, 1, 0x7F),
    ("uint8", 0x02, UNSIGNED, 1, 0xFF),
    ("string", 0x07, STRING, 1, 0),
    ("uint8z", 0x0A, UNSIGNED, 1, 0),
    ("byte", 0x0D, BYTES, 1, 0xFF),
    ("sint16", 0x83, SIGNED, 2, 0x7FFF),
    ("uint16", 0x84, UNSIGNED, 2, 0xFFFF),
    ("sint32", 0x85, SIGNED, 4, 0x7FFFFFFF),
    ("uint32", 0x86, UNSIGNED, 4, 0xFFFFFFFF),
    ("float32", 0x88, FLOAT, 4, 0xFFFFFFFF),
    ("float64", 0x89, FLOAT, 8, 0xFFFFFFFFFFFFFFFF),
    ("uint16z", 0x8B, UNSIGNED, 2, 0),
    ("uint32z", 0x8C, UNSIGNED, 4, 0),
    ("sint64", 0x8E, SIGNED, 8, 0x7FFFFFFFFFFFFFFF),
    ("uint64", 0x8F, UNSIGNED, 8, 0xFFFFFFFFFFFFFFFF),
    ("uint64z", 0x90, UNSIGNED, 8, 0),
)
