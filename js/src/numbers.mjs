/* The numbers of the library and of its blocks (docs/BLOCKS.md), by their names. Written by profile/make. */

// What a block tells.
export const FILE_HEADER = 1
export const DEFINITION = 2
export const MESSAGE = 3
export const FILE_END = 4

// Where each block has these.
export const AT_LENGTH = 0
export const AT_KIND = 4
export const AT_FILE = 8
export const AT_PLACE = 16

// Where the block of a header has these.
export const AT_HEADER_SIZE = 5
export const AT_HEADER_PROTOCOL = 6
export const AT_HEADER_SUM = 7
export const AT_HEADER_DATA = 12
export const AT_HEADER_PROFILE = 24
export const AT_HEADER_REST = 32

// Where the block of a definition message has these.
export const AT_DEFINITION_LOCAL = 5
export const AT_DEFINITION_ARCHITECTURE = 6
export const AT_DEFINITION_RESERVED = 7
export const AT_DEFINITION_MESSAGE_LENGTH = 12
export const AT_DEFINITION_NUMBER = 24
export const AT_DEFINITION_MESSAGE = 32
export const AT_DEFINITION_FIELDS = 34
export const AT_DEFINITION_DEVELOPERS = 36
export const AT_DEFINITION_BITS = 38
export const AT_DEFINITION_NAME = 40

// Where the block of a data message has these.
export const AT_MESSAGE_BITS = 5
export const AT_MESSAGE_LOCAL = 6
export const AT_MESSAGE_OFFSET = 7
export const AT_MESSAGE_TIME = 12
export const AT_MESSAGE_DEFINITION = 24
export const AT_MESSAGE_HEADER_TIME = 32
export const AT_MESSAGE_ITEMS = 40
export const AT_MESSAGE_SPEED = 40
export const AT_MESSAGE_DISTANCE = 48
export const AT_MESSAGE_CYCLES = 56
export const AT_MESSAGE_POWER = 64
export const AT_MESSAGE_COUNTED_ITEMS = 72

// Where the entry of a field in a definition has these.
export const AT_ENTRY_LENGTH = 0
export const AT_ENTRY_UNIT = 2
export const AT_ENTRY_NUMBER = 4
export const AT_ENTRY_DEVELOPER = 5
export const AT_ENTRY_INDEX = 6
export const AT_ENTRY_BASE_TYPE = 7
export const AT_ENTRY_KIND = 8
export const AT_ENTRY_WIDTH = 9
export const AT_ENTRY_COUNT = 10
export const AT_ENTRY_DECIMALS = 11
export const AT_ENTRY_ITEMS = 12
export const AT_ENTRY_SCALE = 16
export const AT_ENTRY_OFFSET = 20
export const AT_ENTRY_INVALID = 24
export const AT_ENTRY_NAME = 32

// The bits of a data message: what it tells.
export const TOLD_TIME = 1
export const TOLD_HEADER_TIME = 2
export const TOLD_SPEED = 4
export const TOLD_DISTANCE = 8
export const TOLD_CYCLES = 16
export const TOLD_POWER = 32

// The bits of a definition message.
export const SAYS_DEVELOPERS = 1
export const IS_COUNTED = 2

// What the items of a field stand for. Of a string and of bytes each item is one byte.
export const UNSIGNED = 0
export const SIGNED = 1
export const FLOAT = 2
export const STRING = 3
export const BYTES = 4

// The architecture of a definition message.
export const LITTLE_ENDIAN = 0
export const BIG_ENDIAN = 1

// The checksum of a header.
export const NO_SUM = 0
export const ZERO_SUM = 1
export const OWN_SUM = 2

// What stands for none in the block of a data message.
export const NO_TIME = 0xFFFFFFFF
export const NO_OFFSET = 255

// The least length of these.
export const LEAST_BLOCK = 24
export const LEAST_ENTRY = 48

// What a call found.
export const GOOD = 0
export const REFUSED = 1
export const TRUNCATED = 2
export const NO_MEMORY = 3
export const TEXT = 4
export const UNWRITABLE = 5
export const CLOSED = 6
export const NO_KIND = 7
export const BLOCK = 8

// What is made of the pieces of a stream.
export const STREAM_CHECK = 0
export const STREAM_SHOW = 1
export const STREAM_TABLE = 2
export const STREAM_TO_CSV = 3
export const STREAM_MESSAGES = 4

// The base types: name, code, what the items stand for, the bytes of one, and the item that stands for no value.
export const BASE_TYPES = [
    ["enum", 0x00, UNSIGNED, 1, 0xFFn],
    ["sint8", 0x01, SIGNED, 1, 0x7Fn],
    ["uint8", 0x02, UNSIGNED, 1, 0xFFn],
    ["string", 0x07, STRING, 1, 0n],
    ["uint8z", 0x0A, UNSIGNED, 1, 0n],
    ["byte", 0x0D, BYTES, 1, 0xFFn],
    ["sint16", 0x83, SIGNED, 2, 0x7FFFn],
    ["uint16", 0x84, UNSIGNED, 2, 0xFFFFn],
    ["sint32", 0x85, SIGNED, 4, 0x7FFFFFFFn],
    ["uint32", 0x86, UNSIGNED, 4, 0xFFFFFFFFn],
    ["float32", 0x88, FLOAT, 4, 0xFFFFFFFFn],
    ["float64", 0x89, FLOAT, 8, 0xFFFFFFFFFFFFFFFFn],
    ["uint16z", 0x8B, UNSIGNED, 2, 0n],
    ["uint32z", 0x8C, UNSIGNED, 4, 0n],
    ["sint64", 0x8E, SIGNED, 8, 0x7FFFFFFFFFFFFFFFn],
    ["uint64", 0x8F, UNSIGNED, 8, 0xFFFFFFFFFFFFFFFFn],
    ["uint64z", 0x90, UNSIGNED, 8, 0n],
]
