"""Why a byte is refused, and why a block can't be written: each reason, by its number from 1, with what it says of the
byte or the block. Written by profile/make."""

REASONS = (
    ("HeaderSize", "begins a header of 0 to 11 or 13 bytes"),
    ("Protocol", "has a major version above 2"),
    ("NoFit", "leaves 1 to 5 bytes of the data section that no records can fill"),
    ("Signature", "isn't that of .FIT"),
    ("HeaderSum", "begins neither the header checksum (the protocol's CRC of the header) nor two zeros"),
    ("ReservedBit", "is a normal record header with bit 4 set, or one of a data message with bit 5 set"),
    ("UndefinedLocal", "is the record header of a data message whose local message type isn't defined"),
    ("Overrun", "begins a message, or is a number of fields, for which too few bytes of the data section remain"),
    ("Architecture", "is neither 0 nor 1"),
    ("FileSum", "isn't that of the closing checksum (the protocol's CRC of the file)"),
    ("TooManyFiles", "follows the 16,777,215th file of a chain"),
)

BLOCK_REASONS = (
    (
        "Cut",
        "isn't whole: its length isn't a multiple of 8 from 24 on, or goes past the end; or it is missing there, "
        "before a file has begun or has ended",
    ),
    ("Kind", "is of a kind that can't stand there"),
    ("Header", "is a header of a size, a protocol version, a profile version or a kind of checksum that no file has"),
    ("Local", "has a local message type above 15, or above 3 beside a time offset"),
    ("Architecture", "has an architecture that is neither 0 nor 1"),
    ("Entries", "is a definition that its entries don't fill as its counts say"),
    ("Size", "has a field of more than 255 bytes, or with items of another width than a reader gives them"),
    ("Offset", "has a time offset of 32 to 254"),
    ("Undefined", "is a message whose local message type isn't defined"),
    ("Items", "is a message that ends before the items of its fields do"),
    ("NoFile", "comes before a file has begun"),
    ("Files", "begins one file more than a chain may have"),
    ("Full", "is a message of 255 fields that needs a timestamp"),
    ("Time", "is a message that needs a timestamp, and whose time is the number that stands for none"),
    ("Described", "is a message of which a developer field can't be described with its base type, name and unit"),
    ("TooLong", "would make the data of its file longer than a file may have"),
)
