//! The numbers of the library and of its blocks, as docs/BLOCKS.md has them, by their names. Written by profile/make.
#![allow(dead_code)]
use crate::base_type::{BaseRow, BaseType};

// What a block tells.
pub(crate) const FILE_HEADER: u8 = 1;
pub(crate) const DEFINITION: u8 = 2;
pub(crate) const MESSAGE: u8 = 3;
pub(crate) const FILE_END: u8 = 4;

// Where each block has these.
pub(crate) const AT_LENGTH: usize = 0;
pub(crate) const AT_KIND: usize = 4;
pub(crate) const AT_FILE: usize = 8;
pub(crate) const AT_PLACE: usize = 16;

// Where the block of a header has these.
pub(crate) const AT_HEADER_SIZE: usize = 5;
pub(crate) const AT_HEADER_PROTOCOL: usize = 6;
pub(crate) const AT_HEADER_SUM: usize = 7;
pub(crate) const AT_HEADER_DATA: usize = 12;
pub(crate) const AT_HEADER_PROFILE: usize = 24;
pub(crate) const AT_HEADER_REST: usize = 32;

// Where the block of a definition message has these.
pub(crate) const AT_DEFINITION_LOCAL: usize = 5;
pub(crate) const AT_DEFINITION_ARCHITECTURE: usize = 6;
pub(crate) const AT_DEFINITION_RESERVED: usize = 7;
pub(crate) const AT_DEFINITION_MESSAGE_LENGTH: usize = 12;
pub(crate) const AT_DEFINITION_NUMBER: usize = 24;
pub(crate) const AT_DEFINITION_MESSAGE: usize = 32;
pub(crate) const AT_DEFINITION_FIELDS: usize = 34;
pub(crate) const AT_DEFINITION_DEVELOPERS: usize = 36;
pub(crate) const AT_DEFINITION_BITS: usize = 38;
pub(crate) const AT_DEFINITION_NAME: usize = 40;

// Where the block of a data message has these.
pub(crate) const AT_MESSAGE_BITS: usize = 5;
pub(crate) const AT_MESSAGE_LOCAL: usize = 6;
pub(crate) const AT_MESSAGE_OFFSET: usize = 7;
pub(crate) const AT_MESSAGE_TIME: usize = 12;
pub(crate) const AT_MESSAGE_DEFINITION: usize = 24;
pub(crate) const AT_MESSAGE_HEADER_TIME: usize = 32;
pub(crate) const AT_MESSAGE_ITEMS: usize = 40;
pub(crate) const AT_MESSAGE_SPEED: usize = 40;
pub(crate) const AT_MESSAGE_DISTANCE: usize = 48;
pub(crate) const AT_MESSAGE_CYCLES: usize = 56;
pub(crate) const AT_MESSAGE_POWER: usize = 64;
pub(crate) const AT_MESSAGE_COUNTED_ITEMS: usize = 72;

// Where the entry of a field in a definition has these.
pub(crate) const AT_ENTRY_LENGTH: usize = 0;
pub(crate) const AT_ENTRY_UNIT: usize = 2;
pub(crate) const AT_ENTRY_NUMBER: usize = 4;
pub(crate) const AT_ENTRY_DEVELOPER: usize = 5;
pub(crate) const AT_ENTRY_INDEX: usize = 6;
pub(crate) const AT_ENTRY_BASE_TYPE: usize = 7;
pub(crate) const AT_ENTRY_KIND: usize = 8;
pub(crate) const AT_ENTRY_WIDTH: usize = 9;
pub(crate) const AT_ENTRY_COUNT: usize = 10;
pub(crate) const AT_ENTRY_DECIMALS: usize = 11;
pub(crate) const AT_ENTRY_ITEMS: usize = 12;
pub(crate) const AT_ENTRY_SCALE: usize = 16;
pub(crate) const AT_ENTRY_OFFSET: usize = 20;
pub(crate) const AT_ENTRY_INVALID: usize = 24;
pub(crate) const AT_ENTRY_NAME: usize = 32;

// The bits of a data message: what it tells.
pub(crate) const TOLD_TIME: u8 = 1;
pub(crate) const TOLD_HEADER_TIME: u8 = 2;
pub(crate) const TOLD_SPEED: u8 = 4;
pub(crate) const TOLD_DISTANCE: u8 = 8;
pub(crate) const TOLD_CYCLES: u8 = 16;
pub(crate) const TOLD_POWER: u8 = 32;

// The bits of a definition message.
pub(crate) const SAYS_DEVELOPERS: u16 = 1;
pub(crate) const IS_COUNTED: u16 = 2;

// What the items of a field stand for. Of a string and of bytes each item is one byte.
pub(crate) const UNSIGNED: u8 = 0;
pub(crate) const SIGNED: u8 = 1;
pub(crate) const FLOAT: u8 = 2;
pub(crate) const STRING: u8 = 3;
pub(crate) const BYTES: u8 = 4;

// The architecture of a definition message.
pub(crate) const LITTLE_ENDIAN: u8 = 0;
pub(crate) const BIG_ENDIAN: u8 = 1;

// The checksum of a header.
pub(crate) const NO_SUM: u8 = 0;
pub(crate) const ZERO_SUM: u8 = 1;
pub(crate) const OWN_SUM: u8 = 2;

// What stands for none in the block of a data message.
pub(crate) const NO_TIME: u32 = 0xFFFF_FFFF;
pub(crate) const NO_OFFSET: u8 = 255;

// The least length of these.
pub(crate) const LEAST_BLOCK: usize = 24;
pub(crate) const LEAST_ENTRY: usize = 48;

// What a call found.
pub(crate) const GOOD: u32 = 0;
pub(crate) const REFUSED: u32 = 1;
pub(crate) const TRUNCATED: u32 = 2;
pub(crate) const NO_MEMORY: u32 = 3;
pub(crate) const TEXT: u32 = 4;
pub(crate) const UNWRITABLE: u32 = 5;
pub(crate) const CLOSED: u32 = 6;
pub(crate) const NO_KIND: u32 = 7;
pub(crate) const BLOCK: u32 = 8;

// What is made of the pieces of a stream.
pub(crate) const STREAM_CHECK: u32 = 0;
pub(crate) const STREAM_SHOW: u32 = 1;
pub(crate) const STREAM_TABLE: u32 = 2;
pub(crate) const STREAM_TO_CSV: u32 = 3;
pub(crate) const STREAM_MESSAGES: u32 = 4;

/// All base types.
pub(crate) static BASE_TYPES: [BaseRow; 17] = [
    BaseRow { base_type: BaseType::Enum, name: "enum", kind: UNSIGNED, width: 1, invalid: 0xFF },
    BaseRow { base_type: BaseType::Sint8, name: "sint8", kind: SIGNED, width: 1, invalid: 0x7F },
    BaseRow { base_type: BaseType::Uint8, name: "uint8", kind: UNSIGNED, width: 1, invalid: 0xFF },
    BaseRow { base_type: BaseType::String, name: "string", kind: STRING, width: 1, invalid: 0 },
    BaseRow { base_type: BaseType::Uint8z, name: "uint8z", kind: UNSIGNED, width: 1, invalid: 0 },
    BaseRow { base_type: BaseType::Byte, name: "byte", kind: BYTES, width: 1, invalid: 0xFF },
    BaseRow { base_type: BaseType::Sint16, name: "sint16", kind: SIGNED, width: 2, invalid: 0x7FFF },
    BaseRow { base_type: BaseType::Uint16, name: "uint16", kind: UNSIGNED, width: 2, invalid: 0xFFFF },
    BaseRow { base_type: BaseType::Sint32, name: "sint32", kind: SIGNED, width: 4, invalid: 0x7FFF_FFFF },
    BaseRow { base_type: BaseType::Uint32, name: "uint32", kind: UNSIGNED, width: 4, invalid: 0xFFFF_FFFF },
    BaseRow { base_type: BaseType::Float32, name: "float32", kind: FLOAT, width: 4, invalid: 0xFFFF_FFFF },
    BaseRow { base_type: BaseType::Float64, name: "float64", kind: FLOAT, width: 8, invalid: 0xFFFF_FFFF_FFFF_FFFF },
    BaseRow { base_type: BaseType::Uint16z, name: "uint16z", kind: UNSIGNED, width: 2, invalid: 0 },
    BaseRow { base_type: BaseType::Uint32z, name: "uint32z", kind: UNSIGNED, width: 4, invalid: 0 },
    BaseRow { base_type: BaseType::Sint64, name: "sint64", kind: SIGNED, width: 8, invalid: 0x7FFF_FFFF_FFFF_FFFF },
    BaseRow { base_type: BaseType::Uint64, name: "uint64", kind: UNSIGNED, width: 8, invalid: 0xFFFF_FFFF_FFFF_FFFF },
    BaseRow { base_type: BaseType::Uint64z, name: "uint64z", kind: UNSIGNED, width: 8, invalid: 0 },
];
