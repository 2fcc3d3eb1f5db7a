//! The base types of fields. The table in it is written by profile/make.
use crate::numbers::BASE_TYPES;

/// The base type of a field, of which the FIT protocol has seventeen.
#[derive(Debug, Clone, Copy, PartialEq, Eq, Hash)]
pub enum BaseType {
    /// A number that stands for a name, in one byte.
    Enum = 0x00,
    /// A signed number of 1 byte.
    Sint8 = 0x01,
    /// An unsigned number of 1 byte.
    Uint8 = 0x02,
    /// A text in UTF-8.
    String = 0x07,
    /// An unsigned number of 1 byte, of which 0 stands for no value.
    Uint8z = 0x0A,
    /// Bytes.
    Byte = 0x0D,
    /// A signed number of 2 bytes.
    Sint16 = 0x83,
    /// An unsigned number of 2 bytes.
    Uint16 = 0x84,
    /// A signed number of 4 bytes.
    Sint32 = 0x85,
    /// An unsigned number of 4 bytes.
    Uint32 = 0x86,
    /// A floating-point number of 4 bytes.
    Float32 = 0x88,
    /// A floating-point number of 8 bytes.
    Float64 = 0x89,
    /// An unsigned number of 2 bytes, of which 0 stands for no value.
    Uint16z = 0x8B,
    /// An unsigned number of 4 bytes, of which 0 stands for no value.
    Uint32z = 0x8C,
    /// A signed number of 8 bytes.
    Sint64 = 0x8E,
    /// An unsigned number of 8 bytes.
    Uint64 = 0x8F,
    /// An unsigned number of 8 bytes, of which 0 stands for no value.
    Uint64z = 0x90,
}

/// What is known of a base type.
pub(crate) struct BaseRow {
    pub(crate) base_type: BaseType,
    /// Its name in the FIT protocol.
    pub(crate) name: &'static str,
    /// What its items stand for.
    pub(crate) kind: u8,
    /// The bytes of an item.
    pub(crate) width: u8,
    /// The item that stands for no value.
    pub(crate) invalid: u64,
}

impl BaseType {
    /// That of a code, as [`Field::base_type`](crate::Field::base_type) gives it.
    #[must_use]
    pub fn of(code: u8) -> Option<BaseType> {
        BASE_TYPES.iter().map(|row| row.base_type).find(|&of| of.code() == code)
    }

    /// That of a name, as `uint8`.
    #[must_use]
    pub fn named(name: &str) -> Option<BaseType> {
        BASE_TYPES.iter().find(|row| row.name == name).map(|row| row.base_type)
    }

    /// Its code in definition messages.
    #[must_use]
    pub fn code(self) -> u8 {
        self as u8
    }

    /// Its name in the FIT protocol, as `uint8`.
    #[must_use]
    pub fn name(self) -> &'static str {
        self.row().name
    }

    /// How many bytes an item has.
    #[must_use]
    pub fn width(self) -> u8 {
        self.row().width
    }

    pub(crate) fn kind(self) -> u8 {
        self.row().kind
    }

    pub(crate) fn invalid(self) -> u64 {
        self.row().invalid
    }

    fn row(self) -> &'static BaseRow {
        BASE_TYPES.iter().find(|row| row.base_type == self).expect("each base type has its row")
    }
}
