//! Why a block can't stand where it is. Written by profile/make.

/// Why a block can't stand where it is.
#[derive(Debug, Clone, Copy, PartialEq, Eq, Hash)]
pub enum BlockReason {
    /// The block isn't whole: its length isn't a multiple of 8 from 24 on, or goes past the end; or it is missing there, before a file has begun or has ended.
    Cut = 1,
    /// The block is of a kind that can't stand there.
    Kind,
    /// The block is a header of a size, a protocol version, a profile version or a kind of checksum that no file has.
    Header,
    /// The block has a local message type above 15, or above 3 beside a time offset.
    Local,
    /// The block has an architecture that is neither 0 nor 1.
    Architecture,
    /// The block is a definition that its entries don't fill as its counts say.
    Entries,
    /// The block has a field of more than 255 bytes, or with items of another width than a reader gives them.
    Size,
    /// The block has a time offset of 32 to 254.
    Offset,
    /// The block is a message whose local message type isn't defined.
    Undefined,
    /// The block is a message that ends before the items of its fields do.
    Items,
    /// The block comes before a file has begun.
    NoFile,
    /// The block begins one file more than a chain may have.
    Files,
    /// The block is a message of 255 fields that needs a timestamp.
    Full,
    /// The block is a message that needs a timestamp, and whose time is the number that stands for none.
    Time,
    /// The block is a message of which a developer field can't be described with its base type, name and unit.
    Described,
    /// The block would make the data of its file longer than a file may have.
    TooLong,
}

/// All reasons, in the order of their numbers.
pub(crate) const BLOCK_REASONS: [BlockReason; 16] = [
    BlockReason::Cut,
    BlockReason::Kind,
    BlockReason::Header,
    BlockReason::Local,
    BlockReason::Architecture,
    BlockReason::Entries,
    BlockReason::Size,
    BlockReason::Offset,
    BlockReason::Undefined,
    BlockReason::Items,
    BlockReason::NoFile,
    BlockReason::Files,
    BlockReason::Full,
    BlockReason::Time,
    BlockReason::Described,
    BlockReason::TooLong,
];

impl BlockReason {
    /// What it says of the block, as `the block has a time offset of 32 to 254`.
    #[must_use]
    pub fn explanation(self) -> &'static str {
        match self {
            BlockReason::Cut => {
                "the block isn't whole: its length isn't a multiple of 8 from 24 on, or goes past the end; or it is missing there, before a file has begun or has ended"
            }
            BlockReason::Kind => "the block is of a kind that can't stand there",
            BlockReason::Header => {
                "the block is a header of a size, a protocol version, a profile version or a kind of checksum that no file has"
            }
            BlockReason::Local => "the block has a local message type above 15, or above 3 beside a time offset",
            BlockReason::Architecture => "the block has an architecture that is neither 0 nor 1",
            BlockReason::Entries => "the block is a definition that its entries don't fill as its counts say",
            BlockReason::Size => {
                "the block has a field of more than 255 bytes, or with items of another width than a reader gives them"
            }
            BlockReason::Offset => "the block has a time offset of 32 to 254",
            BlockReason::Undefined => "the block is a message whose local message type isn't defined",
            BlockReason::Items => "the block is a message that ends before the items of its fields do",
            BlockReason::NoFile => "the block comes before a file has begun",
            BlockReason::Files => "the block begins one file more than a chain may have",
            BlockReason::Full => "the block is a message of 255 fields that needs a timestamp",
            BlockReason::Time => {
                "the block is a message that needs a timestamp, and whose time is the number that stands for none"
            }
            BlockReason::Described => {
                "the block is a message of which a developer field can't be described with its base type, name and unit"
            }
            BlockReason::TooLong => "the block would make the data of its file longer than a file may have",
        }
    }
}
