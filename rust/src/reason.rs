//! Why a byte is refused. Written by profile/make.

/// Why a byte is refused.
#[derive(Debug, Clone, Copy, PartialEq, Eq, Hash)]
pub enum Reason {
    /// The byte begins a header of 0 to 11 or 13 bytes.
    HeaderSize = 1,
    /// The byte has a major version above 2.
    Protocol,
    /// The byte leaves 1 to 5 bytes of the data section that no records can fill.
    NoFit,
    /// The byte isn't that of .FIT.
    Signature,
    /// The byte begins neither the header checksum (the protocol's CRC of the header) nor two zeros.
    HeaderSum,
    /// The byte is a normal record header with bit 4 set, or one of a data message with bit 5 set.
    ReservedBit,
    /// The byte is the record header of a data message whose local message type isn't defined.
    UndefinedLocal,
    /// The byte begins a message, or is a number of fields, for which too few bytes of the data section remain.
    Overrun,
    /// The byte is neither 0 nor 1.
    Architecture,
    /// The byte isn't that of the closing checksum (the protocol's CRC of the file).
    FileSum,
    /// The byte follows the 16,777,215th file of a chain.
    TooManyFiles,
}

/// All reasons, in the order of their numbers.
pub(crate) const REASONS: [Reason; 11] = [
    Reason::HeaderSize,
    Reason::Protocol,
    Reason::NoFit,
    Reason::Signature,
    Reason::HeaderSum,
    Reason::ReservedBit,
    Reason::UndefinedLocal,
    Reason::Overrun,
    Reason::Architecture,
    Reason::FileSum,
    Reason::TooManyFiles,
];

impl Reason {
    /// What it says of the byte, as `the byte is neither 0 nor 1`.
    #[must_use]
    pub fn explanation(self) -> &'static str {
        match self {
            Reason::HeaderSize => "the byte begins a header of 0 to 11 or 13 bytes",
            Reason::Protocol => "the byte has a major version above 2",
            Reason::NoFit => "the byte leaves 1 to 5 bytes of the data section that no records can fill",
            Reason::Signature => "the byte isn't that of .FIT",
            Reason::HeaderSum => {
                "the byte begins neither the header checksum (the protocol's CRC of the header) nor two zeros"
            }
            Reason::ReservedBit => {
                "the byte is a normal record header with bit 4 set, or one of a data message with bit 5 set"
            }
            Reason::UndefinedLocal => {
                "the byte is the record header of a data message whose local message type isn't defined"
            }
            Reason::Overrun => {
                "the byte begins a message, or is a number of fields, for which too few bytes of the data section remain"
            }
            Reason::Architecture => "the byte is neither 0 nor 1",
            Reason::FileSum => "the byte isn't that of the closing checksum (the protocol's CRC of the file)",
            Reason::TooManyFiles => "the byte follows the 16,777,215th file of a chain",
        }
    }
}
