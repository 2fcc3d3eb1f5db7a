//! Why a writer doesn't take something.
use crate::block_reason::BlockReason;
use crate::blocks_fault::reason_of;
use crate::library::Answer;
use crate::numbers::{BLOCK, GOOD, NO_MEMORY};
use crate::value_error::Unfit;
use std::error::Error;
use std::fmt::{self, Display, Formatter};
use std::io;

/// Why a [`Writer`](crate::Writer) doesn't take a header, a definition or a message. All that it took before it still has, and it takes more.
#[derive(Debug, Clone, PartialEq, Eq)]
pub enum PutFault {
    /// It can't stand there: what is said of its block.
    Refused(BlockReason),
    /// A developer field of the message isn't described where it comes from, and is described in the file: it would be read as another one. Or
    /// it can't be described: its name or its unit has more than 254 bytes or a control character, or two of one number differ.
    Described {
        /// Its name, or `dev_0_5` by its numbers.
        field: String,
    },
    /// Memory was refused. This says nothing of the message.
    OutOfMemory,
}

impl Display for PutFault {
    fn fmt(&self, f: &mut Formatter<'_>) -> fmt::Result {
        match self {
            PutFault::Refused(reason) => f.write_str(reason.explanation()),
            PutFault::Described { field } => {
                let what = "isn't described where it comes from, and is in this file, or can't be described";
                write!(f, "the developer field {field} {what}")
            }
            PutFault::OutOfMemory => f.write_str("out of memory"),
        }
    }
}

impl Error for PutFault {}

/// What an answer of the library says of a call of its writer.
pub(crate) fn judged(answer: &Answer) -> Result<(), PutFault> {
    match answer.status {
        GOOD => Ok(()),
        NO_MEMORY => Err(PutFault::OutOfMemory),
        BLOCK => Err(PutFault::Refused(reason_of(answer.reason))),
        other => panic!("status {other} isn't one of gazhdor {} for a writer", env!("CARGO_PKG_VERSION")),
    }
}

/// Why a [`Writer`](crate::Writer) wrote nothing, or not all.
#[derive(Debug)]
pub enum WriteFault {
    /// A value doesn't fit into its field, or a field into a definition.
    Unfit(Unfit),
    /// The writer doesn't take it. Nothing was written.
    Put(PutFault),
    /// A write failed. Nothing or a first part was written.
    Write(io::Error),
}

impl Display for WriteFault {
    fn fmt(&self, f: &mut Formatter<'_>) -> fmt::Result {
        match self {
            WriteFault::Unfit(unfit) => Display::fmt(unfit, f),
            WriteFault::Put(fault) => Display::fmt(fault, f),
            WriteFault::Write(error) => Display::fmt(error, f),
        }
    }
}

impl Error for WriteFault {}

impl From<Unfit> for WriteFault {
    fn from(unfit: Unfit) -> WriteFault {
        WriteFault::Unfit(unfit)
    }
}

impl From<PutFault> for WriteFault {
    fn from(fault: PutFault) -> WriteFault {
        WriteFault::Put(fault)
    }
}

impl From<io::Error> for WriteFault {
    fn from(error: io::Error) -> WriteFault {
        WriteFault::Write(error)
    }
}

#[cfg(test)]
mod tests {
    use super::*;

    #[test]
    fn each_status_has_its_fault() {
        let answer = |status| Answer { status, reason: 15, place: 0, row: 0, column: 0, files: 0 };
        let described = PutFault::Refused(BlockReason::Described);
        assert_eq!(judged(&answer(0)), Ok(()));
        assert_eq!(judged(&answer(3)).unwrap_err().to_string(), "out of memory");
        assert_eq!(judged(&answer(8)), Err(described));
    }

    #[test]
    #[should_panic(expected = "status 6 isn't one of gazhdor")]
    fn another_status() {
        let _ = judged(&Answer { status: 6, reason: 0, place: 0, row: 0, column: 0, files: 0 });
    }
}
