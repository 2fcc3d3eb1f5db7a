//! What is wrong with blocks of which files are to be made, and where.
use crate::block_reason::{BlockReason, BLOCK_REASONS};
use crate::library::Answer;
use crate::numbers::{BLOCK, GOOD, NO_MEMORY, UNWRITABLE};
use std::error::Error;
use std::fmt::{self, Debug, Display, Formatter};

/// Why [`from_blocks`](crate::from_blocks) makes no files, and where.
#[derive(Debug, Clone, Copy, PartialEq, Eq, Hash)]
pub enum BlocksFault {
    /// A block can't stand where it is; or, by [`BlockReason::Cut`], the blocks end where another has to follow.
    Block {
        /// Which block it is, counted from 0; where the blocks end too soon, how many there are.
        block: u64,
        /// Where it begins among the bytes of all blocks.
        place: u64,
        /// Why.
        reason: BlockReason,
    },
    /// The blocks are those of files that have no bytes: they are too long, or have zeros for a checksum of 0.
    Unwritable,
    /// Memory was refused. This says nothing of the blocks.
    OutOfMemory,
}

impl Display for BlockReason {
    fn fmt(&self, f: &mut Formatter<'_>) -> fmt::Result {
        Debug::fmt(self, f)
    }
}

impl Display for BlocksFault {
    fn fmt(&self, f: &mut Formatter<'_>) -> fmt::Result {
        match *self {
            BlocksFault::Block { block, place, reason } => write!(f, "block {block} at {place} refused: {reason}"),
            BlocksFault::Unwritable => f.write_str("no file has such blocks"),
            BlocksFault::OutOfMemory => f.write_str("out of memory"),
        }
    }
}

impl Error for BlocksFault {}

/// What an answer of the library says is wrong with blocks.
pub(crate) fn found(answer: &Answer) -> Option<BlocksFault> {
    Some(match answer.status {
        GOOD => return None,
        NO_MEMORY => BlocksFault::OutOfMemory,
        UNWRITABLE => BlocksFault::Unwritable,
        BLOCK => BlocksFault::Block { block: answer.row, place: answer.place, reason: reason_of(answer.reason) },
        other => panic!("status {other} isn't one of gazhdor {} for blocks", env!("CARGO_PKG_VERSION")),
    })
}

pub(crate) fn reason_of(number: u32) -> BlockReason {
    match BLOCK_REASONS.iter().find(|&&reason| reason as u32 == number) {
        Some(&reason) => reason,
        None => panic!("reason {number} isn't one of gazhdor {} for blocks", env!("CARGO_PKG_VERSION")),
    }
}

#[cfg(test)]
mod tests {
    use super::*;

    fn answer(status: u32) -> Answer {
        Answer { status, reason: 9, place: 40, row: 2, column: 0, files: 0 }
    }

    #[test]
    fn each_status_has_its_fault() {
        let block = BlocksFault::Block { block: 2, place: 40, reason: BlockReason::Undefined };
        let faults = [
            (3, BlocksFault::OutOfMemory, "out of memory"),
            (5, BlocksFault::Unwritable, "no file has such blocks"),
            (8, block, "block 2 at 40 refused: Undefined"),
        ];
        assert_eq!(found(&answer(0)), None);
        for (status, fault, text) in faults {
            assert_eq!(found(&answer(status)), Some(fault));
            assert_eq!(fault.to_string(), text);
        }
    }

    /// In words, as the table of the project has it.
    #[test]
    fn reasons_in_words() {
        assert_eq!(reason_of(8).explanation(), "the block has a time offset of 32 to 254");
        assert_eq!((1..).zip(BLOCK_REASONS).filter(|&(number, named)| reason_of(number) == named).count(), 16);
    }

    #[test]
    #[should_panic(expected = "status 4 isn't one of gazhdor")]
    fn another_status() {
        found(&answer(4));
    }

    #[test]
    #[should_panic(expected = "reason 17 isn't one of gazhdor")]
    fn another_reason() {
        reason_of(17);
    }
}
