//! What is wrong with bytes or a text, and where.
use crate::library::{Answer, Text};
use crate::numbers::{GOOD, NO_MEMORY, REFUSED, TEXT, TRUNCATED, UNWRITABLE};
use crate::reason::{Reason, REASONS};
use std::error::Error;
use std::fmt::{self, Display, Formatter};

/// What is wrong, and where. Its text is that of the command `fit`, as `refused at byte 37: UndefinedLocal`.
#[derive(Debug, Clone, Copy, PartialEq, Eq, Hash)]
pub enum Fault {
    /// The first byte that cannot belong to any FIT file, or chain of files.
    Refused {
        /// Where it is among the bytes, counted from 0.
        place: u64,
        /// Why.
        reason: Reason,
    },
    /// The bytes begin such a file, and end too soon.
    Truncated {
        /// Where they end, which is how many they are.
        place: u64,
    },
    /// A row of a text isn't allowed where it is.
    Text {
        /// The row, counted from 1, the first line included.
        row: u64,
        /// Its first cell that isn't allowed there, counted from 1; none where the row as a whole is refused.
        column: Option<u64>,
    },
    /// The rows of a text are those of files that have no bytes: they are too long, or have zeros for a checksum of 0.
    Unwritable,
    /// Memory was refused. This says nothing of the bytes or of the text.
    OutOfMemory,
}

impl Fault {
    /// The place among the bytes, counted from 0, where they are refused or end too soon.
    #[must_use]
    pub fn place(&self) -> Option<u64> {
        match *self {
            Fault::Refused { place, .. } | Fault::Truncated { place } => Some(place),
            _ => None,
        }
    }

    /// Why a byte is refused.
    #[must_use]
    pub fn reason(&self) -> Option<Reason> {
        match *self {
            Fault::Refused { reason, .. } => Some(reason),
            _ => None,
        }
    }
}

impl Display for Fault {
    fn fmt(&self, f: &mut Formatter<'_>) -> fmt::Result {
        match *self {
            Fault::Refused { place, reason } => write!(f, "refused at byte {place}: {reason}"),
            Fault::Truncated { place } => write!(f, "truncated at byte {place}"),
            Fault::Text { row, column: Some(column) } => write!(f, "row {row} column {column} refused"),
            Fault::Text { row, column: None } => write!(f, "row {row} refused"),
            Fault::Unwritable => f.write_str("no file has such rows"),
            Fault::OutOfMemory => f.write_str("out of memory"),
        }
    }
}

impl Error for Fault {}

impl Display for Reason {
    fn fmt(&self, f: &mut Formatter<'_>) -> fmt::Result {
        fmt::Debug::fmt(self, f)
    }
}

/// What is wrong, with the text or the messages of all that comes before it; where memory was refused, with those of some of that.
///
/// ```
/// // The first 2,000 bytes as CSV text, and nothing lost of them.
/// # std::env::set_current_dir(env!("GAZHDOR_RIDES")).unwrap();
/// let ride = std::fs::read("ride.fit").unwrap();
/// let text = gazhdor::to_csv(&ride[..2000]).unwrap_or_else(|stopped| stopped.before);
/// assert!(text.starts_with("row,a,b,c,d,e,f\nfile,14,"));
/// ```
#[derive(Debug)]
pub struct Stopped<T = Text> {
    /// What is wrong.
    pub fault: Fault,
    /// The text, or the [`Messages`](crate::Messages), before it.
    pub before: T,
}

impl<T> Display for Stopped<T> {
    fn fmt(&self, f: &mut Formatter<'_>) -> fmt::Result {
        self.fault.fmt(f)
    }
}

impl<T: fmt::Debug> Error for Stopped<T> {}

impl<T> From<Stopped<T>> for Fault {
    fn from(stopped: Stopped<T>) -> Fault {
        stopped.fault
    }
}

/// What an answer of the library says is wrong.
pub(crate) fn found(answer: &Answer) -> Option<Fault> {
    let place = answer.place;
    Some(match answer.status {
        GOOD => return None,
        REFUSED => Fault::Refused { place, reason: reason(answer.reason) },
        TRUNCATED => Fault::Truncated { place },
        NO_MEMORY => Fault::OutOfMemory,
        TEXT => Fault::Text { row: answer.row, column: Some(answer.column).filter(|&column| column != 0) },
        UNWRITABLE => Fault::Unwritable,
        other => panic!(
            "status {other} isn't one of gazhdor {}: the library is of another version",
            env!("CARGO_PKG_VERSION")
        ),
    })
}

fn reason(number: u32) -> Reason {
    match REASONS.iter().find(|&&reason| reason as u32 == number) {
        Some(&reason) => reason,
        None => panic!(
            "reason {number} isn't one of gazhdor {}: the library is of another version",
            env!("CARGO_PKG_VERSION")
        ),
    }
}

#[cfg(test)]
mod tests {
    use super::*;
    use crate::library;

    fn answer(status: u32) -> Answer {
        Answer { status, reason: 10, place: 37, row: 4, column: 3, files: 0 }
    }

    #[test]
    fn each_status_has_its_fault() {
        assert_eq!(found(&answer(0)), None);
        let faults = [
            (Fault::Refused { place: 37, reason: Reason::FileSum }, "refused at byte 37: FileSum"),
            (Fault::Truncated { place: 37 }, "truncated at byte 37"),
            (Fault::OutOfMemory, "out of memory"),
            (Fault::Text { row: 4, column: Some(3) }, "row 4 column 3 refused"),
            (Fault::Unwritable, "no file has such rows"),
        ];
        for (status, (fault, text)) in (1..).zip(faults) {
            assert_eq!(found(&answer(status)), Some(fault));
            assert_eq!(fault.to_string(), text);
        }
        let row = Fault::Text { row: 4, column: None };
        assert_eq!(found(&Answer { column: 0, ..answer(4) }), Some(row));
        assert_eq!(row.to_string(), "row 4 refused");
    }

    /// The names are those that the library has for the same numbers.
    #[test]
    fn reasons_are_those_of_the_library() {
        for (number, named) in (1..).zip(REASONS) {
            assert_eq!(reason(number), named);
            assert_eq!(library::reason_name(number), named.to_string());
        }
        assert_eq!(library::reason_name(12), "unknown");
    }

    #[test]
    #[should_panic(expected = "status 6 isn't one of gazhdor")]
    fn another_status() {
        found(&answer(6));
    }

    #[test]
    #[should_panic(expected = "reason 12 isn't one of gazhdor")]
    fn another_reason() {
        reason(12);
    }
}
