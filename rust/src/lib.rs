//! Checks FIT files, which watches and bicycle computers write, reads their messages, writes files of messages, and converts files to text
//! and back.
//!
//! Each function works on bytes in memory and keeps nothing, so any number of threads may call at once; a [`Stream`] takes bytes that
//! come in pieces. This crate is a wrapper of Gazhdor's library, which is linked in. What the library's calls return is proved for x86-64 and
//! aarch64 Linux; for other targets the library is compiled, of C that isn't proved. The wrapper is tested.
//!
//! ```
//! # fn main() -> Result<(), Box<dyn std::error::Error>> {
//! # std::env::set_current_dir(env!("GAZHDOR_RIDES")).unwrap();
//! let ride = std::fs::read("ride.fit")?;
//! assert_eq!(gazhdor::check(&ride)?, 1);
//! let table = gazhdor::table(&ride)?;
//! assert!(table.starts_with("file,timestamp,position_lat,"));
//! # Ok(())
//! # }
//! ```
//!
//! [`check`] and [`from_csv`] return a [`Fault`] where the bytes are no FIT file, or where memory is refused. [`table`], [`to_csv`],
//! [`show`] and [`messages`] return a [`Stopped`], which has the text or the messages of all that comes before the fault too; `?` turns
//! it into a [`Fault`]. A [`Writer`] makes files of values, and copies of files with other values.
#![deny(missing_docs)]
#![deny(unsafe_code)]

mod activity;
mod amounts;
mod anew;
mod base_type;
mod block_reason;
mod blocks;
mod blocks_fault;
mod chain;
mod checksum;
mod columns;
mod cut;
mod definition;
mod developer;
mod draft;
mod edit;
mod entry;
mod event;
mod fault;
mod field;
mod gpx;
mod items;
mod join;
mod labels;
#[allow(unsafe_code)]
mod library;
mod measure;
mod mend;
mod message;
mod names;
mod numbers;
mod odometer;
mod outline;
mod pieces;
mod place;
mod places;
mod position;
mod profile;
mod put_fault;
mod reader;
mod ready;
mod reason;
mod ride;
mod stamps;
mod streams;
mod summary;
#[cfg(test)]
mod tests;
mod time;
mod timer;
mod value_error;
mod whole;
mod words;
mod writer;

pub use activity::{activity, ActivityFault, Samples};
pub use base_type::BaseType;
pub use block_reason::BlockReason;
pub use blocks_fault::BlocksFault;
pub use columns::Columns;
pub use definition::Definition;
pub use developer::Developer;
pub use draft::{Draft, Key};
pub use edit::{Edit, EditFault, Emptied};
pub use event::{Checksum, Event, Events, Header};
pub use fault::{Fault, Stopped};
pub use field::{Field, Raw, Value};
pub use gpx::gpx;
pub use join::{join, join_as_one, JoinFault};
pub use library::{Bytes, Text};
pub use mend::{mend, mend_whole, MendFault};
pub use message::{Fields, Iter, Message, Messages};
pub use names::{Named, Names, NamesFault};
pub use place::Place;
pub use put_fault::{PutFault, WriteFault};
pub use ready::Ready;
pub use reason::Reason;
pub use streams::{Made, ReadFault, Reading, Stream};
pub use time::Time;
pub use value_error::Unfit;
pub use words::words;
pub use writer::Writer;

use fault::found;

/// Returns how many FIT files these bytes are, one after another.
///
/// ```
/// use gazhdor::{check, Fault, Reason};
///
/// # std::env::set_current_dir(env!("GAZHDOR_RIDES")).unwrap();
/// let ride = std::fs::read("ride.fit").unwrap();
/// assert_eq!(check(&ride), Ok(1));
/// assert_eq!(check(&ride[..2000]), Err(Fault::Truncated { place: 2000 }));
/// assert_eq!(check(b"PK\x03\x04"), Err(Fault::Refused { place: 1, reason: Reason::Protocol }));
/// ```
///
/// # Errors
///
/// [`Fault::Refused`] or [`Fault::Truncated`] where they aren't just such files, and [`Fault::OutOfMemory`].
pub fn check(files: &[u8]) -> Result<u64, Fault> {
    let answer = library::check(files);
    found(&answer).map_or(Ok(answer.files), Err)
}

/// Returns the table of the record messages as CSV text, a line for each.
///
/// Its columns are `file`, counted from 1; `timestamp` in UTC, or `system+N`; `position_lat` and `position_long` in degrees;
/// `altitude` and `distance` in metres; `speed` in metres a second; `heart_rate` in beats and `cadence` in turns a minute; `power` in
/// watts; `temperature` in degrees Celsius. What is absent is empty.
///
/// ```
/// # std::env::set_current_dir(env!("GAZHDOR_RIDES")).unwrap();
/// let ride = std::fs::read("ride.fit").unwrap();
/// let table = gazhdor::table(&ride).unwrap();
/// let first = table.lines().nth(1).unwrap();
/// assert_eq!(first, "1,2026-05-17T07:30:00Z,47.3000000,8.5680000,408.0,0.00,0.000,,,,");
///
/// // Of a ride that was broken off there is a table too, of all before the end.
/// let stopped = gazhdor::table(&ride[..2000]).unwrap_err();
/// assert_eq!(stopped.fault.to_string(), "truncated at byte 2000");
/// assert!(table.starts_with(&*stopped.before));
/// ```
///
/// # Errors
///
/// A [`Stopped`], with [`Fault::Refused`], [`Fault::Truncated`] or [`Fault::OutOfMemory`].
pub fn table(files: &[u8]) -> Result<Text, Stopped> {
    let (answer, text) = library::table(files);
    whole(found(&answer), text)
}

/// Returns all of the bytes as CSV text, of which [`from_csv`] makes the same bytes again.
///
/// ```
/// # std::env::set_current_dir(env!("GAZHDOR_RIDES")).unwrap();
/// let ride = std::fs::read("ride.fit").unwrap();
/// let text = gazhdor::to_csv(&ride).unwrap();
/// assert!(text.starts_with("row,a,b,c,d,e,f\n"));
/// assert_eq!(*gazhdor::from_csv(&text).unwrap(), ride[..]);
/// ```
///
/// # Errors
///
/// As for [`table`].
pub fn to_csv(files: &[u8]) -> Result<Text, Stopped> {
    let (answer, text) = library::to_csv(files);
    whole(found(&answer), text)
}

/// Returns the messages with their names, units and times, a line each.
///
/// ```
/// # std::env::set_current_dir(env!("GAZHDOR_RIDES")).unwrap();
/// let ride = std::fs::read("ride.fit").unwrap();
/// let lines = gazhdor::show(&ride).unwrap();
/// assert!(lines.lines().any(|line| line.contains("file_id: type=6, manufacturer=1")));
/// ```
///
/// # Errors
///
/// As for [`table`].
pub fn show(files: &[u8]) -> Result<Text, Stopped> {
    let (answer, text) = library::show(files);
    whole(found(&answer), text)
}

/// Returns the messages as values: a [`Message`] for each data message of all files.
///
/// ```
/// # std::env::set_current_dir(env!("GAZHDOR_RIDES")).unwrap();
/// let ride = std::fs::read("ride.fit").unwrap();
/// let messages = gazhdor::messages(&ride).unwrap();
/// let laps = messages.iter().filter(|message| message.name() == Some("lap"));
/// let metres: Vec<_> = laps.map(|lap| lap.value("total_distance")).collect();
/// assert_eq!(metres, [Some(8558.46)]);
///
/// let first = messages.iter().next().unwrap();
/// let time = first.field("time_created").unwrap();
/// assert_eq!((time.number(), time.unit(), time.value(0)), (4, Some("s"), Some(1147937400.0)));
/// ```
///
/// What it makes takes memory, about five times the size of a file of a plain ride.
///
/// # Errors
///
/// As for [`table`]; the [`Stopped`] has the messages before the fault.
///
/// ```
/// # std::env::set_current_dir(env!("GAZHDOR_RIDES")).unwrap();
/// # let ride = std::fs::read("ride.fit").unwrap();
/// // All messages before the end of a ride that was broken off.
/// let messages = gazhdor::messages(&ride[..2000]).unwrap_or_else(|stopped| stopped.before);
/// let last = messages.iter().last().unwrap();
/// assert_eq!((last.place(), last.value("altitude")), (1969, Some(399.4)));
/// ```
pub fn messages(files: &[u8]) -> Result<Messages, Stopped<Messages>> {
    let (answer, blocks) = library::messages(files);
    whole(found(&answer), Messages::new(blocks))
}

/// Returns the bytes of the FIT file or files that a CSV text describes, which is in UTF-8.
///
/// ```
/// use gazhdor::{from_csv, Fault};
///
/// // A header of 12 bytes, no data, and the checksum.
/// let bytes = from_csv("row,a,b,c,d,e,f\nfile,12,16,0,none,,\nend,,,,,,\n").unwrap();
/// assert_eq!((bytes.len(), &bytes[..12]), (14, &b"\x0c\x10\0\0\0\0\0\0.FIT"[..]));
/// assert_eq!(from_csv("row,a,b,c,d,e,f\n").unwrap_err(), Fault::Text { row: 2, column: None });
/// ```
///
/// # Errors
///
/// [`Fault::Text`] where a row isn't allowed where it is, [`Fault::Unwritable`] where no files have such rows, and
/// [`Fault::OutOfMemory`]. There are no bytes then.
pub fn from_csv(text: impl AsRef<[u8]>) -> Result<Bytes, Fault> {
    let (answer, bytes) = library::from_csv(text.as_ref());
    found(&answer).map_or(Ok(bytes), Err)
}

/// Returns the bytes of the FIT file or files that blocks of bytes say, as [`Messages::blocks`] gives them.
///
/// ```
/// use gazhdor::{from_blocks, BlockReason, BlocksFault};
///
/// # std::env::set_current_dir(env!("GAZHDOR_RIDES")).unwrap();
/// let ride = std::fs::read("ride.fit").unwrap();
/// let messages = gazhdor::messages(&ride).unwrap();
/// assert_eq!(*from_blocks(messages.blocks()).unwrap(), ride[..]);
/// assert_eq!(from_blocks(&[]).unwrap_err(), BlocksFault::Block { block: 0, place: 0, reason: BlockReason::Cut });
/// ```
///
/// `docs/BLOCKS.md` says what a block has, and what of it is read here. A [`Writer`] makes blocks of values.
///
/// # Errors
///
/// A [`BlocksFault`] for the first block that can't stand where it is, where the blocks are those of files that have no bytes, and where
/// memory is refused. There are no bytes then.
pub fn from_blocks(blocks: &[u8]) -> Result<Bytes, BlocksFault> {
    let (answer, bytes) = library::from_messages(blocks);
    blocks_fault::found(&answer).map_or(Ok(bytes), Err)
}

/// Returns the version of the library that is linked in, which is that of this crate.
///
/// ```
/// assert_eq!(gazhdor::version(), env!("CARGO_PKG_VERSION"));
/// ```
#[must_use]
pub fn version() -> &'static str {
    library::version()
}

fn whole<T>(fault: Option<Fault>, made: T) -> Result<T, Stopped<T>> {
    match fault {
        None => Ok(made),
        Some(fault) => Err(Stopped { fault, before: made }),
    }
}
