//! Files that were broken off or are damaged: all good records of them, and an end.
use crate::blocks::four;
use crate::checksum::checksum;
use crate::event::Event;
use crate::fault::Fault;
use crate::pieces::{growing, made};
use crate::put_fault::{PutFault, WriteFault};
use crate::streams::Stream;
use crate::whole::completed;
use crate::writer::Writer;
use std::borrow::Cow;
use std::error::Error;
use std::fmt::{self, Display, Formatter};

/// Where a header has the size of the data section, the text that says what it is, and its checksum.
const AT_SIZE: usize = 4;
const AT_TEXT: usize = 8;
const AT_SUM: usize = 12;
const TEXT: &[u8] = b".FIT";
/// How many bytes a checksum has.
const SUM: usize = 2;

/// Why a file isn't made whole.
#[derive(Debug)]
pub enum MendFault {
    /// It has no good record: what is wrong with it.
    File(Fault),
    /// Memory, or a message that the writer doesn't take.
    Write(WriteFault),
}

impl Display for MendFault {
    fn fmt(&self, f: &mut Formatter<'_>) -> fmt::Result {
        match self {
            MendFault::File(fault) => Display::fmt(fault, f),
            MendFault::Write(fault) => Display::fmt(fault, f),
        }
    }
}

impl Error for MendFault {}

impl From<Fault> for MendFault {
    fn from(fault: Fault) -> MendFault {
        MendFault::File(fault)
    }
}

impl From<WriteFault> for MendFault {
    fn from(fault: WriteFault) -> MendFault {
        MendFault::Write(fault)
    }
}

impl From<PutFault> for MendFault {
    fn from(fault: PutFault) -> MendFault {
        MendFault::Write(fault.into())
    }
}

/// Returns a good file, or chain of files, of one that was broken off or is damaged: of each file its records up to the first that isn't whole
/// or can't be, with the size and the checksums that belong to them.
///
/// Good bytes stay as they are, and bytes after the last file that begin none are left out.
///
/// ```
/// # std::env::set_current_dir(env!("GAZHDOR_RIDES")).unwrap();
/// # let ride = std::fs::read("ride.fit").unwrap();
/// let mended = gazhdor::mend(&ride[..2000])?;
/// assert_eq!(gazhdor::check(&mended), Ok(1));
/// assert_eq!(gazhdor::messages(&mended)?.iter().last().and_then(|record| record.value("altitude")), Some(399.4));
/// assert_eq!(gazhdor::mend(&ride)?, ride);
/// # Ok::<(), gazhdor::Fault>(())
/// ```
///
/// # Errors
///
/// [`Fault::Refused`] or [`Fault::Truncated`], as [`check`](crate::check) has it, where there is no good record; and [`Fault::OutOfMemory`].
pub fn mend(files: &[u8]) -> Result<Vec<u8>, Fault> {
    let fault = match crate::check(files) {
        Ok(_) => return Ok(files.to_vec()),
        Err(fault) => fault,
    };
    let (mut made, mut rest) = (Vec::new(), files);
    while !rest.is_empty() {
        let (file, after) = match good_file(rest)? {
            Some((file, after)) => (Cow::Borrowed(file), after),
            None => mended(rest)?,
        };
        made.extend_from_slice(&file);
        rest = after;
    }
    match crate::check(&made) {
        Ok(_) => Ok(made),
        Err(Fault::OutOfMemory) => Err(Fault::OutOfMemory),
        Err(_) => Err(fault),
    }
}

/// The same as [`mend`], and each file that has records and no session gets what it lacks: a lap of those that are in none, a session, an
/// activity message, by what its laps and records say.
///
/// ```
/// # std::env::set_current_dir(env!("GAZHDOR_RIDES")).unwrap();
/// # let ride = std::fs::read("ride.fit").unwrap();
/// let whole = gazhdor::mend_whole(&ride[..2000])?;
/// let messages = gazhdor::messages(&whole)?;
/// let session = messages.iter().find(|message| message.name() == Some("session")).unwrap();
/// assert_eq!((session.word("sport"), session.value("num_laps")), (None, Some(1.0)));
/// assert_eq!(session.value("total_elapsed_time"), Some(415.0)); // of 84 records, one each 5 s
/// # Ok::<(), Box<dyn std::error::Error>>(())
/// ```
///
/// # Errors
///
/// [`MendFault::File`] as for [`mend`], and [`MendFault::Write`].
pub fn mend_whole(files: &[u8]) -> Result<Vec<u8>, MendFault> {
    completed(&mend(files)?, None)
}

/// The header with which some bytes begin, and what comes after it.
fn header(bytes: &[u8]) -> Option<(&[u8], &[u8])> {
    let length = usize::from(*bytes.first()?);
    let is_header = length >= AT_SUM && length <= bytes.len() && begins_file(bytes);
    is_header.then(|| bytes.split_at(length))
}

fn begins_file(bytes: &[u8]) -> bool {
    bytes.get(AT_TEXT..).map_or(false, |text| text.starts_with(TEXT))
}

/// The size of the data section, as a header says it.
fn size_of(header: &[u8]) -> usize {
    four(header, AT_SIZE) as usize
}

/// The file that begins some bytes, by what its header says of its size, and what comes after it.
pub(crate) fn first_file(bytes: &[u8]) -> Option<(&[u8], &[u8])> {
    let (head, body) = header(bytes)?;
    let length = head.len() + size_of(head).checked_add(SUM).filter(|&length| length <= body.len())?;
    Some(bytes.split_at(length))
}

/// The good file that begins some bytes, and what comes after it.
fn good_file(bytes: &[u8]) -> Result<Option<(&[u8], &[u8])>, Fault> {
    let found = first_file(bytes);
    match found.map(|(file, _)| crate::check(file)) {
        Some(Ok(_)) => Ok(found),
        Some(Err(Fault::OutOfMemory)) => Err(Fault::OutOfMemory),
        _ => Ok(None),
    }
}

/// A header with another size of the data section, and its checksum.
fn with_size(header: &[u8], size: usize) -> Vec<u8> {
    let size = u32::try_from(size).unwrap_or(u32::MAX).to_le_bytes();
    let mut made = [&header[..AT_SIZE], &size, TEXT].concat();
    if let Some(more) = header.get(AT_SUM + SUM..) {
        made.extend(checksum(&[&made]));
        made.extend(more);
    }
    made
}

/// A file as far as it is there.
struct Broken<'b> {
    header: &'b [u8],
    /// Its data section.
    records: &'b [u8],
    /// What comes after it.
    after: &'b [u8],
}

/// The file that begins some bytes; none where they begin no header.
fn broken(bytes: &[u8]) -> Option<Broken<'_>> {
    let (header, body) = header(bytes)?;
    let size = size_of(header);
    let after = size.checked_add(SUM).and_then(|end| body.get(end..));
    if let Some(after) = after.filter(|after| size != 0 && (after.is_empty() || begins_file(after))) {
        return Some(Broken { header, records: &body[..size], after });
    }
    Some(Broken { header, records: without_sum(header, body), after: &[] })
}

/// The data section that goes on to the end, as its size was never filled in, or is wrong. There may be a checksum all the same.
fn without_sum<'b>(header: &[u8], body: &'b [u8]) -> &'b [u8] {
    let length = match body.len().checked_sub(SUM) {
        Some(length) if size_of(header) <= body.len() => length,
        _ => return body,
    };
    let (records, sum) = body.split_at(length);
    let is_sum = |header: &[u8]| checksum(&[header, records]) == sum;
    match is_sum(header) || is_sum(&with_size(header, length)) {
        true => records,
        false => body,
    }
}

/// The file that begins some bytes, with its good records, or nothing; and what comes after it.
fn mended(bytes: &[u8]) -> Result<(Cow<'_, [u8]>, &[u8]), Fault> {
    match broken(bytes) {
        Some(file) => Ok((Cow::Owned(good_records(&file)?), file.after)),
        None => Ok((Cow::Borrowed(&[]), &[])),
    }
}

/// A file with the good records of one, or nothing.
fn good_records(file: &Broken<'_>) -> Result<Vec<u8>, Fault> {
    // With a larger size none of the records is refused for what can't follow it.
    let header = with_size(file.header, usize::MAX);
    let (mut stream, mut out, mut has_records) = (Stream::messages()?, Writer::new(Vec::new()), false);
    for piece in std::iter::once(&header[..]).chain(growing(file.records)) {
        let (messages, fault) = made(&mut stream, Some(piece));
        for event in messages.events() {
            has_records |= !matches!(event, Event::Header(_));
            out.copy(&event).map_err(refused)?;
        }
        match fault {
            None => {}
            Some(Fault::OutOfMemory) => return Err(Fault::OutOfMemory),
            Some(_) => break,
        }
    }
    match has_records {
        true => out.finish().map_err(refused),
        false => Ok(Vec::new()),
    }
}

/// Why a writer doesn't take what was read, in its order: only for memory.
fn refused<F: Into<WriteFault>>(fault: F) -> Fault {
    match fault.into() {
        WriteFault::Put(PutFault::OutOfMemory) => Fault::OutOfMemory,
        fault => panic!("a writer takes what was read, and here {fault}"),
    }
}
