//! Files from messages.
use crate::amounts::Amounts;
use crate::block_reason::BlockReason;
use crate::chain::Chain;
use crate::definition::Definition;
use crate::developer::Developer;
use crate::draft::Draft;
use crate::event::{Checksum, Event, Header};
use crate::message::Message;
use crate::put_fault::{PutFault, WriteFault};
use std::fmt::{self, Debug, Formatter};
use std::io::Write;

/// Makes a FIT file, or a chain of them, of messages, and writes it.
///
/// Nothing is written before [`finish`](Writer::finish), and then all of it; a writer that is dropped before writes nothing.
///
/// ```
/// use gazhdor::{Definition, Writer};
///
/// let mut out = Writer::new(Vec::new());
/// let file = Definition::of("file_id", &["type", "manufacturer", "time_created"])?;
/// out.write(&file.message().with("type", 4)?.with("manufacturer", 255)?.with("time_created", 1_000_000_000)?)?;
/// let record = Definition::of("record", &["timestamp", "heart_rate", "altitude"])?;
/// for k in 0..60 {
///     out.write(&record.message().with("timestamp", 1_000_000_000 + k)?.with("altitude", 408.0 + f64::from(k) / 10.0)?)?;
/// }
/// let bytes = out.finish()?;
/// assert_eq!(gazhdor::check(&bytes)?, 1);
/// assert_eq!(gazhdor::table(&bytes)?.lines().last(), Some("1,2021-09-08T01:47:39Z,,,413.8,,,,,,"));
/// # Ok::<(), Box<dyn std::error::Error>>(())
/// ```
///
/// What was read and isn't changed keeps its bytes:
///
/// ```
/// use gazhdor::{Event, Value, Writer};
///
/// # std::env::set_current_dir(env!("GAZHDOR_RIDES"))?;
/// # let ride = std::fs::read("ride.fit")?;
/// let messages = gazhdor::messages(&ride)?;
/// let mut out = Writer::new(Vec::new());
/// for event in messages.events() {
///     match event {
///         Event::Message(message) if message.name() == Some("record") && message.field("position_lat").is_some() => {
///             out.write(&message.with("position_lat", Value::None)?.with("position_long", Value::None)?)?
///         }
///         other => out.copy(&other)?,
///     }
/// }
/// let emptied = out.finish()?;
/// assert_eq!(emptied.len(), ride.len());
/// # Ok::<(), Box<dyn std::error::Error>>(())
/// ```
///
/// A message is read as it was, whatever messages come before it: it brings its definition along where that isn't there, the descriptions of
/// its developer fields where the file describes them in another way, and a timestamp where its time is that of a compressed header which
/// would say another time. What can't be put is said by the call that puts it, and the writer goes on with what it had.
pub struct Writer<W> {
    sink: W,
    chain: Option<Chain>,
    /// Whether a file has begun that isn't ended.
    is_open: bool,
    /// What a reader of it has accumulated so far.
    amounts: Amounts,
}

impl<W: Write> Writer<W> {
    /// Writes nothing yet.
    pub fn new(sink: W) -> Writer<W> {
        Writer { sink, chain: None, is_open: false, amounts: Amounts::default() }
    }

    /// Begins a file with this header, after the end of one that is there. Without it a file begins with a header of its own: of 14 bytes,
    /// of protocol 2.0. Zeros in the place of its checksum become the checksum where that is 0.
    ///
    /// # Errors
    ///
    /// [`PutFault::Refused`] of a header that no file has, and of the 16,777,216th; [`PutFault::OutOfMemory`].
    pub fn begin(&mut self, header: &Header<'_>) -> Result<(), PutFault> {
        self.chain()?.begin(header.block())?;
        (self.is_open, self.amounts) = (true, Amounts::default());
        Ok(())
    }

    /// Writes a message.
    ///
    /// # Errors
    ///
    /// [`PutFault::Described`]; [`PutFault::Refused`] of one of 255 fields that needs a timestamp, and where the file has no room for it;
    /// [`PutFault::OutOfMemory`].
    pub fn write(&mut self, draft: &Draft<'_>) -> Result<(), PutFault> {
        let amounts = self.amounts();
        self.put(|chain| {
            let draft = draft.after(chain.time());
            amounts.kept(&draft.message(), |message| chain.put(message))
        })?;
        self.amounts = amounts.after(&draft.message());
        Ok(())
    }

    /// Writes just what was read.
    ///
    /// # Errors
    ///
    /// As for [`begin`](Writer::begin) and [`write`](Writer::write).
    pub fn copy(&mut self, event: &Event<'_>) -> Result<(), PutFault> {
        match event {
            Event::Header(header) => self.begin(header),
            Event::Definition(definition) => self.define(definition),
            Event::Message(message) => self.copy_message(message),
            Event::End => {
                self.end();
                Ok(())
            }
        }
    }

    /// Writes a message as it was read. What a reader would accumulate otherwise, as where messages before are left out, is written into the
    /// fields that have it whole: `distance`, `total_cycles`, `accumulated_power`.
    ///
    /// # Errors
    ///
    /// As for [`write`](Writer::write).
    pub fn copy_message(&mut self, message: &Message<'_>) -> Result<(), PutFault> {
        let amounts = self.amounts();
        self.put(|chain| amounts.kept(message, |message| chain.put(message)))?;
        self.amounts = amounts.after(message);
        Ok(())
    }

    /// Writes a definition, also where it is there. It takes the names and types of its developer fields by the descriptions before it.
    ///
    /// # Errors
    ///
    /// [`PutFault::OutOfMemory`], and [`PutFault::Refused`] where the file has no room for it.
    pub fn define(&mut self, definition: &Definition<'_>) -> Result<(), PutFault> {
        self.put(|chain| chain.define(definition.block()))
    }

    /// Writes the description of a developer field. Else it is written before the first message with the field, if the file has none that says
    /// the same.
    ///
    /// # Errors
    ///
    /// [`WriteFault::Unfit`] where its name or its unit is no text for it, and as for [`write`](Writer::write).
    pub fn describe(&mut self, developer: &Developer) -> Result<(), WriteFault> {
        let definition = developer.definition()?;
        Ok(self.write(&developer.message(&definition)?)?)
    }

    /// Ends the file that has begun, if one has: what is written next is of another file.
    pub fn end(&mut self) {
        self.is_open = false;
    }

    /// Ends the file that has begun, writes all files, and returns where they were written.
    ///
    /// # Errors
    ///
    /// As for [`try_finish`](Writer::try_finish).
    pub fn finish(mut self) -> Result<W, WriteFault> {
        self.try_finish()?;
        Ok(self.sink)
    }

    /// Ends the file that has begun, and writes all files. It keeps them: after a fault it may be called again.
    ///
    /// # Errors
    ///
    /// [`WriteFault::Put`] where there is no file, or where memory is refused: then nothing is written. [`WriteFault::Write`] is a failed write,
    /// after which a first part may be written.
    pub fn try_finish(&mut self) -> Result<(), WriteFault> {
        self.is_open = false;
        let chain = self.chain.as_mut().ok_or(PutFault::Refused(BlockReason::NoFile))?;
        self.sink.write_all(&chain.finish()?)?;
        Ok(self.sink.flush()?)
    }

    fn amounts(&self) -> Amounts {
        if self.is_open {
            self.amounts
        } else {
            Amounts::default()
        }
    }

    fn chain(&mut self) -> Result<&mut Chain, PutFault> {
        if self.chain.is_none() {
            self.chain = Some(Chain::new()?);
        }
        self.chain.as_mut().ok_or(PutFault::OutOfMemory)
    }

    /// Puts something into a file, which begins with the first that it takes.
    fn put(&mut self, put: impl FnOnce(&mut Chain) -> Result<(), PutFault>) -> Result<(), PutFault> {
        let is_first = self.chain.is_none();
        let done = self.open().and_then(put);
        if is_first && done.is_err() {
            self.chain = None;
            self.is_open = false;
        }
        done
    }

    /// The files, with one that has begun.
    fn open(&mut self) -> Result<&mut Chain, PutFault> {
        if !self.is_open {
            self.begin(&Header::new(PROTOCOL, PROFILE, Checksum::There))?;
        }
        self.chain()
    }
}

/// Version 2.0 of the protocol, and the profile's version that headers have.
const PROTOCOL: u8 = 0x20;
const PROFILE: u16 = 21158;

impl<W> Debug for Writer<W> {
    fn fmt(&self, f: &mut Formatter<'_>) -> fmt::Result {
        f.debug_struct("Writer").field("is_open", &self.is_open).finish_non_exhaustive()
    }
}
