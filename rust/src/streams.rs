//! Files that come in pieces.
use crate::blocks::Known;
use crate::fault::{found, Fault, Stopped};
use crate::library::{Answer, Bytes, Opened, Text};
use crate::message::Messages;
use crate::numbers::{STREAM_CHECK, STREAM_MESSAGES, STREAM_SHOW, STREAM_TABLE, STREAM_TO_CSV};
use std::error::Error;
use std::fmt::{self, Debug, Display, Formatter};
use std::io::{self, ErrorKind, Read};
use std::iter::FusedIterator;
use std::marker::PhantomData;

const PIECE: usize = 65536;

mod sealed {
    use super::{Bytes, Known};

    pub trait Made {
        fn made(bytes: Bytes, known: &mut Known) -> Self;
    }
}

/// What a [`Stream`] makes: a [`Text`], [`Messages`], or nothing.
pub trait Made: sealed::Made {}

impl Made for () {}
impl Made for Text {}
impl Made for Messages {}

impl sealed::Made for () {
    fn made(_: Bytes, _: &mut Known) {}
}

impl sealed::Made for Text {
    fn made(bytes: Bytes, _: &mut Known) -> Text {
        Text::new(bytes)
    }
}

impl sealed::Made for Messages {
    fn made(blocks: Bytes, known: &mut Known) -> Messages {
        let before = known.clone();
        known.learn(&blocks);
        Messages::after(before, blocks)
    }
}

/// FIT files that come in pieces. What it keeps between them doesn't grow with the bytes.
///
/// All that [`feed`](Stream::feed) and [`finish`](Stream::finish) return, one after another, is what the function of the same name returns
/// of all bytes: the parts of a text, or the messages that each piece completes.
///
/// ```
/// use gazhdor::{Fault, Reason, Stream};
///
/// # std::env::set_current_dir(env!("GAZHDOR_RIDES")).unwrap();
/// # let ride = std::fs::read("ride.fit").unwrap();
/// let mut stream = Stream::table()?;
/// let mut table = String::new();
/// for piece in ride.chunks(100) {
///     table += &*stream.feed(piece)?;
/// }
/// table += &*stream.finish()?;
/// assert_eq!(table, *gazhdor::table(&ride)?);
/// assert_eq!(stream.files(), 1);
///
/// // A byte that is refused is found with its piece.
/// let mut upload = Stream::check()?;
/// assert!(upload.feed(&ride[..10]).is_ok());
/// assert_eq!(upload.feed(b"PK").unwrap_err().fault, Fault::Refused { place: 10, reason: Reason::Signature });
/// # Ok::<(), Fault>(())
/// ```
///
/// It may go to another thread at any time, and goes on there. One call uses it at a time: it is `Send`, and not `Sync`.
///
/// ```
/// # std::env::set_current_dir(env!("GAZHDOR_RIDES")).unwrap();
/// # let ride = std::fs::read("ride.fit").unwrap();
/// let (first, rest) = ride.split_at(ride.len() / 2);
/// let mut stream = gazhdor::Stream::table()?;
/// let begun = stream.feed(first)?.to_string();
/// let rest = rest.to_vec();
/// let ended = std::thread::spawn(move || -> Result<String, gazhdor::Fault> {
///     Ok(stream.feed(&rest)?.to_string() + &*stream.finish()?)
/// });
/// assert_eq!(begun + &ended.join().unwrap()?, *gazhdor::table(&ride)?);
/// # Ok::<(), gazhdor::Fault>(())
/// ```
///
/// ```compile_fail
/// fn shared<T: Sync>(_: T) {}
/// shared(gazhdor::Stream::check());
/// ```
pub struct Stream<T> {
    opened: Opened,
    files: u64,
    known: Known,
    made: PhantomData<T>,
}

impl Stream<()> {
    /// Opens a stream that only finds whether the bytes are FIT files, as [`check`](crate::check) does.
    ///
    /// # Errors
    ///
    /// [`Fault::OutOfMemory`].
    pub fn check() -> Result<Stream<()>, Fault> {
        Stream::open(STREAM_CHECK)
    }
}

impl Stream<Text> {
    /// Opens a stream that makes the text of [`show`](crate::show): whole lines.
    ///
    /// # Errors
    ///
    /// [`Fault::OutOfMemory`].
    pub fn show() -> Result<Stream<Text>, Fault> {
        Stream::open(STREAM_SHOW)
    }

    /// Opens a stream that makes the text of [`table`](crate::table): whole lines. The first one comes with the first call.
    ///
    /// # Errors
    ///
    /// [`Fault::OutOfMemory`].
    pub fn table() -> Result<Stream<Text>, Fault> {
        Stream::open(STREAM_TABLE)
    }

    /// Opens a stream that makes the text of [`to_csv`](crate::to_csv): whole rows. The first line comes with the first call.
    ///
    /// # Errors
    ///
    /// [`Fault::OutOfMemory`].
    pub fn to_csv() -> Result<Stream<Text>, Fault> {
        Stream::open(STREAM_TO_CSV)
    }
}

impl Stream<Messages> {
    /// Opens a stream that makes the messages of [`messages`](crate::messages).
    ///
    /// ```
    /// use gazhdor::Stream;
    ///
    /// # std::env::set_current_dir(env!("GAZHDOR_RIDES")).unwrap();
    /// let mut metres = None;
    /// for messages in Stream::messages()?.read(std::fs::File::open("ride.fit")?) {
    ///     for message in &messages? {
    ///         if message.name() == Some("lap") {
    ///             metres = message.value("total_distance");
    ///         }
    ///     }
    /// }
    /// assert_eq!(metres, Some(8558.46));
    /// # Ok::<(), Box<dyn std::error::Error>>(())
    /// ```
    ///
    /// # Errors
    ///
    /// [`Fault::OutOfMemory`].
    pub fn messages() -> Result<Stream<Messages>, Fault> {
        Stream::open(STREAM_MESSAGES)
    }
}

impl<T: Made> Stream<T> {
    fn open(kind: u32) -> Result<Stream<T>, Fault> {
        let (answer, opened) = Opened::new(kind);
        let stream = Stream { opened, files: 0, known: Known::default(), made: PhantomData };
        found(&answer).map_or(Ok(stream), Err)
    }

    /// Takes the next bytes, of any length, and returns what is made of all that they complete.
    ///
    /// # Errors
    ///
    /// A [`Stopped`], with [`Fault::Refused`] where no FIT file has such bytes, or [`Fault::OutOfMemory`], and with what was made before
    /// that. Each later call returns the same fault, and has made nothing.
    pub fn feed(&mut self, piece: &[u8]) -> Result<T, Stopped<T>> {
        let (answer, bytes) = self.opened.feed(piece);
        self.judge(&answer, bytes)
    }

    /// Says that all bytes have come, and returns what is still to come of the text. It ends nothing: more bytes may be fed.
    ///
    /// # Errors
    ///
    /// A [`Stopped`], as `feed`, and with [`Fault::Truncated`] where the bytes end too soon.
    pub fn finish(&mut self) -> Result<T, Stopped<T>> {
        let (answer, bytes) = self.opened.finish();
        self.judge(&answer, bytes)
    }

    /// How many files had ended at the last call that was good.
    #[must_use]
    pub fn files(&self) -> u64 {
        self.files
    }

    /// Feeds it all that a source has, piece by piece, as the iterator goes on.
    pub fn read<R: Read>(self, source: R) -> Reading<R, T> {
        Reading { source, stream: self, piece: vec![0; PIECE].into_boxed_slice(), ended: false }
    }

    fn judge(&mut self, answer: &Answer, bytes: Bytes) -> Result<T, Stopped<T>> {
        let made = T::made(bytes, &mut self.known);
        match found(answer) {
            None => {
                self.files = answer.files;
                Ok(made)
            }
            Some(fault) => Err(Stopped { fault, before: made }),
        }
    }
}

impl<T> Debug for Stream<T> {
    fn fmt(&self, f: &mut Formatter<'_>) -> fmt::Result {
        f.debug_struct("Stream").field("files", &self.files).finish_non_exhaustive()
    }
}

/// Goes through what a [`Stream`] makes of each piece of a source, and at its end; by [`Stream::read`]. After a fault nothing follows.
pub struct Reading<R, T> {
    source: R,
    stream: Stream<T>,
    piece: Box<[u8]>,
    ended: bool,
}

impl<R, T: Made> Reading<R, T> {
    /// How many files have ended so far.
    pub fn files(&self) -> u64 {
        self.stream.files()
    }
}

impl<R: Read, T: Made> Reading<R, T> {
    fn read(&mut self) -> io::Result<usize> {
        loop {
            match self.source.read(&mut self.piece) {
                Err(error) if error.kind() == ErrorKind::Interrupted => {}
                other => return other,
            }
        }
    }
}

impl<R: Read, T: Made> Iterator for Reading<R, T> {
    type Item = Result<T, ReadFault<T>>;

    fn next(&mut self) -> Option<Result<T, ReadFault<T>>> {
        if self.ended {
            return None;
        }
        let made = match self.read() {
            Ok(0) => {
                self.ended = true;
                self.stream.finish().map_err(ReadFault::Stopped)
            }
            Ok(length) => self.stream.feed(&self.piece[..length]).map_err(ReadFault::Stopped),
            Err(error) => Err(ReadFault::Read(error)),
        };
        self.ended |= made.is_err();
        Some(made)
    }
}

impl<R: Read, T: Made> FusedIterator for Reading<R, T> {}

impl<R, T> Debug for Reading<R, T> {
    fn fmt(&self, f: &mut Formatter<'_>) -> fmt::Result {
        f.debug_struct("Reading").field("stream", &self.stream).finish_non_exhaustive()
    }
}

/// What is wrong with the bytes of a source, or with the source.
#[derive(Debug)]
pub enum ReadFault<T = Text> {
    /// The bytes are refused or end too soon, or memory was refused.
    Stopped(Stopped<T>),
    /// A read failed.
    Read(io::Error),
}

impl<T> Display for ReadFault<T> {
    fn fmt(&self, f: &mut Formatter<'_>) -> fmt::Result {
        match self {
            ReadFault::Stopped(stopped) => Display::fmt(stopped, f),
            ReadFault::Read(error) => write!(f, "a read failed: {error}"),
        }
    }
}

impl<T: Debug> Error for ReadFault<T> {
    fn source(&self) -> Option<&(dyn Error + 'static)> {
        match self {
            ReadFault::Stopped(_) => None,
            ReadFault::Read(error) => Some(error),
        }
    }
}
