//! Bytes that lie in memory, given to a stream piece by piece, so that what is made of them is never there as a whole.
use crate::event::Event;
use crate::fault::Fault;
use crate::message::{Message, Messages};
use crate::names::Names;
use crate::streams::{Made, Stream};

const FIRST: usize = 256;
/// A piece is that part of all: what is made of it may be 180 times as long.
const PART: usize = 128;
const LEAST: usize = 1 << 13;
const MOST: usize = 1 << 18;

/// Some bytes in pieces: a few first, and then ever more, as the first may be refused.
pub(crate) fn growing(mut left: &[u8]) -> impl Iterator<Item = &[u8]> {
    let (mut size, most) = (FIRST, (left.len() / PART).clamp(LEAST, MOST));
    std::iter::from_fn(move || {
        let (piece, rest) = left.split_at(left.len().min(size));
        (left, size) = (rest, most.min(2 * size));
        (!piece.is_empty()).then_some(piece)
    })
}

/// What a stream makes of a piece, or in the end, and what is wrong there.
pub(crate) fn made<T: Made>(stream: &mut Stream<T>, piece: Option<&[u8]>) -> (T, Option<Fault>) {
    let done = match piece {
        Some(piece) => stream.feed(piece),
        None => stream.finish(),
    };
    match done {
        Ok(made) => (made, None),
        Err(stopped) => (stopped.before, Some(stopped.fault)),
    }
}

/// The messages of files, piece by piece, up to what is wrong with them.
pub(crate) fn messages_of(files: &[u8]) -> Result<impl Iterator<Item = Result<Messages, Fault>> + '_, Fault> {
    let mut stream = Stream::messages()?;
    let pieces = growing(files).map(Some).chain([None]);
    Ok(pieces.map(move |piece| {
        let (messages, fault) = made(&mut stream, piece);
        fault.map_or(Ok(messages), Err)
    }))
}

/// Gives `then` all that files have.
pub(crate) fn each_event<E: From<Fault>>(
    files: &[u8],
    mut then: impl FnMut(Event<'_>) -> Result<(), E>,
) -> Result<(), E> {
    for messages in messages_of(files)? {
        messages?.events().try_for_each(&mut then)?;
    }
    Ok(())
}

/// Gives `then` each message of files, by some names.
pub(crate) fn each_message<E: From<Fault>>(
    files: &[u8],
    names: &Names,
    mut then: impl FnMut(&Message<'_>) -> Result<(), E>,
) -> Result<(), E> {
    for messages in messages_of(files)? {
        messages?.iter().try_for_each(|message| then(&message.named(names)))?;
    }
    Ok(())
}
