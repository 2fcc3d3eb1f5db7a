//! The blocks of bytes that the library makes of messages, as docs/BLOCKS.md has them. Whatever bytes they have, nothing here panics.
use crate::numbers::{
    AT_DEFINITION_LOCAL, AT_DEFINITION_NAME, AT_DEFINITION_NUMBER, AT_ENTRY_LENGTH, AT_KIND, AT_LENGTH,
    AT_MESSAGE_DEFINITION, AT_MESSAGE_ITEMS, AT_MESSAGE_LOCAL, DEFINITION, FILE_END, FILE_HEADER, LEAST_BLOCK,
    LEAST_ENTRY, MESSAGE,
};
use std::sync::atomic::{AtomicU64, Ordering};
use std::sync::Arc;

/// A number of 2, 4 or 8 bytes; 0 where it isn't there.
pub(crate) fn two(bytes: &[u8], at: usize) -> u16 {
    match bytes.get(at..) {
        Some(&[a, b, ..]) => u16::from_le_bytes([a, b]),
        _ => 0,
    }
}

pub(crate) fn four(bytes: &[u8], at: usize) -> u32 {
    match bytes.get(at..) {
        Some(&[a, b, c, d, ..]) => u32::from_le_bytes([a, b, c, d]),
        _ => 0,
    }
}

pub(crate) fn eight(bytes: &[u8], at: usize) -> u64 {
    match bytes.get(at..) {
        Some(&[a, b, c, d, e, f, g, h, ..]) => u64::from_le_bytes([a, b, c, d, e, f, g, h]),
        _ => 0,
    }
}

/// Puts bytes at a place of a block that is there.
pub(crate) fn put(block: &mut [u8], at: usize, bytes: &[u8]) {
    block[at..at + bytes.len()].copy_from_slice(bytes);
}

/// Bytes up to the first zero, and all where there is none.
pub(crate) fn up_to_zero(bytes: &[u8]) -> &[u8] {
    &bytes[..bytes.iter().position(|&byte| byte == 0).unwrap_or(bytes.len())]
}

/// The name or unit that begins at a place; none where it is empty.
pub(crate) fn text(bytes: &[u8], at: usize) -> Option<&str> {
    let text = std::str::from_utf8(up_to_zero(bytes.get(at..)?)).ok()?;
    Some(text).filter(|text| !text.is_empty())
}

/// The blocks of messages, each with that of its definition.
#[derive(Debug, Clone)]
pub(crate) struct Walk<'a> {
    left: &'a [u8],
    /// The last definition of each local message type; no bytes where there is none.
    known: [&'a [u8]; 16],
    /// Which walk of all it is, from 1. No definition of a walk changes while one of its messages is there, so this and its address say
    /// which definition it is, without a look at its bytes.
    number: u64,
}

static WALKS: AtomicU64 = AtomicU64::new(1);

impl<'a> Walk<'a> {
    pub(crate) fn new(blocks: &'a [u8]) -> Walk<'a> {
        Walk { left: blocks, known: [&[]; 16], number: WALKS.fetch_add(1, Ordering::Relaxed) }
    }

    pub(crate) fn number(&self) -> u64 {
        self.number
    }

    /// The next block, of any kind; none where there isn't a whole one.
    fn block(&mut self) -> Option<&'a [u8]> {
        let left = std::mem::take(&mut self.left);
        let length = usize::try_from(four(left, AT_LENGTH)).ok()?;
        let block = left.get(..length)?;
        let least = match *block.get(AT_KIND)? {
            DEFINITION => AT_DEFINITION_NAME,
            MESSAGE => AT_MESSAGE_ITEMS,
            _ => LEAST_BLOCK,
        };
        if length < least || length % 8 != 0 {
            return None;
        }
        self.left = &left[length..];
        Some(block)
    }
}

impl<'a> Walk<'a> {
    /// What the next block is of. A message without its definition is passed over, and so is a block of another kind.
    pub(crate) fn found(&mut self) -> Option<Found<'a>> {
        loop {
            let block = self.block()?;
            match block[AT_KIND] {
                FILE_HEADER => return Some(Found::Header(block)),
                DEFINITION => {
                    self.known[usize::from(block[AT_DEFINITION_LOCAL] & 15)] = block;
                    return Some(Found::Definition(block));
                }
                MESSAGE => {
                    let definition = self.known[usize::from(block[AT_MESSAGE_LOCAL] & 15)];
                    let number = eight(block, AT_MESSAGE_DEFINITION);
                    if !definition.is_empty() && eight(definition, AT_DEFINITION_NUMBER) == number {
                        return Some(Found::Message(block, definition));
                    }
                }
                FILE_END => return Some(Found::End),
                _ => {}
            }
        }
    }
}

/// A block by its kind. Those of messages and of definitions have 40 bytes at least.
pub(crate) enum Found<'a> {
    Header(&'a [u8]),
    Definition(&'a [u8]),
    /// With the block of its definition.
    Message(&'a [u8], &'a [u8]),
    End,
}

impl<'a> Iterator for Walk<'a> {
    /// The block of the message, and that of its definition. Both have 40 bytes at least.
    type Item = (&'a [u8], &'a [u8]);

    fn next(&mut self) -> Option<(&'a [u8], &'a [u8])> {
        loop {
            if let Found::Message(block, definition) = self.found()? {
                return Some((block, definition));
            }
        }
    }
}

/// The definitions that came with earlier pieces: the last of each local message type.
#[derive(Clone, Default)]
pub struct Known {
    definitions: [Option<Arc<[u8]>>; 16],
}

impl Known {
    pub(crate) fn walk<'a>(&'a self, blocks: &'a [u8]) -> Walk<'a> {
        let mut walk = Walk::new(blocks);
        for (known, definition) in walk.known.iter_mut().zip(&self.definitions) {
            *known = definition.as_deref().unwrap_or(&[]);
        }
        walk
    }

    /// Copies those of some blocks.
    pub(crate) fn learn(&mut self, blocks: &[u8]) {
        let before = self.clone();
        let mut walk = before.walk(blocks);
        walk.by_ref().for_each(drop);
        for (definition, known) in self.definitions.iter_mut().zip(walk.known) {
            if definition.as_deref().map_or(!known.is_empty(), |old| !std::ptr::eq(old, known)) {
                *definition = Some(known.into());
            }
        }
    }
}

/// Where the first entry is in the block of a definition, after the name of its message.
pub(crate) fn first_entry(definition: &[u8]) -> usize {
    AT_DEFINITION_NAME + 8 + up_to_zero(&definition[AT_DEFINITION_NAME..]).len() / 8 * 8
}

/// The entries of a definition, one for each field.
#[derive(Debug, Clone)]
pub(crate) struct Entries<'a> {
    left: &'a [u8],
}

impl<'a> Entries<'a> {
    pub(crate) fn new(definition: &'a [u8]) -> Entries<'a> {
        Entries { left: definition.get(first_entry(definition)..).unwrap_or(&[]) }
    }
}

impl<'a> Iterator for Entries<'a> {
    /// An entry, which has 48 bytes at least.
    type Item = &'a [u8];

    fn next(&mut self) -> Option<&'a [u8]> {
        let left = std::mem::take(&mut self.left);
        let length = usize::from(two(left, AT_ENTRY_LENGTH));
        if length < LEAST_ENTRY || length > left.len() {
            return None;
        }
        let (entry, left) = left.split_at(length);
        self.left = left;
        Some(entry)
    }
}
