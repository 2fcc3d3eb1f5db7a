//! Definition messages and data messages, as `csv.rs`, `show.rs` and `table.rs` read them. Each of them uses a part.
#![allow(dead_code)]
use crate::numbers::number;

/// A definition message. Of its fields and developer fields it has the three bytes of each.
pub struct Definition<'a> {
    pub local: u8,
    pub reserved: u8,
    pub big: bool,
    pub global: u16,
    pub fields: &'a [u8],
    pub developer: Option<&'a [u8]>,
}

impl<'a> Definition<'a> {
    /// The definition message at the front of the bytes.
    pub fn read(bytes: &'a [u8]) -> Definition<'a> {
        let big = bytes[2] == 1;
        let (fields, rest) = bytes[6..].split_at(3 * usize::from(bytes[5]));
        Definition {
            local: bytes[0] & 15,
            reserved: bytes[1],
            big,
            global: number(big, &bytes[3..5]) as u16,
            fields,
            developer: (bytes[0] & 0x20 != 0).then(|| &rest[1..1 + 3 * usize::from(rest[0])]),
        }
    }

    /// How many bytes it has.
    fn size(&self) -> usize {
        6 + self.fields.len() + self.developer.map_or(0, |entries| 1 + entries.len())
    }

    /// How many bytes its messages have after the first.
    fn length(&self) -> usize {
        let entries = self.fields.chunks_exact(3);
        entries
            .chain(self.developer.unwrap_or(&[]).chunks_exact(3))
            .map(|entry| usize::from(entry[1]))
            .sum()
    }

    /// The first field of a number.
    pub fn find(&self, number: u8) -> Option<Spot> {
        let mut at = 0;
        for entry in self.fields.chunks_exact(3) {
            let (size, code) = (usize::from(entry[1]), entry[2]);
            if entry[0] == number {
                return Some(Spot { at, size, code });
            }
            at += size;
        }
        None
    }
}

/// Where a field begins in the messages of its definition, its size, and its base type.
#[derive(Clone, Copy)]
pub struct Spot {
    pub at: usize,
    pub size: usize,
    pub code: u8,
}

/// What is kept of a definition: what all programs need at each of its messages, and what one of them makes
/// of it.
pub struct Kept<T> {
    pub big: bool,
    length: usize,
    timestamp: Option<usize>,
    pub made: T,
}

/// A data message. Its time is its own timestamp, or else the one of its header.
pub struct Message<'a> {
    pub local: u8,
    pub offset: Option<u8>,
    pub header_time: Option<u32>,
    pub time: Option<u32>,
    pub body: &'a [u8],
}

/// What is known after the records of a file.
pub struct Known<T> {
    kept: [Option<Kept<T>>; 16],
    previous: Option<u32>,
}

impl<T> Known<T> {
    pub fn new() -> Known<T> {
        Known {
            kept: std::array::from_fn(|_| None),
            previous: None,
        }
    }

    /// Keeps a definition, and what was made of it; returns how many bytes it has.
    pub fn define(&mut self, definition: &Definition, made: T) -> usize {
        let timestamp = definition
            .find(253)
            .filter(|spot| spot.code == 0x86 && spot.size == 4);
        self.kept[usize::from(definition.local)] = Some(Kept {
            big: definition.big,
            length: definition.length(),
            timestamp: timestamp.map(|spot| spot.at),
            made,
        });
        definition.size()
    }

    /// The data message at the front of the bytes, with what is kept of its definition.
    pub fn message<'a>(&mut self, bytes: &'a [u8]) -> (&Kept<T>, Message<'a>) {
        let head = bytes[0];
        let (local, offset) = if head & 0x80 != 0 {
            (head >> 5 & 3, Some(head & 31))
        } else {
            (head & 15, None)
        };
        let kept = self.kept[usize::from(local)]
            .as_ref()
            .expect("a definition");
        let body = &bytes[1..1 + kept.length];
        let header_time =
            offset.and_then(|offset| Some(least_from(self.previous?, u32::from(offset))));
        let own = kept
            .timestamp
            .map(|at| number(kept.big, &body[at..at + 4]) as u32)
            .filter(|time| *time != u32::MAX);
        let time = own.or(header_time);
        self.previous = time.or(self.previous);
        let message = Message {
            local,
            offset,
            header_time,
            time,
            body,
        };
        (kept, message)
    }
}

/// The least time at or after the previous one whose low five bits are the offset.
fn least_from(previous: u32, offset: u32) -> u32 {
    previous.wrapping_add(offset.wrapping_sub(previous) & 31)
}
