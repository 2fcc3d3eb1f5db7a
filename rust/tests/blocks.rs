//! Blocks of bytes, and the files that are made of them.
mod made;

use gazhdor::{check, from_blocks, messages, BlockReason, BlocksFault, Stream};
use made::{any_file, data, define, describe, describes, fit, Random};
use BlockReason::*;

const RIDE: &[u8] = include_bytes!(concat!(env!("GAZHDOR_RIDES"), "/ride.fit"));

/// The ride, random files, and chains.
fn files() -> Vec<Vec<u8>> {
    let mut random = Random(20_261_129);
    let mut files: Vec<_> = (0..60).map(|_| any_file(&mut random)).collect();
    let chain = [&files[0][..], RIDE, &files[1]].concat();
    files.extend([chain, RIDE.repeat(2), RIDE.to_vec()]);
    files
}

#[test]
fn blocks_say_the_file() {
    for file in files() {
        assert!(*from_blocks(messages(&file).unwrap().blocks()).unwrap() == file[..]);
    }
}

#[test]
fn blocks_of_pieces_say_the_file() {
    for file in files() {
        let mut stream = Stream::messages().unwrap();
        let mut blocks = Vec::new();
        for piece in file.chunks(31) {
            blocks.extend_from_slice(stream.feed(piece).unwrap().blocks());
        }
        blocks.extend_from_slice(stream.finish().unwrap().blocks());
        assert!(*from_blocks(&blocks).unwrap() == file[..]);
    }
}

/// Blocks with changed bytes make a good file, or a fault at one of them.
#[test]
fn changed_blocks() {
    let mut random = Random(77);
    let (mut good, mut refused) = (0, 0);
    for turn in 0..3000 {
        let file = if turn % 4 == 0 { RIDE.to_vec() } else { any_file(&mut random) };
        let mut blocks = messages(&file).unwrap().blocks().to_vec();
        for _ in 0..1 + random.below(3) {
            let place = random.below(blocks.len());
            blocks[place] = random.pick(&[0, 1, 2, 0x7F, 0x80, 0xFF, place as u8]);
        }
        match from_blocks(&blocks.clone().into_boxed_slice()) {
            Ok(bytes) => {
                assert_eq!(check(&bytes).map(|files| files > 0), Ok(true));
                good += 1;
            }
            Err(BlocksFault::Block { block, place, .. }) => {
                assert!(place as usize <= blocks.len() && block <= place / 24);
                refused += 1;
            }
            Err(fault) => assert_eq!(fault, BlocksFault::Unwritable),
        }
    }
    assert!(good > 500 && refused > 500);
}

/// Where each block begins, and where the last one ends.
fn ends_of(blocks: &[u8]) -> Vec<usize> {
    let mut ends = vec![0];
    while let Some(length) = blocks.get(ends[ends.len() - 1]..).and_then(|left| left.get(..4)) {
        ends.push(ends[ends.len() - 1] + u32::from_le_bytes(length.try_into().unwrap()) as usize);
    }
    ends
}

#[test]
fn blocks_that_are_cut() {
    let whole = messages(RIDE).unwrap();
    let blocks = whole.blocks();
    let ends = ends_of(blocks);
    assert_eq!(ends[ends.len() - 1], blocks.len());
    for end in 0..blocks.len() {
        let block = ends.iter().filter(|&&of| of <= end).count() - 1;
        let place = ends[block] as u64;
        let cut = BlocksFault::Block { block: block as u64, place, reason: Cut };
        assert_eq!(from_blocks(&blocks[..end]).map(drop), Err(cut));
    }
}

/// A header, the definition of descriptions, a description, a definition of a field and a developer field, a message, an end.
fn six_blocks() -> Vec<u8> {
    let records = [
        describes(),
        describe(0, 2, 0x84, "Form power", "W"),
        define(0, 20, &[[2, 2, 0x84]], &[[2, 2, 0]], true),
        data(0, &[&[1, 2, 3, 4]]),
    ];
    messages(&fit(&records)).unwrap().blocks().to_vec()
}

/// A block of those six, a place in it, a byte that can't be there by docs/BLOCKS.md, and why not.
const CHANGES: [(usize, usize, u8, BlockReason); 25] = [
    (0, 0, 0, Cut),            // a length of 0
    (0, 0, 0x21, Cut),         // one that isn't a multiple of 8
    (5, 0, 0x20, Cut),         // one that goes past the end
    (0, 4, 0, Kind),           // no kind
    (0, 4, 4, Kind),           // an end before a header
    (4, 4, 1, Kind),           // a header within a file
    (0, 5, 13, Header),        // the size of a header with a checksum
    (0, 6, 0x30, Header),      // protocol 3.0
    (0, 7, 3, Header),         // no kind of a checksum
    (0, 26, 1, Header),        // a profile version over 65535
    (3, 5, 16, Local),         // a local message type
    (4, 6, 16, Local),         // the same of a message
    (3, 6, 2, Architecture),   // neither little nor big endian
    (3, 34, 2, Entries),       // a field more than there are
    (3, 36, 0, Entries),       // a developer field less
    (3, 38, 0, Entries),       // developer fields that the record header doesn't announce
    (3, 48, 0, Entries),       // the length of an entry
    (3, 48 + 5, 1, Entries),   // a developer field before a field
    (3, 48 + 9, 4, Size),      // an item of four bytes, of a number of two
    (3, 48 + 10, 128, Size),   // 128 items of two bytes
    (3, 48 + 7, 0x86, Size),   // a number of four bytes, of two
    (4, 7, 32, Offset),        // a time offset above 31
    (4, 6, 1, Undefined),      // a local message type without a definition
    (3, 48 + 12, 56, Items),   // items that begin where the message ends
    (3, 48 + 15, 0xFF, Items), // and far away
];

#[test]
fn each_reason() {
    let whole = six_blocks();
    let ends = ends_of(&whole);
    assert_eq!((ends.len(), &whole[ends[3] + 40..ends[3] + 48]), (7, &b"record\0\0"[..]));
    for (block, at, byte, reason) in CHANGES {
        let mut blocks = whole.clone();
        assert_ne!(std::mem::replace(&mut blocks[ends[block] + at], byte), byte);
        // Where items are outside, that is the fault of the message that comes after the definition.
        let block = if reason == Items { 4 } else { block };
        let fault = BlocksFault::Block { block: block as u64, place: ends[block] as u64, reason };
        assert_eq!(from_blocks(&blocks).map(drop), Err(fault), "byte {at}");
    }
    // A compressed header has room for the local message types 0 to 3.
    let mut blocks = whole;
    blocks[ends[4] + 6] = 4;
    blocks[ends[4] + 7] = 5;
    assert_eq!(
        from_blocks(&blocks).map(drop),
        Err(BlocksFault::Block { block: 4, place: ends[4] as u64, reason: Local })
    );
}

/// What isn't read may be any bytes: files, places, names, scales, times, and what the end has.
#[test]
fn what_is_passed_over() {
    let whole = six_blocks();
    let (ends, file) = (ends_of(&whole), from_blocks(&whole).unwrap());
    let ranges = [
        (0, 8, 24),
        (1, 8, 16),
        (3, 8, 32),
        (3, 39, 40),
        (3, 50, 52),
        (3, 56, 57),
        (3, 59, 60),
        (3, 64, 80),
        (4, 5, 6),
        (4, 8, 40),
        (4, 42, 48),
        (5, 5, 24),
    ];
    let mut blocks = whole.clone();
    for (block, from, to) in ranges {
        blocks[ends[block] + from..ends[block] + to].fill(0xA5);
    }
    assert!(blocks != whole && *from_blocks(&blocks).unwrap() == *file);
}
