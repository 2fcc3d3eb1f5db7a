//! Blocks that are written by hand from docs/BLOCKS.md, and blocks whose bytes are changed, of which nothing must panic.
use crate::{library, Field, Iter, Key, Message, Raw, Value};

const RIDE: &[u8] = include_bytes!(concat!(env!("GAZHDOR_RIDES"), "/ride.fit"));

/// The second example of docs/CSV.md.
const SMALL: &[u8] = b"\x0E\x20\0\0\x24\0\0\0.FIT\x9F\x6E\
    \x40\0\0\x14\0\x02\xFD\x04\x86\x03\x01\x02\0\x1F\xCA\x9A\x3B\x78\
    \x41\0\x01\0\x14\x02\x02\x02\x84\x08\x03\x0D\xA2\x09\xC4\x64\0\x10\xF0\x3B";

/// A block: its kind and bytes 5 to 7, the file, what stands at 12, the place, and what comes then.
fn block(front: [u8; 4], number: u32, place: u64, more: &[&[u8]]) -> Vec<u8> {
    let more = more.concat();
    let mut block = Vec::from((24 + more.len() as u32).to_le_bytes());
    block.extend(front);
    block.extend([1, 0, 0, 0]);
    block.extend(number.to_le_bytes());
    block.extend(place.to_le_bytes());
    block.extend(more);
    block
}

fn longs(numbers: &[u64]) -> Vec<u8> {
    numbers.iter().flat_map(|number| number.to_le_bytes()).collect()
}

fn text(letters: &str) -> Vec<u8> {
    let mut bytes = Vec::from(letters);
    bytes.resize(letters.len() / 8 * 8 + 8, 0);
    bytes
}

/// The entry of a field: its bytes from 4 to 11, where its items begin, scale, offset, the item that stands for no value.
fn entry(name: &str, unit: &str, bytes: [u8; 8], numbers: [u32; 3], invalid: u64) -> Vec<u8> {
    let (name, unit) = (text(name), text(unit));
    let mut entry = Vec::from((32 + name.len() as u16 + unit.len() as u16).to_le_bytes());
    entry.extend((32 + name.len() as u16).to_le_bytes());
    entry.extend(bytes);
    entry.extend(numbers.iter().flat_map(|number| number.to_le_bytes()));
    entry.extend(invalid.to_le_bytes());
    [entry, name, unit].concat()
}

const NONE: u64 = u32::MAX as u64;

fn small_blocks() -> Vec<u8> {
    let first = [
        longs(&[0, 0x2_0014]),
        text("record"),
        entry("timestamp", "s", [253, 0, 0, 134, 0, 4, 1, 0], [40, 1, 0], NONE),
        entry("heart_rate", "bpm", [3, 0, 0, 2, 0, 1, 1, 0], [48, 1, 0], 255),
    ];
    let second = [
        longs(&[1, 0x2_0000_0002_0014]),
        text("record"),
        entry("altitude", "m", [2, 0, 0, 132, 0, 2, 1, 1], [72, 5, 500], 65535),
        entry("compressed_speed_distance", "", [8, 0, 0, 13, 4, 1, 3, 0], [80, 1, 0], 255),
    ];
    let amounts = [1, 1_000_000_034, 100, 256, u64::MAX, u64::MAX, 2500, 0x10_0064];
    [
        block([1, 14, 32, 2], 36, 0, &[&longs(&[0])]),
        block([2, 0, 0, 0], 56, 14, &[&first.concat()]),
        block([3, 1, 0, 255], 1_000_000_031, 26, &[&longs(&[0, NONE, 1_000_000_031, 120])]),
        block([2, 1, 1, 0], 88, 32, &[&second.concat()]),
        block([3, 15, 1, 2], 1_000_000_034, 44, &[&longs(&amounts)]),
        block([4, 0, 0, 0], 0, 50, &[]),
    ]
    .concat()
}

/// A message of all kinds of items: texts, bytes, several numbers, floats, developer fields.
fn kinds_blocks() -> Vec<u8> {
    let entries = [
        entry("name", "", [0, 0, 0, 7, 3, 1, 12, 0], [40, 1, 0], 0),
        entry("", "", [1, 0, 0, 13, 4, 1, 3, 0], [56, 1, 0], 255),
        entry("several", "m", [2, 0, 0, 0x83, 1, 2, 4, 2], [64, 100, 0], 0x7FFF),
        entry("float", "", [3, 0, 0, 0x88, 2, 4, 2, 0], [72, 1, 0], NONE),
        entry("double", "", [4, 0, 0, 0x89, 2, 8, 1, 0], [80, 1, 0], u64::MAX),
        entry("Form power", "W", [2, 1, 7, 0x8E, 1, 8, 1, 0], [88, 1, 0], i64::MAX as u64),
    ];
    let definition = [longs(&[0, 0x1_0001_0005_FF00]), text(""), entries.concat()].concat();
    let items = [
        &longs(&[0, NONE])[..],
        b"R\xc3\xa4der\0\0\0\0\0\0\0\0\0\0\x01\x02\x03\0\0\0\0\0",
        &longs(&[0xFFFF_7FFF_8000_0001, 0x7F80_0001_3F80_0000, 0.1_f64.to_bits(), -5_i64 as u64]),
    ];
    [block([2, 3, 0, 0], 96, 14, &[&definition]), block([3, 0, 3, 255], u32::MAX, 99, &items)].concat()
}

#[test]
fn blocks_by_hand() {
    let (answer, blocks) = library::messages(SMALL);
    assert_eq!(answer.status, 0);
    assert_eq!(*blocks, small_blocks());
}

#[test]
fn all_kinds_by_hand() {
    let blocks = kinds_blocks();
    let message = Iter::new(&blocks).next().unwrap();
    assert_eq!((message.name(), message.number(), message.local(), message.time()), (None, 0xFF00, 3, None));
    let whole = |field: Field<'_>| format!("{:?}", field.whole());
    let wholes: Vec<_> = message.fields().map(whole).collect();
    let wanted = ["Text(\"R\u{e4}der\")", "Bytes([1, 2, 3])", "Several", "Several", "Float(0.1)", "Signed(-5)"];
    assert_eq!(wholes, wanted);
    let several = message.field("several").unwrap();
    assert_eq!([0, 1, 2, 3].map(|k| several.value(k)), [Some(0.01), Some(-327.68), None, Some(-0.01)]);
    assert_eq!(message.developer(7, 2), message.field("Form power"));
    assert_eq!((message.fields().filter(|field| field.name().is_none()).count(), message.field("")), (1, None));
}

/// What the bits tell isn't there.
#[test]
fn a_message_that_is_too_short() {
    let mut blocks = kinds_blocks();
    blocks.truncate(blocks.len() - 96);
    blocks.extend(block([3, 0xFC, 3, 255], u32::MAX, 99, &[&longs(&[0, NONE])]));
    let message = Iter::new(&blocks).next().unwrap();
    assert_eq!((message.speed(), message.distance()), (None, None));
    assert_eq!((message.total_cycles(), message.accumulated_power()), (None, None));
    assert!(message.fields().all(|field| field.whole() == Value::None || field.whole() == Value::Several));
}

/// A scale of 0 gives no value, nor do items that aren't whole in the message.
#[test]
fn odd_entries() {
    let one = Some(Raw::Unsigned(1));
    let entries = [
        ([1, 1], [40, 1, 0], Some(1.0), one, 1),
        ([1, 1], [40, 2, 3], Some(-2.5), one, 1),
        ([1, 1], [40, 1, 3], Some(-2.0), one, 1),
        ([1, 1], [40, 0, 3], None, one, 1),
        ([1, 8], [40, 1, 0], Some(1.0), one, 8),
        ([1, 9], [40, 1, 0], None, None, 0),
        ([1, 1], [48, 1, 0], None, None, 0),
        ([8, 255], [u32::MAX, 1, 0], None, None, 0),
        ([0, 1], [40, 1, 0], None, None, 0),
        ([3, 1], [40, 1, 0], None, None, 3),
    ];
    for ([width, count], numbers, value, raw, length) in entries {
        let entry = entry("", "", [0, 0, 0, 2, 0, width, count, 0], numbers, 0);
        let field = Field::new(&entry, &[], &[1; 48]);
        assert_eq!((field.value(0), field.raw(0), field.bytes().len()), (value, raw, length));
        let plain = if numbers[1..] == [1, 0] { Value::Unsigned(1) } else { Value::Float(value.unwrap_or(0.0)) };
        assert_eq!(field.item(0), if value.is_some() { plain } else { Value::None });
    }
    let none = entry("", "", [0, 0, 0, 13, 4, 1, 0, 0], [40, 1, 0], 0);
    assert_eq!(Field::new(&none, &[], &[1; 48]).whole(), Value::None);
}

/// What isn't a whole block ends the messages, and those without their definition are passed over.
#[test]
fn what_is_no_block() {
    let mut blocks = kinds_blocks();
    let first = usize::from(blocks[0]) + 256 * usize::from(blocks[1]);
    let last = blocks.len();
    blocks.extend_from_within(first..);
    let count = |changes: &[(usize, u8)]| {
        let mut blocks = blocks.clone();
        changes.iter().for_each(|&(place, byte)| blocks[place] = byte);
        Iter::new(&blocks).count()
    };
    assert_eq!((blocks[first], last - first), (96, 96));
    assert_eq!((count(&[]), count(&[(first + 6, 0x13)]), count(&[(5, 0xF3)])), (2, 2, 2));
    // the length of the first message: not a multiple of 8, too short, that of both, and more than there is
    assert_eq!([95, 100, 0, 16, 32, 192, 200].map(|length| count(&[(first, length)])), [0, 0, 0, 0, 0, 1, 0]);
    // another kind, a local message type and a number without a definition
    assert_eq!(
        [(first + 4, 9), (first + 6, 4), (first + 24, 1), (first + 31, 1)].map(|change| count(&[change])),
        [1; 4]
    );
    assert_eq!((count(&[(4, 9)]), count(&[(5, 4)]), count(&[(24, 1)])), (0, 0, 0));
}

/// Asks for all that there is, and counts it.
fn see(message: Message<'_>) -> usize {
    let mut seen = format!("{message:?}{:?}", (message.local(), message.header_time(), message.time_offset())).len();
    seen += format!("{:?}", (message.speed(), message.distance(), message.total_cycles())).len();
    seen += format!("{:?}", (message.accumulated_power(), message.number(), message.place())).len();
    for field in message.fields() {
        seen += message.field(field.name().unwrap_or("none")).map_or(0, |field| field.count());
        seen += message.numbered(field.number()).map_or(0, |field| field.bytes().len());
        seen += message.developer(field.developer().unwrap_or(0), field.number()).map_or(0, |field| field.count());
        seen += format!("{:?}{:?}{:?}", field.scale(), field.offset(), field.base_type()).len();
        for k in (0..=field.count()).chain([usize::MAX, usize::MAX / 2 + 1, usize::MAX / 8 + 1]) {
            seen += usize::from(field.item(k) != Value::None) + usize::from(field.raw(k).is_some());
            assert!(field.is_valid(k) || field.value(k).is_none());
        }
    }
    seen + set(message)
}

/// Sets all that there is in a copy, and counts what may be set.
fn set(message: Message<'_>) -> usize {
    let mut draft = message.draft();
    let mut done = 0;
    for (position, field) in (0..).zip(message.fields()) {
        let key = Key::Position(position);
        done += usize::from(draft.set(key, field.whole()).is_ok()) + usize::from(draft.set(key, Value::None).is_ok());
        done += usize::from(draft.set_item(key, 0, 1).is_ok()) + usize::from(draft.set_item(key, 255, 1.5).is_ok());
        done +=
            usize::from(draft.set_items(key, [1, -2]).is_ok()) + usize::from(draft.set_items(key, [0.5; 3]).is_ok());
        for raw in [Raw::Unsigned(1), Raw::Signed(-1), Raw::Float32(1), Raw::Float64(1), Raw::Byte(1)] {
            done += usize::from(draft.set_raw(key, 1, raw).is_ok());
        }
    }
    done
}

/// A number at random, the same each time.
fn random(state: &mut u64, end: usize) -> usize {
    *state = state.wrapping_mul(6_364_136_223_846_793_005).wrapping_add(1_442_695_040_888_963_407);
    (*state >> 33) as usize % end
}

#[test]
fn changed_bytes() {
    let ride = library::messages(RIDE).1[..4000].to_vec();
    let (mut state, mut seen) = (1, 0);
    for turn in 0..4000 {
        let mut blocks = match turn % 8 {
            0 => ride.clone(),
            1..=3 => small_blocks(),
            _ => kinds_blocks(),
        };
        blocks.truncate(if turn % 5 == 0 { random(&mut state, blocks.len()) + 1 } else { blocks.len() });
        for _ in 0..1 + random(&mut state, 6) {
            let place = random(&mut state, blocks.len());
            blocks[place] = [0, 1, 0x7F, 0x80, 0xFF, random(&mut state, 256) as u8][random(&mut state, 6)];
        }
        // So that valgrind sees a read past them.
        seen += Iter::new(&blocks.into_boxed_slice()).map(see).sum::<usize>();
    }
    assert!(seen > 500_000);
}

/// Each byte of the blocks with each value, and each length.
#[test]
fn each_change() {
    for whole in [small_blocks(), kinds_blocks()] {
        let count = Iter::new(&whole).count();
        for end in 0..whole.len() {
            let front = whole[..end].to_vec();
            assert!(Iter::new(&front).map(see).count() <= count);
        }
        for place in 0..whole.len() {
            let mut blocks = whole.clone();
            for byte in [0, 1, 2, 3, 7, 8, 0x10, 0x20, 0x7F, 0x80, 0xFE, 0xFF, !whole[place]] {
                blocks[place] = byte;
                Iter::new(&blocks).map(see).count();
            }
        }
    }
}
