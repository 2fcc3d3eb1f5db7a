//! What a writer says where no file can be, and what it has written then: nothing.
mod made;

use gazhdor::{
    check, from_blocks, messages, BaseType, BlockReason, BlocksFault, Checksum, Definition, Developer, Event, Header,
    PutFault, WriteFault, Writer,
};
use std::io::{self, ErrorKind, Write};
use std::thread;

const RIDE: &[u8] = include_bytes!(concat!(env!("GAZHDOR_RIDES"), "/ride.fit"));

/// Takes some bytes at most in each write, and fails after some.
struct Sink<'a> {
    taken: &'a mut Vec<u8>,
    at_once: usize,
    most: usize,
}

impl Write for Sink<'_> {
    fn write(&mut self, bytes: &[u8]) -> io::Result<usize> {
        let count = bytes.len().min(self.at_once).min(self.most - self.taken.len());
        if count == 0 {
            return Err(io::Error::new(ErrorKind::Other, "full"));
        }
        self.taken.extend_from_slice(&bytes[..count]);
        Ok(count)
    }

    fn flush(&mut self) -> io::Result<()> {
        Ok(())
    }
}

fn copy_to<W: Write>(sink: W, file: &[u8]) -> Writer<W> {
    let mut out = Writer::new(sink);
    messages(file).unwrap().events().for_each(|event| out.copy(&event).unwrap());
    out
}

#[test]
fn sinks_that_fail() {
    for most in [0, 1, 13, 14, 15, RIDE.len() - 1, RIDE.len(), 2 * RIDE.len() - 1] {
        let mut taken = Vec::new();
        let fault =
            copy_to(Sink { taken: &mut taken, at_once: 7, most }, &RIDE.repeat(2)).finish().map(drop).unwrap_err();
        assert!(matches!(fault, WriteFault::Write(_)));
        assert_eq!(fault.to_string(), "full");
        assert!(taken == RIDE.repeat(2)[..most]);
    }
    let mut taken = Vec::new();
    copy_to(Sink { taken: &mut taken, at_once: 1, most: RIDE.len() }, RIDE).finish().map(drop).unwrap();
    assert!(taken == RIDE);
}

#[test]
fn nothing_before_the_end() {
    let mut taken = Vec::new();
    drop(copy_to(Sink { taken: &mut taken, at_once: 7, most: 9 }, &RIDE.repeat(2)));
    assert!(taken.is_empty());
    let empty = Writer::new(&mut taken).finish().unwrap_err();
    assert!(matches!(empty, WriteFault::Put(PutFault::Refused(BlockReason::NoFile))));
    assert_eq!(empty.to_string(), "the block comes before a file has begun");
    assert!(taken.is_empty());
}

/// After a write that fails nothing is lost: the same bytes are written again, and more may follow.
#[test]
fn again_after_a_fault() {
    let mut taken = Vec::new();
    let mut out = copy_to(Sink { taken: &mut taken, at_once: 5000, most: RIDE.len() + 9 }, RIDE);
    out.try_finish().unwrap();
    assert!(matches!(out.try_finish(), Err(WriteFault::Write(_))));
    assert!(taken[..RIDE.len()] == *RIDE && taken[RIDE.len()..] == RIDE[..9]);
    let mut taken = Vec::new();
    let mut out = copy_to(&mut taken, RIDE);
    out.try_finish().unwrap();
    messages(RIDE).unwrap().events().for_each(|event| out.copy(&event).unwrap());
    out.finish().map(drop).unwrap();
    assert!(taken == RIDE.repeat(3));
}

/// Fields of two bytes and of one: in each file that has no description of them they bring it.
#[test]
fn developer_fields_without_their_description() {
    let field = |number: u8, base_type: BaseType, name: &str| Developer {
        index: 0,
        number,
        base_type,
        name: name.to_string(),
        unit: "W".to_string(),
    };
    let (power, lean) = (field(1, BaseType::Uint16, "power"), field(2, BaseType::Sint8, "lean"));
    let record = Definition::of("record", &["heart_rate"]).unwrap();
    let record = record.with_developer(&power, 1).unwrap().with_developer(&lean, 1).unwrap();
    let draft = record.message().with("power", 300).unwrap().with("lean", -3).unwrap();
    let mut out = Writer::new(Vec::new());
    out.describe(&power).unwrap();
    out.write(&draft).unwrap();
    out.end();
    out.write(&draft).unwrap();
    out.write(&draft).unwrap();
    let file = out.finish().unwrap();
    let read = messages(&file).unwrap();
    let records: Vec<_> = read.iter().filter(|message| message.number() == 20).collect();
    assert_eq!(records.iter().map(|record| record.file()).collect::<Vec<_>>(), [1, 2, 2]);
    for record in &records {
        assert_eq!((record.value("power"), record.value("lean")), (Some(300.0), Some(-3.0)));
        assert_eq!(record.field("lean").unwrap().unit(), Some("W"));
    }
    // Each is described once in each file.
    assert_eq!(read.iter().filter(|message| message.number() == 206).count(), 4);
}

/// A developer field of which no description says what it is, in a file that describes it: it would be read as that one.
#[test]
fn a_developer_field_that_nothing_describes() {
    let told = Developer { index: 0, number: 1, base_type: BaseType::Uint8, name: "power".into(), unit: "W".into() };
    let bare = Developer { index: 0, number: 1, base_type: BaseType::Byte, name: String::new(), unit: String::new() };
    let record = Definition::of("record", &["heart_rate"]).unwrap();
    let (own, other) = (record.clone().with_developer(&told, 1).unwrap(), record.with_developer(&bare, 1).unwrap());
    let mut out = Writer::new(Vec::new());
    out.write(&own.message().with("power", 7).unwrap()).unwrap();
    let fault = out.write(&other.message()).unwrap_err();
    assert_eq!(fault, PutFault::Described { field: "dev_0_1".to_string() });
    assert_eq!(
        fault.to_string(),
        "the developer field dev_0_1 isn't described where it comes from, and is in this file, or can't be described"
    );
    out.write(&own.message().with("power", 8).unwrap()).unwrap();
    let file = out.finish().unwrap();
    let read = messages(&file).unwrap();
    let values: Vec<_> = read.iter().filter_map(|message| message.value("power")).collect();
    assert_eq!(values, [7.0, 8.0]);
}

/// A developer field whose name or unit no description can have, of which nothing is written.
#[test]
fn a_developer_field_that_can_t_be_described() {
    let heart = Definition::of("record", &["heart_rate"]).unwrap();
    let begin = || {
        let mut out = Writer::new(Vec::new());
        out.write(&heart.message().with("heart_rate", 60).unwrap()).unwrap();
        out
    };
    let wanted = begin().finish().unwrap();
    for (name, unit) in [("n".repeat(255), ""), ("a\nb".to_string(), ""), ("lean".to_string(), "\u{7f}")] {
        let odd = Developer { index: 0, number: 9, base_type: BaseType::Uint8, name, unit: unit.to_string() };
        let record = heart.clone().with_developer(&odd, 1).unwrap();
        let mut out = begin();
        let fault = out.write(&record.message().with((0, 9), 1).unwrap()).unwrap_err();
        assert_eq!(fault, PutFault::Described { field: "dev_0_9".to_string() });
        assert_eq!(out.finish().unwrap(), wanted);
    }
}

/// The description that comes with a message: its index first, and both once.
#[test]
fn a_description_that_comes_with_a_message() {
    let power = Developer { index: 3, number: 9, base_type: BaseType::Sint16, name: "power".into(), unit: "W".into() };
    let record = Definition::numbered(20).with_developer(&power, 1).unwrap();
    let mut out = Writer::new(Vec::new());
    for value in [-1, -2] {
        out.write(&record.message().with("power", value).unwrap()).unwrap();
    }
    let file = out.finish().unwrap();
    let read = messages(&file).unwrap();
    assert_eq!(read.iter().map(|message| message.number()).collect::<Vec<_>>(), [207, 206, 20, 20]);
    let number = |k: usize, field: u8| read.iter().nth(k).unwrap().numbered(field).and_then(|field| field.value(0));
    assert_eq!(
        (number(0, 3), number(1, 0), number(1, 1), number(1, 2)),
        (Some(3.0), Some(3.0), Some(9.0), Some(131.0))
    );
    assert_eq!(read.iter().filter_map(|message| message.value("power")).collect::<Vec<_>>(), [-1.0, -2.0]);
}

/// A message of 255 fields whose time is that of its header, and isn't where it comes: there is no room for a timestamp. The writer goes on
/// without it, and has begun no file where it is the first.
#[test]
fn no_room_for_a_timestamp() {
    let fields: Vec<_> = (0..255).map(|number| [if number == 253 { 254 } else { number }, 1, 2]).collect();
    let file = made::fit(&[
        made::define(0, 20, &[[253, 4, 0x86]], &[], false),
        made::data(0, &[&1_000_000_000_u32.to_le_bytes()]),
        made::define(1, 21, &fields, &[], false),
        made::data(0x80 | 1 << 5 | 7, &[&[1; 255]]),
    ]);
    let read = messages(&file).unwrap();
    let both: Vec<_> = read.iter().collect();
    assert_eq!(both[1].time().map(|time| time.seconds() & 31), Some(7));
    let mut out = Writer::new(Vec::new());
    let full = Err(PutFault::Refused(BlockReason::Full));
    assert_eq!(out.copy_message(&both[1]), full);
    assert!(matches!(out.try_finish(), Err(WriteFault::Put(PutFault::Refused(BlockReason::NoFile)))));
    out.copy_message(&both[0]).unwrap();
    out.copy_message(&both[1]).unwrap();
    let later = both[0].with("timestamp", 1_000_000_100).unwrap();
    out.write(&later).unwrap();
    assert_eq!(out.copy_message(&both[1]), full);
    let written = out.finish().unwrap();
    let again = messages(&written).unwrap();
    let times: Vec<_> = again.iter().map(|message| message.time()).collect();
    assert_eq!(times, [both[0].time(), both[1].time(), Some(gazhdor::Time::new(1_000_000_100))]);
}

/// The true checksum of this header is 0: zeros can't stand for it, but are it.
#[test]
fn a_header_checksum_of_zero() {
    let mut out = Writer::new(Vec::new());
    out.begin(&Header::new(32, 46477, Checksum::Zeros)).unwrap();
    let file = out.finish().unwrap();
    assert_eq!((&file[12..14], check(&file)), (&[0, 0][..], Ok(1)));
    let read = messages(&file).unwrap();
    let told = read.events().find_map(|event| match event {
        Event::Header(header) => Some((header.checksum(), header.size(), header.protocol(), header.profile())),
        _ => None,
    });
    assert_eq!(told, Some((Checksum::There, 14, 32, 46477)));
    let mut blocks = read.blocks().to_vec();
    blocks[7] = 1;
    assert_eq!(from_blocks(&blocks).unwrap_err(), BlocksFault::Unwritable);
}

#[test]
fn headers() {
    for (checksum, size) in [(Checksum::None, 12), (Checksum::Zeros, 14), (Checksum::There, 14)] {
        let header = Header::new(16, 2132, checksum);
        assert_eq!((header.size(), header.protocol(), header.profile(), header.checksum()), (size, 16, 2132, checksum));
        let mut out = Writer::new(Vec::new());
        out.begin(&header).unwrap();
        let file = out.finish().unwrap();
        let begins = [&[size, 16, 0x54, 8, 0, 0, 0, 0][..], b".FIT"].concat();
        assert_eq!((file.len(), &file[..12], check(&file)), (usize::from(size) + 2, &begins[..], Ok(1)));
        assert_eq!(size == 14 && file[12..14] == [0, 0], checksum == Checksum::Zeros);
    }
    // A header that isn't told is of 14 bytes, of protocol 2.0, with its checksum.
    let mut out = Writer::new(Vec::new());
    out.write(&Definition::numbered(0).message()).unwrap();
    let file = out.finish().unwrap();
    assert_eq!((&file[..2], &file[8..12], check(&file)), (&[14, 32][..], &b".FIT"[..], Ok(1)));
    // A file that has begun ends where another begins.
    let mut out = Writer::new(Vec::new());
    for _ in 0..3 {
        out.begin(&Header::new(16, 1, Checksum::There)).unwrap();
    }
    assert_eq!(check(&out.finish().unwrap()), Ok(3));
}

/// Twenty definitions by turns, for which there are sixteen local message types: each message is of its own.
#[test]
fn more_definitions_than_local_message_types() {
    let definitions: Vec<_> =
        (0..20).map(|k| Definition::numbered(1000 + k).with_field(0, BaseType::Uint16, 1).unwrap()).collect();
    for most in [1, 16, 17, 20] {
        let mut out = Writer::new(Vec::new());
        for turn in 0..60_u16 {
            out.write(&definitions[usize::from(turn) % most].message().with(0, turn).unwrap()).unwrap();
        }
        let file = out.finish().unwrap();
        let read = messages(&file).unwrap();
        let told: Vec<_> =
            read.iter().map(|message| (message.number(), message.numbered(0).unwrap().value(0))).collect();
        let wanted: Vec<_> = (0..60).map(|turn| (1000 + turn % most as u16, Some(turn.into()))).collect();
        assert_eq!(told, wanted);
        let defined = read.events().filter(|event| matches!(event, Event::Definition(_))).count();
        assert_eq!(defined, if most <= 16 { most } else { 60 });
    }
}

#[test]
fn four_threads() {
    let out = thread::spawn(|| copy_to(Vec::new(), RIDE)).join().unwrap();
    assert!(out.finish().unwrap() == RIDE);
    thread::scope(|scope| {
        for _ in 0..4 {
            scope.spawn(|| (0..10).for_each(|_| assert!(copy_to(Vec::new(), RIDE).finish().unwrap() == RIDE)));
        }
    });
}
