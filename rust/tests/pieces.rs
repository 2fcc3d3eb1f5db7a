//! Streams, and sources that are read piece by piece, against the calls on all bytes: in each two pieces, byte by byte, and changed.
use gazhdor::{check, messages, show, table, to_csv, Fault, Made, Messages, ReadFault, Reason, Stopped, Stream, Text};
use std::fmt::Debug;
use std::io::{self, ErrorKind, Read};
use std::thread;

const RIDE: &[u8] = include_bytes!(concat!(env!("GAZHDOR_RIDES"), "/ride.fit"));

/// Two messages, one of each architecture; and a developer field before and after its description.
const ORDERS: &[u8] = b"\x0E\x20\0\0\x24\0\0\0.FIT\x9F\x6E\
    \x40\0\0\x14\0\x02\xFD\x04\x86\x03\x01\x02\0\x1F\xCA\x9A\x3B\x78\
    \x41\0\x01\0\x14\x02\x02\x02\x84\x08\x03\x0D\xA2\x09\xC4\x64\0\x10\xF0\x3B";
const DEVELOPER: &[u8] = b"\x0E\x20\0\0\x36\0\0\0.FIT\x1F\xBB\
    \x40\0\0\xCE\0\x04\0\x01\x02\x01\x01\x02\x02\x01\x02\x03\x03\x07\
    \x61\0\0\x14\0\0\x01\x05\x02\0\x01\x34\x12\0\0\x05\x84mo\0\x01\x34\x12\
    \x61\0\0\x14\0\0\x01\x05\x02\0\x01\x34\x12\x4A\x8B";

/// What a call or a stream makes, so that it can be compared: a text, or a line for each message.
trait Told: Made {
    fn told(&self) -> String;
}

impl Told for () {
    fn told(&self) -> String {
        String::new()
    }
}

impl Told for Text {
    fn told(&self) -> String {
        self.to_string()
    }
}

impl Told for Messages {
    fn told(&self) -> String {
        self.iter().map(|message| format!("{} {message:?}\n", message.place())).collect()
    }
}

fn end<T: Told>(result: Result<T, Stopped<T>>) -> (String, Option<Fault>) {
    match result {
        Ok(made) => (made.told(), None),
        Err(stopped) => (stopped.before.told(), Some(stopped.fault)),
    }
}

/// What a stream makes of the pieces, and the fault, which each later call returns again.
fn fed<'a, T: Told>(mut stream: Stream<T>, pieces: impl Iterator<Item = &'a [u8]>) -> (String, Option<Fault>) {
    let mut all = String::new();
    for piece in pieces {
        // A block of just these bytes, so that valgrind sees a read past them.
        let (made, fault) = end(stream.feed(piece.to_vec().as_slice()));
        all += &made;
        if fault.is_some() {
            assert_eq!(end(stream.feed(RIDE)), (String::new(), fault));
            assert_eq!(end(stream.finish()), (String::new(), fault));
            return (all, fault);
        }
    }
    let (made, fault) = end(stream.finish());
    (all + &made, fault)
}

fn see<T: Told>(open: fn() -> Result<Stream<T>, Fault>, wanted: (String, Option<Fault>), bytes: &[u8], at: usize) {
    let (first, second) = bytes.split_at(at);
    assert_eq!(fed(open().unwrap(), [first, second].into_iter()), wanted);
    if bytes.len() < 200 || at == 0 {
        assert_eq!(fed(open().unwrap(), bytes.chunks(1)), wanted);
    }
}

fn see_all(bytes: &[u8], at: usize) {
    see(Stream::check, (String::new(), check(bytes).err()), bytes, at);
    see(Stream::show, end(show(bytes)), bytes, at);
    see(Stream::table, end(table(bytes)), bytes, at);
    see(Stream::to_csv, end(to_csv(bytes)), bytes, at);
    see(Stream::messages, end(messages(bytes)), bytes, at);
}

#[test]
fn known_files_in_pieces() {
    for bytes in [ORDERS.to_vec(), DEVELOPER.to_vec(), [ORDERS, DEVELOPER].concat()] {
        for at in 0..bytes.len() {
            see_all(&bytes, at);
            see_all(&bytes[..at], at / 2);
            let mut changed = bytes.clone();
            changed[at] ^= 0x55;
            see_all(&changed, at);
        }
    }
}

#[test]
fn the_ride_in_pieces() {
    for at in (0..RIDE.len()).step_by(131) {
        see_all(RIDE, at);
        let mut changed = RIDE.to_vec();
        changed[at] ^= 0x55;
        see_all(&changed, at.max(1));
    }
}

#[test]
fn files_are_counted() {
    let mut stream = Stream::check().unwrap();
    let chain = [ORDERS, DEVELOPER].concat();
    for (at, byte) in chain.chunks(1).enumerate() {
        stream.feed(byte).unwrap();
        assert_eq!(stream.files(), u64::from(at + 1 >= ORDERS.len()) + u64::from(at + 1 == chain.len()));
    }
    stream.finish().unwrap();
    assert_eq!(stream.files(), 2);
}

#[test]
fn the_end_is_asked_for_and_more_follows() {
    let mut stream = Stream::messages().unwrap();
    stream.feed(&ORDERS[..20]).unwrap();
    assert_eq!(stream.finish().unwrap_err().fault, Fault::Truncated { place: 20 });
    assert_eq!(stream.feed(&ORDERS[20..]).unwrap().iter().count(), 2);
    stream.finish().unwrap();
    let stopped = stream.feed(b"\x0d").unwrap_err();
    assert_eq!(stopped.fault, Fault::Refused { place: 52, reason: Reason::HeaderSize });
    assert_eq!(stream.files(), 1);
}

/// A source that gives a few bytes at once, is interrupted now and then, and fails where it is to.
struct Few<'a> {
    left: &'a [u8],
    turn: u32,
    fails: bool,
}

impl Read for Few<'_> {
    fn read(&mut self, into: &mut [u8]) -> io::Result<usize> {
        self.turn += 1;
        if self.turn % 3 == 0 {
            return Err(io::Error::new(ErrorKind::Interrupted, "once more"));
        }
        if self.left.is_empty() && self.fails {
            return Err(io::Error::new(ErrorKind::Other, "broken"));
        }
        let length = into.len().min(self.left.len()).min(100);
        let (piece, left) = self.left.split_at(length);
        into[..length].copy_from_slice(piece);
        self.left = left;
        Ok(length)
    }
}

/// All that comes of a source, and the text of the fault.
fn read<T: Told + std::fmt::Debug>(stream: Stream<T>, bytes: &[u8], fails: bool) -> (String, Option<String>) {
    let (mut all, mut fault) = (String::new(), None);
    let mut reading = stream.read(Few { left: bytes, turn: 0, fails });
    for made in &mut reading {
        assert!(fault.is_none());
        match made {
            Ok(made) => all += &made.told(),
            Err(wrong) => {
                fault = Some(wrong.to_string());
                if let ReadFault::Stopped(stopped) = wrong {
                    all += &stopped.before.told();
                }
            }
        }
    }
    assert!(reading.next().is_none());
    assert_eq!(reading.files(), if fault.is_none() { check(bytes).unwrap() } else { 0 });
    (all, fault)
}

#[test]
fn sources_are_read() {
    let three = RIDE.repeat(3);
    for bytes in [RIDE, &three, &RIDE[..2000], &RIDE[..0]] {
        let text = |(text, fault): (String, Option<Fault>)| (text, fault.map(|fault| fault.to_string()));
        assert_eq!(read(Stream::check().unwrap(), bytes, false).1, check(bytes).err().map(|fault| fault.to_string()));
        assert_eq!(read(Stream::table().unwrap(), bytes, false), text(end(table(bytes))));
        assert_eq!(read(Stream::show().unwrap(), bytes, false), text(end(show(bytes))));
        assert_eq!(read(Stream::messages().unwrap(), bytes, false), text(end(messages(bytes))));
    }
    let (text, fault) = read(Stream::to_csv().unwrap(), &RIDE[..2000], true);
    assert_eq!(fault.as_deref(), Some("a read failed: broken"));
    assert_eq!(text, to_csv(&RIDE[..2000]).unwrap_err().before.told());
}

#[test]
fn streams_are_dropped_anywhere() {
    for at in (0..RIDE.len()).step_by(97) {
        let mut stream = Stream::messages().unwrap();
        let kept = stream.feed(&RIDE[..at]).unwrap();
        drop(stream);
        assert_eq!(kept.told(), messages(&RIDE[..at]).unwrap_err().before.told());
    }
}

/// Each of four threads has a stream of its own; what a stream has made may go to another thread.
#[test]
fn four_threads() {
    let wanted = messages(RIDE).unwrap().told();
    let work = || {
        let mut stream = Stream::messages().unwrap();
        RIDE.chunks(70).map(|piece| stream.feed(piece).unwrap()).collect::<Vec<_>>()
    };
    let threads: Vec<_> = (0..4).map(|_| thread::spawn(work)).collect();
    for thread in threads {
        let made = thread.join().unwrap();
        assert_eq!(made.iter().map(Told::told).collect::<String>(), wanted);
    }
}

fn may_move<T: Send>(_: &T) {}

/// One thread opens a stream, two others feed it, and a fourth finishes and drops it.
fn moved<T: Told + Debug + Send + 'static>(open: fn() -> Result<Stream<T>, Fault>) -> String {
    let mut stream = thread::spawn(open).join().unwrap().unwrap();
    let mut told = String::new();
    for half in [&RIDE[..RIDE.len() / 2], &RIDE[RIDE.len() / 2..]] {
        let feeding = thread::spawn(move || {
            let made: Vec<_> = half.chunks(70).map(|piece| stream.feed(piece).unwrap().told()).collect();
            (stream, made)
        });
        let (fed, made) = feeding.join().unwrap();
        told.extend(made);
        stream = fed;
    }
    told + &thread::spawn(move || stream.finish().unwrap().told()).join().unwrap()
}

#[test]
fn goes_on_in_other_threads() {
    assert_eq!(moved(Stream::check), "");
    assert_eq!(moved(Stream::show), *show(RIDE).unwrap());
    assert_eq!(moved(Stream::table), *table(RIDE).unwrap());
    assert_eq!(moved(Stream::to_csv), *to_csv(RIDE).unwrap());
    assert_eq!(moved(Stream::messages), messages(RIDE).unwrap().told());
    let mut reading = Stream::messages().unwrap().read(RIDE);
    may_move(&reading);
    let first = reading.next().unwrap().unwrap().told();
    let rest = thread::spawn(move || reading.map(|made| made.unwrap().told()).collect::<String>()).join().unwrap();
    assert_eq!(first + &rest, messages(RIDE).unwrap().told());
}
