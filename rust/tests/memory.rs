//! Each growth of memory refused in turn. This program's own malloc and realloc stand before those of the C library.
use gazhdor::{check, from_blocks, from_csv, messages, show, table, to_csv};
use gazhdor::{BlocksFault, Bytes, Fault, Messages, PutFault, Stopped, Stream, Text, WriteFault, Writer};
use std::cell::Cell;
use std::ffi::c_void;
use std::fmt::Debug;
use std::ptr;

const RIDE: &[u8] = include_bytes!(concat!(env!("GAZHDOR_RIDES"), "/ride.fit"));

thread_local! {
    /// How many growths of this thread are still granted before one is refused; none where none is to be.
    static GRANTED: Cell<Option<u32>> = const { Cell::new(None) };
}

extern "C" {
    fn __libc_malloc(size: usize) -> *mut c_void;
    fn __libc_realloc(old: *mut c_void, size: usize) -> *mut c_void;
}

fn grant(growths: Option<u32>) -> Option<u32> {
    GRANTED.with(|granted| granted.replace(growths))
}

fn refuses() -> bool {
    let granted = GRANTED.with(Cell::get);
    grant(granted.map(|left| left.wrapping_sub(1)));
    granted == Some(0)
}

#[no_mangle]
extern "C" fn malloc(size: usize) -> *mut c_void {
    match refuses() {
        true => ptr::null_mut(),
        false => unsafe { __libc_malloc(size) },
    }
}

#[no_mangle]
extern "C" fn realloc(old: *mut c_void, size: usize) -> *mut c_void {
    match refuses() {
        true => ptr::null_mut(),
        false => unsafe { __libc_realloc(old, size) },
    }
}

/// What a call returns with each growth refused in turn, until none is, and how many were.
fn each_refused<T>(call: impl Fn() -> T, see: impl Fn(T)) -> u32 {
    for granted in 0.. {
        grant(Some(granted));
        let result = call();
        if grant(None) <= Some(granted) {
            return granted;
        }
        see(result);
    }
    unreachable!()
}

fn see_text(whole: &Text, result: Result<Text, Stopped>) {
    match result {
        Ok(text) => assert_eq!(*text, **whole),
        Err(stopped) => {
            assert_eq!(stopped.fault, Fault::OutOfMemory);
            assert_eq!(stopped.fault.to_string(), "out of memory");
            assert!(whole.starts_with(&*stopped.before));
        }
    }
}

fn see_bytes<F: PartialEq + Debug>(result: Result<Bytes, F>, refused: F) {
    match result {
        Ok(bytes) => assert_eq!(*bytes, *RIDE),
        Err(fault) => assert_eq!(fault, refused),
    }
}

fn see_messages(whole: &Messages, result: Result<Messages, Stopped<Messages>>) {
    let made = match result {
        Ok(made) => {
            assert_eq!(made.iter().count(), whole.iter().count());
            made
        }
        Err(stopped) => {
            assert_eq!(stopped.fault, Fault::OutOfMemory);
            stopped.before
        }
    };
    assert!(made.iter().zip(whole).all(|(made, whole)| made == whole));
    assert!(made.iter().count() <= whole.iter().count());
}

#[test]
fn refused_memory_is_reported() {
    for call in [table, to_csv, show] {
        let whole = call(RIDE).unwrap();
        assert!(each_refused(|| call(RIDE), |result| see_text(&whole, result)) > 0);
        grant(Some(0));
        let first = call(RIDE).map(drop).map_err(Fault::from);
        grant(None);
        assert_eq!(first, Err(Fault::OutOfMemory));
    }
    let whole = messages(RIDE).unwrap();
    assert!(each_refused(|| messages(RIDE), |result| see_messages(&whole, result)) > 0);
    let text = to_csv(RIDE).unwrap();
    assert!(each_refused(|| from_csv(&text), |result| see_bytes(result, Fault::OutOfMemory)) > 0);
    assert!(each_refused(|| from_blocks(whole.blocks()), |result| see_bytes(result, BlocksFault::OutOfMemory)) > 0);
    each_refused(|| check(RIDE), |result| assert!(matches!(result, Ok(1) | Err(Fault::OutOfMemory))));
}

/// A table in pieces, and the fault.
fn table_in_pieces() -> (Vec<Text>, Option<Fault>) {
    let mut made = Vec::with_capacity(100);
    let fault = |stopped: Stopped| stopped.fault;
    let mut feed = || {
        let mut stream = Stream::table()?;
        for piece in RIDE.chunks(100) {
            made.push(stream.feed(piece).map_err(fault)?);
        }
        made.push(stream.finish().map_err(fault)?);
        Ok(())
    };
    let end: Result<(), Fault> = feed();
    (made, end.err())
}

#[test]
fn memory_refused_to_a_stream() {
    // What this takes itself is granted.
    let whole = table(RIDE).unwrap();
    let see = |(made, fault): (Vec<Text>, Option<Fault>)| {
        let text: String = made.iter().map(|text| &**text).collect();
        assert!(whole.starts_with(&text));
        assert!(fault == Some(Fault::OutOfMemory) || (fault.is_none() && text == *whole));
    };
    let mut refused = 0;
    for granted in 1.. {
        grant(Some(granted));
        let made = table_in_pieces();
        if grant(None) <= Some(granted) {
            break;
        }
        see(made);
        refused += 1;
    }
    assert!(refused > 0);
    let mut stream = Stream::check().unwrap();
    grant(Some(0));
    let fed = RIDE.chunks(100).map(|piece| stream.feed(piece).map_err(|stopped| stopped.fault)).find(Result::is_err);
    let again = stream.feed(RIDE).map_err(|stopped| stopped.fault);
    grant(None);
    assert!(fed.is_none() || (fed == Some(Err(Fault::OutOfMemory)) && again == Err(Fault::OutOfMemory)));
}

/// Copies a ride into a place that is there, each call again where memory was refused to it; how often that was, and how many bytes there are.
fn copied_again(read: &Messages, place: &mut [u8]) -> (u32, usize) {
    let whole = place.len();
    let (mut refused, mut left) = (0, place);
    let mut out = Writer::new(&mut left);
    for event in read.events() {
        while let Err(fault) = out.copy(&event) {
            assert_eq!(fault, PutFault::OutOfMemory);
            refused += 1;
        }
    }
    while let Err(fault) = out.try_finish() {
        assert!(matches!(fault, WriteFault::Put(PutFault::OutOfMemory)));
        refused += 1;
    }
    drop(out);
    (refused, whole - left.len())
}

/// What a writer took before it still has, and it goes on.
#[test]
fn memory_refused_to_a_writer() {
    let (read, mut place) = (messages(RIDE).unwrap(), vec![0; 2 * RIDE.len()]);
    let mut seen = 0;
    for granted in 0.. {
        grant(Some(granted));
        let (refused, length) = copied_again(&read, &mut place);
        if grant(None) <= Some(granted) {
            assert_eq!((refused, &place[..length]), (0, RIDE));
            break;
        }
        seen += refused;
        let again = messages(&place[..length]).unwrap();
        assert_eq!(again.iter().count(), read.iter().count());
        for (one, other) in again.iter().zip(&read) {
            assert_eq!((one.number(), one.time()), (other.number(), other.time()));
            assert!(one.fields().eq(other.fields()));
        }
    }
    assert!(seen > 50, "{seen}");
}
