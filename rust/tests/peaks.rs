//! How much memory edit, join and join_as_one hold at their most: ten times the bytes that are read, and a little that
//! doesn't grow. This program's own malloc, realloc and free stand before those of the C library, and count.
mod made;

use gazhdor::{check, join, join_as_one, Edit, Time};
use made::{define, fit};
use std::ffi::c_void;
use std::sync::atomic::{AtomicUsize, Ordering::Relaxed};

const RIDE: &[u8] = include_bytes!(concat!(env!("GAZHDOR_RIDES"), "/ride.fit"));
/// So many bytes have the inputs, or some more.
const LENGTH: usize = 1 << 18;
/// So many more than ten times as many may be held: the library's streams and writers keep names and units of up to
/// two megabytes.
const MORE: usize = 2 << 20;
const TIME: u32 = 1_147_937_400;
/// One item of one byte.
const BYTE: u8 = 2;

static HELD: AtomicUsize = AtomicUsize::new(0);
static MOST: AtomicUsize = AtomicUsize::new(0);

extern "C" {
    fn __libc_malloc(size: usize) -> *mut c_void;
    fn __libc_calloc(count: usize, size: usize) -> *mut c_void;
    fn __libc_realloc(old: *mut c_void, size: usize) -> *mut c_void;
    fn __libc_free(block: *mut c_void);
    fn malloc_usable_size(block: *mut c_void) -> usize;
}

fn takes(block: *mut c_void) -> *mut c_void {
    // SAFETY: it is a block of this allocator, or null.
    let size = unsafe { malloc_usable_size(block) };
    MOST.fetch_max(HELD.fetch_add(size, Relaxed) + size, Relaxed);
    block
}

fn gives(block: *mut c_void) {
    // SAFETY: as for `takes`.
    HELD.fetch_sub(unsafe { malloc_usable_size(block) }, Relaxed);
}

#[no_mangle]
extern "C" fn malloc(size: usize) -> *mut c_void {
    takes(unsafe { __libc_malloc(size) })
}

#[no_mangle]
extern "C" fn calloc(count: usize, size: usize) -> *mut c_void {
    takes(unsafe { __libc_calloc(count, size) })
}

/// Where a block that grows is copied, both are there for a while. It counts so always.
#[no_mangle]
extern "C" fn realloc(old: *mut c_void, size: usize) -> *mut c_void {
    let before = unsafe { malloc_usable_size(old) };
    let block = takes(unsafe { __libc_realloc(old, size) });
    if !block.is_null() || size == 0 {
        HELD.fetch_sub(before, Relaxed);
    }
    block
}

#[no_mangle]
extern "C" fn free(block: *mut c_void) {
    gives(block);
    unsafe { __libc_free(block) }
}

/// How many bytes a call held at its most beside those that were there.
fn held<T>(call: impl FnOnce() -> T) -> (usize, T) {
    let before = HELD.load(Relaxed);
    MOST.store(before, Relaxed);
    let made = call();
    (MOST.load(Relaxed) - before, made)
}

/// A file of a first record, of a definition, and of as many messages as the length has room for.
fn of(first: Vec<u8>, messages: impl Fn(u32) -> Vec<u8>) -> Vec<u8> {
    let mut records =
        vec![define(15, 20, &[[253, 4, 0x86]], &[], false), [&[15][..], &TIME.to_le_bytes()].concat(), first];
    let count = LENGTH / messages(0).len();
    records.extend((0..count as u32).map(messages));
    fit(&records)
}

fn fields(count: u8, size: u8) -> Vec<[u8; 3]> {
    (0..count).map(|number| [number, size, BYTE]).collect()
}

/// Many rides, one after another, each some seconds later.
fn rides() -> Vec<u8> {
    let later = |k: usize| Edit::new().shift(1000 * k as i64).write(RIDE, Vec::new()).unwrap().0;
    (0..=LENGTH / RIDE.len()).flat_map(later).collect()
}

/// One long ride.
fn long_ride() -> Vec<u8> {
    let record = [[253, 4, 0x86], [0, 4, 0x85], [1, 4, 0x85], [5, 4, 0x86], [6, 2, 0x84], [3, 1, BYTE]];
    of(define(0, 20, &record, &[], false), |k| {
        let words = [TIME + k, 500_000_000 + k, 100_000_000 + k, 700 * k];
        let mut message = vec![0];
        words.iter().for_each(|word| message.extend(word.to_le_bytes()));
        message.extend([136, 19, 120]);
        message
    })
}

/// Definitions of developer fields that are described with names and units of 255 bytes.
fn described() -> Vec<u8> {
    let mut first = define(1, 206, &[[0, 1, 2], [1, 1, 2], [2, 1, 2], [3, 255, 7], [8, 255, 7]], &[], false);
    first.extend([1, 0, 0, 2]);
    first.extend([[b'n'; 255], [b'u'; 255]].concat());
    let developer: Vec<_> = (0..255).map(|_| [0, 0, 0]).collect();
    let definition = define(0, 20, &[[3, 1, BYTE]], &developer, false);
    of(first, |_| [&definition[..], &[0, 120]].concat())
}

fn shapes() -> Vec<(&'static str, Vec<u8>)> {
    vec![
        ("rides", rides()),
        ("a long ride", long_ride()),
        (
            "fields of a byte",
            of(define(0, 20, &fields(40, 1), &[], false), |k| {
                vec![(k % 200) as u8; 41]
                    .into_iter()
                    .enumerate()
                    .map(|(at, byte)| if at == 0 { 0 } else { byte })
                    .collect()
            }),
        ),
        ("definitions", of(Vec::new(), |k| [define(0, k as u16, &[], &[], false), vec![0]].concat())),
        (
            "wide definitions",
            of(Vec::new(), |k| {
                [define((k % 15) as u8, 20, &fields(255, 1), &[], false), vec![(k % 15) as u8; 1], vec![7; 255]]
                    .concat()
            }),
        ),
        ("fields with long names", described()),
    ]
}

fn later() -> Edit {
    Edit::new().from(Time::new(TIME - 1))
}

#[test]
fn ten_times_the_bytes() {
    let mut over = Vec::new();
    for (name, file) in shapes() {
        assert!(check(&file).is_ok(), "{name}");
        let calls: [(&str, &dyn Fn() -> bool); 6] = [
            ("join", &|| join([&file], Vec::new()).is_ok()),
            ("edit --drop", &|| Edit::new().drop("heart_rate").write(&file, Vec::new()).is_ok()),
            ("edit --from", &|| later().write(&file, Vec::new()).is_ok()),
            ("join --one", &|| join_as_one([&file], Vec::new()).is_ok()),
            ("edit", &|| Edit::new().write(&file, Vec::new()).is_ok()),
            ("edit --shift", &|| Edit::new().shift(5).write(&file, Vec::new()).is_ok()),
        ];
        for (call, make) in calls {
            let (most, is_good) = held(make);
            assert!(is_good, "{name}: {call}");
            if most > 10 * file.len() + MORE {
                over.push(format!("{name}: {call} holds {most} bytes for {}", file.len()));
            }
        }
    }
    assert!(over.is_empty(), "{over:#?}");
}
