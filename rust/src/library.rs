//! The library's functions, as c/gazhdor.h declares them, and what they make. All that is unsafe is here.
use std::ffi::{c_void, CStr};
use std::fmt::{self, Debug, Display, Formatter};
use std::ops::Deref;
use std::os::raw::c_char;
use std::{ptr, slice, str};

/// The numbers that a function returns. One that has no meaning for the status is 0.
#[repr(C)]
pub(crate) struct Answer {
    pub(crate) status: u32,
    pub(crate) reason: u32,
    pub(crate) place: u64,
    pub(crate) row: u64,
    pub(crate) column: u64,
    pub(crate) files: u64,
}

#[repr(C)]
struct Made {
    bytes: *const u8,
    length: usize,
}

/// A stream or a writer, as C has it. Only the library reads what the pointer points to.
#[repr(C)]
struct Handle {
    at: *mut c_void,
}

type Call = unsafe extern "C" fn(*const u8, usize, *mut Made) -> Answer;

extern "C" {
    fn gazhdor_check(bytes: *const u8, length: usize) -> Answer;
    fn gazhdor_table(bytes: *const u8, length: usize, text: *mut Made) -> Answer;
    fn gazhdor_to_csv(bytes: *const u8, length: usize, text: *mut Made) -> Answer;
    fn gazhdor_show(bytes: *const u8, length: usize, text: *mut Made) -> Answer;
    fn gazhdor_messages(bytes: *const u8, length: usize, blocks: *mut Made) -> Answer;
    fn gazhdor_from_csv(text: *const u8, length: usize, bytes: *mut Made) -> Answer;
    fn gazhdor_from_messages(blocks: *const u8, length: usize, bytes: *mut Made) -> Answer;
    fn gazhdor_open(stream: *mut Handle, kind: u32) -> Answer;
    fn gazhdor_feed(stream: *mut Handle, bytes: *const u8, length: usize, text: *mut Made) -> Answer;
    fn gazhdor_finish(stream: *mut Handle, text: *mut Made) -> Answer;
    fn gazhdor_close(stream: *mut Handle);
    fn gazhdor_writer_open(writer: *mut Handle) -> Answer;
    fn gazhdor_writer_file(writer: *mut Handle, block: *const u8, length: usize) -> Answer;
    fn gazhdor_writer_definition(writer: *mut Handle, block: *const u8, length: usize) -> Answer;
    fn gazhdor_writer_messages(
        writer: *mut Handle,
        definition: *const u8,
        definition_length: usize,
        blocks: *const u8,
        length: usize,
    ) -> Answer;
    fn gazhdor_writer_finish(writer: *mut Handle, bytes: *mut Made) -> Answer;
    fn gazhdor_writer_close(writer: *mut Handle);
    fn gazhdor_free(text: Made);
    fn gazhdor_version() -> *const c_char;
    #[cfg(test)]
    fn gazhdor_reason_name(reason: u32) -> *const c_char;
}

/// Bytes that the library has made, which are freed when this is dropped. It is a slice; [`to_vec`](slice::to_vec) copies it.
///
/// They stay where the library put them: a `Vec` would have to copy them, since its memory is that of Rust's allocator.
pub struct Bytes {
    bytes: *const u8,
    length: usize,
}

// SAFETY: nobody else has the pointer, the bytes behind it don't change, and free may be called in any thread.
unsafe impl Send for Bytes {}
unsafe impl Sync for Bytes {}

impl Drop for Bytes {
    fn drop(&mut self) {
        // SAFETY: the library made these bytes, and nobody has freed them; where there are none it does nothing.
        unsafe { gazhdor_free(Made { bytes: self.bytes, length: self.length }) }
    }
}

impl Deref for Bytes {
    type Target = [u8];

    fn deref(&self) -> &[u8] {
        if self.length == 0 {
            return &[];
        }
        // SAFETY: that many bytes are behind the pointer until this is dropped.
        unsafe { slice::from_raw_parts(self.bytes, self.length) }
    }
}

impl AsRef<[u8]> for Bytes {
    fn as_ref(&self) -> &[u8] {
        self
    }
}

impl Debug for Bytes {
    fn fmt(&self, f: &mut Formatter<'_>) -> fmt::Result {
        (**self).fmt(f)
    }
}

/// A text that the library has made, which is freed when this is dropped. It is a `str`; `to_string` copies it.
pub struct Text {
    bytes: Bytes,
    /// How many of the bytes are the text, which are UTF-8.
    length: usize,
}

impl Text {
    /// Where memory was refused, the last character may have lost some of its bytes; then it is left out.
    pub(crate) fn new(bytes: Bytes) -> Text {
        let length = match str::from_utf8(&bytes) {
            Ok(text) => text.len(),
            Err(cut) if cut.error_len().is_none() => cut.valid_up_to(),
            Err(other) => panic!("the library makes UTF-8, and here {other}"),
        };
        Text { bytes, length }
    }
}

impl Deref for Text {
    type Target = str;

    fn deref(&self) -> &str {
        // SAFETY: `new` has seen that these bytes are UTF-8, and they don't change.
        unsafe { str::from_utf8_unchecked(&self.bytes[..self.length]) }
    }
}

impl AsRef<[u8]> for Text {
    fn as_ref(&self) -> &[u8] {
        self.as_bytes()
    }
}

impl AsRef<str> for Text {
    fn as_ref(&self) -> &str {
        self
    }
}

impl Debug for Text {
    fn fmt(&self, f: &mut Formatter<'_>) -> fmt::Result {
        Debug::fmt(&**self, f)
    }
}

impl Display for Text {
    fn fmt(&self, f: &mut Formatter<'_>) -> fmt::Result {
        Display::fmt(&**self, f)
    }
}

/// The answer of a call, and what it puts into a place that holds nothing.
fn put(call: impl FnOnce(*mut Made) -> Answer) -> (Answer, Bytes) {
    let mut into = Made { bytes: [].as_ptr(), length: 0 };
    let answer = call(&mut into);
    (answer, Bytes { bytes: into.bytes, length: into.length })
}

fn made(call: Call, given: &[u8]) -> (Answer, Bytes) {
    // SAFETY: the bytes can be read and don't change meanwhile, and `into` holds nothing.
    put(|into| unsafe { call(given.as_ptr(), given.len(), into) })
}

fn text(call: Call, given: &[u8]) -> (Answer, Text) {
    let (answer, bytes) = made(call, given);
    (answer, Text::new(bytes))
}

pub(crate) fn check(files: &[u8]) -> Answer {
    // SAFETY: the bytes can be read and don't change meanwhile.
    unsafe { gazhdor_check(files.as_ptr(), files.len()) }
}

pub(crate) fn table(files: &[u8]) -> (Answer, Text) {
    text(gazhdor_table, files)
}

pub(crate) fn to_csv(files: &[u8]) -> (Answer, Text) {
    text(gazhdor_to_csv, files)
}

pub(crate) fn show(files: &[u8]) -> (Answer, Text) {
    text(gazhdor_show, files)
}

pub(crate) fn messages(files: &[u8]) -> (Answer, Bytes) {
    made(gazhdor_messages, files)
}

pub(crate) fn from_csv(text: &[u8]) -> (Answer, Bytes) {
    made(gazhdor_from_csv, text)
}

pub(crate) fn from_messages(blocks: &[u8]) -> (Answer, Bytes) {
    made(gazhdor_from_messages, blocks)
}

/// A stream, which is closed when this is dropped. The pointer in it makes it not `Sync`.
pub(crate) struct Opened {
    handle: Handle,
}

// SAFETY: that a stream may go to another thread is proved, as `laws::streams_move` of crates/fit_c; nobody else has the pointer.
unsafe impl Send for Opened {}

impl Opened {
    pub(crate) fn new(kind: u32) -> (Answer, Opened) {
        let mut opened = Opened { handle: Handle { at: ptr::null_mut() } };
        // SAFETY: the handle is a closed one. Where the answer isn't good it stays so, and may be used and closed as well.
        let answer = unsafe { gazhdor_open(&mut opened.handle, kind) };
        (answer, opened)
    }

    pub(crate) fn feed(&mut self, piece: &[u8]) -> (Answer, Bytes) {
        // SAFETY: the handle is as the last call left it, and no other call uses it. The bytes can be read and don't change meanwhile,
        // and `into` holds nothing.
        put(|into| unsafe { gazhdor_feed(&mut self.handle, piece.as_ptr(), piece.len(), into) })
    }

    pub(crate) fn finish(&mut self) -> (Answer, Bytes) {
        // SAFETY: as for `feed`.
        put(|into| unsafe { gazhdor_finish(&mut self.handle, into) })
    }
}

impl Drop for Opened {
    fn drop(&mut self) {
        // SAFETY: as for `feed`; after this nobody has the handle.
        unsafe { gazhdor_close(&mut self.handle) }
    }
}

/// The files of a chain in the making, which are closed when this is dropped. The pointer in it makes it not `Sync`.
pub(crate) struct Files {
    handle: Handle,
}

// SAFETY: that a writer may go to another thread is proved, as `laws::writers_move` of crates/fit_c; nobody else has the pointer.
unsafe impl Send for Files {}

impl Files {
    pub(crate) fn new() -> (Answer, Files) {
        let mut files = Files { handle: Handle { at: ptr::null_mut() } };
        // SAFETY: the handle is a closed one. Where the answer isn't good it stays so, and may be used and closed as well.
        let answer = unsafe { gazhdor_writer_open(&mut files.handle) };
        (answer, files)
    }

    pub(crate) fn begin(&mut self, header: &[u8]) -> Answer {
        // SAFETY: the handle is as the last call left it, and no other call uses it. The bytes can be read and don't change meanwhile.
        unsafe { gazhdor_writer_file(&mut self.handle, header.as_ptr(), header.len()) }
    }

    pub(crate) fn define(&mut self, definition: &[u8]) -> Answer {
        // SAFETY: as for `begin`.
        unsafe { gazhdor_writer_definition(&mut self.handle, definition.as_ptr(), definition.len()) }
    }

    pub(crate) fn put(&mut self, definition: &[u8], blocks: &[u8]) -> Answer {
        let (of, bytes) = (definition.as_ptr(), blocks.as_ptr());
        // SAFETY: as for `begin`.
        unsafe { gazhdor_writer_messages(&mut self.handle, of, definition.len(), bytes, blocks.len()) }
    }

    pub(crate) fn finish(&mut self) -> (Answer, Bytes) {
        // SAFETY: as for `begin`; and `into` holds nothing.
        put(|into| unsafe { gazhdor_writer_finish(&mut self.handle, into) })
    }
}

impl Drop for Files {
    fn drop(&mut self) {
        // SAFETY: as for `begin`; after this nobody has the handle.
        unsafe { gazhdor_writer_close(&mut self.handle) }
    }
}

pub(crate) fn version() -> &'static str {
    // SAFETY: the library returns a text that stays, and ends in a zero.
    unsafe { CStr::from_ptr(gazhdor_version()) }.to_str().expect("the library's version is UTF-8")
}

#[cfg(test)]
pub(crate) fn reason_name(reason: u32) -> &'static str {
    // SAFETY: as for `version`.
    unsafe { CStr::from_ptr(gazhdor_reason_name(reason)) }.to_str().expect("the name is UTF-8")
}

#[cfg(test)]
mod tests {
    use super::*;

    extern "C" {
        fn malloc(size: usize) -> *mut u8;
    }

    fn given(from: &[u8]) -> Bytes {
        // SAFETY: the block has just that many bytes, and nobody else has it.
        unsafe {
            let block = malloc(from.len());
            block.copy_from_nonoverlapping(from.as_ptr(), from.len());
            Bytes { bytes: block, length: from.len() }
        }
    }

    #[test]
    fn a_character_that_is_cut_is_left_out() {
        let whole = "name,\u{e9},\u{20ac}";
        assert_eq!(*Text::new(given(whole.as_bytes())), *whole);
        assert_eq!(*Text::new(given(&whole.as_bytes()[..whole.len() - 1])), *"name,\u{e9},");
        assert_eq!(*Text::new(given(b"\xe2\x82")), *"");
    }

    #[test]
    #[should_panic(expected = "the library makes UTF-8")]
    fn another_text_is_none() {
        Text::new(given(b"a\xffb"));
    }
}
