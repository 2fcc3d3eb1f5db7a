//! The files of a chain in the making. The library keeps them, and what a reader of them would know; here is what it is given.
use crate::block_reason::BlockReason;
use crate::field::Field;
use crate::labels::numbered;
use crate::library::{Bytes, Files};
use crate::message::Message;
use crate::put_fault::{judged, PutFault};
use crate::value_error::label;

/// The files, and of the last one what the library isn't asked for.
pub(crate) struct Chain {
    files: Files,
    /// The time of the last message that has one, from which the offset of a compressed header counts.
    time: Option<u32>,
}

impl Chain {
    pub(crate) fn new() -> Result<Chain, PutFault> {
        let (answer, files) = Files::new();
        judged(&answer)?;
        Ok(Chain { files, time: None })
    }

    /// Begins a file, after the one that is there.
    pub(crate) fn begin(&mut self, header: &[u8]) -> Result<(), PutFault> {
        judged(&self.files.begin(header))?;
        self.time = None;
        Ok(())
    }

    pub(crate) fn define(&mut self, definition: &[u8]) -> Result<(), PutFault> {
        judged(&self.files.define(definition))
    }

    /// The time of the last message that has one.
    pub(crate) fn time(&self) -> Option<u32> {
        self.time
    }

    /// Puts a message, with its definition where that isn't there, and the descriptions of its developer fields where they are described in
    /// another way here than where it comes from.
    pub(crate) fn put(&mut self, message: &Message<'_>) -> Result<(), PutFault> {
        judged(&self.files.put(message.defined().0, message.block())).map_err(|fault| named(fault, message))?;
        self.time = message.own_time().or_else(|| message.offset_time()).or(self.time);
        Ok(())
    }

    pub(crate) fn finish(&mut self) -> Result<Bytes, PutFault> {
        let (answer, bytes) = self.files.finish();
        judged(&answer).map(|()| bytes)
    }
}

/// Why a message isn't put. A developer field that can't be described is named: the first that no message could describe, or else the first
/// that has no description where the message comes from.
fn named(fault: PutFault, message: &Message<'_>) -> PutFault {
    if fault != PutFault::Refused(BlockReason::Described) {
        return fault;
    }
    let fields = || message.fields().filter(|field| field.developer().is_some());
    let unwritten = fields().find(|field| ![field.name(), field.unit()].iter().all(|text| is_written(*text)));
    let other = || fields().find(|field| !is_told(field)).or_else(|| fields().next());
    let found = unwritten.map(|field| numbered(&field)).or_else(|| other().map(|field| label(&field)));
    PutFault::Described { field: found.unwrap_or_default() }
}

/// Whether a developer field is described where it comes from.
fn is_told(field: &Field<'_>) -> bool {
    const BYTE: u8 = 0x0D;
    field.base_type() != BYTE || field.name().is_some() || field.unit().is_some()
}

/// Whether a description can have this name or unit, which is read back.
fn is_written(text: Option<&str>) -> bool {
    const MOST: usize = 254;
    text.map_or(true, |text| text.len() <= MOST && !text.bytes().any(|byte| byte < b' ' || byte == 0x7F))
}
