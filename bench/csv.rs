//! What `fit to-csv` does, written by hand in Rust over nothing but std, to measure it against: the same
//! text for each chain of files that is whole. On other input it panics. usage: csv_rs [FILE]; without
//! FILE it reads standard input.
mod fields;
mod files;
mod numbers;
mod profile;
mod records;
mod text;

use fields::{before_closing_zeros, message_label, Descriptions, Fields, Label, Places, Style};
use files::{convert, Converter};
use numbers::number;
use records::{Definition, Known};
use std::io::Write;
use text::{put_digits, put_hex, Clock};

/// What is made of a definition: what its messages need.
struct Rows {
    label: String,
    fields: Fields,
    describes: Option<Places>,
}

struct Csv {
    known: Known<Rows>,
    described: Descriptions,
    clock: Clock,
}

impl Converter for Csv {
    fn begin(&mut self, out: &mut Vec<u8>, header: &[u8], word: &str, _data: usize) {
        self.known = Known::new();
        self.described.clear();
        let profile = number(false, &header[2..4]);
        let _ = write!(out, "file,{},{},{profile},{word},", header[0], header[1]);
        if header.len() > 14 {
            put_hex(out, &header[14..]);
        }
        out.extend_from_slice(b",\n");
    }

    fn define(&mut self, out: &mut Vec<u8>, bytes: &[u8]) -> usize {
        let definition = Definition::read(bytes);
        put_definition(out, &definition);
        let made = Rows {
            label: message_label(definition.global),
            fields: Fields::of::<Csv>(&definition, &self.described),
            describes: Places::of(&definition),
        };
        self.known.define(&definition, made)
    }

    fn message(&mut self, out: &mut Vec<u8>, bytes: &[u8]) -> usize {
        let (kept, message) = self.known.message(bytes);
        out.extend_from_slice(b"data,");
        put_number(out, message.local);
        if let Some(offset) = message.offset {
            put_digits(out, u64::from(offset));
        }
        out.push(b',');
        out.extend_from_slice(kept.made.label.as_bytes());
        out.push(b',');
        if let Some(time) = message.header_time {
            self.clock.put(out, time);
        }
        out.extend_from_slice(b",,\n");
        kept.made.fields.put::<Csv>(out, kept.big, message.body);
        if let Some(places) = &kept.made.describes {
            places.learn(&mut self.described, message.body);
        }
        1 + message.body.len()
    }

    fn end(&mut self, out: &mut Vec<u8>) {
        out.extend_from_slice(b"end,,,,,,\n");
    }
}

// ---- definitions

/// A number and a comma.
fn put_number(out: &mut Vec<u8>, number: impl Into<u64>) {
    put_digits(out, number.into());
    out.push(b',');
}

/// The rows of a definition message.
fn put_definition(out: &mut Vec<u8>, definition: &Definition) {
    out.extend_from_slice(b"def,");
    put_number(out, definition.local);
    put_number(out, definition.reserved);
    out.extend_from_slice(if definition.big { b"big," } else { b"little," });
    put_number(out, definition.global);
    put_number(out, definition.fields.len() as u64 / 3);
    if let Some(entries) = definition.developer {
        put_digits(out, entries.len() as u64 / 3);
    }
    out.push(b'\n');
    put_entries(out, b"fdef,", definition.fields);
    put_entries(out, b"ddef,", definition.developer.unwrap_or(&[]));
}

/// A row for each field or developer field.
fn put_entries(out: &mut Vec<u8>, kind: &[u8], entries: &[u8]) {
    for entry in entries.chunks_exact(3) {
        out.extend_from_slice(kind);
        for number in entry {
            put_number(out, *number);
        }
        out.extend_from_slice(b",,\n");
    }
}

// ---- fields

impl Style for Csv {
    const TAIL_ALWAYS: bool = true;

    fn put_head(out: &mut Vec<u8>, label: &Label) {
        out.extend_from_slice(if label.developer { b"dev," } else { b"field," });
        put_quoted(out, label.name);
        out.push(b',');
    }

    fn put_tail(out: &mut Vec<u8>, label: &Label) {
        out.push(b',');
        put_quoted(out, label.unit);
        out.extend_from_slice(b",,,\n");
    }

    fn put_text(out: &mut Vec<u8>, bytes: &[u8]) {
        let text = before_closing_zeros(bytes);
        if text.contains(&0) || text.starts_with(b"0x") || std::str::from_utf8(text).is_err() {
            put_hex(out, bytes);
        } else {
            put_quoted(out, text);
        }
    }
}

/// A cell, in quotes where it needs them.
fn put_quoted(out: &mut Vec<u8>, text: &[u8]) {
    if !text
        .iter()
        .any(|b| matches!(b, b',' | b'"' | b'\n' | b'\r'))
    {
        out.extend_from_slice(text);
        return;
    }
    out.push(b'"');
    for b in text {
        if *b == b'"' {
            out.push(b'"');
        }
        out.push(*b);
    }
    out.push(b'"');
}

fn main() {
    let csv = Csv {
        known: Known::new(),
        described: Descriptions::new(),
        clock: Clock::new(),
    };
    convert(csv, "row,a,b,c,d,e,f\n", "");
}
