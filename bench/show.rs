//! What `fit show` does, written by hand in Rust over nothing but std, to measure it against: the same lines
//! for each chain of files that is whole. On other input it panics. usage: show_rs [FILE]; without FILE it
//! reads standard input.
mod fields;
mod files;
mod numbers;
mod profile;
mod records;
mod text;

use fields::{
    before_closing_zeros, has_control, message_label, Descriptions, Fields, Label, Places, Style,
};
use files::{convert, Converter};
use numbers::number;
use records::{Definition, Known};
use std::io::Write;
use text::{put_hex, Clock};

/// What is made of a definition: what its messages need.
struct Line {
    front: String,
    fields: Fields,
    describes: Option<Places>,
}

struct Show {
    files: u32,
    known: Known<Line>,
    described: Descriptions,
    clock: Clock,
}

impl Converter for Show {
    fn begin(&mut self, out: &mut Vec<u8>, header: &[u8], word: &str, data: usize) {
        self.files += 1;
        self.known = Known::new();
        self.described.clear();
        let _ = writeln!(
            out,
            "file {}: header {}, protocol {}, profile {}, data {data}, {word}",
            self.files,
            header[0],
            header[1],
            number(false, &header[2..4])
        );
    }

    fn define(&mut self, out: &mut Vec<u8>, bytes: &[u8]) -> usize {
        let definition = Definition::read(bytes);
        let label = message_label(definition.global);
        let _ = writeln!(
            out,
            "  define {} {label} {} {} {}",
            definition.local,
            if definition.big { "big" } else { "little" },
            definition.fields.len() / 3,
            definition.developer.map_or(0, |entries| entries.len() / 3)
        );
        let mut fields = Fields::of::<Show>(&definition, &self.described);
        if let Some(comma) = fields.text.first_mut() {
            *comma = b':';
        }
        let made = Line {
            front: format!("  {} {label}", definition.local),
            fields,
            describes: Places::of(&definition),
        };
        self.known.define(&definition, made)
    }

    fn message(&mut self, out: &mut Vec<u8>, bytes: &[u8]) -> usize {
        let (kept, message) = self.known.message(bytes);
        out.extend_from_slice(kept.made.front.as_bytes());
        if let Some(time) = message.time {
            out.push(b' ');
            self.clock.put(out, time);
        }
        kept.made.fields.put::<Show>(out, kept.big, message.body);
        out.push(b'\n');
        if let Some(places) = &kept.made.describes {
            places.learn(&mut self.described, message.body);
        }
        1 + message.body.len()
    }
}

impl Style for Show {
    const TAIL_ALWAYS: bool = false;

    /// The first field of a line gets a colon in place of the comma.
    fn put_head(out: &mut Vec<u8>, label: &Label) {
        out.extend_from_slice(b", ");
        out.extend_from_slice(label.name);
        out.push(b'=');
    }

    fn put_tail(out: &mut Vec<u8>, label: &Label) {
        if !label.unit.is_empty() {
            out.push(b' ');
            out.extend_from_slice(label.unit);
        }
    }

    fn put_text(out: &mut Vec<u8>, bytes: &[u8]) {
        let text = before_closing_zeros(bytes);
        if has_control(text) || text.starts_with(b"0x") || std::str::from_utf8(text).is_err() {
            put_hex(out, bytes);
        } else {
            out.extend_from_slice(text);
        }
    }
}

fn main() {
    let show = Show {
        files: 0,
        known: Known::new(),
        described: Descriptions::new(),
        clock: Clock::new(),
    };
    convert(show, "", "ok\n");
}
