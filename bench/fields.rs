//! The fields of messages, as `csv.rs` and `show.rs` write them: what stands around the values is made once for
//! each definition.
use crate::numbers::{number, Numbers};
use crate::profile::{field_row, message_row, Class};
use crate::records::{Definition, Spot};
use crate::text::put_hex;
use std::collections::HashMap;

/// The name of a message, or `message_` and its number.
pub fn message_label(global: u16) -> String {
    message_row(global).map_or_else(|| format!("message_{global}"), |row| row.1.to_string())
}

/// The name and unit of a field, and whether it is a developer field.
pub struct Label<'a> {
    #[allow(dead_code)] // `show.rs` doesn't ask
    pub developer: bool,
    pub name: &'a [u8],
    pub unit: &'a [u8],
}

/// How a program writes the fields of a message.
pub trait Style {
    /// Whether what stands after a value is written where the value is empty.
    const TAIL_ALWAYS: bool;
    /// What stands before the value.
    fn put_head(out: &mut Vec<u8>, label: &Label);
    /// What stands after the value.
    fn put_tail(out: &mut Vec<u8>, label: &Label);
    /// The value of a string.
    fn put_text(out: &mut Vec<u8>, bytes: &[u8]);
}

/// The fields of a definition, and the text of all that stands around their values.
pub struct Fields {
    pub text: Vec<u8>,
    list: Vec<Field>,
}

/// A field: how long what stands before and after its value is, and how its value is written.
pub struct Field {
    head: usize,
    tail: usize,
    size: usize,
    numbers: Numbers,
}

impl Field {
    fn put_value<S: Style>(&self, out: &mut Vec<u8>, big: bool, bytes: &[u8]) {
        if bytes.is_empty() {
            return;
        }
        match self.numbers.class {
            Class::Text => S::put_text(out, bytes),
            Class::Bytes => put_hex(out, bytes),
            _ if bytes.len() == self.numbers.width => {
                self.numbers.put(out, number(big, bytes));
            }
            _ => {
                for (k, item) in bytes.chunks_exact(self.numbers.width).enumerate() {
                    if k > 0 {
                        out.push(b'|');
                    }
                    self.numbers.put(out, number(big, item));
                }
            }
        }
    }
}

impl Fields {
    /// Those of a definition.
    pub fn of<S: Style>(definition: &Definition, described: &Descriptions) -> Fields {
        let developer = definition.developer.unwrap_or(&[]);
        let count = (definition.fields.len() + developer.len()) / 3;
        let mut fields = Fields {
            text: Vec::with_capacity(32 * count),
            list: Vec::with_capacity(count),
        };
        for entry in definition.fields.chunks_exact(3) {
            let other;
            let (name, unit, scale, offset) = match field_row(definition.global, entry[0]) {
                Some((_, name, unit, scale, offset)) => (name, unit, scale, offset),
                None => {
                    other = format!("field_{}", entry[0]);
                    (other.as_str(), "", 1, 0)
                }
            };
            let label = Label {
                developer: false,
                name: name.as_bytes(),
                unit: unit.as_bytes(),
            };
            let numbers = Numbers::new(entry[2], scale, offset);
            fields.add::<S>(entry[1], numbers, &label);
        }
        for entry in developer.chunks_exact(3) {
            let (number, size, index) = (entry[0], entry[1], entry[2]);
            let found = described.get(&(index, number));
            let other = format!("dev_{index}_{number}").into_bytes();
            let label = Label {
                developer: true,
                name: found.and_then(|d| d.name.as_deref()).unwrap_or(&other),
                unit: found.and_then(|d| d.unit.as_deref()).unwrap_or(b""),
            };
            let numbers = Numbers::new(found.map_or(0x0D, |d| d.code), 1, 0);
            fields.add::<S>(size, numbers, &label);
        }
        fields
    }

    fn add<S: Style>(&mut self, size: u8, mut numbers: Numbers, label: &Label) {
        let size = usize::from(size);
        if size % numbers.width != 0 {
            numbers.class = Class::Bytes;
        }
        let before = self.text.len();
        S::put_head(&mut self.text, label);
        let head = self.text.len() - before;
        S::put_tail(&mut self.text, label);
        self.list.push(Field {
            head,
            tail: self.text.len() - before - head,
            size,
            numbers,
        });
    }

    /// Puts the fields of a message.
    pub fn put<S: Style>(&self, out: &mut Vec<u8>, big: bool, body: &[u8]) {
        let (mut text, mut rest) = (&self.text[..], body);
        for field in &self.list {
            let (head, after) = text.split_at(field.head);
            let (tail, after) = after.split_at(field.tail);
            let (value, more) = rest.split_at(field.size);
            out.extend_from_slice(head);
            let before = out.len();
            field.put_value::<S>(out, big, value);
            if S::TAIL_ALWAYS || out.len() > before {
                out.extend_from_slice(tail);
            }
            (text, rest) = (after, more);
        }
    }
}

// ---- developer fields

/// What a field description says of a developer field.
pub struct Described {
    code: u8,
    name: Option<Vec<u8>>,
    unit: Option<Vec<u8>>,
}

/// What is described, by index and number.
pub type Descriptions = HashMap<(u8, u8), Described>;

/// Where a field description has the parts of what it says: index, number, base type, name and unit.
pub struct Places([Option<Spot>; 5]);

impl Places {
    /// Those of a definition's messages, where they are field descriptions.
    pub fn of(definition: &Definition) -> Option<Places> {
        if definition.global != 206 {
            return None;
        }
        Some(Places(
            [0, 1, 2, 3, 8].map(|number| definition.find(number)),
        ))
    }

    /// Takes over what a field description describes.
    pub fn learn(&self, described: &mut Descriptions, body: &[u8]) {
        let [index, number, code, name, unit] = self.0;
        let byte = |spot: Option<Spot>| spot.filter(|s| s.size == 1).map(|s| body[s.at]);
        let text = |spot: Option<Spot>| {
            spot.filter(|s| s.code == 0x07)
                .and_then(|s| printable(before_closing_zeros(&body[s.at..s.at + s.size])))
        };
        if let (Some(index), Some(number), Some(code)) = (byte(index), byte(number), byte(code)) {
            let (name, unit) = (text(name), text(unit));
            described.insert((index, number), Described { code, name, unit });
        }
    }
}

fn printable(text: &[u8]) -> Option<Vec<u8>> {
    let shown = !text.is_empty() && !has_control(text) && std::str::from_utf8(text).is_ok();
    shown.then(|| text.to_vec())
}

// ---- texts

/// Whether a text has a control character.
pub fn has_control(text: &[u8]) -> bool {
    text.iter().any(|b| *b < 0x20 || *b == 0x7F)
}

pub fn before_closing_zeros(bytes: &[u8]) -> &[u8] {
    &bytes[..bytes.iter().rposition(|b| *b != 0).map_or(0, |k| k + 1)]
}
