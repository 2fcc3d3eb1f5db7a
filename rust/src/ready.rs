//! Values that are ready to use, each of a type that databases and JSON have.
use crate::field::{Field, Value};
use crate::labels::labelled;
use crate::message::Message;
use crate::numbers::{SIGNED, STRING, UNSIGNED};
use crate::profile;
use crate::time::Time;
use crate::words::words;
use std::collections::HashSet;
use std::fmt::Write;
use std::mem::discriminant;

/// A value as [`Message::ready`] gives it.
#[derive(Debug, Clone, PartialEq)]
pub enum Ready {
    /// No value; a time that the device didn't know; a float that is no finite number.
    None,
    /// A whole number.
    Unsigned(u64),
    /// A whole number of a signed base type.
    Signed(i64),
    /// A number in the unit of the field, and a place in degrees.
    Float(f64),
    /// A text; a word, or the number in its place where it has none; bytes as hexadecimal digits.
    Text(String),
    /// A time.
    Time(Time),
    /// A time by the clock of the place.
    Local(Time),
}

/// What a field has: one value, or several.
#[derive(Clone)]
pub(crate) enum Told {
    One(Ready),
    Several(Vec<Ready>),
}

/// Whether a field is a time in seconds since 1989-12-31T00:00:00, and then whether that is by the clock of the place.
pub(crate) fn is_time(field: &Field<'_>) -> Option<bool> {
    let (message, names) = field.defined()?;
    let is_seconds = (field.kind(), field.width(), field.count()) == (UNSIGNED, 4, 1);
    let own = names.map_or((false, false), |names| names.is_time(message, field.number()));
    let of_profile = profile::is_time(message, field.number());
    (is_seconds && (own.0 || own.1 || of_profile.0 || of_profile.1)).then_some(own.1 || (!own.0 && of_profile.1))
}

/// Whether a field has places in semicircles.
pub(crate) fn is_place(field: &Field<'_>) -> bool {
    let is_plain = field.kind() == SIGNED && field.width() == 4 && field.measure().is_plain();
    is_plain && field.unit() == Some("semicircles")
}

/// The degrees of semicircles.
pub(crate) fn degrees(semicircles: f64) -> f64 {
    semicircles * 180.0 / 2_f64.powi(31)
}

/// The time of a field that is one, also where the device didn't know it.
pub(crate) fn time_of(field: &Field<'_>) -> Option<Time> {
    match field.item(0) {
        Value::Unsigned(seconds) => u32::try_from(seconds).ok().map(Time::new),
        _ => None,
    }
}

pub(crate) fn of_time(time: Time) -> Ready {
    if time.is_system() {
        Ready::None
    } else {
        Ready::Time(time)
    }
}

/// The values of a message, by their labels.
pub(crate) fn of(message: &Message<'_>) -> Vec<(String, Ready)> {
    let time = message.time().map(|time| ("timestamp".to_string(), vec![Told::One(of_time(time))]));
    let is_timed = time.is_some();
    let fields = labelled(message.fields()).into_iter().filter(|(label, _)| !is_timed || label != "timestamp");
    let columns = time.into_iter().chain(fields.map(|(label, field)| (label, vec![told(&field)]))).collect();
    let only = |(name, mut values): (String, Vec<Ready>)| (name, values.pop().unwrap_or(Ready::None));
    spread(columns).into_iter().map(only).collect()
}

/// How many columns a field has.
pub(crate) fn columns_of(field: &Field<'_>) -> usize {
    if Value::Several == field.whole() {
        field.count()
    } else {
        1
    }
}

/// What a field has.
pub(crate) fn told(field: &Field<'_>) -> Told {
    match field.whole() {
        Value::Several => Told::Several((0..field.count()).map(|k| one(field, field.item(k))).collect()),
        value => Told::One(one(field, value)),
    }
}

fn one(field: &Field<'_>, value: Value<'_>) -> Ready {
    match value {
        Value::None => Ready::None,
        Value::Unsigned(number) => match is_time(field) {
            Some(false) => time_of(field).map_or(Ready::None, of_time),
            Some(true) => time_of(field).filter(|time| !time.is_system()).map_or(Ready::None, Ready::Local),
            None => in_words(field.type_of_words(), number).unwrap_or(Ready::Unsigned(number)),
        },
        Value::Signed(item) if is_place(field) => Ready::Float(degrees(item as f64)),
        Value::Signed(number) => Ready::Signed(number),
        Value::Float(number) if number.is_finite() => Ready::Float(number),
        Value::Float(_) | Value::Several => Ready::None,
        Value::Text(text) => Ready::Text(text.to_string()),
        Value::Bytes(bytes) if field.kind() == STRING => Ready::Text(String::from_utf8_lossy(bytes).into_owned()),
        Value::Bytes(bytes) => Ready::Text(hexadecimal(bytes)),
    }
}

/// The word of a type for a number, or the number as text where it has none.
fn in_words(kind: Option<&str>, number: u64) -> Option<Ready> {
    let known = words(kind?);
    let word = || known.iter().find(|(of, _)| *of == number).map(|(_, word)| (*word).to_string());
    (!known.is_empty()).then(|| Ready::Text(word().unwrap_or_else(|| number.to_string())))
}

fn hexadecimal(bytes: &[u8]) -> String {
    bytes.iter().fold("0x".to_string(), |mut text, byte| {
        let _ = write!(text, "{byte:02X}");
        text
    })
}

/// Columns, each with values of one type, and several numbers as columns `name_0`, `name_1` and so on.
pub(crate) fn spread(columns: Vec<(String, Vec<Told>)>) -> Vec<(String, Vec<Ready>)> {
    let names: HashSet<String> = columns.iter().map(|(name, _)| name.clone()).collect();
    let (mut taken, mut found) = (HashSet::new(), Vec::new());
    for (name, values) in columns {
        for (mut own, items) in in_items(&name, values) {
            while taken.contains(&own) || (own != name && names.contains(&own)) {
                own.push('_');
            }
            taken.insert(own.clone());
            found.push((own, of_one_type(items)));
        }
    }
    found
}

/// A column for each item, where some value has several.
fn in_items(name: &str, values: Vec<Told>) -> Vec<(String, Vec<Ready>)> {
    let count = |value: &Told| if let Told::Several(items) = value { items.len() } else { 0 };
    let most = values.iter().map(count).max().unwrap_or(0);
    let item = |value: &Told, k: usize| match value {
        Told::One(value) if k == 0 => value.clone(),
        Told::One(_) => Ready::None,
        Told::Several(items) => items.get(k).cloned().unwrap_or(Ready::None),
    };
    match most {
        0 => vec![(name.to_string(), values.iter().map(|value| item(value, 0)).collect())],
        _ => (0..most).map(|k| (format!("{name}_{k}"), values.iter().map(|value| item(value, k)).collect())).collect(),
    }
}

/// The values; all as texts, where some are a text and others are not.
fn of_one_type(values: Vec<Ready>) -> Vec<Ready> {
    let text = discriminant(&Ready::Text(String::new()));
    let is_text = |value: &Ready| discriminant(value) == text;
    let is_other = |value: &Ready| *value != Ready::None && discriminant(value) != text;
    if values.iter().any(is_text) && values.iter().any(is_other) {
        values.into_iter().map(as_text).collect()
    } else {
        values
    }
}

fn as_text(value: Ready) -> Ready {
    match value {
        Ready::Unsigned(number) => Ready::Text(number.to_string()),
        Ready::Signed(number) => Ready::Text(number.to_string()),
        Ready::Float(number) => Ready::Text(format!("{number:?}")),
        Ready::Time(time) | Ready::Local(time) => Ready::Text(time.to_string()),
        value => value,
    }
}
