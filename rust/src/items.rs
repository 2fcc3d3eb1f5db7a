//! Values as the items of a field.
use crate::field::{Field, Raw, Value};
use crate::numbers::{BYTES, FLOAT, SIGNED, STRING};
use crate::value_error::{label, shown, Unfit};

/// The bits of one item of a field of numbers.
pub(crate) fn number(field: &Field<'_>, value: Value<'_>) -> Result<u64, Unfit> {
    match value {
        _ if field.kind() == STRING => Err(kind(field, &value, "a text")),
        _ if field.kind() == BYTES => Err(kind(field, &value, "bytes")),
        Value::None => Ok(field.invalid()),
        Value::Float(number) if number.is_nan() => Ok(field.invalid()),
        Value::Unsigned(_) | Value::Signed(_) | Value::Float(_) if field.kind() == FLOAT => float(field, value),
        Value::Unsigned(whole) => step(field, value, field.measure().nearest_to_whole(whole.into())),
        Value::Signed(whole) => step(field, value, field.measure().nearest_to_whole(whole.into())),
        Value::Float(number) => step(field, value, field.measure().nearest(number)),
        Value::Text(word) if field.kind() != FLOAT => match field.number_of_word(word) {
            Some(number) => step(field, value, Some(number.into())),
            None if field.has_words() => Err(kind(field, &value, "a number or one of its words")),
            None => Err(kind(field, &value, "a number")),
        },
        _ => Err(kind(field, &value, "a number")),
    }
}

/// All items of a field, one after another.
pub(crate) fn all(field: &Field<'_>, value: Value<'_>) -> Result<Vec<u8>, Unfit> {
    match (field.kind(), value) {
        (STRING, Value::None) => Ok(vec![0; field.count()]),
        (STRING, Value::Text(text)) => texts(field, text.as_bytes(), value),
        (STRING, Value::Bytes(bytes)) => texts(field, bytes, value),
        (STRING, _) => Err(kind(field, &value, "a text")),
        (BYTES, Value::None) => Ok(vec![field.invalid() as u8; field.count()]),
        (BYTES, Value::Bytes(bytes)) => as_they_are(field, bytes),
        (BYTES, _) => Err(kind(field, &value, "bytes")),
        (_, Value::None) => Ok(repeated(field, field.invalid())),
        (_, Value::Unsigned(_) | Value::Signed(_) | Value::Float(_)) if field.count() != 1 => {
            Err(Unfit::Length { field: label(field), length: 1, room: field.count() })
        }
        _ => Ok(repeated(field, number(field, value)?)),
    }
}

/// The bits of an item just as it is to be in the file.
pub(crate) fn raw(field: &Field<'_>, item: Raw) -> Result<u64, Unfit> {
    let (kind, width) = (field.kind(), field.width());
    let bits = match item {
        Raw::Byte(byte) if kind == STRING || kind == BYTES => Some(byte.into()),
        Raw::Float32(bits) if kind == FLOAT && width == 4 => Some(bits.into()),
        Raw::Float64(bits) if kind == FLOAT && width == 8 => Some(bits),
        Raw::Signed(number) if kind == SIGNED => within(field, number.into()),
        Raw::Unsigned(number) if !matches!(kind, STRING | BYTES | FLOAT | SIGNED) => within(field, number.into()),
        _ => None,
    };
    bits.ok_or_else(|| Unfit::Kind {
        field: label(field),
        value: format!("{item:?}"),
        takes: "an item of its base type",
    })
}

fn repeated(field: &Field<'_>, bits: u64) -> Vec<u8> {
    bits.to_le_bytes()[..field.width()].repeat(field.count())
}

/// The least and the greatest number of the base type, the one that stands for no value included.
fn limits(field: &Field<'_>) -> (i128, i128) {
    let bits = 8 * field.width() as u32;
    match field.kind() {
        SIGNED => (-(1_i128 << (bits - 1)), (1_i128 << (bits - 1)) - 1),
        _ => (0, (1_i128 << bits) - 1),
    }
}

/// The bits of a number, where it has no more than the base type.
fn within(field: &Field<'_>, number: i128) -> Option<u64> {
    let (least, most) = limits(field);
    (least <= number && number <= most).then(|| number as u64 & u64::MAX >> (64 - 8 * field.width() as u32))
}

/// The bits of the whole number that is nearest to a value.
fn step(field: &Field<'_>, value: Value<'_>, nearest: Option<i128>) -> Result<u64, Unfit> {
    let bits = nearest.and_then(|number| within(field, number));
    bits.filter(|&bits| bits != field.invalid()).ok_or_else(|| {
        let (mut least, mut most) = limits(field);
        // The number that stands for no value is the least one or the greatest.
        match within(field, most) {
            Some(bits) if bits == field.invalid() => most -= 1,
            _ => least += i128::from(within(field, least) == Some(field.invalid())),
        }
        Unfit::Range { field: label(field), value: shown(&value), least: told(field, least), most: told(field, most) }
    })
}

/// The value of a whole number, as a text.
fn told(field: &Field<'_>, number: i128) -> String {
    let measure = field.measure();
    match measure.is_plain() {
        true => number.to_string(),
        false => measure.value(number as f64).to_string(),
    }
}

/// The bits of the floating-point number that is nearest to a value.
fn float(field: &Field<'_>, value: Value<'_>) -> Result<u64, Unfit> {
    let (near, exact) = match value {
        Value::Unsigned(number) => (number as f32, number as f64),
        Value::Signed(number) => (number as f32, number as f64),
        Value::Float(number) => (number as f32, number),
        _ => return Err(kind(field, &value, "a number")),
    };
    let is_narrow = field.width() == 4;
    if is_narrow && near.is_infinite() && exact.is_finite() {
        let most = if is_narrow { format!("{:e}", f32::MAX) } else { format!("{:e}", f64::MAX) };
        return Err(Unfit::Range { field: label(field), value: shown(&value), least: format!("-{most}"), most });
    }
    Ok(if is_narrow { near.to_bits().into() } else { exact.to_bits() })
}

/// A text, and zeros after it.
fn texts(field: &Field<'_>, text: &[u8], value: Value<'_>) -> Result<Vec<u8>, Unfit> {
    let room = field.count();
    if text.contains(&0) {
        return Err(kind(field, &value, "a text without zeros"));
    }
    if text.len() > room {
        return Err(Unfit::Length { field: label(field), length: text.len(), room });
    }
    let mut items = text.to_vec();
    items.resize(room, 0);
    Ok(items)
}

fn as_they_are(field: &Field<'_>, bytes: &[u8]) -> Result<Vec<u8>, Unfit> {
    if bytes.len() != field.count() {
        return Err(Unfit::Length { field: label(field), length: bytes.len(), room: field.count() });
    }
    Ok(bytes.to_vec())
}

fn kind(field: &Field<'_>, value: &Value<'_>, takes: &'static str) -> Unfit {
    Unfit::Kind { field: label(field), value: shown(value), takes }
}
