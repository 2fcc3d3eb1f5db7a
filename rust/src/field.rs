//! A field of a message, and its values.
use crate::blocks::{eight, four, text, two, up_to_zero};
use crate::measure::Measure;
use crate::names::{Named, NamedFields, Names};
use crate::numbers::{
    AT_DEFINITION_MESSAGE, AT_ENTRY_BASE_TYPE, AT_ENTRY_COUNT, AT_ENTRY_DECIMALS, AT_ENTRY_DEVELOPER, AT_ENTRY_INDEX,
    AT_ENTRY_INVALID, AT_ENTRY_ITEMS, AT_ENTRY_KIND, AT_ENTRY_NAME, AT_ENTRY_NUMBER, AT_ENTRY_OFFSET, AT_ENTRY_SCALE,
    AT_ENTRY_UNIT, AT_ENTRY_WIDTH, BYTES, FLOAT, SIGNED, STRING,
};
use std::fmt::{self, Debug, Formatter};
use std::str;

/// A field of a message: what its definition says of it, and its items.
///
/// An item of a text or of bytes is one byte. `docs/RUST.md` says in a table which field has which value.
///
/// ```
/// use gazhdor::{Raw, Value};
///
/// # std::env::set_current_dir(env!("GAZHDOR_RIDES")).unwrap();
/// # let ride = std::fs::read("ride.fit").unwrap();
/// let messages = gazhdor::messages(&ride).unwrap();
/// let record = messages.iter().find(|message| message.name() == Some("record")).unwrap();
/// let altitude = record.field("altitude").unwrap();
/// assert_eq!((altitude.number(), altitude.unit(), altitude.value(0)), (2, Some("m"), Some(408.0)));
/// assert_eq!((altitude.raw(0), altitude.scale(), altitude.offset()), (Some(Raw::Unsigned(4540)), 5, 500));
///
/// // A message and a field that the profile doesn't name.
/// let course = messages.iter().find(|message| message.number() == 31).unwrap();
/// assert_eq!(course.numbered(5).unwrap().whole(), Value::Text("Lake loop"));
/// ```
#[derive(Clone, Copy)]
pub struct Field<'a> {
    /// Its entry in the definition, of 48 bytes at least.
    entry: &'a [u8],
    /// All its items, in little endian; no bytes where the message doesn't have them.
    items: &'a [u8],
    /// What is said of it beside the profile.
    named: Option<&'a Named>,
    /// The blocks of its definition and of its message, and what is said beside the profile.
    home: (&'a [u8], &'a [u8], Option<&'a Names>),
}

/// Whether both have the same items, and the same is said of them.
impl PartialEq for Field<'_> {
    fn eq(&self, other: &Field<'_>) -> bool {
        (self.entry, self.items, self.named) == (other.entry, other.items, other.named)
    }
}

impl Eq for Field<'_> {}

/// An item of a field, just as it is in the file, also one that stands for no value.
#[derive(Debug, Clone, Copy, PartialEq, Eq, Hash)]
pub enum Raw {
    /// A whole number, without scale and offset.
    Unsigned(u64),
    /// The same, of a signed base type.
    Signed(i64),
    /// The bits of a number of type float32, of which [`f32::from_bits`] makes the number.
    Float32(u32),
    /// The bits of a number of type float64.
    Float64(u64),
    /// A byte of a text or of bytes.
    Byte(u8),
}

/// What a field, or an item of it, stands for.
#[derive(Debug, Clone, Copy, PartialEq)]
pub enum Value<'a> {
    /// No value: the invalid number of the base type, an empty text, bytes of type byte that are all 0xFF, a field of size 0.
    None,
    /// A whole number.
    Unsigned(u64),
    /// A whole number of a signed base type.
    Signed(i64),
    /// A number that the profile scales, in the unit of the field, or one of type float32 or float64.
    Float(f64),
    /// A text, up to its first zero.
    Text(&'a str),
    /// Bytes; numbers whose size isn't a multiple of their width; a text, up to its first zero, that isn't UTF-8.
    Bytes(&'a [u8]),
    /// Several numbers, which [`Field::item`] gives one by one.
    Several,
}

impl Raw {
    /// The item of these bits, by what it stands for and how many bytes it has.
    pub(crate) fn of(kind: u8, width: u8, bits: u64) -> Raw {
        match kind {
            STRING | BYTES => Raw::Byte(bits as u8),
            FLOAT if width == 4 => Raw::Float32(bits as u32),
            FLOAT => Raw::Float64(bits),
            SIGNED => {
                let above = 64 - 8 * u32::from(width.clamp(1, 8));
                Raw::Signed((bits << above) as i64 >> above)
            }
            _ => Raw::Unsigned(bits),
        }
    }

    /// The number that it is, without scale and offset.
    pub(crate) fn number(self) -> Option<f64> {
        Some(match self {
            Raw::Unsigned(number) => number as f64,
            Raw::Signed(number) => number as f64,
            Raw::Float32(bits) => f32::from_bits(bits).into(),
            Raw::Float64(bits) => f64::from_bits(bits),
            Raw::Byte(_) => return None,
        })
    }
}

impl<'a> Field<'a> {
    /// The field of an entry of 48 bytes at least, in the blocks of a definition and of a message.
    pub(crate) fn new(entry: &'a [u8], definition: &'a [u8], message: &'a [u8]) -> Field<'a> {
        let first = four(entry, AT_ENTRY_ITEMS) as usize;
        let end = first.saturating_add(usize::from(entry[AT_ENTRY_WIDTH]) * usize::from(entry[AT_ENTRY_COUNT]));
        let home = (definition, message, None);
        Field { entry, items: message.get(first..end).unwrap_or(&[]), named: None, home }
    }

    /// The same field in the block of another message of its definition.
    pub(crate) fn of(self, message: &'a [u8]) -> Field<'a> {
        let other = Field::new(self.entry, self.home.0, message);
        Field { named: self.named, home: (self.home.0, message, self.home.2), ..other }
    }

    /// Its value, where it is one number.
    pub(crate) fn lone(&self) -> Option<f64> {
        if self.is_lone_number() {
            self.value(0)
        } else {
            None
        }
    }

    /// The field by what these names say of it, and of all fields of its message.
    pub(crate) fn named(self, names: &'a Names, of: Option<&'a NamedFields>) -> Field<'a> {
        let named = of.filter(|_| self.developer().is_none()).and_then(|of| of.get(self.number()));
        Field { named, home: (self.home.0, self.home.1, Some(names)), ..self }
    }

    /// The field of another entry in the same message.
    pub(crate) fn beside(&self, entry: &'a [u8]) -> Field<'a> {
        Field::new(entry, self.home.0, self.home.1)
    }

    /// The block of its definition.
    pub(crate) fn definition(&self) -> &'a [u8] {
        self.home.0
    }

    /// Of a field that is none of a developer, the number of its message and what is said beside the profile.
    pub(crate) fn defined(&self) -> Option<(u16, Option<&'a Names>)> {
        let is_whole = self.developer().is_none() && self.home.0.len() > AT_DEFINITION_MESSAGE + 1;
        is_whole.then(|| (two(self.home.0, AT_DEFINITION_MESSAGE), self.home.2))
    }

    /// Its name in the profile, as `heart_rate`, or that which the file gives to a developer field.
    #[must_use]
    pub fn name(&self) -> Option<&'a str> {
        let named = self.named.and_then(|named| named.name.as_deref());
        named.or_else(|| text(self.entry, AT_ENTRY_NAME))
    }

    /// Whether it has this name, which isn't empty.
    pub(crate) fn is_named(&self, name: &[u8]) -> bool {
        match self.named.and_then(|named| named.name.as_deref()) {
            Some(named) => named.as_bytes() == name,
            None => {
                self.entry[AT_ENTRY_NAME..].starts_with(name)
                    && up_to_zero(&self.entry[AT_ENTRY_NAME..]) == name
                    && !name.is_empty()
            }
        }
    }

    /// Its number in the message.
    #[must_use]
    pub fn number(&self) -> u8 {
        self.entry[AT_ENTRY_NUMBER]
    }

    /// Of a developer field its developer data index.
    #[must_use]
    pub fn developer(&self) -> Option<u8> {
        (self.entry[AT_ENTRY_DEVELOPER] != 0).then(|| self.entry[AT_ENTRY_INDEX])
    }

    /// Its unit, as `m/s`.
    #[must_use]
    pub fn unit(&self) -> Option<&'a str> {
        let named = self.named.and_then(|named| named.unit.as_deref());
        named.or_else(|| text(self.entry, two(self.entry, AT_ENTRY_UNIT).into()))
    }

    /// The code of its base type; of a developer field, that which the file says of it.
    #[must_use]
    pub fn base_type(&self) -> u8 {
        self.entry[AT_ENTRY_BASE_TYPE]
    }

    /// How many items it has.
    #[must_use]
    pub fn count(&self) -> usize {
        self.entry[AT_ENTRY_COUNT].into()
    }

    /// How many bytes an item has.
    #[must_use]
    pub fn width(&self) -> usize {
        self.entry[AT_ENTRY_WIDTH].into()
    }

    /// A whole number `n` of the field stands for `n / scale - offset` units, by the profile; [`value`](Field::value) is what
    /// [`Names`](crate::Names) say.
    #[must_use]
    pub fn scale(&self) -> u32 {
        four(self.entry, AT_ENTRY_SCALE)
    }

    /// See [`scale`](Field::scale).
    #[must_use]
    pub fn offset(&self) -> u32 {
        four(self.entry, AT_ENTRY_OFFSET)
    }

    /// How many decimals a scaled number has.
    #[must_use]
    pub fn decimals(&self) -> u8 {
        self.entry[AT_ENTRY_DECIMALS]
    }

    /// Item `k`, counted from 0, as a number in the field's unit: what a program mostly wants.
    ///
    /// It is none where the item says that there is no value, where there is no such item, and of texts and bytes. It is the nearest
    /// `f64` where the item, and its offset times its scale, have at most 53 bits.
    #[must_use]
    pub fn value(&self, k: usize) -> Option<f64> {
        let number = self.raw(k).filter(|_| self.is_valid(k))?.number()?;
        let measure = self.measure();
        (measure.scale != 0.0).then(|| measure.value(number))
    }

    /// Scale and offset, by what is said of the field beside the profile, or else by the profile.
    pub(crate) fn measure(&self) -> Measure {
        let named = self.named.filter(|_| self.entry[AT_ENTRY_KIND] != FLOAT); // Floats stand for themselves.
        let (scale, offset) = named.map_or((None, None), |named| (named.scale, named.offset));
        Measure {
            scale: scale.unwrap_or_else(|| self.scale().into()),
            offset: offset.unwrap_or_else(|| self.offset().into()),
        }
    }

    /// What its items stand for, as docs/BLOCKS.md numbers it.
    pub(crate) fn kind(&self) -> u8 {
        self.entry[AT_ENTRY_KIND]
    }

    pub(crate) fn is_lone_number(&self) -> bool {
        self.count() == 1 && !matches!(self.kind(), STRING | BYTES)
    }

    /// The item that stands for no value.
    pub(crate) fn invalid(&self) -> u64 {
        eight(self.entry, AT_ENTRY_INVALID)
    }

    /// Where its items begin in the block of a message.
    pub(crate) fn begins(&self) -> usize {
        four(self.entry, AT_ENTRY_ITEMS) as usize
    }

    /// Item `k`, counted from 0, as the file has it; none where there is no such item.
    #[must_use]
    pub fn raw(&self, k: usize) -> Option<Raw> {
        self.bits(k).map(|bits| Raw::of(self.entry[AT_ENTRY_KIND], self.entry[AT_ENTRY_WIDTH], bits))
    }

    /// Whether there is an item `k` and it stands for a value. Each byte of bytes does, and each of a text but a zero.
    #[must_use]
    pub fn is_valid(&self, k: usize) -> bool {
        let invalid = eight(self.entry, AT_ENTRY_INVALID);
        self.bits(k).map_or(false, |bits| self.entry[AT_ENTRY_KIND] == BYTES || bits != invalid)
    }

    /// Number `k`, counted from 0, as a whole number where the profile doesn't scale it. It is [`Value::None`] where
    /// [`value`](Field::value) is none.
    pub fn item(&self, k: usize) -> Value<'a> {
        let is_plain = self.measure().is_plain();
        match self.raw(k).filter(|_| self.is_valid(k)) {
            Some(Raw::Unsigned(number)) if is_plain => Value::Unsigned(number),
            Some(Raw::Signed(number)) if is_plain => Value::Signed(number),
            _ => self.value(k).map_or(Value::None, Value::Float),
        }
    }

    /// What the whole field stands for.
    #[must_use]
    pub fn whole(&self) -> Value<'a> {
        match (self.entry[AT_ENTRY_KIND], self.count()) {
            (STRING, _) => match (self.text(), up_to_zero(self.items)) {
                (Some(text), _) => Value::Text(text),
                (None, []) => Value::None,
                (None, bytes) => Value::Bytes(bytes),
            },
            (BYTES, _) => {
                let is_none =
                    eight(self.entry, AT_ENTRY_INVALID) == 0xFF && self.items.iter().all(|&byte| byte == 0xFF);
                if is_none || self.items.is_empty() {
                    Value::None
                } else {
                    Value::Bytes(self.items)
                }
            }
            (_, 0) => Value::None,
            (_, 1) => self.item(0),
            _ => Value::Several,
        }
    }

    /// The text of a text field, up to its first zero; none where it is empty or isn't UTF-8.
    #[must_use]
    pub fn text(&self) -> Option<&'a str> {
        (self.entry[AT_ENTRY_KIND] == STRING).then(|| text(self.items, 0)).flatten()
    }

    /// The bytes of all items, one after another: of numbers in little endian, whatever the file has.
    #[must_use]
    pub fn bytes(&self) -> &'a [u8] {
        self.items
    }

    /// The bits of an item.
    fn bits(&self, k: usize) -> Option<u64> {
        let width = self.entry[AT_ENTRY_WIDTH];
        bits_at(self.items, k.checked_mul(width.into())?, width)
    }
}

/// The bits of an item of 1, 2, 4 or 8 bytes at a place; none where it isn't there.
pub(crate) fn bits_at(bytes: &[u8], at: usize, width: u8) -> Option<u64> {
    if at > bytes.len() || bytes.len() - at < width.into() {
        return None;
    }
    match width {
        1 => Some(bytes[at].into()),
        2 => Some(two(bytes, at).into()),
        4 => Some(four(bytes, at).into()),
        8 => Some(eight(bytes, at)),
        _ => None,
    }
}

impl Debug for Field<'_> {
    fn fmt(&self, f: &mut Formatter<'_>) -> fmt::Result {
        let mut all = f.debug_struct("Field");
        all.field("name", &self.name()).field("number", &self.number()).field("developer", &self.developer());
        match self.whole() {
            Value::Several => all.field("value", &(0..self.count()).map(|k| self.item(k)).collect::<Vec<_>>()),
            value => all.field("value", &value),
        };
        all.field("unit", &self.unit()).finish()
    }
}
