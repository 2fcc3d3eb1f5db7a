//! A message that is to be written.
use crate::blocks::Entries;
use crate::field::{Field, Raw, Value};
use crate::items;
use crate::message::{Fields, Message};
use crate::names::Names;
use crate::numbers::{
    AT_MESSAGE_BITS, AT_MESSAGE_DEFINITION, AT_MESSAGE_HEADER_TIME, AT_MESSAGE_ITEMS, AT_MESSAGE_OFFSET, NO_OFFSET,
    TOLD_HEADER_TIME, TOLD_TIME,
};
use crate::time::{time_after, Time};
use crate::value_error::{label, Unfit};
use std::borrow::Cow;
use std::fmt::{self, Debug, Formatter};

/// How many bytes an item has.
const WIDTHS: [usize; 4] = [1, 2, 4, 8];

/// What names a field of a [`Draft`].
#[derive(Debug, Clone, Copy, PartialEq, Eq, Hash)]
pub enum Key<'k> {
    /// The first field of this name; developer fields have names too.
    Name(&'k str),
    /// The first field with this number, developer fields left out.
    Number(u8),
    /// The first developer field with this developer data index and this number.
    Developer(u8, u8),
    /// The field at this position among all fields, counted from 0.
    Position(usize),
}

impl<'k> From<&'k str> for Key<'k> {
    fn from(name: &'k str) -> Key<'k> {
        Key::Name(name)
    }
}

impl From<u8> for Key<'_> {
    fn from(number: u8) -> Self {
        Key::Number(number)
    }
}

impl From<(u8, u8)> for Key<'_> {
    fn from((index, number): (u8, u8)) -> Self {
        Key::Developer(index, number)
    }
}

impl Key<'_> {
    pub(crate) fn names(self, position: usize, field: &Field<'_>) -> bool {
        match self {
            Key::Name(name) => field.is_named(name.as_bytes()),
            Key::Number(number) => field.developer().is_none() && field.number() == number,
            Key::Developer(index, number) => field.developer() == Some(index) && field.number() == number,
            Key::Position(at) => position == at,
        }
    }

    pub(crate) fn label(self) -> String {
        match self {
            Key::Name(name) => name.to_string(),
            Key::Number(number) => format!("field_{number}"),
            Key::Developer(index, number) => format!("dev_{index}_{number}"),
            Key::Position(at) => format!("at position {at}"),
        }
    }
}

/// A message that is to be written: of a [`Definition`](crate::Definition), where no field has a value at first, or a changed copy of a
/// [`Message`], which keeps the items of each field that isn't touched.
///
/// ```
/// use gazhdor::{Unfit, Value};
///
/// # std::env::set_current_dir(env!("GAZHDOR_RIDES")).unwrap();
/// # let ride = std::fs::read("ride.fit").unwrap();
/// let messages = gazhdor::messages(&ride).unwrap();
/// let record = messages.iter().find(|message| message.name() == Some("record")).unwrap();
/// let changed = record.with("altitude", 410.5)?.with("position_lat", Value::None)?;
/// assert_eq!(changed.field("altitude").unwrap().value(0), Some(410.6));  // 4553 fifths of a metre above -500 m
/// assert_eq!(changed.field("position_lat").unwrap().value(0), None);
///
/// let fault = record.with("altitude", 20000).unwrap_err();
/// assert_eq!(fault.to_string(), "altitude: 20000 isn't from -500 to 12606.8");
/// # Ok::<(), Unfit>(())
/// ```
///
/// A number becomes the nearest whole number of the field by its scale and offset, and of two the one that is farther from 0.
#[derive(Clone)]
pub struct Draft<'a> {
    /// Its block and that of its definition, of 40 bytes at least.
    block: Vec<u8>,
    definition: &'a [u8],
    /// The walk that the definition is of, or 0.
    walk: u64,
    names: Option<&'a Names>,
}

impl<'a> Draft<'a> {
    pub(crate) fn new(block: Vec<u8>, definition: &'a [u8], names: Option<&'a Names>) -> Draft<'a> {
        Draft { block, definition, walk: 0, names }
    }

    /// That of a copy of the block of a message.
    pub(crate) fn of(block: Vec<u8>, message: Message<'a>) -> Draft<'a> {
        let (definition, walk, names) = message.defined();
        Draft { block, definition, walk, names }
    }

    /// The same with another value of a field, as for [`set`](Draft::set).
    ///
    /// # Errors
    ///
    /// As for [`set`](Draft::set).
    pub fn with<'k, 'v>(mut self, key: impl Into<Key<'k>>, value: impl Into<Value<'v>>) -> Result<Draft<'a>, Unfit> {
        self.set(key, value)?;
        Ok(self)
    }

    /// Gives a field another value, as [`Field::whole`] gives values: a number, in the field's unit, or its word, as `"cycling"`; a text; as
    /// many bytes as the field has. [`Value::None`] makes it have no value. Where it depends on another field which words there are, as of
    /// products on the manufacturer, that field is set before.
    ///
    /// # Errors
    ///
    /// An [`Unfit`] where there is no such field, or the value doesn't fit into it. Then the draft is as before.
    pub fn set<'k, 'v>(&mut self, key: impl Into<Key<'k>>, value: impl Into<Value<'v>>) -> Result<(), Unfit> {
        let (field, value) = (self.found(key.into())?, value.into());
        if field.is_lone_number() {
            let (bits, place) = (items::number(&field, value)?, item(&field, 0)?);
            self.put(place, bits);
        } else {
            let (first, items) = (field.begins(), items::all(&field, value)?);
            self.block[first..first + items.len()].copy_from_slice(&items);
        }
        Ok(())
    }

    /// Gives number `k` of a field, counted from 0, another value.
    ///
    /// # Errors
    ///
    /// As for [`set`](Draft::set), and where the field has no item `k`.
    pub fn set_item<'k, 'v>(
        &mut self,
        key: impl Into<Key<'k>>,
        k: usize,
        value: impl Into<Value<'v>>,
    ) -> Result<(), Unfit> {
        let field = self.found(key.into())?;
        let bits = items::number(&field, value.into())?;
        let place = item(&field, k)?;
        self.put(place, bits);
        Ok(())
    }

    /// Gives a field these numbers. Those that aren't given have no value.
    ///
    /// # Errors
    ///
    /// As for [`set`](Draft::set), and where they are more than the field has.
    pub fn set_items<'k, 'v, V: Into<Value<'v>>>(
        &mut self,
        key: impl Into<Key<'k>>,
        values: impl IntoIterator<Item = V>,
    ) -> Result<(), Unfit> {
        let field = self.found(key.into())?;
        let (first, width) = (field.begins(), field.width());
        let mut items = items::all(&field, Value::None)?;
        let mut values = values.into_iter();
        for (place, value) in items.chunks_exact_mut(width).zip(&mut values) {
            place.copy_from_slice(&items::number(&field, value.into())?.to_le_bytes()[..width]);
        }
        if values.next().is_some() {
            return Err(Unfit::Length { field: label(&field), length: field.count() + 1, room: field.count() });
        }
        self.block[first..first + items.len()].copy_from_slice(&items);
        Ok(())
    }

    /// Gives item `k` of a field, counted from 0, just these bits, which may also stand for no value, or be a NaN.
    ///
    /// # Errors
    ///
    /// An [`Unfit`] where there is no such field or item, or it is of another base type.
    pub fn set_raw<'k>(&mut self, key: impl Into<Key<'k>>, k: usize, raw: Raw) -> Result<(), Unfit> {
        let field = self.found(key.into())?;
        let (bits, place) = (items::raw(&field, raw)?, item(&field, k)?);
        self.put(place, bits);
        Ok(())
    }

    /// Gives it a compressed timestamp header with this time offset, 0 to 31, or else a normal header. Where it is written, it has the first
    /// time at or after that of the message before it whose low five bits are these.
    ///
    /// # Errors
    ///
    /// [`Unfit::Range`] where the offset is above 31.
    pub fn set_time_offset(&mut self, offset: Option<u8>) -> Result<(), Unfit> {
        if let Some(offset) = offset.filter(|&offset| offset > 31) {
            let (field, value) = ("time_offset".to_string(), offset.to_string());
            return Err(Unfit::Range { field, value, least: "0".to_string(), most: "31".to_string() });
        }
        self.block[AT_MESSAGE_OFFSET] = offset.unwrap_or(NO_OFFSET);
        self.block[AT_MESSAGE_BITS] &= !TOLD_HEADER_TIME;
        Ok(())
    }

    /// Has its time offset say another time.
    pub(crate) fn set_header_time(&mut self, time: u32) {
        self.block[AT_MESSAGE_OFFSET] = (time & 31) as u8;
        self.block[AT_MESSAGE_HEADER_TIME..AT_MESSAGE_ITEMS].copy_from_slice(&u64::from(time).to_le_bytes());
        self.block[AT_MESSAGE_BITS] |= TOLD_HEADER_TIME;
    }

    /// Leaves untold what these bits stand for.
    pub(crate) fn untell(&mut self, bits: u8) {
        self.block[AT_MESSAGE_BITS] &= !bits;
    }

    /// The same after a message of a time, from which its time offset counts where it tells no time itself.
    pub(crate) fn after(&self, before: Option<u32>) -> Cow<'_, Draft<'a>> {
        let message = self.message();
        match message.time_offset().filter(|_| message.header_time().is_none()).zip(before) {
            None => Cow::Borrowed(self),
            Some((offset, before)) => {
                let mut made = self.clone();
                made.set_header_time(time_after(before, offset));
                Cow::Owned(made)
            }
        }
    }

    /// A field as it is now.
    pub fn field<'k>(&self, key: impl Into<Key<'k>>) -> Option<Field<'_>> {
        self.found(key.into()).ok()
    }

    /// All fields as they are now, in the order of the definition, and then all developer fields.
    #[must_use]
    pub fn fields(&self) -> Fields<'_> {
        self.message().fields()
    }

    /// Takes over what a message has: its time, where it stands, and the items of each field that is the same.
    pub(crate) fn fill(&mut self, message: &Message<'_>) {
        let block = message.block();
        self.block[AT_MESSAGE_BITS] = block[AT_MESSAGE_BITS] & (TOLD_TIME | TOLD_HEADER_TIME);
        self.block[AT_MESSAGE_OFFSET..AT_MESSAGE_DEFINITION]
            .copy_from_slice(&block[AT_MESSAGE_OFFSET..AT_MESSAGE_DEFINITION]);
        self.block[AT_MESSAGE_HEADER_TIME..AT_MESSAGE_ITEMS]
            .copy_from_slice(&block[AT_MESSAGE_HEADER_TIME..AT_MESSAGE_ITEMS]);
        let key =
            |field: &Field<'_>| (field.developer(), field.number(), field.base_type(), field.width() * field.count());
        for field in Entries::new(self.definition).map(|entry| Field::new(entry, &[], &[])) {
            let old = message.fields().find(|old| key(old) == key(&field)).map(|old| old.bytes());
            let items = self.block.get_mut(field.begins()..field.begins() + field.width() * field.count());
            if let (Some(items), Some(old)) = (items, old.filter(|old| old.len() == field.width() * field.count())) {
                items.copy_from_slice(old);
            }
        }
    }

    /// Leaves no field a value.
    pub(crate) fn clear(&mut self) {
        for field in Entries::new(self.definition).map(|entry| Field::new(entry, &[], &[])) {
            let items = self.block.get_mut(field.begins()..field.begins() + field.width() * field.count());
            let width = field.width().clamp(1, 8);
            for item in items.unwrap_or(&mut []).chunks_exact_mut(width) {
                item.copy_from_slice(&field.invalid().to_le_bytes()[..width]);
            }
        }
    }

    pub(crate) fn message(&self) -> Message<'_> {
        let message = Message::new(&self.block, self.definition, self.walk);
        self.names.map_or(message, |names| message.named(names))
    }

    /// The field of a key, where the block has all its items.
    fn found(&self, key: Key<'_>) -> Result<Field<'_>, Unfit> {
        let mut fields = (0..).zip(self.fields());
        let found = fields.find(|(position, field)| key.names(*position, field)).map(|(_, field)| field);
        let is_there = |field: &Field<'_>| {
            let end = field.begins() + field.width() * field.count();
            WIDTHS.contains(&field.width()) && self.block.get(field.begins()..end).is_some()
        };
        found.filter(is_there).ok_or_else(|| Unfit::NoField { field: key.label() })
    }

    fn put(&mut self, (first, width): (usize, usize), bits: u64) {
        self.block[first..first + width].copy_from_slice(&bits.to_le_bytes()[..width]);
    }
}

/// Where item `k` of a field begins in the block, and how many bytes it has.
fn item(field: &Field<'_>, k: usize) -> Result<(usize, usize), Unfit> {
    match k < field.count() {
        true => Ok((field.begins() + k * field.width(), field.width())),
        false => Err(Unfit::Length { field: label(field), length: k.saturating_add(1), room: field.count() }),
    }
}

impl<'a> From<Message<'a>> for Draft<'a> {
    fn from(message: Message<'a>) -> Draft<'a> {
        message.draft()
    }
}

/// Whether both have the same bytes, the same definition and the same names.
impl PartialEq for Draft<'_> {
    fn eq(&self, other: &Draft<'_>) -> bool {
        self.message() == other.message()
    }
}

impl Eq for Draft<'_> {}

impl Debug for Draft<'_> {
    fn fmt(&self, f: &mut Formatter<'_>) -> fmt::Result {
        f.debug_struct("Draft").field("number", &self.message().number()).field("fields", &self.fields()).finish()
    }
}

macro_rules! values {
    ($($of:ty => $value:ident($wide:ty)),*) => {$(
        impl From<$of> for Value<'_> {
            fn from(number: $of) -> Self {
                Value::$value(<$wide>::from(number))
            }
        }
    )*};
}

values!(u8 => Unsigned(u64), u16 => Unsigned(u64), u32 => Unsigned(u64), u64 => Unsigned(u64));
values!(i8 => Signed(i64), i16 => Signed(i64), i32 => Signed(i64), i64 => Signed(i64));
values!(f32 => Float(f64), f64 => Float(f64));

impl<'v> From<&'v str> for Value<'v> {
    fn from(text: &'v str) -> Value<'v> {
        Value::Text(text)
    }
}

impl<'v> From<&'v [u8]> for Value<'v> {
    fn from(bytes: &'v [u8]) -> Value<'v> {
        Value::Bytes(bytes)
    }
}

/// Its seconds.
impl From<Time> for Value<'_> {
    fn from(time: Time) -> Self {
        Value::Unsigned(time.seconds().into())
    }
}

/// [`Value::None`] where there is nothing.
impl<'v, T: Into<Value<'v>>> From<Option<T>> for Value<'v> {
    fn from(value: Option<T>) -> Value<'v> {
        value.map_or(Value::None, Into::into)
    }
}
