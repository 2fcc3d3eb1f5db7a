//! The messages of files, and what is read from them.
use crate::blocks::{eight, four, text, two, up_to_zero, Entries, Known, Walk};
use crate::definition::Definition;
use crate::draft::{Draft, Key};
use crate::event::Events;
use crate::field::{Field, Value};
use crate::library::Bytes;
use crate::names::{NamedFields, Names};
use crate::numbers::{
    AT_DEFINITION_MESSAGE, AT_DEFINITION_NAME, AT_ENTRY_DEVELOPER, AT_ENTRY_NAME, AT_ENTRY_NUMBER, AT_FILE,
    AT_MESSAGE_BITS, AT_MESSAGE_CYCLES, AT_MESSAGE_DISTANCE, AT_MESSAGE_HEADER_TIME, AT_MESSAGE_LOCAL,
    AT_MESSAGE_OFFSET, AT_MESSAGE_POWER, AT_MESSAGE_SPEED, AT_MESSAGE_TIME, AT_PLACE, NO_OFFSET, TOLD_CYCLES,
    TOLD_DISTANCE, TOLD_HEADER_TIME, TOLD_POWER, TOLD_SPEED, TOLD_TIME,
};
use crate::ready::{self, Ready};
use crate::time::Time;
use crate::value_error::Unfit;
use std::fmt::{self, Debug, Formatter};
use std::iter::FusedIterator;

const RECORD: u16 = 20;

/// The messages of a file or a chain of files, which [`messages`](crate::messages) has made, or of a piece of it, by a
/// [`Stream`](crate::Stream). They are freed when this is dropped.
///
/// A `for` over `&Messages` goes through them in their order.
pub struct Messages {
    blocks: Bytes,
    /// Of a piece the definitions that came before it.
    known: Option<Box<Known>>,
}

impl Messages {
    pub(crate) fn new(blocks: Bytes) -> Messages {
        Messages { blocks, known: None }
    }

    pub(crate) fn after(known: Known, blocks: Bytes) -> Messages {
        Messages { blocks, known: Some(Box::new(known)) }
    }

    /// Goes through the messages in their order.
    #[must_use]
    pub fn iter(&self) -> Iter<'_> {
        Iter { walk: self.walk() }
    }

    /// Goes through all that the files have, in its order: headers, definitions, messages, ends.
    #[must_use]
    pub fn events(&self) -> Events<'_> {
        Events::new(self.walk())
    }

    /// All that the files have as blocks of bytes (`docs/BLOCKS.md`), of which [`from_blocks`](crate::from_blocks) makes the files again.
    /// Of a piece they are those that it completes.
    #[must_use]
    pub fn blocks(&self) -> &[u8] {
        &self.blocks
    }

    fn walk(&self) -> Walk<'_> {
        self.known.as_ref().map_or_else(|| Walk::new(&self.blocks), |known| known.walk(&self.blocks))
    }
}

impl<'a> IntoIterator for &'a Messages {
    type Item = Message<'a>;
    type IntoIter = Iter<'a>;

    fn into_iter(self) -> Iter<'a> {
        self.iter()
    }
}

impl Debug for Messages {
    fn fmt(&self, f: &mut Formatter<'_>) -> fmt::Result {
        f.debug_struct("Messages").field("bytes", &self.blocks.len()).finish_non_exhaustive()
    }
}

/// Goes through [`Messages`].
#[derive(Clone)]
pub struct Iter<'a> {
    walk: Walk<'a>,
}

impl<'a> Iter<'a> {
    /// The messages of any bytes: up to where they are no blocks.
    #[cfg(test)]
    pub(crate) fn new(blocks: &'a [u8]) -> Iter<'a> {
        Iter { walk: Walk::new(blocks) }
    }
}

impl<'a> Iterator for Iter<'a> {
    type Item = Message<'a>;

    fn next(&mut self) -> Option<Message<'a>> {
        self.walk.next().map(|(block, definition)| Message::new(block, definition, self.walk.number()))
    }
}

impl FusedIterator for Iter<'_> {}

impl Debug for Iter<'_> {
    fn fmt(&self, f: &mut Formatter<'_>) -> fmt::Result {
        f.debug_list().entries(self.clone()).finish()
    }
}

/// A data message. What it gives lasts as long as the [`Messages`] that it is of.
///
/// ```
/// # std::env::set_current_dir(env!("GAZHDOR_RIDES")).unwrap();
/// # let ride = std::fs::read("ride.fit").unwrap();
/// let messages = gazhdor::messages(&ride).unwrap();
/// let record = messages.iter().find(|message| message.name() == Some("record")).unwrap();
/// assert_eq!((record.number(), record.file(), record.place()), (20, 1, 226));
/// assert_eq!(record.time().unwrap().to_string(), "2026-05-17T07:30:00Z");
/// assert_eq!((record.value("altitude"), record.value("heart_rate")), (Some(408.0), None));
/// let names: Vec<_> = record.fields().filter_map(|field| field.name()).collect();
/// assert_eq!(names[..4], ["timestamp", "position_lat", "position_long", "distance"]);
/// ```
#[derive(Clone, Copy)]
pub struct Message<'a> {
    /// Its block and that of its definition, of 40 bytes at least.
    block: &'a [u8],
    definition: &'a [u8],
    /// The walk that it is of, or 0.
    walk: u64,
    /// What is said of it and of its fields beside the profile.
    names: Option<&'a Names>,
}

impl<'a> Message<'a> {
    /// That of two blocks of 40 bytes at least, of a walk.
    pub(crate) fn new(block: &'a [u8], definition: &'a [u8], walk: u64) -> Message<'a> {
        Message { block, definition, walk, names: None }
    }

    /// The same message by these names, units and scales, which go before those of the profile. They say nothing of developer fields.
    #[must_use]
    pub fn named(self, names: &'a Names) -> Message<'a> {
        Message { names: Some(names), ..self }
    }

    /// Its name in the profile, as `record`.
    #[must_use]
    pub fn name(&self) -> Option<&'a str> {
        let named = self.names.and_then(|names| names.message(self.number()));
        named.or_else(|| text(self.definition, AT_DEFINITION_NAME))
    }

    /// Its global message number, as 20 for `record`.
    #[must_use]
    pub fn number(&self) -> u16 {
        two(self.definition, AT_DEFINITION_MESSAGE)
    }

    /// Its local message type, 0 to 15.
    #[must_use]
    pub fn local(&self) -> u8 {
        self.block[AT_MESSAGE_LOCAL]
    }

    /// The number of its file in the chain, counted from 1.
    #[must_use]
    pub fn file(&self) -> u32 {
        four(self.block, AT_FILE)
    }

    /// The place of its first byte among those of the files, counted from 0.
    #[must_use]
    pub fn place(&self) -> u64 {
        eight(self.block, AT_PLACE)
    }

    /// Its time: that of field 253 where it is valid, else that of a compressed timestamp header.
    #[must_use]
    pub fn time(&self) -> Option<Time> {
        self.tells(TOLD_TIME).then(|| Time::new(four(self.block, AT_MESSAGE_TIME)))
    }

    /// The time that a compressed timestamp header gives.
    #[must_use]
    pub fn header_time(&self) -> Option<Time> {
        self.tells(TOLD_HEADER_TIME).then(|| Time::new(four(self.block, AT_MESSAGE_HEADER_TIME)))
    }

    /// The time offset of a compressed timestamp header, 0 to 31; none where the header is a normal one.
    #[must_use]
    pub fn time_offset(&self) -> Option<u8> {
        Some(self.block[AT_MESSAGE_OFFSET]).filter(|&offset| offset != NO_OFFSET)
    }

    /// Metres, of a record: its `enhanced_altitude`, else its `altitude`.
    #[must_use]
    pub fn altitude(&self) -> Option<f64> {
        self.first_of(&[78, 2])
    }

    /// Metres a second, of a record: its `enhanced_speed`, else its `speed`, else that of `compressed_speed_distance`.
    #[must_use]
    pub fn speed(&self) -> Option<f64> {
        let compressed = || self.amount(TOLD_SPEED, AT_MESSAGE_SPEED).map(|speed| speed as f64 / 100.0);
        self.first_of(&[73, 6]).or_else(compressed)
    }

    /// Metres, of a record: its `distance`, else what is accumulated over the file from `compressed_speed_distance`.
    #[must_use]
    pub fn distance(&self) -> Option<f64> {
        let counted = || self.amount(TOLD_DISTANCE, AT_MESSAGE_DISTANCE).map(|distance| distance as f64 / 16.0);
        self.first_of(&[5]).or_else(counted)
    }

    /// What the first of these fields of a record has as one number.
    fn first_of(&self, numbers: &[u8]) -> Option<f64> {
        let is_record = self.number() == RECORD;
        numbers.iter().filter(|_| is_record).find_map(|&number| self.numbered(number)?.lone())
    }

    /// Cycles, accumulated over the file; none in a message without them.
    #[must_use]
    pub fn total_cycles(&self) -> Option<u64> {
        self.amount(TOLD_CYCLES, AT_MESSAGE_CYCLES)
    }

    /// Watts, accumulated over the file; none in a message without it.
    #[must_use]
    pub fn accumulated_power(&self) -> Option<u64> {
        self.amount(TOLD_POWER, AT_MESSAGE_POWER)
    }

    /// All fields, in the order of the definition, and then all developer fields.
    #[must_use]
    pub fn fields(&self) -> Fields<'a> {
        Fields::new(self.definition, self.block, self.names.map(|names| (names, self.number())))
    }

    /// The first field of this name; developer fields have names too.
    #[must_use]
    pub fn field(&self, name: &str) -> Option<Field<'a>> {
        let (name, all) = (name.as_bytes(), self.fields());
        let told = all.named.and_then(|(_, of)| of);
        let is_named = |entry: &&[u8]| {
            let own = told.filter(|_| entry[AT_ENTRY_DEVELOPER] == 0).and_then(|of| of.get(entry[AT_ENTRY_NUMBER]));
            match own.and_then(|named| named.name.as_deref()) {
                Some(own) => own.as_bytes() == name,
                None => {
                    let text = &entry[AT_ENTRY_NAME..];
                    text.starts_with(name) && up_to_zero(text) == name
                }
            }
        };
        all.find_entry(is_named).filter(|_| !name.is_empty())
    }

    /// The first field with this number, developer fields left out.
    #[must_use]
    pub fn numbered(&self, number: u8) -> Option<Field<'a>> {
        self.fields().find_entry(|entry| entry[AT_ENTRY_DEVELOPER] == 0 && entry[AT_ENTRY_NUMBER] == number)
    }

    /// The first developer field with this developer data index and this number.
    #[must_use]
    pub fn developer(&self, index: u8, number: u8) -> Option<Field<'a>> {
        self.fields().find(|field| field.developer() == Some(index) && field.number() == number)
    }

    /// The values by their labels, each of a type that databases and JSON have: times, places in degrees, words, several numbers as `name_0`,
    /// `name_1` and so on, bytes as text.
    #[must_use]
    pub fn ready(&self) -> Vec<(String, Ready)> {
        ready::of(self)
    }

    /// The first number of the first field of this name: `field(name)?.value(0)`.
    #[must_use]
    pub fn value(&self, name: &str) -> Option<f64> {
        self.field(name)?.value(0)
    }

    /// The word for the number of the first field of this name, as `cycling` of `sport`: `field(name)?.word()`.
    #[must_use]
    pub fn word(&self, name: &str) -> Option<&'static str> {
        self.field(name)?.word()
    }

    /// Its definition.
    #[must_use]
    pub fn definition(&self) -> Definition<'a> {
        Definition::read(self.definition, self.names)
    }

    /// A copy that can be changed and written.
    #[must_use]
    pub fn draft(&self) -> Draft<'a> {
        Draft::of(self.block.to_vec(), *self)
    }

    /// A changed copy, as [`Draft::set`] changes it: the items of all other fields stay as they are.
    ///
    /// # Errors
    ///
    /// As for [`Draft::set`].
    pub fn with<'k, 'v>(&self, key: impl Into<Key<'k>>, value: impl Into<Value<'v>>) -> Result<Draft<'a>, Unfit> {
        self.draft().with(key, value)
    }

    /// The message of another block of the same definition.
    pub(crate) fn with_block(self, block: &'a [u8]) -> Message<'a> {
        Message { block, ..self }
    }

    pub(crate) fn block(&self) -> &'a [u8] {
        self.block
    }

    /// The block of its definition, the walk that it is of, or 0, and what is said beside the profile.
    pub(crate) fn defined(&self) -> (&'a [u8], u64, Option<&'a Names>) {
        (self.definition, self.walk, self.names)
    }

    fn tells(&self, bit: u8) -> bool {
        self.block[AT_MESSAGE_BITS] & bit != 0
    }

    pub(crate) fn amount(&self, bit: u8, at: usize) -> Option<u64> {
        (self.tells(bit) && self.block.len() >= at + 8).then(|| eight(self.block, at))
    }
}

/// Whether both have the same bytes, the same definition and the same names.
impl PartialEq for Message<'_> {
    fn eq(&self, other: &Message<'_>) -> bool {
        (self.block, self.definition, self.names) == (other.block, other.definition, other.names)
    }
}

impl Eq for Message<'_> {}

impl Debug for Message<'_> {
    fn fmt(&self, f: &mut Formatter<'_>) -> fmt::Result {
        let mut all = f.debug_struct("Message");
        all.field("name", &self.name()).field("number", &self.number()).field("file", &self.file());
        all.field("place", &self.place()).field("time", &self.time()).field("fields", &self.fields()).finish()
    }
}

/// Goes through the fields of a [`Message`].
#[derive(Clone)]
pub struct Fields<'a> {
    entries: Entries<'a>,
    definition: &'a [u8],
    message: &'a [u8],
    /// What is said of fields beside the profile, and what of those of the message.
    named: Option<(&'a Names, Option<&'a NamedFields>)>,
}

impl<'a> Fields<'a> {
    pub(crate) fn new(definition: &'a [u8], message: &'a [u8], named: Option<(&'a Names, u16)>) -> Fields<'a> {
        let named = named.map(|(names, message)| (names, names.fields(message)));
        Fields { entries: Entries::new(definition), definition, message, named }
    }

    /// The first field whose entry is such a one.
    fn find_entry(mut self, is: impl FnMut(&&[u8]) -> bool) -> Option<Field<'a>> {
        self.entries.find(is).map(|entry| self.of(entry))
    }

    fn of(&self, entry: &'a [u8]) -> Field<'a> {
        let field = Field::new(entry, self.definition, self.message);
        match self.named {
            Some((names, of)) => field.named(names, of),
            None => field,
        }
    }
}

impl<'a> Iterator for Fields<'a> {
    type Item = Field<'a>;

    fn next(&mut self) -> Option<Field<'a>> {
        self.entries.next().map(|entry| self.of(entry))
    }
}

impl FusedIterator for Fields<'_> {}

impl Debug for Fields<'_> {
    fn fmt(&self, f: &mut Formatter<'_>) -> fmt::Result {
        f.debug_list().entries(self.clone()).finish()
    }
}
