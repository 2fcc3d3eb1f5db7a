//! Definitions of messages that are to be written.
use crate::base_type::BaseType;
use crate::blocks::{eight, first_entry, four, put, two, Entries};
use crate::developer::Developer;
use crate::draft::Draft;
use crate::entry::{in_text, Entry};
use crate::field::Field;
use crate::message::{Fields, Message};
use crate::names::{Named, Names};
use crate::numbers::{
    AT_DEFINITION_ARCHITECTURE, AT_DEFINITION_BITS, AT_DEFINITION_DEVELOPERS, AT_DEFINITION_FIELDS,
    AT_DEFINITION_LOCAL, AT_DEFINITION_MESSAGE, AT_DEFINITION_MESSAGE_LENGTH, AT_DEFINITION_NAME, AT_DEFINITION_NUMBER,
    AT_ENTRY_COUNT, AT_ENTRY_ITEMS, AT_ENTRY_WIDTH, AT_KIND, AT_LENGTH, AT_MESSAGE_DEFINITION, AT_MESSAGE_HEADER_TIME,
    AT_MESSAGE_ITEMS, AT_MESSAGE_LOCAL, AT_MESSAGE_OFFSET, AT_MESSAGE_TIME, BIG_ENDIAN, DEFINITION, MESSAGE, NO_OFFSET,
    NO_TIME, SAYS_DEVELOPERS,
};
use crate::profile;
use crate::value_error::{label, Unfit};
use std::borrow::Cow;
use std::fmt::{self, Debug, Formatter};

const MOST: usize = 255;

/// Which fields a message has, and how they stand in the file: one that a program makes, or one that was read.
///
/// ```
/// use gazhdor::{BaseType, Definition, Unfit, Writer};
///
/// // Fields by their names, of the base types that they mostly have; and one that the profile doesn't name.
/// let record = Definition::of("record", &["timestamp", "heart_rate"])?.with_field(200, BaseType::Uint16, 1)?;
/// let beat = record.message().with("timestamp", 1_000_000_000)?.with("heart_rate", 121)?.with(200, 7)?;
/// assert_eq!(beat.field("heart_rate").unwrap().value(0), Some(121.0));
/// # Ok::<(), Unfit>(())
/// ```
#[derive(Clone)]
pub struct Definition<'a> {
    /// Its block, of 40 bytes at least.
    block: Cow<'a, [u8]>,
    names: Option<&'a Names>,
}

impl<'a> Definition<'a> {
    /// That of a message of the profile, as `record`, with these fields of it.
    ///
    /// # Errors
    ///
    /// [`Unfit::NoMessage`] and [`Unfit::NoField`] where the profile has no such name, and [`Unfit::NoBaseType`] of a text, whose length
    /// [`with`](Definition::with) takes.
    pub fn of(message: &str, fields: &[&str]) -> Result<Definition<'static>, Unfit> {
        let no_message = || Unfit::NoMessage { message: message.to_string() };
        let made = Definition::numbered(profile::message_named(message).ok_or_else(no_message)?);
        fields.iter().try_fold(made, |made, field| made.with(field, 1))
    }

    /// That of a message by these names, or else by those of the profile, with these fields of it.
    ///
    /// # Errors
    ///
    /// As for [`of`](Definition::of).
    pub fn by(names: &'a Names, message: &str, fields: &[&str]) -> Result<Definition<'a>, Unfit> {
        let no_message = || Unfit::NoMessage { message: message.to_string() };
        let number = names.message_named(message).or_else(|| profile::message_named(message));
        let made = Definition { names: Some(names), ..Definition::numbered(number.ok_or_else(no_message)?) };
        fields.iter().try_fold(made, |made, field| made.with(field, 1))
    }

    /// That of the message of a number, without fields.
    #[must_use]
    pub fn numbered(message: u16) -> Definition<'static> {
        let mut block = vec![0; AT_DEFINITION_NAME];
        block[AT_KIND] = DEFINITION;
        put(&mut block, AT_DEFINITION_MESSAGE, &message.to_le_bytes());
        block.extend(in_text(&profile::message_name(message)));
        let length = block.len() as u32;
        put(&mut block, AT_LENGTH, &length.to_le_bytes());
        put(&mut block, AT_DEFINITION_MESSAGE_LENGTH, &(AT_MESSAGE_ITEMS as u32).to_le_bytes());
        Definition { block: Cow::Owned(block), names: None }
    }

    /// That of a block of 40 bytes at least.
    pub(crate) fn read(block: &'a [u8], names: Option<&'a Names>) -> Definition<'a> {
        Definition { block: Cow::Borrowed(block), names }
    }

    /// The same with a field more, by its name and with its usual base type: of a text that many bytes, of numbers that many.
    ///
    /// # Errors
    ///
    /// [`Unfit::NoField`] where there is no such name, [`Unfit::NoBaseType`] where nothing says which base type it has, and of a text of one
    /// byte; [`Unfit::Full`] where there are 255 fields, or it has more than 255 bytes.
    pub fn with(self, field: &str, items: u8) -> Result<Definition<'a>, Unfit> {
        let (number, base_type) = self.looked_up(field).ok_or_else(|| Unfit::NoField { field: field.to_string() })?;
        match base_type {
            Some(base_type) if base_type != BaseType::String || items != 1 => self.with_field(number, base_type, items),
            _ => Err(Unfit::NoBaseType { field: field.to_string() }),
        }
    }

    /// The same with a field more, by its number.
    ///
    /// # Errors
    ///
    /// [`Unfit::Full`] where there are 255 fields, or it has more than 255 bytes.
    pub fn with_field(self, number: u8, base_type: BaseType, items: u8) -> Result<Definition<'a>, Unfit> {
        let named = profile::field(self.number(), number);
        let entry = Entry { number, developer: None, base_type, items, named };
        let position = self.counts().0;
        self.with_entry(entry, position)
    }

    /// The same with a developer field more, which a writer describes where the file doesn't describe it so.
    ///
    /// # Errors
    ///
    /// [`Unfit::Full`] where there are 255 of them, or it has more than 255 bytes.
    pub fn with_developer(self, of: &Developer, items: u8) -> Result<Definition<'a>, Unfit> {
        let named = Named { name: Some(of.name.clone()), unit: Some(of.unit.clone()), ..Named::default() };
        let (number, developer, base_type) = (of.number, Some(of.index), of.base_type);
        let position = self.counts().0 + self.counts().1;
        let mut made = self.with_entry(Entry { number, developer, base_type, items, named }, position)?;
        made.block.to_mut()[AT_DEFINITION_BITS] |= SAYS_DEVELOPERS as u8;
        Ok(made)
    }

    /// The same of a local message type, 0 to 15, which it gets where that is free, or by [`Writer::define`](crate::Writer::define) in any
    /// case. Of a larger number the low four bits count.
    #[must_use]
    pub fn at(mut self, local: u8) -> Definition<'a> {
        self.block.to_mut()[AT_DEFINITION_LOCAL] = local & 15;
        self
    }

    /// The same with numbers in big endian in the file.
    #[must_use]
    pub fn big_endian(mut self) -> Definition<'a> {
        self.block.to_mut()[AT_DEFINITION_ARCHITECTURE] = BIG_ENDIAN;
        self
    }

    /// A message of this definition, in which no field has a value.
    #[must_use]
    pub fn message(&self) -> Draft<'_> {
        let length = four(&self.block, AT_DEFINITION_MESSAGE_LENGTH).max(AT_MESSAGE_ITEMS as u32);
        let mut block = vec![0; length as usize];
        put(&mut block, AT_LENGTH, &length.to_le_bytes());
        block[AT_KIND] = MESSAGE;
        block[AT_MESSAGE_LOCAL] = self.local();
        block[AT_MESSAGE_OFFSET] = NO_OFFSET;
        put(&mut block, AT_MESSAGE_TIME, &NO_TIME.to_le_bytes());
        put(&mut block, AT_MESSAGE_DEFINITION, &eight(&self.block, AT_DEFINITION_NUMBER).to_le_bytes());
        put(&mut block, AT_MESSAGE_HEADER_TIME, &u64::from(NO_TIME).to_le_bytes());
        let mut made = Draft::new(block, &self.block, self.names);
        made.clear();
        made
    }

    /// A message of this definition that has what another one has in fields of the same number, base type and size; so a message gets a field
    /// which it hasn't:
    ///
    /// ```
    /// # std::env::set_current_dir(env!("GAZHDOR_RIDES")).unwrap();
    /// # let ride = std::fs::read("ride.fit").unwrap();
    /// let messages = gazhdor::messages(&ride).unwrap();
    /// let record = messages.iter().find(|message| message.name() == Some("record")).unwrap();
    /// let wider = record.definition().with("heart_rate", 1)?;
    /// let made = wider.filled(&record).with("heart_rate", 120)?;
    /// assert_eq!(made.field("heart_rate").unwrap().value(0), Some(120.0));
    /// assert_eq!(made.field("altitude").unwrap().value(0), record.value("altitude"));
    /// # Ok::<(), gazhdor::Unfit>(())
    /// ```
    #[must_use]
    pub fn filled(&self, message: &Message<'_>) -> Draft<'_> {
        let mut made = self.message();
        made.fill(message);
        made
    }

    /// The global message number, as 20 of `record`.
    #[must_use]
    pub fn number(&self) -> u16 {
        two(&self.block, AT_DEFINITION_MESSAGE)
    }

    /// The local message type; 0 where none was given.
    #[must_use]
    pub fn local(&self) -> u8 {
        self.block[AT_DEFINITION_LOCAL] & 15
    }

    /// Whether numbers are in big endian in the file.
    #[must_use]
    pub fn is_big_endian(&self) -> bool {
        self.block[AT_DEFINITION_ARCHITECTURE] == BIG_ENDIAN
    }

    /// Its fields, and then its developer fields, without values.
    #[must_use]
    pub fn fields(&self) -> Fields<'_> {
        Fields::new(&self.block, &[], self.names.map(|names| (names, self.number())))
    }

    pub(crate) fn block(&self) -> &[u8] {
        &self.block
    }

    /// The same by some names.
    pub(crate) fn named<'d>(&'d self, names: &'d Names) -> Definition<'d> {
        Definition::read(&self.block, Some(names))
    }

    /// The same by no names but those of its block.
    pub(crate) fn unnamed(self) -> Definition<'static> {
        Definition { block: Cow::Owned(self.block.into_owned()), names: None }
    }

    /// How many fields and how many developer fields it has.
    fn counts(&self) -> (usize, usize) {
        (two(&self.block, AT_DEFINITION_FIELDS).into(), two(&self.block, AT_DEFINITION_DEVELOPERS).into())
    }

    /// The number of the field of a name and its usual base type, by the names of this definition or else by the profile.
    fn looked_up(&self, field: &str) -> Option<(u8, Option<BaseType>)> {
        let message = self.number();
        let own = self.names.and_then(|names| names.field_named(message, field));
        let number = own.or_else(|| profile::field_named(message, field))?;
        let base_type = self.names.and_then(|names| names.base_type(message, number));
        Some((number, base_type.or_else(|| profile::base_type(message, number))))
    }

    /// The same with one entry more, at a position among all.
    fn with_entry(self, entry: Entry, position: usize) -> Result<Definition<'a>, Unfit> {
        let (fields, developer) = self.counts();
        let of_its_kind = if entry.developer.is_some() { developer } else { fields };
        if of_its_kind >= MOST || usize::from(entry.base_type.width()) * usize::from(entry.items) > MOST {
            return Err(Unfit::Full { field: entry.label() });
        }
        let mut entries: Vec<Vec<u8>> = Entries::new(&self.block).map(<[u8]>::to_vec).collect();
        entries.insert(position.min(entries.len()), entry.bytes());
        let mut block = self.block[..first_entry(&self.block)].to_vec();
        let at = if entry.developer.is_some() { AT_DEFINITION_DEVELOPERS } else { AT_DEFINITION_FIELDS };
        put(&mut block, at, &(of_its_kind as u16 + 1).to_le_bytes());
        lay(&mut block, &mut entries);
        Ok(Definition { block: Cow::Owned(block), ..self })
    }
}

/// Puts entries after the front of a definition's block, with the places of their items in the block of a message, one after another.
fn lay(block: &mut Vec<u8>, entries: &mut [Vec<u8>]) {
    let mut begins = AT_MESSAGE_ITEMS as u32;
    block[AT_DEFINITION_BITS] &= SAYS_DEVELOPERS as u8; // its messages don't have speed, distance, cycles and power
    for entry in entries {
        put(entry, AT_ENTRY_ITEMS, &begins.to_le_bytes());
        begins += (u32::from(entry[AT_ENTRY_WIDTH]) * u32::from(entry[AT_ENTRY_COUNT]) + 7) / 8 * 8;
        block.extend_from_slice(entry);
    }
    let length = block.len() as u32;
    put(block, AT_LENGTH, &length.to_le_bytes());
    put(block, AT_DEFINITION_MESSAGE_LENGTH, &begins.to_le_bytes());
}

impl Debug for Definition<'_> {
    fn fmt(&self, f: &mut Formatter<'_>) -> fmt::Result {
        let fields = |field: Field<'_>| (label(&field), field.base_type(), field.count());
        let mut all = f.debug_struct("Definition");
        all.field("number", &self.number()).field("local", &self.local());
        all.field("fields", &self.fields().map(fields).collect::<Vec<_>>()).finish()
    }
}
