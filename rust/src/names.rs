//! Names, units and scales beside those of the profile.
use crate::base_type::BaseType;
use crate::words::type_named;
use std::collections::{BTreeMap, BTreeSet};
use std::error::Error;
use std::fmt::{self, Display, Formatter};
use std::rc::Rc;

const COLUMNS: [&str; 9] =
    ["message", "message name", "field", "field name", "unit", "scale", "offset", "type", "base type"];

thread_local! {
    static EXTRA: Rc<Names> = Rc::new(Names::read(include_str!("extra.tsv")).unwrap_or_default());
}

/// What is said of a field. `None` leaves what the library says of it.
#[derive(Debug, Clone, Default)]
pub struct Named {
    /// Its name.
    pub name: Option<String>,
    /// Its unit.
    pub unit: Option<String>,
    /// A whole number `n` stands for `n / scale - offset` units; floats stand for themselves.
    pub scale: Option<f64>,
    /// See `scale`.
    pub offset: Option<f64>,
}

/// Where both have the same scale, bit by bit, and so on.
impl PartialEq for Named {
    fn eq(&self, other: &Named) -> bool {
        let bits = |number: Option<f64>| number.map(f64::to_bits);
        (&self.name, &self.unit, bits(self.scale), bits(self.offset))
            == (&other.name, &other.unit, bits(other.scale), bits(other.offset))
    }
}

impl Eq for Named {}

/// Names of messages, and names, units and scales of fields, by their numbers: a program's own, or those of [`Names::extra`].
///
/// [`Message::named`](crate::Message::named) gives a message by them.
///
/// ```
/// use gazhdor::{Named, Names};
///
/// # std::env::set_current_dir(env!("GAZHDOR_RIDES")).unwrap();
/// # let ride = std::fs::read("ride.fit").unwrap();
/// let messages = gazhdor::messages(&ride).unwrap();
/// let mut names = Names::extra();
/// let course = messages.iter().map(|message| message.named(&names)).find(|message| message.name() == Some("course"));
/// assert_eq!(course.unwrap().field("name").unwrap().text(), Some("Lake loop"));
///
/// names.name_field(31, 5, Named { name: Some("route".into()), ..Named::default() });
/// let course = messages.iter().find(|message| message.number() == 31).unwrap();
/// assert_eq!(course.named(&names).field("route").unwrap().text(), Some("Lake loop"));
/// ```
#[derive(Debug, Clone, Default, PartialEq, Eq)]
pub struct Names {
    messages: BTreeMap<u16, String>,
    fields: BTreeMap<u16, NamedFields>,
    base_types: BTreeMap<(u16, u8), BaseType>,
    /// The types by which numbers of fields have words.
    types: BTreeMap<(u16, u8), &'static str>,
    /// The fields that are times in UTC, and those that are times by the clock of the place.
    times: BTreeSet<(u16, u8)>,
    local_times: BTreeSet<(u16, u8)>,
}

/// What is said of the fields of a message, each at its number.
#[derive(Debug, Clone, Default, PartialEq, Eq)]
pub(crate) struct NamedFields {
    all: Vec<Option<Box<Named>>>,
    /// The numbers of those that have names, by these and then by themselves.
    by_name: Vec<u8>,
}

impl NamedFields {
    fn set(&mut self, field: u8, named: Named) {
        let length = self.all.len().max(usize::from(field) + 1);
        self.all.resize(length, None);
        self.by_name.retain(|&number| number != field);
        if let Some(name) = &named.name {
            let at = self.first_not(|of, number| (of, number) < (name, field));
            self.by_name.insert(at, field);
        }
        self.all[usize::from(field)] = Some(Box::new(named));
    }

    pub(crate) fn get(&self, field: u8) -> Option<&Named> {
        self.all.get(usize::from(field))?.as_deref()
    }

    fn name(&self, field: u8) -> &str {
        self.get(field).and_then(|named| named.name.as_deref()).unwrap_or("")
    }

    /// Where among those that have names the first one stands of which something isn't so that is so of all before it.
    fn first_not(&self, is_before: impl Fn(&str, u8) -> bool) -> usize {
        self.by_name.partition_point(|&number| is_before(self.name(number), number))
    }

    fn number_of(&self, name: &str) -> Option<u8> {
        let first = *self.by_name.get(self.first_not(|of, _| of < name))?;
        Some(first).filter(|&number| self.name(number) == name)
    }
}

/// What is wrong with a text of names, and in which line, counted from 1.
#[derive(Debug, Clone, Copy, PartialEq, Eq)]
pub struct NamesFault {
    /// The line.
    pub line: usize,
    /// What is wrong.
    pub what: &'static str,
}

impl Display for NamesFault {
    fn fmt(&self, f: &mut Formatter<'_>) -> fmt::Result {
        write!(f, "line {}: {}", self.line, self.what)
    }
}

impl Error for NamesFault {}

impl Names {
    /// No names.
    #[must_use]
    pub fn new() -> Names {
        Names::default()
    }

    /// Fields and messages that recordings have and the proved profile hasn't, after Garmin's public FIT profile. They are no part of what
    /// is proved; the first lines of `src/extra.tsv` say of which edition they are.
    #[must_use]
    pub fn extra() -> Names {
        Names::clone(&Names::shared_extra())
    }

    /// The same ones for all who only read them.
    pub(crate) fn shared_extra() -> Rc<Names> {
        EXTRA.with(Rc::clone)
    }

    /// The names of a text with tabs between cells. It begins with the names of its columns, which are some of `message`, `message name`,
    /// `field`, `field name`, `unit`, `scale`, `offset`, `type` and `base type`; messages and fields are numbers. An empty cell leaves what
    /// is known, a row without a field names a message alone, and a line that begins with `#` says nothing. A `type` is `date_time` or
    /// `local_date_time`, which say that it is a time, or one that has [`words`](crate::words()).
    ///
    /// # Errors
    ///
    /// A [`NamesFault`] for the first line that can't be.
    pub fn read(text: &str) -> Result<Names, NamesFault> {
        let text = text.strip_prefix('\u{feff}').unwrap_or(text);
        let mut lines = (1..).zip(text.lines()).filter(|(_, line)| !line.is_empty() && !line.starts_with('#'));
        let (line, head) = lines.next().unwrap_or((1, ""));
        let head: Vec<&str> = head.split('\t').collect();
        let is_known = head.iter().all(|name| COLUMNS.contains(name));
        if !is_known || !head.contains(&"message") {
            return Err(NamesFault { line, what: "the first line has the names of the columns, and one is message" });
        }
        let mut names = Names::new();
        for (line, row) in lines {
            names.take(&head, row).map_err(|what| NamesFault { line, what })?;
        }
        Ok(names)
    }

    fn take(&mut self, head: &[&str], row: &str) -> Result<(), &'static str> {
        let cells: Vec<&str> = row.split('\t').collect();
        if cells.len() > head.len() {
            return Err("it has more cells than the first line");
        }
        let cell = |name| head.iter().position(|&of| of == name).and_then(|at| cells.get(at).copied()).unwrap_or("");
        let message = cell("message").parse().map_err(|_| "a message is 0 to 65535")?;
        if !cell("message name").is_empty() {
            self.name_message(message, cell("message name"));
        }
        if !cell("field").is_empty() {
            let field = cell("field").parse().map_err(|_| "a field is 0 to 255")?;
            let text = |name| Some(cell(name).to_string()).filter(|text| !text.is_empty());
            let (scale, offset) = (number(cell("scale"))?, number(cell("offset"))?);
            if scale == Some(0.0) {
                return Err("a scale can't be 0");
            }
            self.name_field(message, field, Named { name: text("field name"), unit: text("unit"), scale, offset });
            self.set_type((message, field), cell("type"))?;
            if !cell("base type").is_empty() {
                let base_type = BaseType::named(cell("base type")).ok_or("there is no such base type")?;
                self.set_base_type(message, field, base_type);
            }
        }
        Ok(())
    }

    fn set_type(&mut self, of: (u16, u8), kind: &str) -> Result<(), &'static str> {
        match kind {
            "" => {}
            "date_time" => drop(self.times.insert(of)),
            "local_date_time" => drop(self.local_times.insert(of)),
            _ => drop(self.types.insert(of, type_named(kind).ok_or("there is no such type")?)),
        }
        Ok(())
    }

    /// Names a message.
    pub fn name_message(&mut self, message: u16, name: &str) {
        self.messages.insert(message, name.to_string());
    }

    /// Says of a field of a message what it is. A scale that is 0 gives no values.
    pub fn name_field(&mut self, message: u16, field: u8, named: Named) {
        self.fields.entry(message).or_default().set(field, named);
    }

    /// Says which base type a field mostly has, by which a [`Definition`](crate::Definition) takes it.
    pub fn set_base_type(&mut self, message: u16, field: u8, base_type: BaseType) {
        self.base_types.insert((message, field), base_type);
    }

    /// The base type that a field mostly has. A file says itself which one its own has.
    #[must_use]
    pub fn base_type(&self, message: u16, field: u8) -> Option<BaseType> {
        self.base_types.get(&(message, field)).copied()
    }

    /// The type by which numbers of a field have words.
    pub(crate) fn type_of(&self, message: u16, field: u8) -> Option<&'static str> {
        self.types.get(&(message, field)).copied()
    }

    /// Whether a field is a time in UTC, and whether it is one by the clock of the place.
    pub(crate) fn is_time(&self, message: u16, field: u8) -> (bool, bool) {
        (self.times.contains(&(message, field)), self.local_times.contains(&(message, field)))
    }

    /// The name of a message.
    pub fn message(&self, message: u16) -> Option<&str> {
        self.messages.get(&message).map(String::as_str)
    }

    /// The number of the message of a name, as 20 of `record`.
    #[must_use]
    pub fn message_named(&self, name: &str) -> Option<u16> {
        self.messages.iter().find(|(_, of)| *of == name).map(|(&number, _)| number)
    }

    /// The number of the field of a message that has a name, as 3 of `heart_rate`.
    #[must_use]
    pub fn field_named(&self, message: u16, name: &str) -> Option<u8> {
        self.fields.get(&message)?.number_of(name)
    }

    /// Whether a field of any message has a name.
    pub(crate) fn has_field(&self, name: &str) -> bool {
        self.fields.values().any(|fields| fields.number_of(name).is_some())
    }

    /// What is said of a field of a message.
    #[must_use]
    pub fn field(&self, message: u16, field: u8) -> Option<&Named> {
        self.fields.get(&message)?.get(field)
    }

    /// What is said of the fields of a message.
    pub(crate) fn fields(&self, message: u16) -> Option<&NamedFields> {
        self.fields.get(&message)
    }
}

fn number(cell: &str) -> Result<Option<f64>, &'static str> {
    if cell.is_empty() {
        return Ok(None);
    }
    match cell.parse() {
        Ok(number) if f64::is_finite(number) => Ok(Some(number)),
        _ => Err("a scale and an offset are numbers"),
    }
}
