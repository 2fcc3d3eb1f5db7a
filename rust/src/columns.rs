//! Columns: what messages have in a field, one after another.
use crate::draft::Key;
use crate::field::Field;
use crate::labels::labelled;
use crate::message::{Message, Messages};
use crate::names::Names;
use crate::profile;
use crate::reader::Reader;
use crate::ready::{self, Ready};
use crate::time::Time;
use crate::value_error::Unfit;
use std::collections::HashMap;
use std::fmt::{self, Debug, Formatter};

/// The column of the times of messages.
const TIME: &str = "timestamp";
/// That many cells are few, and of more at most so many times as are filled are made.
const FEW_CELLS: usize = 1 << 22;
const MOST_EMPTY: usize = 16;

/// What messages have in their fields, as columns, each with a row for each message. A column is made when it is asked for.
///
/// ```
/// # std::env::set_current_dir(env!("GAZHDOR_RIDES")).unwrap();
/// # let ride = std::fs::read("ride.fit").unwrap();
/// let messages = gazhdor::messages(&ride).unwrap();
/// let columns = messages.columns("record", ["timestamp", "altitude", ".speed"])?;
/// let altitudes = columns.numbers("altitude").unwrap();
/// assert_eq!(altitudes.iter().copied().fold(f64::NAN, f64::max), 425.0);
/// assert_eq!(columns.times("timestamp").unwrap()[0].unwrap().to_string(), "2026-05-17T07:30:00Z");
/// # Ok::<(), gazhdor::Unfit>(())
/// ```
pub struct Columns<'a> {
    rows: usize,
    parts: Vec<Part<'a>>,
    /// In their order.
    labels: Vec<String>,
    cells: HashMap<String, Cells<'a>>,
}

/// The messages of one definition: one of them, and of each its row and its block.
struct Part<'a> {
    message: Message<'a>,
    rows: Vec<usize>,
    blocks: Vec<&'a [u8]>,
}

/// What a column has of the messages of each part that has something.
#[derive(Default)]
struct Cells<'a> {
    cells: Vec<(usize, Cell<'a>)>,
}

#[derive(Clone, Copy)]
enum Cell<'a> {
    Field(Field<'a>),
    /// The time of the message.
    Time,
    /// What a message tells beside its fields.
    Told(fn(&Message<'_>) -> Option<f64>),
}

impl Messages {
    /// Columns of the messages of a name: of these fields, each by its name or what else a [`Key`] is. `"timestamp"` is the time of the
    /// message; a name with a dot is what the message tells: `".altitude"`, `".speed"` and `".distance"` as [`Message::speed`] does,
    /// `".latitude"` and `".longitude"` in degrees, `".total_cycles"`, `".accumulated_power"`, `".seconds"`, `".file"`, `".place"`, `".local"`.
    ///
    /// # Errors
    ///
    /// [`Unfit::NoMessage`], and [`Unfit::NoField`] of a name that neither the profile nor one of the messages has.
    pub fn columns<'k, K: Into<Key<'k>>>(
        &self,
        message: &str,
        fields: impl IntoIterator<Item = K>,
    ) -> Result<Columns<'_>, Unfit> {
        let number = numbered(message)?;
        let messages = self.iter().filter(|message| message.number() == number);
        Columns::chosen(Part::all(messages), Some(number), fields)
    }

    /// Columns of all fields of the messages of a name, as [`Columns::all`] has them.
    ///
    /// # Errors
    ///
    /// [`Unfit::NoMessage`], and [`Unfit::TooMany`] where nearly all of very many cells would be empty.
    pub fn all_columns(&self, message: &str) -> Result<Columns<'_>, Unfit> {
        let number = numbered(message)?;
        Columns::all(self.iter().filter(|message| message.number() == number))
    }
}

fn numbered(message: &str) -> Result<u16, Unfit> {
    profile::message_named(message).ok_or_else(|| Unfit::NoMessage { message: message.to_string() })
}

impl<'a> Columns<'a> {
    /// Columns of these messages, as those that [`Message::named`] gives: of these fields, as for [`Messages::columns`].
    ///
    /// # Errors
    ///
    /// [`Unfit::NoField`] of a name that neither the profile nor one of the messages has.
    pub fn of<'k, K: Into<Key<'k>>>(
        messages: impl IntoIterator<Item = Message<'a>>,
        fields: impl IntoIterator<Item = K>,
    ) -> Result<Columns<'a>, Unfit> {
        Columns::chosen(Part::all(messages), None, fields)
    }

    /// Columns of all fields that these messages have, by their labels: the name where a field has one of its own, and else `field_5` or
    /// `dev_0_5`. `timestamp` is the first, where a message has a time.
    ///
    /// # Errors
    ///
    /// [`Unfit::TooMany`] where nearly all of very many cells would be empty.
    pub fn all(messages: impl IntoIterator<Item = Message<'a>>) -> Result<Columns<'a>, Unfit> {
        let mut columns = Columns::empty(Part::all(messages));
        if columns.parts.iter().any(Part::has_times) {
            columns.put(TIME.to_string(), Columns::found(&columns.parts, Key::Name(TIME)));
        }
        let mut filled = 0;
        for at in 0..columns.parts.len() {
            let Part { message, rows, .. } = &columns.parts[at];
            let (count, fields) = (rows.len(), labelled(message.fields()));
            for (label, field) in fields.into_iter().filter(|(_, field)| !is_own_time(field)) {
                filled += count;
                if !columns.cells.contains_key(&label) {
                    columns.put(label.clone(), Cells::default());
                }
                columns.cells.entry(label).or_default().cells.push((at, Cell::Field(field)));
            }
        }
        seen(columns.labels.len(), columns.rows, filled)?;
        Ok(columns)
    }

    fn empty(parts: Vec<Part<'a>>) -> Columns<'a> {
        let rows = parts.iter().map(|part| part.rows.len()).sum();
        Columns { rows, parts, labels: Vec::new(), cells: HashMap::new() }
    }

    fn chosen<'k, K: Into<Key<'k>>>(
        parts: Vec<Part<'a>>,
        number: Option<u16>,
        fields: impl IntoIterator<Item = K>,
    ) -> Result<Columns<'a>, Unfit> {
        let mut columns = Columns::empty(parts);
        for key in fields.into_iter().map(Into::into) {
            let cells = Columns::found(&columns.parts, key);
            let of = columns.parts.first().map(|part| part.message.number()).or(number);
            if cells.cells.is_empty()
                && !is_known(key, of, columns.parts.first().and_then(|part| part.message.defined().2))
            {
                return Err(Unfit::NoField { field: key.label() });
            }
            columns.put(key.label(), cells);
        }
        Ok(columns)
    }

    fn put(&mut self, label: String, cells: Cells<'a>) {
        if self.cells.insert(label.clone(), cells).is_none() {
            self.labels.push(label);
        }
    }

    /// What a column has of each part.
    fn found(parts: &[Part<'a>], key: Key<'_>) -> Cells<'a> {
        let of = |part: &Part<'a>| match key {
            Key::Name(TIME) => Some(Cell::Time),
            Key::Name(name) if name.starts_with('.') => told(name).map(Cell::Told),
            _ => (0..)
                .zip(part.message.fields())
                .find(|(at, field)| key.names(*at, field))
                .map(|found| Cell::Field(found.1)),
        };
        Cells { cells: (0..).zip(parts).filter_map(|(at, part)| Some((at, of(part)?))).collect() }
    }

    /// How many rows each column has.
    #[must_use]
    pub fn rows(&self) -> usize {
        self.rows
    }

    /// The labels of the columns, in their order.
    #[must_use]
    pub fn labels(&self) -> &[String] {
        &self.labels
    }

    /// A column of numbers, in the unit of the field, and NaN where a message has none. It is none where there is no such column, or
    /// a message has a text, bytes or several numbers there, and of times of messages.
    #[must_use]
    pub fn numbers(&self, label: &str) -> Option<Vec<f64>> {
        let cells = &self.cells.get(label)?.cells;
        let mut column = vec![f64::NAN; self.rows];
        for (at, cell) in cells {
            let part = &self.parts[*at];
            match cell {
                Cell::Time => return None,
                Cell::Field(field) if field.count() == 0 => {}
                Cell::Field(field) if !field.is_lone_number() => return None,
                Cell::Field(field) => part.read(&mut column, Reader::of(field)),
                Cell::Told(of) => {
                    part.messages().for_each(|(row, message)| column[row] = of(&message).unwrap_or(f64::NAN))
                }
            }
        }
        Some(column)
    }

    /// A column of times: `"timestamp"`, or a field that is a time, as `start_time`. It is none where there is no such column, or it has
    /// something else.
    #[must_use]
    pub fn times(&self, label: &str) -> Option<Vec<Option<Time>>> {
        let mut column = vec![None; self.rows];
        for (at, cell) in &self.cells.get(label)?.cells {
            let messages = self.parts[*at].messages();
            match cell {
                Cell::Time => messages.for_each(|(row, message)| column[row] = message.time()),
                Cell::Field(field) if ready::is_time(field).is_some() => {
                    messages.for_each(|(row, message)| column[row] = ready::time_of(&field.of(message.block())));
                }
                _ => return None,
            }
        }
        Some(column)
    }

    /// A column of the fields themselves, of which a program takes texts, bytes, several numbers. It is none where there is no such column,
    /// and of what isn't a field.
    #[must_use]
    pub fn fields(&self, label: &str) -> Option<Vec<Option<Field<'a>>>> {
        let mut column = vec![None; self.rows];
        for (at, cell) in &self.cells.get(label)?.cells {
            let field = if let Cell::Field(field) = cell { field } else { return None };
            self.parts[*at].messages().for_each(|(row, message)| column[row] = Some(field.of(message.block())));
        }
        Some(column)
    }

    /// All columns by their labels, with values that are ready to use, as [`Message::ready`] has them: each column has values of one type,
    /// and several numbers are columns `name_0`, `name_1` and so on.
    ///
    /// # Errors
    ///
    /// [`Unfit::TooMany`] where nearly all of very many cells would be empty.
    pub fn ready(&self) -> Result<Vec<(String, Vec<Ready>)>, Unfit> {
        let cells = || self.labels.iter().map(|label| &self.cells[label].cells);
        let count = |cell: &Cell<'a>| if let Cell::Field(field) = cell { ready::columns_of(field) } else { 1 };
        let columns = cells().map(|cells| cells.iter().map(|(_, cell)| count(cell)).max().unwrap_or(1)).sum();
        let filled = cells().flatten().map(|(at, cell)| self.parts[*at].rows.len() * count(cell)).sum();
        seen(columns, self.rows, filled)?;
        let told = self.labels.iter().map(|label| (label.clone(), self.told(label))).collect();
        Ok(ready::spread(told))
    }

    fn told(&self, label: &str) -> Vec<ready::Told> {
        let mut column = vec![ready::Told::One(Ready::None); self.rows];
        for (at, cell) in &self.cells[label].cells {
            for (row, message) in self.parts[*at].messages() {
                column[row] = match cell {
                    Cell::Field(field) => ready::told(&field.of(message.block())),
                    Cell::Time => ready::Told::One(message.time().map_or(Ready::None, ready::of_time)),
                    Cell::Told(of) => ready::Told::One(of(&message).map_or(Ready::None, Ready::Float)),
                };
            }
        }
        column
    }
}

/// Whether that many cells may be made.
fn seen(columns: usize, rows: usize, filled: usize) -> Result<(), Unfit> {
    let cells = columns.saturating_mul(rows);
    match cells > FEW_CELLS && cells / MOST_EMPTY > filled {
        true => Err(Unfit::TooMany { columns, rows }),
        false => Ok(()),
    }
}

fn is_own_time(field: &Field<'_>) -> bool {
    field.developer().is_none() && field.number() == 253
}

/// Whether a message of this number may have what a key names.
fn is_known(key: Key<'_>, message: Option<u16>, names: Option<&Names>) -> bool {
    match (key, message) {
        (Key::Name(name), _) if name == TIME || told(name).is_some() => true,
        (Key::Name(name), Some(message)) => {
            let own = names.and_then(|names| names.field_named(message, name));
            own.or_else(|| profile::field_named(message, name)).is_some()
        }
        (Key::Name(_), None) => false,
        _ => true,
    }
}

/// What a message tells beside its fields, by a name with a dot.
fn told(name: &str) -> Option<fn(&Message<'_>) -> Option<f64>> {
    Some(match name {
        ".altitude" => |message| message.altitude(),
        ".speed" => |message| message.speed(),
        ".distance" => |message| message.distance(),
        ".latitude" => |message| message.latitude(),
        ".longitude" => |message| message.longitude(),
        ".total_cycles" => |message| message.total_cycles().map(|cycles| cycles as f64),
        ".accumulated_power" => |message| message.accumulated_power().map(|power| power as f64),
        ".seconds" => |message| message.time().map(|time| time.seconds().into()),
        ".file" => |message| Some(message.file().into()),
        ".place" => |message| Some(message.place() as f64),
        ".local" => |message| Some(message.local().into()),
        _ => return None,
    })
}

impl<'a> Part<'a> {
    /// The messages, those of one definition together.
    fn all(messages: impl IntoIterator<Item = Message<'a>>) -> Vec<Part<'a>> {
        let (mut parts, mut known, mut last) = (Vec::<Part<'a>>::new(), HashMap::new(), None);
        for (row, message) in messages.into_iter().enumerate() {
            let (definition, _, names) = message.defined();
            let of = (definition.as_ptr() as usize, names.map_or(0, |names| names as *const Names as usize));
            let at = match last {
                Some((same, at)) if same == of => at,
                _ => *known.entry(of).or_insert(parts.len()),
            };
            if at == parts.len() {
                parts.push(Part { message, rows: Vec::new(), blocks: Vec::new() });
            }
            parts[at].rows.push(row);
            parts[at].blocks.push(message.block());
            last = Some((of, at));
        }
        parts
    }

    /// Each message with its row.
    fn messages(&self) -> impl Iterator<Item = (usize, Message<'a>)> + '_ {
        self.rows.iter().zip(&self.blocks).map(|(&row, block)| (row, self.message.with_block(block)))
    }

    fn has_times(&self) -> bool {
        self.messages().any(|(_, message)| message.time().is_some())
            || self.message.fields().any(|field| is_own_time(&field))
    }

    fn read(&self, column: &mut [f64], reader: Option<Reader>) {
        if let Some(reader) = reader {
            for (&row, block) in self.rows.iter().zip(&self.blocks) {
                column[row] = reader.value(block).unwrap_or(f64::NAN);
            }
        }
    }
}

impl Debug for Columns<'_> {
    fn fmt(&self, f: &mut Formatter<'_>) -> fmt::Result {
        f.debug_struct("Columns").field("rows", &self.rows).field("labels", &self.labels).finish_non_exhaustive()
    }
}
