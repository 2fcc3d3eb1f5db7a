//! What can't be written, before anything is.
use crate::field::{Field, Value};
use crate::labels::numbered;
use std::error::Error;
use std::fmt::{self, Display, Formatter};

/// What doesn't fit into a message or into a definition. Fields are named as in texts: `field_7` or `dev_0_7` where they have no name.
#[derive(Debug, Clone, PartialEq, Eq)]
#[non_exhaustive]
pub enum Unfit {
    /// No message has this name.
    NoMessage {
        /// The name.
        message: String,
    },
    /// The message has no such field.
    NoField {
        /// Its name, or `field_7` or `dev_0_7` by its numbers.
        field: String,
    },
    /// Nothing says which base type the field mostly has, or how long a text of it is: both have to be given.
    NoBaseType {
        /// The field.
        field: String,
    },
    /// A number is out of the range of its field, is no number, or is the one that stands for no value.
    Range {
        /// The field.
        field: String,
        /// The number.
        value: String,
        /// The least that fits.
        least: String,
        /// The greatest that fits.
        most: String,
    },
    /// A value of another kind than those of the field.
    Kind {
        /// The field.
        field: String,
        /// The value; of a long one its beginning.
        value: String,
        /// What the field takes, as `a number`.
        takes: &'static str,
    },
    /// A text, bytes or several numbers of another length than the field has room for.
    Length {
        /// The field.
        field: String,
        /// How many bytes or numbers they are; of too many numbers one too many.
        length: usize,
        /// How many there can be: of a text at most, of bytes and numbers as many.
        room: usize,
    },
    /// A definition has at most 255 fields and 255 developer fields, of at most 255 bytes each.
    Full {
        /// The field that is one too many, or too long.
        field: String,
    },
    /// Nearly all of very many cells of columns would be empty: name the fields.
    TooMany {
        /// How many columns there would be.
        columns: usize,
        /// How many rows.
        rows: usize,
    },
}

impl Display for Unfit {
    fn fmt(&self, f: &mut Formatter<'_>) -> fmt::Result {
        match self {
            Unfit::NoMessage { message } => write!(f, "there is no message {message}"),
            Unfit::NoField { field } => write!(f, "there is no field {field}"),
            Unfit::NoBaseType { field } => write!(f, "{field}: its base type and its length have to be given"),
            Unfit::Range { field, value, least, most } => write!(f, "{field}: {value} isn't from {least} to {most}"),
            Unfit::Kind { field, value, takes } => write!(f, "{field}: it takes {takes}, not {value}"),
            Unfit::Length { field, length, room } => {
                write!(f, "{field}: there is room for {room}, and not for {length}")
            }
            Unfit::TooMany { columns, rows } => {
                write!(f, "nearly all cells of {columns} columns of {rows} messages would be empty: name the fields")
            }
            Unfit::Full { field } => write!(f, "{field}: there are 255 fields at most, of 255 bytes at most"),
        }
    }
}

impl Error for Unfit {}

/// A field as texts name it.
pub(crate) fn label(field: &Field<'_>) -> String {
    field.name().map_or_else(|| numbered(field), str::to_string)
}

/// A value as texts show it, of a long one its beginning.
pub(crate) fn shown(value: &Value<'_>) -> String {
    const MOST: usize = 40;
    match value {
        Value::None => "no value".to_string(),
        Value::Unsigned(number) => number.to_string(),
        Value::Signed(number) => number.to_string(),
        Value::Float(number) => format!("{number:?}"),
        Value::Text(text) => format!("{:?}", text.chars().take(MOST).collect::<String>()),
        Value::Bytes(bytes) => format!("{:?}", &bytes[..bytes.len().min(MOST)]),
        Value::Several => "several numbers".to_string(),
    }
}
