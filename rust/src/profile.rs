//! The fields of the proved profile, and the base types that they mostly have. These are no part of what is proved: a file says itself
//! which base types it has.
use crate::base_type::BaseType;
use crate::names::{Named, Names};

thread_local! {
    static PROFILE: Names = Names::read(include_str!("profile.tsv")).unwrap_or_default();
}

/// Fields that all messages have.
const COMMON: [(u8, &str, &str, BaseType); 2] =
    [(253, "timestamp", "s", BaseType::Uint32), (254, "message_index", "", BaseType::Uint16)];

pub(crate) fn message_named(name: &str) -> Option<u16> {
    PROFILE.with(|profile| profile.message_named(name))
}

/// The name of a message; an empty one where the profile has none.
pub(crate) fn message_name(message: u16) -> String {
    PROFILE.with(|profile| profile.message(message).unwrap_or("").to_string())
}

pub(crate) fn field_named(message: u16, name: &str) -> Option<u8> {
    let common = COMMON.iter().find(|row| row.1 == name).map(|row| row.0);
    common.or_else(|| PROFILE.with(|profile| profile.field_named(message, name)))
}

/// What is said of a field; nothing where the profile hasn't it.
pub(crate) fn field(message: u16, number: u8) -> Named {
    match COMMON.iter().find(|row| row.0 == number) {
        Some(&(_, name, unit, _)) => Named { name: Some(name.into()), unit: Some(unit.into()), ..Named::default() },
        None => PROFILE.with(|profile| profile.field(message, number).cloned().unwrap_or_default()),
    }
}

pub(crate) fn base_type(message: u16, number: u8) -> Option<BaseType> {
    let common = COMMON.iter().find(|row| row.0 == number).map(|row| row.3);
    common.or_else(|| PROFILE.with(|profile| profile.base_type(message, number)))
}

/// The type by which numbers of a field have words.
pub(crate) fn type_of(message: u16, number: u8) -> Option<&'static str> {
    PROFILE.with(|profile| profile.type_of(message, number))
}

/// Whether a field of any message has a name.
pub(crate) fn has_field(name: &str) -> bool {
    COMMON.iter().any(|row| row.1 == name) || PROFILE.with(|profile| profile.has_field(name))
}

/// Whether a field is a time in UTC, and whether it is one by the clock of the place.
pub(crate) fn is_time(message: u16, number: u8) -> (bool, bool) {
    let (is_time, is_local) = PROFILE.with(|profile| profile.is_time(message, number));
    (is_time || number == COMMON[0].0, is_local)
}

#[cfg(test)]
mod tests {
    use super::*;

    /// As many as the profile has fields, each with a base type.
    #[test]
    fn the_table_is_whole() {
        let rows = include_str!("profile.tsv").lines().skip(1).map(|row| row.split('\t').collect::<Vec<_>>());
        let mut count = 0;
        for row in rows {
            let (message, number) = (row[0].parse().unwrap(), row[2].parse().unwrap());
            assert_eq!((message_named(row[1]), field_named(message, row[3])), (Some(message), Some(number)));
            assert!(base_type(message, number).is_some(), "{row:?}");
            count += 1;
        }
        assert_eq!(count, 114);
    }
}
