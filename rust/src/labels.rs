//! How the fields of a message are called beside one another.
use crate::field::Field;
use crate::message::Fields;
use std::collections::HashSet;

/// Each field once, with its label: its name where it is the first of that name, and else `field_5`, or `dev_0_5` of a developer field.
pub(crate) fn labelled(fields: Fields<'_>) -> Vec<(String, Field<'_>)> {
    let (mut numbers, mut names, mut found) = (HashSet::new(), HashSet::new(), Vec::new());
    for field in fields {
        let own = field.name().filter(|name| !is_taken(&field, name)).filter(|&name| names.insert(name));
        if numbers.insert((field.developer(), field.number())) {
            found.push((own.map_or_else(|| numbered(&field), str::to_string), field));
        }
    }
    found
}

/// `field_5`, or `dev_0_5`, by the numbers of a field.
pub(crate) fn numbered(field: &Field<'_>) -> String {
    match field.developer() {
        None => format!("field_{}", field.number()),
        Some(index) => format!("dev_{index}_{}", field.number()),
    }
}

/// Whether a developer field has a name that means something else: the time, an attribute, what has no name.
fn is_taken(field: &Field<'_>, name: &str) -> bool {
    let is_number = |text: &str| !text.is_empty() && text.bytes().all(|byte| byte.is_ascii_digit());
    let is_reserved = match name.split('_').collect::<Vec<_>>()[..] {
        ["timestamp"] => true,
        ["field" | "message", number] => is_number(number),
        ["dev", index, number] => is_number(index) && is_number(number),
        _ => name.starts_with('.'),
    };
    field.developer().is_some() && is_reserved
}
