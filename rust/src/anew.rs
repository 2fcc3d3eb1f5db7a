//! Messages that are made anew, of what others come to.
use crate::definition::Definition;
use crate::draft::Key;
use crate::field::Value;
use crate::names::Names;
use crate::put_fault::WriteFault;
use crate::value_error::Unfit;
use crate::writer::Writer;
use std::cell::RefCell;
use std::collections::HashMap;
use std::io::Write;
use std::rc::Rc;

/// The values of a message by the names of its fields.
pub(crate) type Values = Vec<(&'static str, Value<'static>)>;

/// So many definitions are kept: these messages have few sets of fields.
const MOST: usize = 64;

/// What a message of fields of some names is written with: a definition, and whether it has each of them.
type Made = Rc<(Definition<'static>, Vec<bool>)>;
type Fields = (&'static str, Vec<&'static str>);

thread_local! {
    static MADE: RefCell<HashMap<Fields, Made>> = RefCell::new(HashMap::new());
}

/// Writes a message with these values. What a field can't have is left out, as the mean of values that no ride has.
pub(crate) fn write<W: Write>(
    out: &mut Writer<W>,
    names: &Names,
    message: &'static str,
    values: &Values,
) -> Result<(), WriteFault> {
    let mut fitting: Vec<_> = values.iter().collect();
    loop {
        let made = made(message, fitting.iter().map(|of| of.0).collect())?;
        let definition = made.0.named(names);
        let mut draft = definition.message();
        let known = fitting.into_iter().zip(&made.1).filter(|(_, is_known)| **is_known).map(|(value, _)| value);
        let fits: Vec<_> = (0..).zip(known).filter(|(at, of)| draft.set(Key::Position(*at), of.1).is_ok()).collect();
        if fits.len() == usize::from(definition.fields().count()) {
            return Ok(out.write(&draft)?);
        }
        fitting = fits.into_iter().map(|(_, value)| value).collect();
    }
}

/// What a message with these fields is written with, which is kept for the next one.
fn made(message: &'static str, fields: Vec<&'static str>) -> Result<Made, Unfit> {
    let of = (message, fields);
    if let Some(made) = MADE.with(|all| all.borrow().get(&of).cloned()) {
        return Ok(made);
    }
    let made = Rc::new(defined(message, &of.1)?);
    MADE.with(|all| {
        let mut all = all.borrow_mut();
        if all.len() == MOST {
            all.clear();
        }
        all.insert(of, made.clone());
    });
    Ok(made)
}

/// The definition of a message with those of some fields that it has, and which these are.
fn defined(message: &str, fields: &[&str]) -> Result<(Definition<'static>, Vec<bool>), Unfit> {
    let names = Names::shared_extra();
    let (mut made, mut known) = (Definition::by(&names, message, &[])?, Vec::with_capacity(fields.len()));
    for field in fields {
        let more = made.clone().with(field, 1).ok();
        known.push(more.is_some());
        made = more.unwrap_or(made);
    }
    Ok((made.unnamed(), known))
}
