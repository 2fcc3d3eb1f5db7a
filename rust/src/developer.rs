//! Developer fields, which a file describes itself.
use crate::base_type::BaseType;
use crate::definition::Definition;
use crate::draft::Draft;
use crate::value_error::Unfit;

/// The global message number of descriptions.
const DESCRIPTION: u16 = 206;

/// A developer field: what the description of it says, which a file has before the first definition with it. A writer puts it there.
///
/// ```
/// use gazhdor::{BaseType, Definition, Developer, Writer};
///
/// let power = Developer { index: 0, number: 2, base_type: BaseType::Uint16, name: "Form power".into(), unit: "watts".into() };
/// let mut out = Writer::new(Vec::new());
/// let record = Definition::of("record", &["timestamp"])?.with_developer(&power, 1)?;
/// out.write(&record.message().with("timestamp", 1_000_000_000)?.with("Form power", 300)?)?;
/// let bytes = out.finish()?;
/// let messages = gazhdor::messages(&bytes)?;
/// assert_eq!(messages.iter().last().unwrap().value("Form power"), Some(300.0));
/// # Ok::<(), Box<dyn std::error::Error>>(())
/// ```
#[derive(Debug, Clone, PartialEq, Eq)]
pub struct Developer {
    /// The developer data index, which says whose field it is.
    pub index: u8,
    /// Its number among the fields of this index.
    pub number: u8,
    /// Its base type.
    pub base_type: BaseType,
    /// Its name.
    pub name: String,
    /// Its unit, which may be empty.
    pub unit: String,
}

impl Developer {
    /// That of its description.
    pub(crate) fn definition(&self) -> Result<Definition<'static>, Unfit> {
        // A text ends with a zero where there is room for it.
        let room = |text: &str| (text.len() + 1).min(255) as u8;
        Definition::numbered(DESCRIPTION)
            .with_field(0, BaseType::Uint8, 1)?
            .with_field(1, BaseType::Uint8, 1)?
            .with_field(2, BaseType::Uint8, 1)?
            .with_field(3, BaseType::String, room(&self.name))?
            .with_field(8, BaseType::String, room(&self.unit))
    }

    /// Its description, of that definition.
    pub(crate) fn message<'a>(&self, definition: &'a Definition<'_>) -> Result<Draft<'a>, Unfit> {
        let made = definition.message().with(0, self.index)?.with(1, self.number)?.with(2, self.base_type.code())?;
        made.with(3, self.name.as_str())?.with(8, self.unit.as_str())
    }
}
