//! The entry of a field in the block of a definition, as docs/BLOCKS.md has it.
use crate::base_type::BaseType;
use crate::blocks::put;
use crate::names::Named;
use crate::numbers::{
    AT_ENTRY_BASE_TYPE, AT_ENTRY_COUNT, AT_ENTRY_DECIMALS, AT_ENTRY_DEVELOPER, AT_ENTRY_INDEX, AT_ENTRY_INVALID,
    AT_ENTRY_KIND, AT_ENTRY_LENGTH, AT_ENTRY_NAME, AT_ENTRY_NUMBER, AT_ENTRY_OFFSET, AT_ENTRY_SCALE, AT_ENTRY_UNIT,
    AT_ENTRY_WIDTH, SIGNED,
};

/// What the entry of a field says.
pub(crate) struct Entry {
    pub(crate) number: u8,
    /// Of a developer field its developer data index.
    pub(crate) developer: Option<u8>,
    pub(crate) base_type: BaseType,
    pub(crate) items: u8,
    pub(crate) named: Named,
}

impl Entry {
    /// The entry, but for where the items begin in the block of a message.
    pub(crate) fn bytes(&self) -> Vec<u8> {
        let (name, unit) = (in_text(self.name()), in_text(self.named.unit.as_deref().unwrap_or("")));
        let is_whole = self.base_type.kind() <= SIGNED;
        let (scale, offset) = if is_whole { self.measure() } else { (1, 0) };
        let unit_at = AT_ENTRY_NAME + name.len();
        let mut entry = vec![0; AT_ENTRY_NAME];
        put(&mut entry, AT_ENTRY_LENGTH, &((unit_at + unit.len()) as u16).to_le_bytes());
        put(&mut entry, AT_ENTRY_UNIT, &(unit_at as u16).to_le_bytes());
        entry[AT_ENTRY_NUMBER] = self.number;
        entry[AT_ENTRY_DEVELOPER] = self.developer.is_some().into();
        entry[AT_ENTRY_INDEX] = self.developer.unwrap_or(0);
        entry[AT_ENTRY_BASE_TYPE] = self.base_type.code();
        entry[AT_ENTRY_KIND] = self.base_type.kind();
        entry[AT_ENTRY_WIDTH] = self.base_type.width();
        entry[AT_ENTRY_COUNT] = self.items;
        entry[AT_ENTRY_DECIMALS] = decimals(scale);
        put(&mut entry, AT_ENTRY_SCALE, &scale.to_le_bytes());
        put(&mut entry, AT_ENTRY_OFFSET, &offset.to_le_bytes());
        put(&mut entry, AT_ENTRY_INVALID, &self.base_type.invalid().to_le_bytes());
        entry.extend(name);
        entry.extend(unit);
        entry
    }

    pub(crate) fn label(&self) -> String {
        match (self.name(), self.developer) {
            ("", None) => format!("field_{}", self.number),
            ("", Some(index)) => format!("dev_{index}_{}", self.number),
            (name, _) => name.to_string(),
        }
    }

    fn name(&self) -> &str {
        self.named.name.as_deref().unwrap_or("")
    }

    /// Scale and offset of the profile, which are whole numbers.
    fn measure(&self) -> (u32, u32) {
        (self.named.scale.unwrap_or(1.0) as u32, self.named.offset.unwrap_or(0.0) as u32)
    }
}

/// A text as blocks have it: its bytes, a zero, and zeros up to a multiple of 8. What comes after its first zero, and after 255 bytes, is
/// left out.
pub(crate) fn in_text(text: &str) -> Vec<u8> {
    let text = text.split('\0').next().unwrap_or("");
    let end = (0..=text.len().min(255)).rev().find(|&end| text.is_char_boundary(end)).unwrap_or(0);
    let mut bytes = text.as_bytes()[..end].to_vec();
    bytes.resize(end / 8 * 8 + 8, 0);
    bytes
}

/// How many decimals a number over a scale has.
fn decimals(scale: u32) -> u8 {
    (0..9).find(|&decimals| 10_u64.pow(decimals) % u64::from(scale.max(1)) == 0).unwrap_or(0) as u8
}
