//! The first number of a field, read from the blocks of many messages.
use crate::field::{bits_at, Field, Raw};
use crate::measure::Measure;

/// What is known of a field before a message is seen: where its first number is in the blocks, and what that stands for.
#[derive(Debug, Clone, Copy)]
pub(crate) struct Reader {
    begins: usize,
    width: u8,
    kind: u8,
    invalid: u64,
    measure: Measure,
}

impl Reader {
    /// None where the field has no numbers, or their scale is 0.
    pub(crate) fn of(field: &Field<'_>) -> Option<Reader> {
        let (measure, width) = (field.measure(), field.width() as u8);
        let (kind, invalid, begins) = (field.kind(), field.invalid(), field.begins());
        let is_there = field.count() != 0 && Raw::of(kind, width, 0).number().is_some() && measure.scale != 0.0;
        is_there.then_some(Reader { begins, width, kind, invalid, measure })
    }

    /// What [`Field::value`] gives of item 0, by the block of a message.
    pub(crate) fn value(&self, block: &[u8]) -> Option<f64> {
        let bits = bits_at(block, self.begins, self.width).filter(|&bits| bits != self.invalid)?;
        Some(self.measure.value(Raw::of(self.kind, self.width, bits).number()?))
    }
}
