//! What a reader accumulates over the records of a file, and how that stays where messages before them are left out.
use crate::draft::Draft;
use crate::message::Message;
use crate::numbers::{
    AT_MESSAGE_CYCLES, AT_MESSAGE_DISTANCE, AT_MESSAGE_POWER, TOLD_CYCLES, TOLD_DISTANCE, TOLD_POWER,
};
use crate::outline::RECORD;
use crate::value_error::Unfit;

/// A value by the number of its field, with the name that this has in the profile.
pub(crate) type Numbered = (u8, &'static str, f64);

/// A field of records that has the low bits of what a reader accumulates.
struct Counter {
    field: u8,
    /// How many bytes an item has, and how many items there are.
    shape: (usize, usize),
    /// What the number is divided by, and how far it counts.
    divisor: u64,
    modulus: u64,
    /// What a reader is told: by which bit, where, and in which part of a unit.
    told: (u8, usize),
    part: f64,
    /// The field that has it whole.
    whole: (u8, &'static str),
}

const COUNTERS: [Counter; 3] = [
    Counter {
        field: 8,
        shape: (1, 3),
        divisor: 1 << 12,
        modulus: 1 << 12,
        told: (TOLD_DISTANCE, AT_MESSAGE_DISTANCE),
        part: 1.0 / 16.0,
        whole: (5, "distance"),
    },
    Counter {
        field: 18,
        shape: (1, 1),
        divisor: 1,
        modulus: 1 << 8,
        told: (TOLD_CYCLES, AT_MESSAGE_CYCLES),
        part: 1.0,
        whole: (19, "total_cycles"),
    },
    Counter {
        field: 28,
        shape: (2, 1),
        divisor: 1,
        modulus: 1 << 16,
        told: (TOLD_POWER, AT_MESSAGE_POWER),
        part: 1.0,
        whole: (29, "accumulated_power"),
    },
];

impl Counter {
    /// The sum with a message; none where that has no value of it.
    fn next(&self, before: u64, message: &Message<'_>) -> Option<u64> {
        let field = message.numbered(self.field).filter(|field| (field.width(), field.count()) == self.shape)?;
        let has_value = field.bytes().iter().any(|&byte| byte != 0xFF);
        let number = field.bytes().iter().rev().fold(0, |number, &byte| 256 * number + u64::from(byte));
        let step = (number / self.divisor).wrapping_sub(before) % self.modulus;
        before.checked_add(step).filter(|_| has_value)
    }
}

/// The sums that a reader of a file has so far.
#[derive(Clone, Copy, Default)]
pub(crate) struct Amounts([u64; 3]);

impl Amounts {
    /// Those after a message.
    pub(crate) fn after(mut self, message: &Message<'_>) -> Amounts {
        if message.number() == RECORD {
            for (counter, sum) in COUNTERS.iter().zip(&mut self.0) {
                *sum = counter.next(*sum, message).unwrap_or(*sum);
            }
        }
        self
    }

    /// Gives `then` a message whose sums are read as they were: where a reader wouldn't accumulate what is told of it, with the fields that have
    /// them whole, if there is room for these.
    pub(crate) fn kept<T>(self, message: &Message<'_>, then: impl FnOnce(&Message<'_>) -> T) -> T {
        match self.missing(message) {
            values if values.is_empty() => then(message),
            values => with_values(message, &values, |draft| match draft {
                Ok(draft) => then(&draft.message()),
                Err(_) => then(message),
            }),
        }
    }

    fn missing(self, message: &Message<'_>) -> Vec<Numbered> {
        let counters = COUNTERS.iter().zip(self.0).filter(|_| message.number() == RECORD);
        let missing = |(counter, before): (&Counter, u64)| {
            let (told, (number, name)) = (message.amount(counter.told.0, counter.told.1)?, counter.whole);
            let next = counter.next(before, message)?;
            let is_there = message.numbered(number).and_then(|field| field.value(0)).is_some();
            (next != told && !is_there).then(|| (number, name, told as f64 * counter.part))
        };
        counters.filter_map(missing).collect()
    }
}

/// Gives `then` a record with some values, or why they have no room in it.
pub(crate) fn with_values<T>(
    record: &Message<'_>,
    values: &[Numbered],
    then: impl FnOnce(Result<&Draft<'_>, Unfit>) -> T,
) -> T {
    let is_new = |of: &&Numbered| record.numbered(of.0).is_none();
    let wider = values.iter().filter(is_new).try_fold(record.definition(), |made, of| made.with(of.1, 1));
    let definition = match wider {
        Ok(definition) => definition,
        Err(unfit) => return then(Err(unfit)),
    };
    let mut draft = if values.iter().any(|of| is_new(&of)) { definition.filled(record) } else { record.draft() };
    let set = values.iter().try_for_each(|&(number, _, value)| draft.set(number, value));
    then(set.map(|()| &draft))
}
