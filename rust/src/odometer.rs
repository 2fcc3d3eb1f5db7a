//! The distances of records, which go on from one ride to the next one, and what a reader accumulates of them.
use crate::amounts::{with_values, Numbered};
use crate::message::Message;
use crate::value_error::Unfit;

const DISTANCE: u8 = 5;
const CYCLES: u8 = 19;
const POWER: u8 = 29;

/// Moves the distances of records, so that the first one is where the ride before them ended. What a reader accumulates over a file it would
/// tell otherwise where records before aren't those of the ride: so it is written as it is told, into the fields that have it whole.
pub(crate) struct Odometer {
    begin: f64,
    first: Option<f64>,
}

impl Odometer {
    pub(crate) fn new(begin: f64) -> Odometer {
        Odometer { begin, first: None }
    }

    /// What a record has to say: values by the numbers of their fields, with the base types and names of the profile.
    fn values(&mut self, record: &Message<'_>) -> Vec<Numbered> {
        let told = [
            (CYCLES, "total_cycles", record.total_cycles().map(|cycles| cycles as f64)),
            (POWER, "accumulated_power", record.accumulated_power().map(|power| power as f64)),
        ];
        let is_absent = |number: u8| record.numbered(number).and_then(|field| field.value(0)).is_none();
        let mut found: Vec<_> =
            told.into_iter().filter(|of| is_absent(of.0)).filter_map(|of| Some((of.0, of.1, of.2?))).collect();
        if let Some(distance) = record.distance().filter(|of| of.is_finite()) {
            found.push((DISTANCE, "distance", self.moved(distance)));
        }
        found.retain(|&(number, _, value)| record.numbered(number).and_then(|field| field.value(0)) != Some(value));
        found
    }

    /// A distance from where the ride before ended. One that is less than the first counts from 0 again.
    fn moved(&mut self, distance: f64) -> f64 {
        let first = match self.first {
            None => distance,
            Some(first) if distance < first => 0.0,
            Some(first) => first,
        };
        self.first = Some(first);
        distance - first + self.begin
    }

    /// Gives `then` a record as it goes on.
    pub(crate) fn put<T>(
        &mut self,
        record: &Message<'_>,
        then: impl FnOnce(&crate::draft::Draft<'_>) -> T,
    ) -> Result<T, Unfit> {
        with_values(record, &self.values(record), |draft| Ok(then(draft?)))
    }
}
