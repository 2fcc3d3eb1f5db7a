//! What the records of a file come to: all of them, and those after its last lap.
use crate::anew::Values;
use crate::field::Value;
use crate::message::Message;
use crate::outline::{usual, LAP_ENDS};
use crate::summary::Summary;
use crate::timer::Timer;

/// The records of a file.
#[derive(Default)]
pub(crate) struct Ride {
    pub(crate) all: Summary,
    rest: Summary,
    /// The last second of its laps.
    laps_end: Option<i64>,
}

impl Ride {
    pub(crate) fn new(laps_end: Option<i64>) -> Ride {
        Ride { laps_end, ..Ride::default() }
    }

    pub(crate) fn take(&mut self, record: &Message<'_>) {
        self.all.take(record);
        let time = record.time().map(|time| i64::from(time.seconds()));
        if time.map_or(false, |time| self.laps_end.map_or(true, |end| time > end)) {
            self.rest.take(record);
        }
    }

    /// A lap of the records that are in none, by what it is counted, and how long the timer ran in it; none where it didn't run beside those
    /// that are. `last` is the last second of the laps and sessions.
    pub(crate) fn last_lap(&self, index: u64, last: Option<i64>, timer: &Timer) -> Option<(Values, f64)> {
        let (start, end) = self.rest.span()?;
        let span = (self.laps_end.unwrap_or(start), last.map_or(end, |last| last.max(end)));
        let ran = timer.ran(span);
        let mut lap = vec![("message_index", Value::Unsigned(index))];
        lap.extend(self.rest.lap(span, ran).into_iter().chain(usual(LAP_ENDS)));
        (ran != 0.0 || self.laps_end.is_none()).then_some((lap, ran))
    }
}
