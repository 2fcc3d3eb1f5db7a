//! How long the timer of a ride ran.
use crate::message::Message;
use crate::summary::whole;

/// The event of a timer, and its types.
const TIMER: i64 = 0;
const START: i64 = 0;
const STOPS: [i64; 4] = [1, 4, 8, 9];
/// More seconds than a time that a file has.
pub(crate) const EVER: i64 = 1 << 40;

/// Whether an event is the start of the timer; none where it is neither that nor its stop.
pub(crate) fn starts(event: &Message<'_>) -> Option<bool> {
    let kind = whole(event, 1).filter(|_| whole(event, 0) == Some(TIMER))?;
    (kind == START || STOPS.contains(&kind)).then_some(kind == START)
}

/// How many seconds the timer ran, by its events; all the time where there are none.
#[derive(Default)]
pub(crate) struct Timer {
    /// Times, and whether it starts then.
    events: Vec<(i64, bool)>,
    /// The beginning and the end of each time in which it ran, and how long it ran before.
    ran: Vec<(i64, i64, i64)>,
}

impl Timer {
    pub(crate) fn take(&mut self, event: &Message<'_>) {
        let time = event.time().map(|time| time.seconds().into());
        self.events.extend(time.zip(starts(event)));
    }

    /// All events are there.
    pub(crate) fn end(&mut self) {
        self.events.sort_by_key(|event| event.0);
        let begins_by_starting = self.events.first().map_or(false, |event| event.1);
        let (mut since, mut before) = (if begins_by_starting { None } else { Some(-EVER) }, 0);
        for &(time, is_start) in self.events.iter().chain(&[(EVER, false)]) {
            match since {
                None if is_start => since = Some(time),
                Some(begin) if !is_start => {
                    self.ran.push((begin, time, before));
                    (since, before) = (None, before + time - begin);
                }
                _ => {}
            }
        }
    }

    fn up_to(&self, time: i64) -> i64 {
        let count = self.ran.partition_point(|of| of.0 <= time);
        self.ran[..count].last().map_or(0, |&(begin, end, before)| before + end.min(time) - begin)
    }

    /// How long it ran from a second to another one.
    pub(crate) fn ran(&self, (start, end): (i64, i64)) -> f64 {
        (self.up_to(end) - self.up_to(start)) as f64
    }
}
