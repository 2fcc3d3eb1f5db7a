//! What an activity lacks that was broken off, or has samples alone: laps, a session, the activity message.
use crate::anew::{self, Values};
use crate::cut::Anew;
use crate::event::Event;
use crate::fault::Fault;
use crate::field::Value;
use crate::mend::{first_file, MendFault};
use crate::message::Message;
use crate::names::Names;
use crate::outline::{
    activity_of, span_of, sport_of, sport_values, usual, ACTIVITY, EVENT, LAP, RECORD, SESSION, SESSION_ENDS, SPORT,
};
use crate::pieces::{each_event, each_message};
use crate::ride::Ride;
use crate::summary::number_of;
use crate::timer::Timer;
use crate::writer::Writer;

/// The files of a good chain, each with the lap, the session and the activity message that it lacks. The session gets that sport, or else the
/// one that the file names.
pub(crate) fn completed(files: &[u8], sport: Option<&Values>) -> Result<Vec<u8>, MendFault> {
    let (names, mut made, mut rest) = (Names::shared_extra(), Vec::with_capacity(files.len()), files);
    while let Some((file, after)) = first_file(rest) {
        match lacking(file, &names, sport)? {
            lacking if lacking.is_empty() => made.extend_from_slice(file),
            lacking => made.extend(with(file, &names, &lacking)?),
        }
        rest = after;
    }
    Ok(made)
}

/// A file with more messages at its end.
fn with(file: &[u8], names: &Names, more: &[Anew]) -> Result<Vec<u8>, MendFault> {
    let mut out = Writer::new(Vec::with_capacity(file.len()));
    each_event(file, |event| {
        if let Event::End = event {
            more.iter().try_for_each(|(message, values)| anew::write(&mut out, names, message, values))?;
        }
        Ok::<(), MendFault>(out.copy(&event)?)
    })?;
    Ok(out.finish()?)
}

/// The messages that a file lacks: none where it has a session, or no record with a time.
fn lacking(file: &[u8], names: &Names, sport: Option<&Values>) -> Result<Vec<Anew>, Fault> {
    let mut told = Told::default();
    each_message(file, names, |message| {
        told.take(message);
        Ok::<(), Fault>(())
    })?;
    if told.has_session {
        return Ok(Vec::new());
    }
    told.timer.end();
    let mut ride = Ride::new(told.laps_end());
    each_message(file, names, |message| {
        if message.number() == RECORD {
            ride.take(message);
        }
        Ok::<(), Fault>(())
    })?;
    Ok(told.lacking(&ride, sport))
}

/// What a file says of itself, as far as that tells what it lacks.
#[derive(Default)]
struct Told {
    timer: Timer,
    /// The spans of its laps, and how long they say that the timer ran.
    laps: Vec<((i64, i64), Option<f64>)>,
    /// The sport that it names first.
    sport: Values,
    has_session: bool,
    has_activity: bool,
}

impl Told {
    fn take(&mut self, message: &Message<'_>) {
        match message.number() {
            EVENT => self.timer.take(message),
            LAP => self.laps.extend(span_of(message).map(|span| (span, number_of(message, "total_timer_time")))),
            SESSION => self.has_session |= span_of(message).is_some(),
            SPORT if self.sport.is_empty() => self.sport = sport_values(sport_of(message)),
            ACTIVITY => self.has_activity = true,
            _ => {}
        }
    }

    fn laps_end(&self) -> Option<i64> {
        self.laps.iter().map(|(span, _)| span.1).max()
    }

    fn lacking(&self, ride: &Ride, sport: Option<&Values>) -> Vec<Anew> {
        let span = if let Some(span) = ride.all.span() { span } else { return Vec::new() };
        let last = ride.last_lap(self.laps.len() as u64, self.laps_end(), &self.timer);
        let count = self.laps.len() + usize::from(last.is_some());
        // Laps that go on after the last record are those of a file that has more, and was broken off.
        let ran = match self.laps_end() {
            Some(end) if end > span.1 => self.timer.ran(span),
            _ => self.ran_in_laps() + last.as_ref().map_or(0.0, |(_, ran)| *ran),
        };
        let mut session = vec![("message_index", Value::Unsigned(0))];
        session.extend(ride.all.told(span, ran));
        session.extend(sport.unwrap_or(&self.sport).iter().copied());
        session.extend([("first_lap_index", Value::Unsigned(0)), ("num_laps", Value::Unsigned(count as u64))]);
        session.extend(usual(SESSION_ENDS));
        let mut made: Vec<Anew> = last.into_iter().map(|(lap, _)| ("lap", lap)).collect();
        made.push(("session", session));
        if !self.has_activity {
            made.push(("activity", activity_of(span.1, (1, ran), None, None)));
        }
        made
    }

    /// How long the timer ran in its laps, as these say or else by its events.
    fn ran_in_laps(&self) -> f64 {
        self.laps.iter().map(|(span, told)| told.unwrap_or_else(|| self.timer.ran(*span))).sum()
    }
}
