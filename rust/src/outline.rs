//! What a file says of itself: its laps, its sessions, their sport, the clock of the place, and when its timer ran.
use crate::anew::Values;
use crate::fault::Fault;
use crate::field::Value;
use crate::message::Message;
use crate::names::Names;
use crate::pieces::each_message;
use crate::summary::{number_of, whole, whole_of};
use crate::timer::{Timer, EVER};
use std::collections::HashMap;

pub(crate) const SPORT: u16 = 12;
pub(crate) const SESSION: u16 = 18;
pub(crate) const LAP: u16 = 19;
pub(crate) const RECORD: u16 = 20;
pub(crate) const EVENT: u16 = 21;
pub(crate) const ACTIVITY: u16 = 34;
pub(crate) const LENGTH: u16 = 101;

/// The field of a lap, a length or a session that has its number among those of its kind.
pub(crate) const INDEX: u8 = 254;

/// What adds up where rides are put together.
pub(crate) const ADDED: [&str; 4] = ["total_calories", "total_ascent", "total_descent", "total_cycles"];

/// How a lap and a session mostly end: the event, that it stops, and that it ends with the session, or by hand.
pub(crate) const LAP_ENDS: [(&str, i64); 3] = [("event", 9), ("event_type", 1), ("lap_trigger", 7)];
pub(crate) const SESSION_ENDS: [(&str, i64); 3] = [("event", 8), ("event_type", 1), ("trigger", 0)];

/// What a lap or a session says of itself, beside its times. It is kept where it says any of that.
#[derive(Default, PartialEq)]
struct Said {
    timer: Option<f64>,
    index: Option<i64>,
    added: [Option<f64>; 4],
    sport: Sport,
    ends: [Option<i64>; 3],
}

/// The numbers of a sport, and of what it is more exactly.
pub(crate) type Sport = [Option<i64>; 2];

/// A lap or a session, with its first and its last second.
pub(crate) struct Told {
    number: u16,
    place: u64,
    pub(crate) span: (i64, i64),
    said: Option<Box<Said>>,
}

impl Told {
    /// None of a message without a time.
    fn of(message: &Message<'_>) -> Option<Told> {
        let said = Said {
            timer: number_of(message, "total_timer_time"),
            index: whole(message, INDEX),
            added: ADDED.map(|name| number_of(message, name)),
            sport: sport_of(message),
            ends: ends_of(message.number()).map(|(name, _)| whole_of(message, name)),
        };
        let (number, place, span) = (message.number(), message.place(), span_of(message)?);
        Some(Told { number, place, span, said: Some(said).filter(|said| *said != Said::default()).map(Box::new) })
    }

    pub(crate) fn number(&self) -> u16 {
        self.number
    }

    /// Where it stands in its source.
    pub(crate) fn place(&self) -> u64 {
        self.place
    }

    /// How long it says that its timer ran.
    pub(crate) fn timer(&self) -> Option<f64> {
        self.said.as_ref()?.timer
    }

    /// What of it adds up, in the order of [`ADDED`].
    pub(crate) fn added(&self) -> [Option<f64>; 4] {
        self.said.as_ref().map_or([None; 4], |said| said.added)
    }

    /// Its number among those of its kind.
    pub(crate) fn index(&self) -> Option<i64> {
        self.said.as_ref()?.index
    }

    pub(crate) fn sport(&self) -> Sport {
        self.said.as_ref().map_or([None; 2], |said| said.sport)
    }

    /// Why it ended.
    pub(crate) fn ends(&self) -> Values {
        let own = self.said.as_ref().map_or([None; 3], |said| said.ends);
        let ends = ends_of(self.number).into_iter().zip(own);
        ends.map(|((name, usual), own)| (name, Value::Signed(own.unwrap_or(usual)))).collect()
    }
}

fn ends_of(number: u16) -> [(&'static str, i64); 3] {
    match number {
        LAP => LAP_ENDS,
        _ => SESSION_ENDS,
    }
}

/// An activity message: where it stands, its type, its event, and the type of that.
pub(crate) struct Activity {
    pub(crate) place: u64,
    own: [Option<i64>; 3],
}

/// Messages of a kind, by the numbers that they have: which of them it is, counted from 0. Of several that have one number the first counts.
#[derive(Default)]
pub(crate) struct Counted {
    count: u64,
    by_index: HashMap<i64, u64>,
}

impl Counted {
    fn take(&mut self, message: &Message<'_>) {
        if let Some(index) = whole(message, INDEX) {
            self.by_index.entry(index).or_insert(self.count);
        }
        self.count += 1;
    }

    pub(crate) fn number(&self, index: i64) -> Option<u64> {
        self.by_index.get(&index).copied()
    }
}

/// What a file says of itself.
#[derive(Default)]
pub(crate) struct Outline {
    pub(crate) laps: Vec<Told>,
    pub(crate) sessions: Vec<Told>,
    /// Each with where it stands.
    pub(crate) sports: Vec<(u64, Sport)>,
    pub(crate) activities: Vec<Activity>,
    /// All laps, and all lengths.
    pub(crate) counted_laps: Counted,
    pub(crate) lengths: Counted,
    /// How many seconds the clock of the place is ahead of UTC.
    pub(crate) zone: Option<i64>,
    pub(crate) timer: Timer,
}

impl Outline {
    /// That of a good file.
    pub(crate) fn of(file: &[u8], names: &Names) -> Result<Outline, Fault> {
        let mut outline = Outline::default();
        each_message(file, names, |message| {
            outline.take(message);
            Ok::<(), Fault>(())
        })?;
        outline.timer.end();
        Ok(outline)
    }

    fn take(&mut self, message: &Message<'_>) {
        match message.number() {
            EVENT => self.timer.take(message),
            LAP => {
                self.counted_laps.take(message);
                self.laps.extend(Told::of(message));
            }
            LENGTH => self.lengths.take(message),
            SESSION => self.sessions.extend(Told::of(message)),
            SPORT => self.sports.push((message.place(), sport_of(message))),
            ACTIVITY => {
                let zone = whole_of(message, "local_timestamp").zip(message.time());
                self.zone = self.zone.or_else(|| zone.map(|(local, time)| local.saturating_sub(time.seconds().into())));
                let own = ACTIVITY_OWN.map(|(name, _)| whole_of(message, name));
                self.activities.push(Activity { place: message.place(), own });
            }
            _ => {}
        }
    }

    /// The sport of its first session, or where it has none, the one that it names first.
    pub(crate) fn sport(&self) -> Values {
        let told = self.sessions.iter().map(Told::sport).chain(self.sports.iter().map(|(_, sport)| *sport));
        sport_values(told.into_iter().find(|sport| *sport != [None; 2]).unwrap_or_default())
    }

    /// The last second of its laps.
    pub(crate) fn laps_end(&self) -> Option<i64> {
        self.laps.iter().map(|lap| lap.span.1).max()
    }

    /// The spans of its laps and sessions.
    pub(crate) fn spans(&self) -> impl Iterator<Item = (i64, i64)> + '_ {
        self.laps.iter().chain(&self.sessions).map(|of| of.span)
    }

    /// How long the timer ran in its laps, as these say or else by its events.
    pub(crate) fn ran_in_laps(&self) -> f64 {
        self.laps.iter().map(|lap| lap.timer().unwrap_or_else(|| self.timer.ran(lap.span))).sum()
    }

    /// How long the timer ran in a span, by its events.
    pub(crate) fn ran(&self, span: (i64, i64)) -> f64 {
        self.timer.ran(span)
    }

    /// What its sessions come to, or its laps, in what adds up; none where not all of them say it.
    pub(crate) fn added(&self) -> [Option<f64>; 4] {
        let sum = |of: &[Told], k: usize| match of {
            [] => None,
            of => of.iter().map(|told| told.added()[k]).sum(),
        };
        [0, 1, 2, 3].map(|k| sum(&self.sessions, k).or_else(|| sum(&self.laps, k)))
    }
}

/// The first and the last second of a lap or a session; none where it has no time.
pub(crate) fn span_of(message: &Message<'_>) -> Option<(i64, i64)> {
    let start = whole_of(message, "start_time").map(|start| start.clamp(-EVER, EVER));
    let told = message.time().map(|time| i64::from(time.seconds()));
    let lasts = number_of(message, "total_elapsed_time").map(|seconds| (seconds + 0.5).floor() as i64);
    let lasts = lasts.map(|seconds| seconds.clamp(-EVER, EVER));
    let (start, end) = match (start, lasts) {
        (Some(start), Some(lasts)) => (start, start + lasts),
        (Some(start), None) => (start, told?),
        (None, lasts) => (told? - lasts.unwrap_or(0), told?),
    };
    Some((start, start.max(end)))
}

const SPORT_FIELDS: [&str; 2] = ["sport", "sub_sport"];

/// The sport that a message says.
pub(crate) fn sport_of(message: &Message<'_>) -> Sport {
    SPORT_FIELDS.map(|name| whole_of(message, name))
}

/// The values of a sport.
pub(crate) fn sport_values(sport: Sport) -> Values {
    let told = SPORT_FIELDS.into_iter().zip(sport);
    told.filter_map(|(name, number)| Some((name, Value::Signed(number?)))).collect()
}

/// What an activity message mostly says beside its times.
const ACTIVITY_OWN: [(&str, i64); 3] = [("type", 0), ("event", 26), ("event_type", 1)];

/// The activity message of that many sessions in which the timer ran so long, the last of which ends at a second.
pub(crate) fn activity_of(end: i64, (count, ran): (usize, f64), zone: Option<i64>, told: Option<&Activity>) -> Values {
    let own = told.map_or([None; 3], |told| told.own);
    let mut values = vec![("timestamp", Value::Signed(end)), ("total_timer_time", Value::Float(ran))];
    values.push(("num_sessions", Value::Unsigned(count as u64)));
    let said = ACTIVITY_OWN.into_iter().zip(own);
    values.extend(said.map(|((name, usual), own)| (name, Value::Signed(own.unwrap_or(usual)))));
    values.extend(zone.map(|zone| ("local_timestamp", Value::Signed(end.saturating_add(zone)))));
    values
}

/// Values that end a message in the usual way.
pub(crate) fn usual(ends: [(&'static str, i64); 3]) -> impl Iterator<Item = (&'static str, Value<'static>)> {
    ends.into_iter().map(|(name, number)| (name, Value::Signed(number)))
}
