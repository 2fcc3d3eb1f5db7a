//! A part of a recording: the messages of a span of time, and what says of them what they come to.
use crate::anew::Values;
use crate::field::Value;
use crate::message::Message;
use crate::odometer::Odometer;
use crate::outline::{
    activity_of, sport_values, usual, Activity, Outline, Sport, Told, ACTIVITY, LAP, LAP_ENDS, RECORD, SESSION,
    SESSION_ENDS, SPORT,
};
use crate::summary::{whole, whole_of, Summary};
use std::collections::{HashMap, HashSet};

/// file_id, field_description and developer_data_id stay; time_in_zone is of a session or a lap.
const STAYS: [u16; 3] = [0, 206, 207];
const ZONES: u16 = 216;
/// So many laps and sessions are cut.
const MOST: usize = 100;

/// The first and the last second that stay.
#[derive(Clone, Copy, Default)]
pub(crate) struct Span {
    pub(crate) begin: Option<i64>,
    pub(crate) end: Option<i64>,
}

impl Span {
    fn has(self, time: i64) -> bool {
        self.begin.map_or(true, |begin| time >= begin) && self.end.map_or(true, |end| time <= end)
    }

    fn has_all(self, (first, last): (i64, i64)) -> bool {
        self.has(first) && self.has(last)
    }

    /// Whether some second of both is the same.
    fn touches(self, (first, last): (i64, i64)) -> bool {
        self.begin.map_or(true, |begin| last >= begin) && self.end.map_or(true, |end| first <= end)
    }

    /// Whether some time of both is the same, and not a second alone with which the one ends and the other begins.
    fn overlaps(self, (first, last): (i64, i64)) -> bool {
        let has_time = self.begin.map_or(true, |begin| last > begin) && self.end.map_or(true, |end| first < end);
        self.has_all((first, last)) || has_time
    }
}

/// What of a lap or a session is in the span: its beginning and its end, where these are.
type Inner = (Option<i64>, Option<i64>);

/// A message that is made anew: its name and its values.
pub(crate) type Anew = (&'static str, Values);

/// What stands where a message was.
pub(crate) enum Kept {
    AsItIs,
    Anew(Anew),
    Left,
}

/// What stays of a file. Its records are taken in first, and then each of its messages is asked for.
pub(crate) struct Part {
    span: Span,
    outline: Outline,
    all: Summary,
    /// Whether a lap, and a session, has more in the span than the second with which it ends or begins.
    overlaps: [bool; 2],
    /// Of the laps and sessions that are cut, the part of each.
    cut: HashMap<Inner, Summary>,
    /// The laps, sessions and activities that are made anew, by their places, and the sports and activities that are left out.
    made: HashMap<u64, Anew>,
    left: HashSet<u64>,
    /// The laps and sessions that stay as they are, by their numbers, once that is asked.
    wholes: Option<HashSet<(i64, Option<i64>)>>,
    /// The time of the last record that was taken in, and of the last message that was asked for.
    record_time: Option<i64>,
    time: Option<i64>,
    /// Whether a record stays, and whether one before it was left out.
    has_record: bool,
    is_later: bool,
    pub(crate) odometer: Option<Odometer>,
}

impl Part {
    /// None where too many laps and sessions would be cut.
    pub(crate) fn new(span: Span, outline: Outline) -> Option<Part> {
        let any = |of: &[Told]| of.iter().any(|of| span.overlaps(of.span));
        let overlaps = [any(&outline.laps), any(&outline.sessions)];
        let mut part = Part {
            span,
            outline,
            all: Summary::default(),
            overlaps,
            cut: HashMap::new(),
            made: HashMap::new(),
            left: HashSet::new(),
            wholes: None,
            record_time: None,
            time: None,
            has_record: false,
            is_later: false,
            odometer: None,
        };
        let mut cut = HashMap::new();
        for of in part.told().filter(|of| !part.is_whole(of) && part.is_in(of)) {
            cut.insert(part.inner(of), Summary::default());
            if cut.len() > MOST {
                return None;
            }
        }
        part.cut = cut;
        Some(part)
    }

    fn told(&self) -> impl Iterator<Item = &Told> {
        self.outline.laps.iter().chain(&self.outline.sessions)
    }

    fn is_whole(&self, of: &Told) -> bool {
        self.span.has_all(of.span)
    }

    /// Whether a lap or a session has a part in the span: the second with which it begins or ends, if that is all that there is of any.
    fn is_in(&self, of: &Told) -> bool {
        match self.overlaps[usize::from(of.number() == SESSION)] {
            true => self.span.overlaps(of.span),
            false => self.span.touches(of.span),
        }
    }

    /// Whether a lap or a session stays, as it is or made anew.
    fn stays(&self, of: &Told) -> bool {
        self.is_whole(of) || self.made.contains_key(&of.place())
    }

    fn inner(&self, of: &Told) -> Inner {
        let (first, last) = of.span;
        (Some(first).filter(|&time| self.span.has(time)), Some(last).filter(|&time| self.span.has(time)))
    }

    /// Takes in a record.
    pub(crate) fn take(&mut self, record: &Message<'_>) {
        self.record_time = record.time().map(|time| time.seconds().into()).or(self.record_time);
        if let Some(time) = self.record_time.filter(|&time| self.span.has(time)) {
            self.all.take(record);
            for (&(first, last), summary) in &mut self.cut {
                if first.map_or(true, |first| time >= first) && last.map_or(true, |last| time <= last) {
                    summary.take(record);
                }
            }
        }
    }

    /// All records are taken in. Says whether there are some with times.
    pub(crate) fn end(&mut self) -> bool {
        let anew = |of: &Told, made: Option<Anew>| Some((of.place(), made?));
        let cut = |of: &&Told| !self.span.has_all(of.span);
        let laps = self.outline.laps.iter().filter(cut).filter_map(|lap| anew(lap, self.lap(lap)));
        self.made = laps.collect();
        let sessions = self.outline.sessions.iter().filter(cut).filter_map(|of| anew(of, self.session(of)));
        let sessions: Vec<_> = sessions.collect();
        self.made.extend(sessions);
        self.left = self.sports_left();
        let (told, activities) = (&self.outline.sessions, &self.outline.activities);
        if told.is_empty() {
            self.left.extend(activities.iter().map(|activity| activity.place));
        } else if !told.iter().all(|of| self.is_whole(of)) {
            let stay: Vec<_> = told.iter().filter(|of| self.stays(of)).collect();
            let end = stay.iter().map(|of| self.end_of(of)).max();
            let end = end.unwrap_or_else(|| self.all.span().map_or(0, |span| span.1));
            let ran = (stay.len(), stay.iter().map(|of| self.timer(of)).sum());
            let of = |activity: &Activity| activity_of(end, ran, self.outline.zone, Some(activity));
            let made: Vec<_> = activities.iter().map(|activity| (activity.place, ("activity", of(activity)))).collect();
            self.made.extend(made);
        }
        self.all.span().is_some()
    }

    /// The sports of which no session stays: of the one with its number, where there is one for each.
    fn sports_left(&self) -> HashSet<u64> {
        let (sessions, sports) = (&self.outline.sessions, &self.outline.sports);
        let mut stay = HashMap::new();
        for session in sessions {
            *stay.entry(session.sport()).or_insert(false) |= self.is_in(session);
        }
        let is_left = |(number, (_, sport)): &(usize, &(u64, Sport))| match sessions.len() == sports.len() {
            true => !self.is_in(&sessions[*number]),
            false => stay.get(sport) == Some(&false),
        };
        sports.iter().enumerate().filter(is_left).map(|(_, (place, _))| *place).collect()
    }

    /// What a lap comes to in the span.
    fn lap(&self, lap: &Told) -> Option<Anew> {
        let (summary, span) = self.part_of(lap)?;
        let mut values = summary.lap(span, self.outline.ran(span));
        values.extend(own(lap));
        values.extend(self.calories(lap));
        Some(("lap", values))
    }

    /// What a session comes to: its timer is that of its laps, where it has some, and of the time after them.
    fn session(&self, session: &Told) -> Option<Anew> {
        let (summary, (start, end)) = self.part_of(session)?;
        let (begin, over) = session.span;
        let is_of = |lap: &&Told| begin <= lap.span.0 && lap.span.0 < over.max(begin + 1);
        let laps = || self.outline.laps.iter().filter(is_of);
        let stay: Vec<_> = laps().filter(|lap| self.stays(lap)).collect();
        let laps_end = laps().filter(|lap| lap.span.0 <= end).map(|lap| lap.span.1.min(end)).max();
        let since = laps_end.filter(|_| !stay.is_empty()).map_or(start, |end| end.max(start));
        let ran = stay.iter().map(|lap| self.timer(lap)).sum::<f64>() + self.outline.ran((since, end));
        let mut values = summary.told((start, end), ran);
        values.extend(own(session));
        if let Some(first) = stay.first() {
            values.extend(counts(first.index(), stay.len()));
        }
        values.extend(self.calories(session));
        Some(("session", values))
    }

    /// Of a lap or a session that is cut what its records come to, and its span.
    fn part_of(&self, of: &Told) -> Option<(&Summary, (i64, i64))> {
        let (first, last) = self.inner(of);
        let summary = self.cut.get(&(first, last)).filter(|_| self.is_in(of))?;
        let (start, end) = summary.span()?;
        Some((summary, (first.unwrap_or(start), last.unwrap_or(end))))
    }

    /// How long the timer ran in a lap, or a session, that stays.
    fn timer(&self, of: &Told) -> f64 {
        let told = match self.made.get(&of.place()) {
            Some((_, values)) => number(values, "total_timer_time"),
            None => of.timer(),
        };
        told.unwrap_or_else(|| self.outline.ran(of.span))
    }

    /// The last second of a lap or a session that stays.
    fn end_of(&self, of: &Told) -> i64 {
        let made = self.made.get(&of.place()).and_then(|(_, values)| number(values, "timestamp"));
        made.map_or(of.span.1, |time| time as i64)
    }

    /// The calories of a lap or a session that is cut: as many as its part of the time in which the timer ran, so that those of all parts are
    /// those of the whole.
    fn calories(&self, of: &Told) -> Option<(&'static str, Value<'static>)> {
        let told = of.added()[0].filter(|told| told.fract() == 0.0)? as i64;
        let (first, last) = of.span;
        let whole = self.outline.ran(of.span) as i64;
        let up_to = |time: i64| {
            let ran = self.outline.ran((first, time.clamp(first, last)));
            match whole {
                0 => told * i64::from(time >= last),
                whole => (i128::from(told) * ran as i128 / i128::from(whole)) as i64,
            }
        };
        // The second with which it begins, or ends, is mostly no part of it.
        let before = self.span.begin.filter(|&begin| begin > first + 1).map_or(0, up_to);
        let after = match self.span.end.filter(|&end| end < last) {
            None => told,
            Some(end) if end > first => up_to(end + 1),
            Some(_) => 0,
        };
        Some(("total_calories", Value::Signed(after - before)))
    }

    /// What stands where a message was.
    pub(crate) fn kept(&mut self, message: &Message<'_>) -> Kept {
        let number = message.number();
        if STAYS.contains(&number) {
            return Kept::AsItIs;
        }
        self.time = message.time().map(|time| time.seconds().into()).or(self.time);
        let told = self.told_of(message);
        if [SPORT, ACTIVITY].contains(&number) || told.is_some() {
            let stays = told.map_or_else(|| !self.left.contains(&message.place()), |of| self.is_whole(of));
            let made = self.made.get(&message.place()).cloned().map(Kept::Anew);
            return made.unwrap_or(if stays { Kept::AsItIs } else { Kept::Left });
        }
        if number == ZONES && !self.is_of_whole(message) {
            return Kept::Left;
        }
        // One that sums up a time of its own stays where all of that does.
        let start = whole_of(message, "start_time");
        let stays = |time: i64| self.span.has(time) && start.map_or(true, |start| self.span.has(start));
        if self.time.map_or(true, stays) {
            self.has_record |= number == RECORD;
            if number == RECORD && self.is_later && self.odometer.is_none() {
                self.odometer = Some(Odometer::new(0.0)); // distances begin at 0 again
            }
            return Kept::AsItIs;
        }
        self.is_later |= number == RECORD && !self.has_record;
        Kept::Left
    }

    /// The lap or the session that a message is, where it has a time.
    fn told_of(&self, message: &Message<'_>) -> Option<&Told> {
        let all = match message.number() {
            LAP => &self.outline.laps,
            SESSION => &self.outline.sessions,
            _ => return None,
        };
        Some(&all[all.binary_search_by_key(&message.place(), Told::place).ok()?])
    }

    /// Whether the lap or the session that a message is of stays as it is.
    fn is_of_whole(&mut self, message: &Message<'_>) -> bool {
        if self.wholes.is_none() {
            let wholes = self.told().filter(|of| self.is_whole(of)).map(|of| (of.number().into(), of.index()));
            self.wholes = Some(wholes.collect());
        }
        let of = whole(message, 0).map(|number| (number, whole(message, 1)));
        self.wholes.as_ref().zip(of).map_or(false, |(wholes, of)| wholes.contains(&of))
    }

    /// What a file gets at its end that has records in the span, and no session: a lap, where it has none, a session and an activity.
    pub(crate) fn rest(&self) -> Vec<Anew> {
        let span = match self.all.span() {
            Some(span) if self.outline.sessions.is_empty() => span,
            _ => return Vec::new(),
        };
        let laps: Vec<_> = self.outline.laps.iter().filter(|lap| self.stays(lap)).collect();
        let mut made = Vec::new();
        let mut ran = laps.iter().map(|lap| self.timer(lap)).sum();
        if laps.is_empty() {
            ran = self.outline.ran(span);
            let mut lap = vec![("message_index", Value::Unsigned(0))];
            lap.extend(self.all.lap(span, ran).into_iter().chain(usual(LAP_ENDS)));
            made.push(("lap", lap));
        }
        let mut session = vec![("message_index", Value::Unsigned(0))];
        session.extend(self.all.told(span, ran).into_iter().chain(self.outline.sport()));
        session.extend(counts(laps.first().and_then(|lap| lap.index()), laps.len().max(1)));
        session.extend(usual(SESSION_ENDS));
        made.push(("session", session));
        made.push(("activity", activity_of(span.1, (1, ran), self.outline.zone, self.outline.activities.first())));
        made
    }
}

fn number(values: &Values, name: &str) -> Option<f64> {
    match values.iter().find(|(of, _)| *of == name)?.1 {
        Value::Signed(number) => Some(number as f64),
        Value::Float(number) => Some(number),
        _ => None,
    }
}

/// What a lap or a session that is cut keeps of its own: why it ended, its number, its sport.
fn own(of: &Told) -> Values {
    let index = of.index().map(|index| ("message_index", Value::Signed(index)));
    of.ends().into_iter().chain(index).chain(sport_values(of.sport())).collect()
}

/// The number of the first lap of a session, and how many it has.
fn counts(first: Option<i64>, count: usize) -> [(&'static str, Value<'static>); 2] {
    [("first_lap_index", Value::Signed(first.unwrap_or(0))), ("num_laps", Value::Unsigned(count as u64))]
}
