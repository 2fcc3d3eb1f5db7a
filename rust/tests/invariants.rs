//! The parts of recordings, and these joined again: the sums of the whole, parts that say of themselves what their records say, and nothing of
//! outside their time. GAZHDOR_ACTIVITIES names a folder of activities, which python/tests/activities.py makes, GAZHDOR_RECORDINGS one of
//! recordings, and GAZHDOR_KNOWN one of the known files, which tests/known writes; what isn't named is left out.
mod made;
#[path = "made/read.rs"]
mod read;

use gazhdor::{join_as_one, Edit, EditFault, JoinFault, Message, Time};
use made::Random;
use read::{distance, metres, near, number, ran_in, seconds, sum, Read};
use std::collections::{BTreeMap, BTreeSet};
use std::fs;
use std::path::PathBuf;

const RIDE: &[u8] = include_bytes!(concat!(env!("GAZHDOR_RIDES"), "/ride.fit"));
/// At so many places each is cut.
const PLACES: usize = 20;
/// What may be written anew of a record: its time, and what is accumulated.
const ANEW: [u8; 4] = [253, 5, 19, 29];
/// What stays in each part: file_id, and what describes developer fields.
const STAYS: [u16; 3] = [0, 206, 207];
const FILE_ID: [u16; 1] = [0];
/// The known file whose parts can't be joined, and why: it has a developer field before the field is described. In the first part that is a field
/// of which nothing is known, and it stays one; in the next one it would come after the description of the first, and be read by it.
const NOT_JOINED: (&str, &str) =
    ("both.fit", "file 2 doesn't describe its developer field dev_0_5, and one before it does");

/// All that a record says but for what may be written anew.
fn whole(record: &Message<'_>) -> String {
    let stays = |field: &gazhdor::Field<'_>| field.developer().is_some() || !ANEW.contains(&field.number());
    let fields: Vec<_> = record
        .fields()
        .filter(stays)
        .map(|field| (field.number(), field.developer(), field.name(), field.unit(), field.base_type(), field.bytes()))
        .collect();
    format!("{:?} {fields:?}", record.time())
}

fn wholes(records: &[Message<'_>]) -> Vec<String> {
    records.iter().map(whole).collect()
}

/// The cycles and watts of all records before, by a field, or as a reader accumulates them.
fn counted(record: &Message<'_>) -> [Option<f64>; 2] {
    let value = |number: u8| record.numbered(number).and_then(|field| field.value(0));
    let told = [record.total_cycles(), record.accumulated_power()].map(|told| told.map(|told| told as f64));
    [value(19).or(told[0]), value(29).or(told[1])]
}

/// How long the timer ran up to a time, by the events of a file; all the time where there are none.
fn ran(events: &[(i64, bool)], time: i64) -> i64 {
    let (mut total, mut since) = (0, if events.is_empty() { Some(0) } else { None });
    for &(at, starts) in events.iter().filter(|event| event.0 <= time) {
        match since {
            None if starts => since = Some(at),
            Some(begin) if !starts => (total, since) = (total + at - begin, None),
            _ => {}
        }
    }
    total + since.map_or(0, |begin| time - begin)
}

type Span = (Option<i64>, Option<i64>);

/// The seconds at which a recording is cut: at random times of its records, and where these are few, at all of them but the first, and at others from
/// before them to after them.
fn places(times: &BTreeSet<i64>, random: &mut Random) -> BTreeSet<i64> {
    let mut left: Vec<_> = times.iter().copied().skip(1).collect();
    while left.len() > PLACES {
        left.swap_remove(random.below(left.len()));
    }
    let mut places: BTreeSet<_> = left.into_iter().collect();
    if let Some((first, last)) = times.first().zip(times.last()) {
        let begin = (first - PLACES as i64).max(1);
        while places.len() < PLACES {
            places.insert(begin + random.below((last + PLACES as i64 - begin) as usize) as i64);
        }
    }
    places
}

/// A recording, its parts with their spans, and these joined.
struct Case {
    name: String,
    whole: Read,
    parts: Vec<(Span, Read)>,
    joined: Read,
}

impl Case {
    /// A fault where its parts can't be joined: one has a developer field before its description, which the first one has.
    fn of(name: &str, file: &[u8], seed: u64) -> Result<Case, JoinFault> {
        let whole = Read::of(file);
        let places = places(&whole.times(), &mut Random(seed + 1));
        let begins = std::iter::once(None).chain(places.iter().map(|&cut| Some(cut)));
        let ends = places.iter().map(|&cut| Some(cut - 1)).chain([None]);
        let bytes: Vec<_> = begins.zip(ends).filter_map(|span| Some((span, part(file, span)?))).collect();
        let parts: Vec<_> = bytes.iter().map(|(span, part)| (*span, Read::of(part))).collect();
        let joined = join_as_one(bytes.iter().map(|(_, part)| part), Vec::new());
        let first = parts[0].1.undescribed();
        let is_refused = parts[1..].iter().any(|(_, part)| !part.undescribed().is_disjoint(&first));
        assert_eq!(joined.is_err(), is_refused, "{name}: whether its parts can be joined");
        Ok(Case { name: name.to_string(), whole, parts, joined: Read::of(&joined?) })
    }

    fn see(&self, what: &str, is_so: bool) {
        assert!(is_so, "{}: {what}", self.name);
    }

    /// The first second of each part but the first one.
    fn begins(&self) -> impl Iterator<Item = i64> + '_ {
        self.parts[1..].iter().filter_map(|(span, _)| span.0)
    }

    /// Of each gap between two parts the record before it and the one after it.
    fn gaps<'r>(&self, records: &[Message<'r>]) -> Vec<(Message<'r>, Message<'r>)> {
        let at = self.begins().map(|begin| records.partition_point(|record| seconds(record) < begin));
        at.map(|at| (records[at - 1], records[at])).collect()
    }

    fn events(&self) -> Vec<(i64, bool)> {
        let events = self.whole.only("event");
        let timer = events.iter().filter(|event| event.value("event") == Some(0.0));
        timer.map(|event| (seconds(event), event.value("event_type") == Some(0.0))).collect()
    }

    /// Whether by its events the timer runs up to the last record. Else its session, which counts on, contradicts them,
    /// and no parts come to both.
    fn runs_on(&self) -> bool {
        let end = self.whole.records().last().map_or(0, seconds);
        self.events().iter().rev().find(|event| event.0 < end).map_or(true, |event| event.1)
    }

    /// Nothing is in a part of outside its span but messages that stay in each, and records and beats of all are those of the whole.
    fn see_messages(&self, stays: &[u16]) {
        for ((begin, end), part) in &self.parts {
            let is_in = |time: i64| begin.map_or(true, |begin| time >= begin) && end.map_or(true, |end| time <= end);
            let has_time = |message: &Message<'_>| !stays.contains(&message.number()) && message.time().is_some();
            let times = part.messages.iter().filter(has_time);
            self.see("what is in a part is of its time", times.map(|message| seconds(&message)).all(is_in));
        }
        let of_parts: Vec<_> = self.parts.iter().flat_map(|(_, part)| wholes(&part.records())).collect();
        self.see("the records of the parts", of_parts == wholes(&self.whole.records()));
        self.see("the records that are joined", wholes(&self.joined.records()) == wholes(&self.whole.records()));
        let counts = |read: &Read| read.records().iter().map(counted).collect::<Vec<_>>();
        self.see("what is accumulated", counts(&self.joined) == counts(&self.whole));
        self.see("beats", self.joined.beats() == self.whole.beats());
    }

    /// What is joined names laps and lengths by the numbers that these have there, and no session that is gone.
    fn see_numbers(&self) {
        let (laps, lengths) = (self.joined.only("lap"), self.joined.only("length"));
        let index = |of: &Message<'_>, field: &str| of.value(field).map(|number| number as usize);
        let numbers = lengths.iter().map(|length| index(length, "message_index"));
        self.see("the numbers of lengths", numbers.eq((0..lengths.len()).map(Some)));
        for zones in self.joined.only("time_in_zone") {
            let lap = index(&zones, "reference_index").and_then(|number| laps.get(number));
            self.see("what has zones", zones.value("reference_mesg") == Some(19.0));
            self.see("the lap of zones", lap.map(seconds) == Some(seconds(&zones)));
        }
        for lap in &laps {
            let span = number(lap, "start_time") as i64 + 1..=seconds(lap);
            let first = lengths.iter().find(|length| span.contains(&seconds(length)));
            if let Some((told, first)) = index(lap, "first_length_index").zip(first) {
                self.see("the first length of a lap", Some(told) == index(first, "message_index"));
            }
        }
    }

    /// The sums of the joined parts are those of the whole, but for what lies between the parts.
    fn see_sums(&self) {
        let (records, events) = (self.whole.records(), self.events());
        let gaps = self.gaps(&records);
        let time =
            |(one, other): &(Message<'_>, Message<'_>)| ran(&events, seconds(other)) - ran(&events, seconds(one));
        let lost: i64 = gaps.iter().map(time).sum();
        let (sessions, laps) = (self.whole.only("session"), self.joined.only("lap"));
        let told = if sessions.is_empty() { self.whole.only("lap") } else { sessions };
        let (session, timer) = (self.joined.only("session")[0], sum(&laps, "total_timer_time"));
        let ran = match &told[..] {
            [] => ran(&events, seconds(&records[records.len() - 1])) as f64 - ran(&events, seconds(&records[0])) as f64,
            told => told.iter().map(ran_in).sum(),
        };
        self.see("one session", self.joined.only("session").len() == 1 && self.joined.only("activity").len() == 1);
        self.see("the timer of laps and session", number(&session, "total_timer_time") == timer);
        self.see("the timer", timer == ran - lost as f64);
        self.see("the number of laps", number(&session, "num_laps") == laps.len() as f64);
        if told.iter().all(|of| number(of, "total_elapsed_time") > 1.0) {
            let calories: Option<f64> = told.iter().map(|of| of.value("total_calories")).sum();
            self.see("calories", session.value("total_calories") == calories.filter(|_| !told.is_empty()));
        }
        let is_of = |begin: i64| move |record: &Message<'_>| seconds(record) < begin;
        let (mut left, mut metres_in) = (&records[..], 0.0);
        for begin in self.begins() {
            let (part, rest) = left.split_at(left.partition_point(is_of(begin)));
            metres_in += metres(part);
            left = rest;
        }
        let told = session.value("total_distance");
        let has_distance = records.iter().any(|record| record.distance().is_some());
        self.see("whether there is a distance", told.is_some() == has_distance);
        self.see("the distance", near(told.unwrap_or(0.0), metres_in + metres(left)));
    }

    /// What is so of the parts of a recording that is no activity of the tests.
    fn see_recording(&self, stays: &[u16]) {
        self.see_messages(stays);
        let agrees = self.whole.ran_in("lap") == self.whole.ran_in("session"); // Some end after their last lap.
        for (_, part) in self.parts.iter().filter(|_| self.parts.len() > 1) {
            self.see_recorded(part);
            self.see("the timer of its laps", !agrees || part.ran_in("lap") == part.ran_in("session"));
        }
        if self.whole.times().is_empty() {
            self.see("no session", self.joined.only("session").is_empty() && self.joined.only("activity").is_empty());
        } else if self.runs_on() {
            self.see_sums();
        }
    }

    /// The activity of a part of a recording says what its sessions say, and these and its laps what its records do.
    fn see_recorded(&self, part: &Read) {
        let (sessions, activities, records) = (part.only("session"), part.only("activity"), part.records());
        let told = ["num_sessions", "total_timer_time"].map(|field| number(&activities[0], field));
        self.see("what the activity says", told == [sessions.len() as f64, part.ran_in("session")]);
        for of in part.only("lap").iter().chain(&sessions) {
            let (start, end) = (number(of, "start_time") as i64, seconds(of));
            let is_in = |record: &Message<'_>| record.time().is_some() && (start..=end).contains(&seconds(record));
            let inside: Vec<_> = records.iter().copied().filter(is_in).collect();
            self.see("its time", number(of, "total_elapsed_time") == (end - start) as f64);
            self.see("its distance", near(of.value("total_distance").unwrap_or(0.0), metres(&inside)));
            let rates: Vec<_> = inside.iter().filter_map(|record| record.value("heart_rate")).collect();
            if !rates.is_empty() {
                let mean = (rates.iter().sum::<f64>() / rates.len() as f64 + 0.5).floor();
                let told = ["max_heart_rate", "avg_heart_rate"].map(|field| number(of, field));
                self.see("its heart rates", told == [rates.iter().copied().fold(0.0, f64::max), mean]);
            }
        }
    }

    /// A part of an activity says of itself what its laps, sessions and records say.
    fn see_part(&self, begin: Option<i64>, part: &Read) {
        let (laps, sessions, activities) = (part.only("lap"), part.only("session"), part.only("activity"));
        let timer = sum(&sessions, "total_timer_time");
        self.see("one activity", activities.len() == 1);
        let told = ["num_sessions", "total_timer_time"].map(|field| number(&activities[0], field));
        self.see("what the activity says", told == [sessions.len() as f64, timer]);
        self.see("the timer of laps", sum(&laps, "total_timer_time") == timer);
        let counts = sessions.iter().map(|of| ["first_lap_index", "num_laps"].map(|field| number(of, field) as i64));
        let of_sessions: Vec<_> = counts.flat_map(|[first, count]| first..first + count).collect();
        let indices: Vec<_> = laps.iter().map(|lap| number(lap, "message_index") as i64).collect();
        self.see("the numbers of laps", indices == of_sessions);
        let sports = |of: &[Message<'_>]| of.iter().map(|of| number(of, "sport") as u8).collect::<BTreeSet<_>>();
        self.see("sports", sports(&part.only("sport")).is_subset(&sports(&sessions)));
        let records = part.records();
        self.see("distances begin at 0", begin.is_none() || records[0].distance() == Some(0.0));
        laps.iter().chain(&sessions).for_each(|of| self.see_told(of, &records));
    }

    /// A lap or a session says what the records in its time do.
    fn see_told(&self, of: &Message<'_>, records: &[Message<'_>]) {
        let (start, end) = (number(of, "start_time") as i64, seconds(of));
        let inside: Vec<_> = records.iter().filter(|record| (start..=end).contains(&seconds(record))).collect();
        let metres = distance(inside[inside.len() - 1]) - distance(inside[0]);
        self.see("the distance of a lap or a session", near(number(of, "total_distance"), metres));
        self.see("its time", number(of, "total_elapsed_time") == (end - start) as f64);
        if let Some(most) = of.value("max_heart_rate") {
            let rates: Vec<_> = inside.iter().map(|record| number(record, "heart_rate")).collect();
            let mean = (rates.iter().sum::<f64>() / rates.len() as f64 + 0.5).floor();
            self.see("its heart rates", most == rates.iter().copied().fold(0.0, f64::max));
            self.see("their mean", of.value("avg_heart_rate") == Some(mean));
        }
    }

    /// Whole laps, or sessions, stay as they are, and what is cut has its sport, and its share of the calories.
    fn see_wholes(&self, name: &str) {
        let (told, mut shares) = (self.whole.only(name), BTreeMap::new());
        let index = |of: &Message<'_>| number(of, "message_index") as usize;
        for ((begin, end), part) in &self.parts {
            let is_whole = |of: &&Message<'_>| {
                begin.map_or(true, |begin| number(of, "start_time") as i64 >= begin)
                    && end.map_or(true, |end| seconds(of) <= end)
            };
            let found = part.only(name);
            for of in told.iter().filter(is_whole) {
                let stays = |other: &Message<'_>| other.fields().eq(of.fields());
                self.see("what is whole stays", found.iter().any(stays));
            }
            for of in &found {
                self.see("its sport", of.value("sport") == told[index(of)].value("sport"));
                *shares.entry(index(of)).or_insert(0.0) += number(of, "total_calories");
            }
        }
        // Of one that has a second alone, each part may have but one end.
        for (at, share) in shares.into_iter().filter(|(at, _)| number(&told[*at], "total_elapsed_time") > 1.0) {
            self.see("its calories", share == number(&told[at], "total_calories"));
        }
    }
}

/// The bytes of a part; none where no record is in it.
fn part(file: &[u8], (begin, end): Span) -> Option<Vec<u8>> {
    let time = |second: i64| Time::new(second as u32);
    let edit = begin.map_or(Edit::new(), |begin| Edit::new().from(time(begin)));
    match end.map_or(edit.clone(), |end| edit.to(time(end))).write(file, Vec::new()) {
        Ok((part, _)) => Some(part),
        Err(EditFault::Empty) => None,
        Err(fault) => panic!("{fault}"),
    }
}

/// The files of the folder that a variable names, in the order of their names.
fn files(variable: &str) -> Vec<(String, Vec<u8>)> {
    let folder = match std::env::var_os(variable) {
        Some(folder) => PathBuf::from(folder),
        None => {
            println!("{variable} isn't set, so its files aren't cut");
            return Vec::new();
        }
    };
    let paths: BTreeSet<_> = fs::read_dir(folder).unwrap().map(|entry| entry.unwrap().path()).collect();
    let name = |path: &PathBuf| path.file_name().unwrap().to_string_lossy().into_owned();
    paths.iter().map(|path| (name(path), fs::read(path).unwrap())).collect()
}

#[test]
fn activities() {
    for (seed, (name, file)) in (0..).zip(files("GAZHDOR_ACTIVITIES")) {
        let case = Case::of(&name, &file, seed).unwrap();
        case.see("its parts", case.parts.len() == PLACES + 1);
        case.see_messages(&FILE_ID);
        case.see_numbers();
        case.see_sums();
        case.parts.iter().for_each(|((begin, _), part)| case.see_part(*begin, part));
        ["lap", "session"].iter().for_each(|name| case.see_wholes(name));
    }
}

#[test]
fn recordings() {
    let ride = ("ride".to_string(), RIDE.to_vec());
    for (seed, (name, file)) in (0..).zip([ride].into_iter().chain(files("GAZHDOR_RECORDINGS"))) {
        Case::of(&name, &file, seed).unwrap().see_recording(&FILE_ID);
    }
}

#[test]
fn known() {
    let (files, mut refused) = (files("GAZHDOR_KNOWN"), Vec::new());
    for (seed, (name, file)) in (0..).zip(&files) {
        match Case::of(name, file, seed) {
            Ok(case) => case.see_recording(&STAYS),
            Err(fault) => refused.push((name.as_str(), fault.to_string())),
        }
    }
    let wanted = [NOT_JOINED].into_iter().filter(|_| !files.is_empty()).map(|(name, why)| (name, why.to_string()));
    assert_eq!(refused, wanted.collect::<Vec<_>>());
}
