//! What is read of a file in the tests of its parts.
use gazhdor::{messages, Message, Messages, Names};
use std::collections::BTreeSet;

const DESCRIPTION: u16 = 206;

thread_local! {
    static NAMES: &'static Names = Box::leak(Box::new(Names::extra()));
}

/// What is read of a file.
pub struct Read {
    pub messages: Messages,
    names: &'static Names,
}

impl Read {
    pub fn of(file: &[u8]) -> Read {
        Read { messages: messages(file).unwrap(), names: NAMES.with(|names| *names) }
    }

    pub fn only<'r>(&'r self, name: &'r str) -> Vec<Message<'r>> {
        let all = self.messages.iter().map(|message| message.named(self.names));
        all.filter(|message| message.name() == Some(name)).collect()
    }

    pub fn records(&self) -> Vec<Message<'_>> {
        self.only("record")
    }

    /// The seconds of its records, each once.
    pub fn times(&self) -> BTreeSet<i64> {
        self.records().iter().filter(|record| record.time().is_some()).map(seconds).collect()
    }

    /// The developer fields that messages have before their file describes them.
    pub fn undescribed(&self) -> BTreeSet<(u8, u8)> {
        let (mut found, mut described, mut file) = (BTreeSet::new(), BTreeSet::new(), None);
        for message in self.messages.iter() {
            if file.replace(message.file()) != Some(message.file()) {
                described.clear();
            }
            if message.number() == DESCRIPTION {
                let byte = |number| message.numbered(number).and_then(|field| field.value(0)).map(|byte| byte as u8);
                described.extend(byte(0).zip(byte(1)));
            }
            let own = message.fields().filter_map(|field| Some((field.developer()?, field.number())));
            found.extend(own.filter(|of| !described.contains(of)));
        }
        found
    }

    /// How long its laps and its sessions say that the timer ran.
    pub fn ran_in(&self, name: &str) -> f64 {
        self.only(name).iter().map(ran_in).sum()
    }

    /// The intervals between beats, all one after another.
    pub fn beats(&self) -> Vec<f64> {
        let times = self.only("hrv").into_iter().filter_map(|beats| beats.field("time"));
        times.flat_map(|field| (0..field.count()).filter_map(move |k| field.value(k))).collect()
    }
}

pub fn seconds(message: &Message<'_>) -> i64 {
    message.time().unwrap().seconds().into()
}

pub fn number(message: &Message<'_>, field: &str) -> f64 {
    message.value(field).unwrap_or_else(|| panic!("{field} of {message:?}"))
}

pub fn sum(of: &[Message<'_>], field: &str) -> f64 {
    of.iter().map(|message| number(message, field)).sum()
}

pub fn near(one: f64, other: f64) -> bool {
    (one - other).abs() < 1e-6
}

pub fn distance(message: &Message<'_>) -> f64 {
    message.distance().unwrap()
}

pub fn ran_in(whole: &Message<'_>) -> f64 {
    whole.value("total_timer_time").unwrap_or_else(|| number(whole, "total_elapsed_time"))
}

/// From the first distance that records tell to the last one; 0 where none is told.
pub fn metres(records: &[Message<'_>]) -> f64 {
    let mut told = records.iter().filter_map(Message::distance);
    told.next().map_or(0.0, |first| told.last().unwrap_or(first) - first)
}
