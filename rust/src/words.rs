//! Words for the numbers of fields, as `cycling` for 2 in a field of type sport. They are no part of what is proved.
use crate::blocks::Entries;
use crate::field::{Field, Raw, Value};
use crate::names::Names;
use crate::profile;
use std::collections::BTreeMap;

/// A field is of type `kind` where the field `reference` of the message has a number.
struct Case {
    reference: u8,
    number: u64,
    kind: &'static str,
}

thread_local! {
    static WORDS: BTreeMap<&'static str, BTreeMap<u64, &'static str>> = all_words();
    static CASES: BTreeMap<(u16, u8), Vec<Case>> = all_cases();
}

/// The rows of a table of the crate, without its first line.
fn rows(text: &'static str) -> impl Iterator<Item = Vec<&'static str>> {
    text.lines().skip(1).map(|line| line.split('\t').collect())
}

fn all_words() -> BTreeMap<&'static str, BTreeMap<u64, &'static str>> {
    let mut found = BTreeMap::<_, BTreeMap<_, _>>::new();
    for row in rows(include_str!("words.tsv")) {
        if let [kind, number, word] = row[..] {
            found.entry(kind).or_default().insert(number.parse().unwrap_or_default(), word);
        }
    }
    found
}

fn all_cases() -> BTreeMap<(u16, u8), Vec<Case>> {
    let mut found = BTreeMap::<_, Vec<_>>::new();
    for row in rows(include_str!("subfields.tsv")) {
        let number = |cell: &str| cell.parse::<u16>().unwrap_or_default();
        if let [message, field, reference, has, kind] = row[..] {
            let case = Case { reference: number(reference) as u8, number: number(has).into(), kind };
            found.entry((number(message), number(field) as u8)).or_default().push(case);
        }
    }
    found
}

/// The words of a type by their numbers; none where there is no such type.
///
/// ```
/// assert_eq!(gazhdor::words("length_type"), [(0, "idle"), (1, "active")]);
/// ```
#[must_use]
pub fn words(kind: &str) -> Vec<(u64, &'static str)> {
    WORDS.with(|words| words.get(kind).map_or_else(Vec::new, |of| of.iter().map(|(&at, &word)| (at, word)).collect()))
}

/// The type that has this name, if there is one.
pub(crate) fn type_named(kind: &str) -> Option<&'static str> {
    WORDS.with(|words| words.get_key_value(kind).map(|(&kind, _)| kind))
}

impl Field<'_> {
    /// The word for its number, as `cycling` for the 2 of a sport; none where there is none, and of several numbers.
    ///
    /// What a product or a device type is called depends on another field of the message.
    ///
    /// ```
    /// # std::env::set_current_dir(env!("GAZHDOR_RIDES")).unwrap();
    /// # let ride = std::fs::read("ride.fit").unwrap();
    /// let messages = gazhdor::messages(&ride).unwrap();
    /// let first = messages.iter().next().unwrap();
    /// assert_eq!((first.word("type"), first.word("manufacturer")), (Some("course"), Some("garmin")));
    /// assert_eq!(first.field("time_created").unwrap().word(), None);
    /// ```
    #[must_use]
    pub fn word(&self) -> Option<&'static str> {
        match self.item(0) {
            Value::Unsigned(number) if self.count() == 1 => {
                let kind = self.type_of_words()?;
                WORDS.with(|words| words.get(kind)?.get(&number).copied())
            }
            _ => None,
        }
    }

    /// Whether its numbers may have words.
    pub(crate) fn has_words(&self) -> bool {
        self.measure().is_plain() && self.type_of_words().is_some()
    }

    /// The number that a word stands for in it.
    pub(crate) fn number_of_word(&self, word: &str) -> Option<u64> {
        let kind = self.type_of_words().filter(|_| self.measure().is_plain())?;
        WORDS.with(|words| words.get(kind)?.iter().find(|(_, &of)| of == word).map(|(&number, _)| number))
    }

    /// The type by which its numbers have words: that which the caller's names say, that of the case that the message is, or that of the
    /// profile.
    pub(crate) fn type_of_words(&self) -> Option<&'static str> {
        let (message, names) = self.defined()?;
        let of = (message, self.number());
        let own = names.and_then(|names| names.type_of(message, self.number()));
        let told = || profile::type_of(message, self.number());
        let extra = || Names::shared_extra().type_of(message, self.number());
        own.or_else(|| CASES.with(|cases| self.case(cases.get(&of)?))).or_else(told).or_else(extra)
    }

    fn case(&self, cases: &[Case]) -> Option<&'static str> {
        let has = |case: &Case| {
            let mut others = Entries::new(self.definition()).map(|entry| self.beside(entry));
            let of = others.find(|of| of.developer().is_none() && of.number() == case.reference);
            of.map_or(false, |of| of.is_lone_number() && of.raw(0) == Some(Raw::Unsigned(case.number)))
        };
        cases.iter().find(|case| has(case)).map(|case| case.kind)
    }
}
