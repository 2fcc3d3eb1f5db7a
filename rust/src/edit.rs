//! Changes of whole files: fields emptied, times moved, a part cut out.
use crate::anew;
use crate::cut::{Anew, Kept, Part, Span};
use crate::draft::{Draft, Key};
use crate::event::Event;
use crate::fault::Fault;
use crate::field::{Raw, Value};
use crate::items;
use crate::mend::first_file;
use crate::message::Message;
use crate::names::Names;
use crate::numbers::{TOLD_CYCLES, TOLD_DISTANCE, TOLD_POWER, TOLD_SPEED};
use crate::outline::{Outline, RECORD};
use crate::pieces::{each_event, each_message};
use crate::places::tells_place;
use crate::profile;
use crate::put_fault::WriteFault;
use crate::ready::is_time;
use crate::time::Time;
use crate::value_error::{label, Unfit};
use crate::writer::Writer;
use std::collections::{BTreeMap, HashMap, HashSet};
use std::error::Error;
use std::fmt::{self, Display, Formatter};
use std::io::Write;
use std::rc::Rc;

const POSITION: &str = "position";
const TIMESTAMP: u8 = 253;
/// Of fields of records, by their numbers, what a reader tells of them beside their values: speed and sums.
const TOLD: [(u8, u8); 3] = [(8, TOLD_SPEED | TOLD_DISTANCE), (18, TOLD_CYCLES), (28, TOLD_POWER)];
/// The same of the fields that have these sums whole.
const WHOLE: [(&str, u8, u8); 3] =
    [("distance", 5, TOLD_DISTANCE), ("total_cycles", 19, TOLD_CYCLES), ("accumulated_power", 29, TOLD_POWER)];

/// What is changed of a file.
///
/// ```
/// # std::env::set_current_dir(env!("GAZHDOR_RIDES")).unwrap();
/// # let ride = std::fs::read("ride.fit").unwrap();
/// use gazhdor::{Edit, Time};
///
/// let edit = Edit::new().drop("position").shift(3600).from(Time::new(1_147_937_700)).to(Time::new(1_147_938_000));
/// let (part, emptied) = edit.write(&ride, Vec::new())?;
/// assert!(emptied[&("record".to_string(), "position_lat".to_string())] > 20);
/// let messages = gazhdor::messages(&part)?;
/// let session = messages.iter().find(|message| message.name() == Some("session")).unwrap();
/// assert_eq!(session.value("total_elapsed_time"), Some(300.0));
/// assert_eq!(session.value("start_time"), Some(1_147_941_300.0));
/// # Ok::<(), Box<dyn std::error::Error>>(())
/// ```
#[derive(Debug, Clone, Default)]
pub struct Edit {
    drop: Vec<String>,
    shift: i64,
    begin: Option<Time>,
    end: Option<Time>,
}

/// Why a file isn't edited.
#[derive(Debug)]
pub enum EditFault {
    /// It isn't a FIT file.
    File(Fault),
    /// A field that is to be emptied is named neither by the profile nor by the file.
    Unfit(Unfit),
    /// No record has a time in the span.
    Empty,
    /// Over 100 laps and sessions begin before the span, or end after it.
    Cuts,
    /// All else: a time that would be none any more, memory, a failed write.
    Write(WriteFault),
}

impl Display for EditFault {
    fn fmt(&self, f: &mut Formatter<'_>) -> fmt::Result {
        match self {
            EditFault::File(fault) => Display::fmt(fault, f),
            EditFault::Unfit(unfit) => Display::fmt(unfit, f),
            EditFault::Empty => f.write_str("no record has a time in that span"),
            EditFault::Cuts => f.write_str("over 100 laps and sessions begin before the span, or end after it"),
            EditFault::Write(fault) => Display::fmt(fault, f),
        }
    }
}

impl Error for EditFault {}

impl From<Fault> for EditFault {
    fn from(fault: Fault) -> EditFault {
        EditFault::File(fault)
    }
}

impl<F: Into<WriteFault>> From<F> for EditFault {
    fn from(fault: F) -> EditFault {
        EditFault::Write(fault.into())
    }
}

/// How many values were emptied of each field, by the names of message and field.
pub type Emptied = BTreeMap<(String, String), u64>;

impl Edit {
    /// No change.
    #[must_use]
    pub fn new() -> Edit {
        Edit::default()
    }

    /// Empties a field: by its name, or by `MESSAGE.FIELD`, each a name or a number. `position` is every field that tells a place.
    #[must_use]
    pub fn drop(mut self, field: &str) -> Edit {
        self.drop.push(field.to_string());
        self
    }

    /// Moves all times by seconds. The device's own time, which is no time of day, stays.
    #[must_use]
    pub fn shift(self, seconds: i64) -> Edit {
        Edit { shift: seconds, ..self }
    }

    /// Leaves out what is before a time, as it is before it is moved. A message without a time has that of the last one before it in its file;
    /// what comes before the first time stays, and so do file_id and the descriptions of developer fields. Distances begin at 0 again. Laps
    /// and sessions that are cut are made anew by what the records say.
    #[must_use]
    pub fn from(self, first: Time) -> Edit {
        Edit { begin: Some(first), ..self }
    }

    /// Leaves out what is after a time.
    #[must_use]
    pub fn to(self, last: Time) -> Edit {
        Edit { end: Some(last), ..self }
    }

    /// Writes a file, or a chain of files, with these changes, and says what was emptied.
    ///
    /// # Errors
    ///
    /// An [`EditFault`]; then nothing is written, but where a write failed.
    pub fn write<W: Write>(&self, files: &[u8], sink: W) -> Result<(W, Emptied), EditFault> {
        crate::check(files)?;
        let names = Names::shared_extra();
        let mut editor = Editor::new(self, &names);
        let (mut out, mut rest, mut is_empty) = (Writer::new(sink), files, self.span().is_some());
        while let Some((file, after)) = first_file(rest) {
            let mut part = self.span().map(|span| self.part(span, file, &names)).transpose()?;
            is_empty = part.as_mut().map_or(is_empty, |part| !part.end() && is_empty);
            editor.put_file(&mut out, part, file)?;
            rest = after;
        }
        if is_empty {
            return Err(EditFault::Empty);
        }
        editor.see_met()?;
        let emptied = editor.emptied;
        Ok((out.finish()?, emptied))
    }

    /// The span that stays, if not all does.
    fn span(&self) -> Option<Span> {
        let second = |time: Option<Time>| time.map(|time| i64::from(time.seconds()));
        let is_cut = self.begin.is_some() || self.end.is_some();
        is_cut.then(|| Span { begin: second(self.begin), end: second(self.end) })
    }

    /// What stays of a file, whose records are summed up with the fields that are emptied.
    fn part(&self, span: Span, file: &[u8], names: &Names) -> Result<Part, EditFault> {
        let mut part = Part::new(span, Outline::of(file, names)?).ok_or(EditFault::Cuts)?;
        let plain = Edit { shift: 0, ..self.clone() };
        let mut editor = Editor::new(&plain, names);
        each_message(file, names, |message| {
            match message.number() {
                RECORD if self.drop.is_empty() => part.take(message),
                RECORD => part.take(&editor.changed(message)?.message()),
                _ => {}
            }
            Ok::<(), EditFault>(())
        })?;
        Ok(part)
    }
}

/// What may name a field: the name and number of its message, and its own.
struct Named<'n> {
    message: (Option<&'n str>, u16),
    field: (Option<&'n str>, Option<u8>),
}

impl Named<'_> {
    /// Whether a word names it: FIELD, or MESSAGE.FIELD, each a name or a number.
    fn is_of(&self, word: &str) -> bool {
        let number = |of: Option<u8>, word: &str| of.map_or(false, |of| of.to_string() == word);
        let (message, field) = word.rsplit_once('.').unwrap_or(("", word));
        let is_message = message.is_empty() || self.message.0 == Some(message) || self.message.1.to_string() == message;
        self.field.0 == Some(word) || (is_message && (self.field.0 == Some(field) || number(self.field.1, field)))
    }
}

/// What is changed in the messages of a definition: the positions of fields that are emptied and of times, whether the times of headers are left
/// out, the bits of what a reader tells of the fields that are emptied, and of what isn't written whole.
#[derive(Default)]
struct Plan {
    dropped: Vec<usize>,
    times: Vec<usize>,
    drops_headers: bool,
    told: u8,
    wholes: u8,
}

/// Makes the changes of messages.
struct Editor<'e> {
    edit: &'e Edit,
    names: &'e Names,
    /// Of a walk, by the addresses of definitions that it read.
    walk: u64,
    plans: HashMap<usize, Rc<Plan>>,
    met: HashSet<&'e str>,
    emptied: Emptied,
}

impl<'e> Editor<'e> {
    fn new(edit: &'e Edit, names: &'e Names) -> Editor<'e> {
        Editor { edit, names, walk: 0, plans: HashMap::new(), met: HashSet::new(), emptied: Emptied::new() }
    }

    /// Writes a file, or what stays of it.
    fn put_file<W: Write>(
        &mut self,
        out: &mut Writer<W>,
        mut part: Option<Part>,
        file: &[u8],
    ) -> Result<(), EditFault> {
        let names = self.names;
        each_event(file, |event| {
            if let Event::Message(message) = event {
                return self.put(out, part.as_mut(), &message.named(names));
            }
            if let Event::End = event {
                let rest = part.as_ref().map_or_else(Vec::new, Part::rest);
                rest.iter().try_for_each(|anew| self.put_anew(out, anew))?;
            }
            Ok(out.copy(&event)?)
        })
    }

    /// Writes what stands where a message was.
    fn put<W: Write>(
        &mut self,
        out: &mut Writer<W>,
        part: Option<&mut Part>,
        message: &Message<'_>,
    ) -> Result<(), EditFault> {
        if let Some(part) = part {
            match part.kept(message) {
                Kept::Left => return Ok(()),
                Kept::Anew(anew) => return self.put_anew(out, &anew),
                Kept::AsItIs => {}
            }
            if let Some(odometer) = part.odometer.as_mut().filter(|_| message.number() == RECORD) {
                let mut record = message.draft();
                record.untell(self.plan_of(message).told);
                return odometer.put(&record.message(), |draft| self.write(out, &draft.message()))?;
            }
        }
        self.write(out, message)
    }

    /// Writes a message with the changes, and no sum of it into a field that is emptied.
    fn write<W: Write>(&mut self, out: &mut Writer<W>, message: &Message<'_>) -> Result<(), EditFault> {
        let mut draft = self.changed(message)?;
        draft.untell(self.plan_of(message).wholes);
        Ok(out.write(&draft)?)
    }

    /// Writes a message that was made anew, of records whose fields are emptied. Its own are left out, and its times moved.
    fn put_anew<W: Write>(&mut self, out: &mut Writer<W>, anew: &Anew) -> Result<(), EditFault> {
        let (message, values) = anew;
        let number = profile::message_named(message).unwrap_or(0);
        let mut made = Vec::new();
        for &(name, value) in values {
            let field = profile::field_named(number, name).or_else(|| self.names.field_named(number, name));
            let named = Named { message: (Some(message), number), field: (Some(name), field) };
            let is_time = ["timestamp", "start_time", "local_timestamp"].contains(&name);
            if !self.edit.drop.iter().any(|word| named.is_of(word)) {
                made.push(match value {
                    Value::Signed(time) if is_time => (name, Value::Unsigned(self.later(time.unsigned_abs(), name)?)),
                    value => (name, value),
                });
            }
        }
        Ok(anew::write(out, self.names, message, &made)?)
    }

    /// A message with the changes.
    fn changed<'m>(&mut self, message: &Message<'m>) -> Result<Draft<'m>, EditFault> {
        let plan = self.plan_of(message);
        let mut draft = message.draft();
        for key in plan.dropped.iter().map(|&position| Key::Position(position)) {
            let emptied = draft.field(key).and_then(|field| Some((items::all(&field, Value::None).ok()?, field)));
            let named = emptied.filter(|(none, field)| *none != field.bytes()).map(|(_, field)| label(&field));
            if let Some(named) = named {
                draft.set(key, Value::None)?;
                self.count(message, named);
            }
        }
        draft.untell(plan.told);
        if plan.drops_headers && message.time_offset().is_some() {
            draft.set_time_offset(None)?;
            self.count(message, "timestamp".to_string());
        }
        if self.edit.shift != 0 {
            self.move_times(&plan, &mut draft)?;
        }
        Ok(draft)
    }

    /// What is changed in the messages of a definition. It is kept for one that was read, which stays where it is as long as the walk.
    fn plan_of(&mut self, message: &Message<'_>) -> Rc<Plan> {
        let (definition, walk, _) = message.defined();
        let of = definition.as_ptr() as usize;
        if walk != 0 && walk != self.walk {
            self.plans.clear(); // their definitions may be gone
            self.walk = walk;
        }
        match self.plans.get(&of).filter(|_| walk != 0) {
            Some(plan) => plan.clone(),
            None => {
                let plan = Rc::new(self.planned(message));
                if walk != 0 {
                    self.plans.insert(of, plan.clone());
                }
                plan
            }
        }
    }

    fn planned(&mut self, message: &Message<'_>) -> Plan {
        let edit = self.edit;
        let mut plan = Plan::default();
        let of = (message.name(), message.number());
        for (position, field) in message.fields().enumerate() {
            let number = if field.developer().is_none() { Some(field.number()) } else { None };
            let named = Named { message: of, field: (field.name(), number) };
            let words = edit.drop.iter().filter(|word| match word.as_str() {
                POSITION => tells_place(of.1, &field),
                word => named.is_of(word),
            });
            let words: Vec<_> = words.map(String::as_str).collect();
            if !words.is_empty() {
                plan.dropped.push(position);
                let told = TOLD.iter().find(|(of, _)| message.number() == RECORD && number == Some(*of));
                plan.told |= told.map_or(0, |(_, bits)| *bits);
            }
            self.met.extend(words);
            if is_time(&field).is_some() && field.measure().is_plain() {
                plan.times.push(position);
            }
        }
        let drops = |name, number| {
            let named = Named { message: of, field: (Some(name), Some(number)) };
            edit.drop.iter().any(|word| word != POSITION && named.is_of(word))
        };
        plan.drops_headers = drops("timestamp", TIMESTAMP);
        plan.wholes = WHOLE.iter().filter(|(name, number, _)| drops(name, *number)).fold(0, |bits, of| bits | of.2);
        plan
    }

    fn count(&mut self, message: &Message<'_>, field: String) {
        let name = message.name().map_or_else(|| format!("message_{}", message.number()), str::to_string);
        *self.emptied.entry((name, field)).or_insert(0) += 1;
    }

    fn move_times(&self, plan: &Plan, draft: &mut Draft<'_>) -> Result<(), EditFault> {
        for key in plan.times.iter().map(|&position| Key::Position(position)) {
            let found = draft.field(key).and_then(|field| Some((field.raw(0)?, label(&field))));
            if let Some((Raw::Unsigned(time), named)) = found {
                draft.set_raw(key, 0, Raw::Unsigned(self.later(time, &named)?))?;
            }
        }
        if let Some(time) = draft.message().offset_time() {
            draft.set_header_time(self.later(time.into(), "timestamp")? as u32);
        }
        Ok(())
    }

    /// A time, moved; the device's own time, and no time, stay.
    fn later(&self, time: u64, field: &str) -> Result<u64, Unfit> {
        let (least, most) = (0x1000_0000, u64::from(u32::MAX) - 1);
        if time < least || time > most {
            return Ok(time);
        }
        let moved = i128::from(time) + i128::from(self.edit.shift);
        u64::try_from(moved).ok().filter(|time| (least..=most).contains(time)).ok_or_else(|| Unfit::Range {
            field: field.to_string(),
            value: moved.to_string(),
            least: least.to_string(),
            most: most.to_string(),
        })
    }

    /// An error for a word that names nothing which the file, the profile or the other names have.
    fn see_met(&self) -> Result<(), EditFault> {
        let unmet = self.edit.drop.iter().filter(|word| word.as_str() != POSITION && !self.met.contains(word.as_str()));
        for word in unmet {
            let (message, field) = word.rsplit_once('.').unwrap_or(("", word));
            let is_number = |of: &str| !of.is_empty() && of.bytes().all(|byte| byte.is_ascii_digit());
            let known = |of: &str| profile::message_named(of).or_else(|| self.names.message_named(of)).is_some();
            if !message.is_empty() && !is_number(message) && !known(message) {
                return Err(EditFault::Unfit(Unfit::NoMessage { message: message.to_string() }));
            }
            if !is_number(field) && !profile::has_field(field) && !self.names.has_field(field) {
                return Err(EditFault::Unfit(Unfit::NoField { field: field.to_string() }));
            }
        }
        Ok(())
    }
}
