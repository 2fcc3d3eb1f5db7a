//! Files that are joined: as a chain, or as one activity.
use crate::anew::{self, Values};
use crate::draft::Draft;
use crate::event::Event;
use crate::fault::Fault;
use crate::field::Value;
use crate::mend::first_file;
use crate::message::Message;
use crate::names::Names;
use crate::odometer::Odometer;
use crate::outline::{activity_of, usual, Outline, ACTIVITY, ADDED, INDEX, LAP, LENGTH, RECORD, SESSION, SESSION_ENDS};
use crate::pieces::each_event;
use crate::put_fault::{PutFault, WriteFault};
use crate::ride::Ride;
use crate::summary::{whole, Summary};
use crate::value_error::Unfit;
use crate::writer::Writer;
use std::error::Error;
use std::fmt::{self, Display, Formatter};
use std::io::Write;
use std::rc::Rc;

/// file_id and file_creator, which stay of the first file alone.
const FILE_ID: [u16; 2] = [0, 49];
/// time_in_zone, what it is of, and the number of that.
const ZONES: u16 = 216;
const OF: u8 = 0;
const OF_INDEX: u8 = 1;
/// Of a lap the number of its first length.
const FIRST_LENGTH: u8 = 35;

/// Why files aren't joined. Files are counted from 1.
#[derive(Debug)]
pub enum JoinFault {
    /// One isn't a FIT file.
    File {
        /// Which one.
        file: usize,
        /// What is wrong with it.
        fault: Fault,
    },
    /// One begins before the one before it ends.
    Order {
        /// Which one.
        file: usize,
    },
    /// A developer field of one isn't described there, and is in one before it: it would be read as that one.
    Described {
        /// Which one.
        file: usize,
        /// The field.
        field: String,
    },
    /// All else: a value that doesn't fit any more, memory, a failed write.
    Write(WriteFault),
}

impl Display for JoinFault {
    fn fmt(&self, f: &mut Formatter<'_>) -> fmt::Result {
        match self {
            JoinFault::File { file, fault } => write!(f, "file {file}: {fault}"),
            JoinFault::Order { file } => write!(f, "file {file} begins before the one before it ends"),
            JoinFault::Described { file, field } => {
                write!(f, "file {file} doesn't describe its developer field {field}, and one before it does")
            }
            JoinFault::Write(fault) => Display::fmt(fault, f),
        }
    }
}

impl Error for JoinFault {}

impl From<Fault> for JoinFault {
    fn from(fault: Fault) -> JoinFault {
        JoinFault::File { file: 0, fault }
    }
}

impl<F: Into<WriteFault>> From<F> for JoinFault {
    fn from(fault: F) -> JoinFault {
        JoinFault::Write(fault.into())
    }
}

/// Writes several files, or chains of files, as a chain, each as it is.
///
/// # Errors
///
/// A [`JoinFault`]; then nothing is written, but where a write failed.
pub fn join<W: Write, F: AsRef<[u8]>>(files: impl IntoIterator<Item = F>, sink: W) -> Result<W, JoinFault> {
    let mut out = Writer::new(sink);
    for (file, bytes) in (1..).zip(files) {
        each_event(bytes.as_ref(), |event| Ok(out.copy(&event)?)).map_err(|fault| at(file, fault))?;
    }
    Ok(out.finish()?)
}

/// Writes several files as one activity: with the header, the file_id and the sport of the first, the laps of all, distances that go on where
/// the file before ended, and a session and an activity made anew by what laps and records say. Records that are in no lap become one.
/// Calories, ascent, descent and cycles are added where each file says them.
///
/// ```
/// # std::env::set_current_dir(env!("GAZHDOR_RIDES")).unwrap();
/// # let ride = std::fs::read("ride.fit").unwrap();
/// let messages = gazhdor::messages(&ride)?;
/// let later = |message: &gazhdor::Message<'_>| message.time().map_or(false, |time| time.seconds() > 1_147_938_000);
/// let part = |is_later: bool| -> Result<Vec<u8>, gazhdor::WriteFault> {
///     let mut out = gazhdor::Writer::new(Vec::new());
///     let records = messages.iter().filter(|message| message.number() == 20 && later(message) == is_later);
///     records.map(|record| out.copy_message(&record)).collect::<Result<(), _>>()?;
///     out.finish()
/// };
/// let joined = gazhdor::join_as_one([part(false)?, part(true)?], Vec::new())?;
/// let sessions = gazhdor::messages(&joined)?;
/// let session = sessions.iter().find(|message| message.name() == Some("session")).unwrap();
/// assert_eq!(session.value("total_timer_time"), Some(710.0)); // 715 s without the 5 between the parts
/// # Ok::<(), Box<dyn std::error::Error>>(())
/// ```
///
/// # Errors
///
/// As for [`join`], and where a file begins before the one before it ends, or has a developer field that it doesn't describe.
pub fn join_as_one<W: Write, F: AsRef<[u8]>>(files: impl IntoIterator<Item = F>, sink: W) -> Result<W, JoinFault> {
    let mut joined = Joined::new(Writer::new(sink));
    for (file, bytes) in (1..).zip(files) {
        joined.add(file, bytes.as_ref()).map_err(|fault| at(file, fault))?;
    }
    joined.end()
}

/// A fault that names the file which is none.
fn at(file: usize, fault: JoinFault) -> JoinFault {
    match fault {
        JoinFault::File { fault, .. } => JoinFault::File { file, fault },
        fault => fault,
    }
}

/// A file that is added: what it says of itself, and what its records come to.
struct Added {
    file: usize,
    told: Outline,
    ride: Ride,
    /// How many laps and lengths there were before.
    laps: u64,
    lengths: u64,
    /// Of a file after the first one, and then the last second of those before it.
    odometer: Option<Odometer>,
    before: Option<i64>,
}

/// Puts one file after another into an activity.
struct Joined<W> {
    out: Writer<W>,
    names: Rc<Names>,
    all: Summary,
    /// The sport and the zone of the first file.
    first: Option<(Values, Option<i64>)>,
    /// How many laps and lengths there are, the first and the last second of all, and how long the timer ran.
    laps: u64,
    lengths: u64,
    span: Option<(i64, i64)>,
    ran: f64,
    added: [Option<f64>; 4],
}

impl<W: Write> Joined<W> {
    fn new(out: Writer<W>) -> Joined<W> {
        let (names, all, added) = (Names::shared_extra(), Summary::default(), [Some(0.0); 4]);
        Joined { out, names, all, first: None, laps: 0, lengths: 0, span: None, ran: 0.0, added }
    }

    /// Adds the files of a chain.
    fn add(&mut self, number: usize, files: &[u8]) -> Result<(), JoinFault> {
        crate::check(files)?;
        let (names, mut rest) = (self.names.clone(), files);
        while let Some((file, after)) = first_file(rest) {
            let mut added = self.begin(number, Outline::of(file, &names)?);
            each_event(file, |event| match event {
                Event::Header(header) if added.odometer.is_none() => Ok(self.out.begin(&header)?),
                Event::Message(message) => self.put(&mut added, &message.named(&names)),
                Event::Definition(definition) => Ok(self.out.define(&definition)?),
                Event::Header(_) | Event::End => Ok(()),
            })?;
            self.end_of(&added)?;
            rest = after;
        }
        Ok(())
    }

    fn begin(&mut self, file: usize, told: Outline) -> Added {
        let odometer = self.first.as_ref().map(|_| Odometer::new(self.all.last_distance()));
        self.first.get_or_insert_with(|| (told.sport(), told.zone));
        let (ride, before) = (Ride::new(told.laps_end()), self.all.span().map(|span| span.1));
        Added { file, told, ride, laps: self.laps, lengths: self.lengths, odometer, before }
    }

    /// Writes what stays of a file: not what tells more of its sessions.
    fn put(&mut self, added: &mut Added, message: &Message<'_>) -> Result<(), JoinFault> {
        let number = message.number();
        let is_of_session = number == ZONES && whole(message, OF) == Some(SESSION.into());
        let is_of_first = FILE_ID.contains(&number) && added.odometer.is_some();
        if [SESSION, ACTIVITY].contains(&number) || is_of_first || is_of_session {
            return Ok(());
        }
        let put = match number {
            LAP | LENGTH | ZONES => {
                let draft = self.numbered(added, message)?;
                self.out.write(&draft)
            }
            RECORD => self.put_record(added, message)?,
            _ => self.out.copy_message(message),
        };
        put.map_err(|fault| match fault {
            PutFault::Described { field } => JoinFault::Described { file: added.file, field },
            fault => fault.into(),
        })
    }

    /// A lap or a length with its number among all, where it has one, and what names one by the number that this gets; it has none where there is no such one.
    fn numbered<'m>(&mut self, added: &Added, message: &Message<'m>) -> Result<Draft<'m>, Unfit> {
        let mut draft = message.draft();
        let (count, named) = match message.number() {
            LAP => (Some(&mut self.laps), Some((FIRST_LENGTH, &added.told.lengths, added.lengths))),
            LENGTH => (Some(&mut self.lengths), None),
            _ => (
                None,
                Some((OF_INDEX, &added.told.counted_laps, added.laps))
                    .filter(|_| whole(message, OF) == Some(LAP.into())),
            ),
        };
        if let Some(count) = count {
            if message.numbered(INDEX).map_or(false, |index| index.is_lone_number()) {
                draft.set(INDEX, *count)?;
            }
            *count += 1;
        }
        let has_value = |field: u8| message.numbered(field).map_or(false, |field| field.whole() != Value::None);
        if let Some((field, counted, before)) = named.filter(|(field, ..)| has_value(*field)) {
            let number = whole(message, field).and_then(|number| counted.number(number));
            draft.set(field, number.map(|number| before + number))?;
        }
        Ok(draft)
    }

    /// Writes a record as it goes on from the file before.
    fn put_record(&mut self, added: &mut Added, record: &Message<'_>) -> Result<Result<(), PutFault>, JoinFault> {
        let time = record.time().map(|time| i64::from(time.seconds()));
        if time.zip(added.before).map_or(false, |(time, before)| time < before) {
            return Err(JoinFault::Order { file: added.file });
        }
        added.ride.take(record);
        let (out, all) = (&mut self.out, &mut self.all);
        match &mut added.odometer {
            None => {
                all.take(record);
                Ok(out.copy_message(record))
            }
            Some(odometer) => Ok(odometer.put(record, |draft| {
                all.take(&draft.message());
                out.write(draft)
            })?),
        }
    }

    /// Takes in what a file comes to. Records that are in no lap become one.
    fn end_of(&mut self, added: &Added) -> Result<(), JoinFault> {
        let (ride, told) = (&added.ride, &added.told);
        let span = if let Some(span) = ride.all.span() { span } else { return Ok(()) };
        for (start, end) in told.spans().chain([span]) {
            let (first, last) = self.span.unwrap_or((start, end));
            self.span = Some((first.min(start), last.max(end)));
        }
        self.ran += told.ran_in_laps();
        if let Some((lap, ran)) = ride.last_lap(self.laps, told.spans().map(|span| span.1).max(), &told.timer) {
            anew::write(&mut self.out, &self.names, "lap", &lap)?;
            self.laps += 1;
            self.ran += ran;
        }
        for (sum, more) in self.added.iter_mut().zip(told.added()) {
            *sum = sum.zip(more).map(|(sum, more)| sum + more);
        }
        Ok(())
    }

    /// Writes the session and the activity, where there are records with times, and then all.
    fn end(mut self) -> Result<W, JoinFault> {
        if let (Some((sport, zone)), Some(span)) = (self.first.take(), self.span) {
            let mut session = vec![("message_index", Value::Unsigned(0))];
            session.extend(self.all.told(span, self.ran));
            session.extend(sport);
            session.extend([("first_lap_index", Value::Unsigned(0)), ("num_laps", Value::Unsigned(self.laps))]);
            let added = ADDED.into_iter().zip(self.added);
            session.extend(added.filter_map(|(name, sum)| Some((name, Value::Float(sum?.round())))));
            session.extend(usual(SESSION_ENDS));
            anew::write(&mut self.out, &self.names, "session", &session)?;
            anew::write(&mut self.out, &self.names, "activity", &activity_of(span.1, (1, self.ran), zone, None))?;
        }
        Ok(self.out.finish()?)
    }
}
