//! An activity of samples, in one call.
use crate::anew::Values;
use crate::definition::Definition;
use crate::draft::{Draft, Key};
use crate::field::Value;
use crate::mend::MendFault;
use crate::put_fault::{PutFault, WriteFault};
use crate::value_error::Unfit;
use crate::whole::completed;
use crate::writer::Writer;
use std::error::Error;
use std::fmt::{self, Debug, Display, Formatter};

/// Of file_id its type, and the manufacturer of what isn't sold.
const ACTIVITY: u8 = 4;
const DEVELOPMENT: u8 = 255;
/// The event of a timer, and its types.
const TIMER: u8 = 0;
const START: u8 = 0;
const STOP_ALL: u8 = 4;
const TIME: &str = "timestamp";

/// The values of a field of records, one for each.
pub struct Samples<'s>(Box<dyn Iterator<Item = Value<'s>> + 's>);

impl<'s> Samples<'s> {
    /// Those of anything that gives [`Value`]s, numbers, times, or `Option`s of these, one after another. NaN is no value.
    pub fn of<V: Into<Value<'s>> + 's, I: IntoIterator<Item = V>>(values: I) -> Samples<'s>
    where
        I::IntoIter: 's,
    {
        Samples(Box::new(values.into_iter().map(Into::into)))
    }
}

impl Debug for Samples<'_> {
    fn fmt(&self, f: &mut Formatter<'_>) -> fmt::Result {
        f.debug_struct("Samples").finish_non_exhaustive()
    }
}

/// Why samples aren't written as an activity. Records are counted from 0.
#[derive(Debug)]
pub enum ActivityFault {
    /// No column is named `timestamp`, or there is no record.
    NoTimes,
    /// A column ends before another one.
    Short {
        /// Its field.
        field: String,
        /// How many values it has.
        length: usize,
    },
    /// A value of a record doesn't fit.
    Unfit {
        /// Which record.
        record: usize,
        /// What doesn't fit.
        unfit: Unfit,
    },
    /// A field or the sport has no such name, memory, or a message that the writer doesn't take.
    Write(WriteFault),
}

impl Display for ActivityFault {
    fn fmt(&self, f: &mut Formatter<'_>) -> fmt::Result {
        match self {
            ActivityFault::NoTimes => {
                f.write_str("an activity has a timestamp for each of its records, and one record or more")
            }
            ActivityFault::Short { field, length } => {
                write!(f, "{field} has {length} values, and another column has more")
            }
            ActivityFault::Unfit { record, unfit } => write!(f, "record {record}: {unfit}"),
            ActivityFault::Write(fault) => Display::fmt(fault, f),
        }
    }
}

impl Error for ActivityFault {}

impl<F: Into<WriteFault>> From<F> for ActivityFault {
    fn from(fault: F) -> ActivityFault {
        ActivityFault::Write(fault.into())
    }
}

/// Returns the FIT file of an activity: a file_id, the start and the end of the timer, a record for each row, a lap, a session and an activity
/// message, which say what the records come to.
///
/// `columns` are the fields of the records, by their names in the profile, and their values. One has to be `timestamp`, in the order of time.
/// `sport` is a word or a number of the profile.
///
/// ```
/// use gazhdor::{activity, Samples};
///
/// let times = 1_147_937_400..1_147_937_460_u32;
/// let metres = times.clone().map(|time| 2.5 * f64::from(time - 1_147_937_400));
/// let beats = vec![Some(120_u8); 60];
/// let columns = [("timestamp", Samples::of(times)), ("distance", Samples::of(metres)), ("heart_rate", Samples::of(beats))];
/// let file = activity(columns, "running")?;
/// let messages = gazhdor::messages(&file)?;
/// let session = messages.iter().find(|message| message.name() == Some("session")).unwrap();
/// assert_eq!((session.word("sport"), session.value("total_distance")), (Some("running"), Some(147.5)));
/// # Ok::<(), Box<dyn std::error::Error>>(())
/// ```
///
/// # Errors
///
/// An [`ActivityFault`].
pub fn activity<'s>(
    columns: impl IntoIterator<Item = (&'s str, Samples<'s>)>,
    sport: impl Into<Value<'s>>,
) -> Result<Vec<u8>, ActivityFault> {
    let (names, samples): (Vec<_>, Vec<_>) = columns.into_iter().unzip();
    let time = names.iter().position(|&name| name == TIME).ok_or(ActivityFault::NoTimes)?;
    let (record, event) = (Definition::of("record", &names)?, Definition::of("event", &[TIME, "event", "event_type"])?);
    let sport = sport_of(sport.into())?;
    let (mut rows, mut out, mut last) = (Rows { names, samples, count: 0 }, Writer::new(Vec::new()), None);
    while let Some(draft) = rows.next(&record)? {
        let time = draft.field(Key::Position(time)).and_then(|field| field.value(0));
        if last.replace(time).is_none() {
            begin(&mut out, &event, time)?;
        }
        out.write(&draft)?;
    }
    out.write(&timer(&event, last.ok_or(ActivityFault::NoTimes)?, STOP_ALL)?)?;
    completed(&out.finish()?, Some(&sport)).map_err(|fault| match fault {
        MendFault::File(_) => PutFault::OutOfMemory.into(), // what was written is good
        MendFault::Write(fault) => fault.into(),
    })
}

/// Writes what comes before the records.
fn begin(out: &mut Writer<Vec<u8>>, event: &Definition<'_>, time: Option<f64>) -> Result<(), WriteFault> {
    let file_id = Definition::of("file_id", &["type", "manufacturer", "time_created"])?;
    let draft = file_id.message().with("type", ACTIVITY)?.with("manufacturer", DEVELOPMENT)?;
    out.write(&draft.with("time_created", time)?)?;
    Ok(out.write(&timer(event, time, START)?)?)
}

/// The event of the timer, which starts or stops at a time.
fn timer<'d>(event: &'d Definition<'_>, time: Option<f64>, kind: u8) -> Result<Draft<'d>, Unfit> {
    event.message().with(TIME, time)?.with("event", TIMER)?.with("event_type", kind)
}

/// The sport of a session, with its number.
fn sport_of(sport: Value<'_>) -> Result<Values, Unfit> {
    let definition = Definition::of("session", &["sport"])?;
    let draft = definition.message().with("sport", sport)?;
    let number = draft.field("sport").and_then(|field| field.value(0));
    Ok(vec![("sport", number.into())])
}

/// The rows of columns.
struct Rows<'s> {
    names: Vec<&'s str>,
    samples: Vec<Samples<'s>>,
    /// How many there were.
    count: usize,
}

impl<'s> Rows<'s> {
    /// The next record; none after the last one.
    fn next<'d>(&mut self, record: &'d Definition<'_>) -> Result<Option<Draft<'d>>, ActivityFault> {
        let (mut draft, mut short, mut is_end) = (record.message(), None, true);
        for (at, samples) in self.samples.iter_mut().enumerate() {
            match samples.0.next() {
                None => short = short.or(Some(at)),
                Some(value) => {
                    is_end = false;
                    let unfit = |unfit| ActivityFault::Unfit { record: self.count, unfit };
                    draft.set(Key::Position(at), value).map_err(unfit)?;
                }
            }
        }
        match short {
            _ if is_end => Ok(None),
            Some(at) => Err(ActivityFault::Short { field: self.names[at].to_string(), length: self.count }),
            None => {
                self.count += 1;
                Ok(Some(draft))
            }
        }
    }
}
