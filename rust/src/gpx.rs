//! The track of a ride as GPX 1.1, a text that maps and other programs read.
use crate::fault::{Fault, Stopped};
use crate::message::Message;
use crate::outline::{EVENT, RECORD};
use crate::pieces::{growing, made};
use crate::streams::Stream;
use crate::timer::starts;

const HEAD: &str = concat!(
    "<?xml version=\"1.0\" encoding=\"UTF-8\"?>\n<gpx version=\"1.1\" creator=\"gazhdor ",
    env!("CARGO_PKG_VERSION"),
    "\" xmlns=\"http://www.topografix.com/GPX/1/1\" ",
    "xmlns:gpxtpx=\"http://www.garmin.com/xmlschemas/TrackPointExtension/v1\" ",
    "xmlns:pwr=\"http://www.garmin.com/xmlschemas/PowerExtension/v1\">\n"
);
const BEGIN: &str = "<trk><trkseg>\n";
const NEXT: &str = "</trkseg><trkseg>\n";
const END: &str = "</trkseg></trk>\n";
const FOOT: &str = "</gpx>\n";
/// A time as the table has it, of which each 0 stands for a digit.
const TIME: &str = "0000-00-00T00:00:00Z";

/// Returns the track of the record messages as GPX 1.1: a track for each file, a segment for each stretch from a start of the timer to a stop,
/// and a point for each message that has a place, with altitude and time, and temperature, heart rate, cadence and power as extensions that
/// Garmin defined.
///
/// ```
/// # std::env::set_current_dir(env!("GAZHDOR_RIDES")).unwrap();
/// # let ride = std::fs::read("ride.fit").unwrap();
/// let track = gazhdor::gpx(&ride)?;
/// assert_eq!(track.matches("<trkseg>").count(), 1);
/// let first = track.lines().find(|line| line.starts_with("<trkpt")).unwrap();
/// assert!(first.starts_with(r#"<trkpt lat="47.3000000" lon="8.5680000"><ele>408.0</ele><time>2026-05-17T07:30:00Z</time>"#));
/// # Ok::<(), gazhdor::Stopped<String>>(())
/// ```
///
/// # Errors
///
/// A [`Stopped`], as for [`table`](crate::table), whose text is the track of all before the fault, with its end.
pub fn gpx(files: &[u8]) -> Result<String, Stopped<String>> {
    let mut track = Track::new();
    let fault = track.take(files).err();
    let before = track.end();
    match fault {
        None => Ok(before),
        Some(fault) => Err(Stopped { fault, before }),
    }
}

/// The text in the making.
struct Track {
    text: String,
    /// The file of the last message, and that of the track; 0 before the first.
    file: u32,
    track: u32,
    /// Whether the timer of the file is stopped, and whether it has begun again since the last point.
    is_stopped: bool,
    begins: bool,
    /// Whether the track has no point yet.
    is_empty: bool,
}

impl Track {
    fn new() -> Track {
        Track { text: HEAD.to_string(), file: 0, track: 0, is_stopped: false, begins: false, is_empty: true }
    }

    /// Takes in the records and the events of the timer, each record with its row of the table.
    fn take(&mut self, files: &[u8]) -> Result<(), Fault> {
        let (mut table, mut told, mut is_first) = (Stream::table()?, Stream::messages()?, true);
        for piece in growing(files).map(Some).chain([None]) {
            let (text, fault) = made(&mut table, piece);
            let (messages, _) = made(&mut told, piece);
            let mut rows = text.lines().skip(usize::from(is_first));
            is_first &= text.is_empty();
            for message in &messages {
                match message.number() {
                    EVENT => self.event(&message),
                    RECORD => self.record(message.file(), rows.next().unwrap_or("")),
                    _ => {}
                }
            }
            fault.map_or(Ok(()), Err)?;
        }
        Ok(())
    }

    fn see_file(&mut self, file: u32) {
        if file != self.file {
            (self.file, self.is_stopped, self.begins) = (file, false, false);
        }
    }

    fn event(&mut self, event: &Message<'_>) {
        self.see_file(event.file());
        if let Some(is_start) = starts(event) {
            self.begins |= is_start && self.is_stopped;
            self.is_stopped = !is_start;
        }
    }

    fn record(&mut self, file: u32, row: &str) {
        self.see_file(file);
        if file != self.track {
            self.text += if self.track == 0 { "" } else { END };
            self.text += BEGIN;
            (self.track, self.is_empty) = (file, true);
        }
        if let Some(point) = point(row) {
            if std::mem::take(&mut self.begins) && !self.is_empty {
                self.text += NEXT;
            }
            self.is_empty = false;
            self.text += &point;
        }
    }

    fn end(self) -> String {
        self.text + if self.track == 0 { "" } else { END } + FOOT
    }
}

/// The point of a row of the table; none where it has no place on the earth.
fn point(row: &str) -> Option<String> {
    let mut cells = row.split(',');
    let mut next = || cells.next().unwrap_or_default();
    let [_, time, lat, long, altitude, _, _] = [(); 7].map(|()| next());
    let [heart_rate, cadence] = [(); 2].map(|()| next());
    let [power, temperature] = [(); 2].map(|()| next());
    let (lat, long) = number(lat, -90.0, 90.0).zip(number(long, -180.0, 180.0))?;
    let body = [
        ("gpxtpx:atemp", number(temperature, -273.15, 1e6)),
        ("gpxtpx:hr", number(heart_rate, 1.0, 255.0)),
        ("gpxtpx:cad", number(cadence, 0.0, 254.0)),
    ];
    let body = Some(body.map(element).concat()).filter(|body| !body.is_empty());
    let body = element(("gpxtpx:TrackPointExtension", body.as_deref()));
    let power = element(("pwr:PowerInWatts", number(power, 0.0, 65534.0)));
    let all = Some(body + &power).filter(|all| !all.is_empty());
    let altitude = element(("ele", number(altitude, -1e6, 1e6)));
    let time = element(("time", Some(time).filter(|time| is_time(time))));
    let all = element(("extensions", all.as_deref()));
    Some(format!("<trkpt lat=\"{lat}\" lon=\"{long}\">{altitude}{time}{all}</trkpt>\n"))
}

fn element((name, text): (&str, Option<&str>)) -> String {
    text.map_or_else(String::new, |text| format!("<{name}>{text}</{name}>"))
}

/// The cell, where it is a number that may be there.
fn number(cell: &str, least: f64, most: f64) -> Option<&str> {
    let digits = |text: &str| !text.is_empty() && text.bytes().all(|byte| byte.is_ascii_digit());
    let (whole, part) = cell.split_once('.').unwrap_or((cell, "0"));
    let is_decimal = digits(whole.strip_prefix('-').unwrap_or(whole)) && digits(part);
    let value: f64 = cell.parse().ok().filter(|_| is_decimal)?;
    (least <= value && value <= most).then_some(cell)
}

fn is_time(cell: &str) -> bool {
    let fits = |(byte, of): (u8, u8)| if of == b'0' { byte.is_ascii_digit() } else { byte == of };
    cell.len() == TIME.len() && cell.bytes().zip(TIME.bytes()).all(fits)
}
