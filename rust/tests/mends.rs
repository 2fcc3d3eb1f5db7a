//! Files that are mended, made whole, and made of samples, and rides as GPX.
mod made;

use gazhdor::{
    activity, check, gpx, mend, mend_whole, messages, ActivityFault, Definition, Fault, Message, Messages, Samples,
    Unfit, Writer,
};
use made::{any_file, Random};
use std::path::Path;

const RIDE: &[u8] = include_bytes!(concat!(env!("GAZHDOR_RIDES"), "/ride.fit"));
const TIME: u32 = 1_000_000_000;

fn only<'a>(read: &'a Messages, name: &'a str) -> Vec<Message<'a>> {
    read.iter().filter(move |message| message.name() == Some(name)).collect()
}

fn bytes_of(digits: &str) -> Vec<u8> {
    (0..digits.len()).step_by(2).map(|at| u8::from_str_radix(&digits[at..at + 2], 16).unwrap()).collect()
}

/// The cases that are shared with other languages; a packed crate doesn't have them.
#[test]
fn shared_cases() {
    let path = Path::new(env!("CARGO_MANIFEST_DIR")).join("../tests/cases/mend.json");
    let text = match std::fs::read_to_string(path) {
        Ok(text) => text,
        Err(_) => return println!("tests/cases isn't here, so its cases aren't tried"),
    };
    let mut count = 0;
    for line in text.lines().filter(|line| line.contains("\"file\"")) {
        let cell = |name: &str| line.split_once(&format!("\"{name}\": \""))?.1.split('"').next();
        let file = bytes_of(cell("file").unwrap());
        assert_eq!(mend(&file).ok(), cell("mended").map(bytes_of), "{line}");
        count += 1;
    }
    assert!(count >= 17, "{count}");
}

/// Of a ride that is cut anywhere all whole messages, in a good file whose bytes are those of the ride.
#[test]
fn cuts() {
    let read = messages(RIDE).unwrap();
    let places: Vec<_> = read.iter().map(|message| message.place()).skip(1).chain([RIDE.len() as u64 - 2]).collect();
    for cut in (0..40).chain((40..RIDE.len()).step_by(211)).chain(RIDE.len() - 4..RIDE.len()) {
        match mend(&RIDE[..cut]) {
            Err(fault) => assert!(cut < 32 && fault == Fault::Truncated { place: cut as u64 }, "{cut}"),
            Ok(mended) => {
                assert_eq!(check(&mended), Ok(1));
                assert!(mended[14..mended.len() - 2] == RIDE[14..mended.len() - 2]);
                let whole = places.iter().filter(|&&place| place <= cut as u64).count();
                assert_eq!(messages(&mended).unwrap().iter().count(), whole, "{cut}");
            }
        }
    }
    assert!(mend(RIDE).unwrap() == RIDE);
    assert!(mend(&[RIDE, &b"junk"[..]].concat()).unwrap() == RIDE);
}

/// Whatever is damaged, what comes back is good, or the fault is that of `check`; and so it is where it is made whole.
#[test]
fn damaged() {
    let (mut random, mut count) = (Random(20_260_202), 0);
    for _ in 0..60 {
        let mut file = [any_file(&mut random), any_file(&mut random)].concat();
        for _ in 0..1 + random.below(3) {
            let at = random.below(file.len());
            file[at] = random.byte();
        }
        file.truncate(if random.below(2) == 0 { random.below(file.len()) } else { file.len() });
        match mend(&file) {
            Ok(mended) => {
                assert!(check(&mended).is_ok() && check(&mend_whole(&file).unwrap()) == check(&mended));
                count += 1;
            }
            Err(fault) => assert_eq!(Err(fault), check(&file)),
        }
    }
    assert!(count > 20, "{count}");
}

/// A ride of two stretches that was broken off in its second lap: what it lacks, by arithmetic.
#[test]
fn made_whole() {
    let record = Definition::of("record", &["timestamp", "distance", "heart_rate"]).unwrap();
    let event = Definition::of("event", &["timestamp", "event", "event_type"]).unwrap();
    let lap = Definition::of("lap", &["timestamp", "start_time", "total_elapsed_time", "total_timer_time"]).unwrap();
    let sport = Definition::of("sport", &["sport"]).unwrap();
    let mut out = Writer::new(Vec::new());
    out.write(&sport.message().with("sport", "cycling").unwrap()).unwrap();
    let timer = |time: u32, kind: u8| {
        event
            .message()
            .with("timestamp", TIME + time)
            .unwrap()
            .with("event", 0)
            .unwrap()
            .with("event_type", kind)
            .unwrap()
    };
    for (begin, end) in [(0, 100), (160, 200)] {
        out.write(&timer(begin, 0)).unwrap();
        for second in begin..=end {
            let draft =
                record.message().with("timestamp", TIME + second).unwrap().with("distance", 5 * second).unwrap();
            out.write(&draft.with("heart_rate", 100 + second / 100).unwrap()).unwrap();
        }
        out.write(&timer(end, 4)).unwrap();
    }
    let first = lap.message().with("timestamp", TIME + 50).unwrap().with("start_time", TIME).unwrap();
    out.write(&first.with("total_elapsed_time", 50).unwrap().with("total_timer_time", 49).unwrap()).unwrap();
    let mut file = out.finish().unwrap();
    file.truncate(file.len() - 1);
    let whole = messages(&mend_whole(&file).unwrap()).unwrap();
    let value = |name: &str, field: &str| only(&whole, name).last().unwrap().value(field);
    let counts = ["lap", "session", "activity"].map(|name| only(&whole, name).len());
    assert_eq!(counts, [2, 1, 1]);
    assert_eq!((value("lap", "message_index"), value("session", "num_laps")), (Some(1.0), Some(2.0)));
    assert_eq!((value("lap", "total_timer_time"), value("lap", "total_elapsed_time")), (Some(90.0), Some(150.0)));
    assert_eq!(
        (value("session", "total_timer_time"), value("session", "total_elapsed_time")),
        (Some(139.0), Some(200.0))
    );
    assert_eq!((value("session", "total_distance"), value("session", "sport")), (Some(1000.0), Some(2.0)));
    assert_eq!((value("session", "max_heart_rate"), value("activity", "total_timer_time")), (Some(102.0), Some(139.0)));
    // What has a session stays as it is, in a chain too; and the ride of gpsbabel, which has none, gets one.
    let chain = mend_whole(&file).unwrap().repeat(2);
    assert!(mend_whole(&chain).unwrap() == chain);
    assert_eq!(only(&messages(&mend_whole(&RIDE.repeat(2)).unwrap()).unwrap(), "session").len(), 2);
    let fault = mend_whole(b"PK").unwrap_err();
    assert_eq!(fault.to_string(), "refused at byte 1: Protocol");
}

/// What an activity of samples says of itself, and what is no activity.
#[test]
fn samples() {
    let times = [TIME, TIME + 10, TIME + 30];
    let columns = || {
        [
            ("timestamp", Samples::of(times)),
            ("distance", Samples::of([0.0, 50.0, 150.0])),
            ("heart_rate", Samples::of([Some(100), None, Some(121)])),
            ("power", Samples::of([f64::NAN, 200.0, 300.0])),
        ]
    };
    let file = activity(columns(), "cycling").unwrap();
    let read = messages(&file).unwrap();
    let names: Vec<_> = read.iter().map(|message| message.name().unwrap()).collect();
    assert_eq!(names, ["file_id", "event", "record", "record", "record", "event", "lap", "session", "activity"]);
    let session = only(&read, "session")[0];
    let told = ["sport", "total_timer_time", "total_distance", "avg_speed", "avg_power", "max_heart_rate", "num_laps"];
    let wanted = [2.0, 30.0, 150.0, 5.0, 250.0, 121.0, 1.0].map(Some);
    assert_eq!(told.map(|field| session.value(field)), wanted);
    let events: Vec<_> = only(&read, "event").iter().map(|event| (event.time(), event.value("event_type"))).collect();
    assert_eq!(events[0].1.zip(events[1].1), Some((0.0, 4.0)));
    assert_eq!([events[0].0, events[1].0].map(|time| time.unwrap().seconds()), [times[0], times[2]]);
    assert!(activity(columns(), 2).unwrap() == file);
    let fault = |columns: Vec<(&'static str, Samples<'static>)>| activity(columns, "running").unwrap_err();
    assert!(matches!(fault(vec![("heart_rate", Samples::of([1]))]), ActivityFault::NoTimes));
    assert!(matches!(fault(vec![("timestamp", Samples::of(Vec::<u32>::new()))]), ActivityFault::NoTimes));
    let short = fault(vec![("timestamp", Samples::of(times)), ("power", Samples::of([1, 2]))]);
    assert_eq!(short.to_string(), "power has 2 values, and another column has more");
    let unfit = fault(vec![("timestamp", Samples::of(times)), ("heart_rate", Samples::of([1, 300, 2]))]);
    assert!(matches!(unfit, ActivityFault::Unfit { record: 1, unfit: Unfit::Range { .. } }), "{unfit}");
    for sport in ["bicycling", ""] {
        assert!(matches!(activity(columns(), sport).unwrap_err(), ActivityFault::Write(_)), "{sport}");
    }
}

/// A segment for each stretch from a start of the timer to a stop, with all that a point has; and the end of what was broken off.
#[test]
fn tracks() {
    let fields = ["timestamp", "position_lat", "position_long", "heart_rate", "power", "cadence", "temperature"];
    let record = Definition::of("record", &fields).unwrap();
    let event = Definition::of("event", &["timestamp", "event", "event_type"]).unwrap();
    let mut out = Writer::new(Vec::new());
    for (begin, kind) in [(0_u32, 4_u8), (10, 1), (20, 8)] {
        for (time, kind) in [(begin, 0), (begin + 5, kind)] {
            let draft = event.message().with("timestamp", TIME + time).unwrap().with("event", 0).unwrap();
            out.write(&draft.with("event_type", kind).unwrap()).unwrap();
            if kind == 0 {
                let draft = record.message().with("timestamp", TIME + time).unwrap().with("heart_rate", 120).unwrap();
                let draft = draft.with("position_lat", 1 << 29).unwrap().with("position_long", -(1 << 30)).unwrap();
                let draft = draft.with("cadence", 90).unwrap().with("power", 250).unwrap();
                out.write(&draft.with("temperature", -5).unwrap()).unwrap();
            }
        }
    }
    let file = out.finish().unwrap();
    let track = gpx(&file).unwrap();
    let points: Vec<_> = track.lines().filter(|line| line.starts_with("<trkpt")).collect();
    assert_eq!((track.matches("<trk>").count(), track.matches("<trkseg>").count(), points.len()), (1, 3, 3));
    let wanted = concat!(
        r#"<trkpt lat="45.0000000" lon="-90.0000000"><time>2021-09-08T01:46:40Z</time><extensions>"#,
        "<gpxtpx:TrackPointExtension><gpxtpx:atemp>-5</gpxtpx:atemp><gpxtpx:hr>120</gpxtpx:hr><gpxtpx:cad>90</gpxtpx:cad>",
        "</gpxtpx:TrackPointExtension><pwr:PowerInWatts>250</pwr:PowerInWatts></extensions></trkpt>"
    );
    assert_eq!(points[0], wanted);
    assert_eq!(gpx(&file.repeat(2)).unwrap().matches("<trk>").count(), 2);
    let stopped = gpx(&RIDE[..2000]).unwrap_err();
    assert_eq!(stopped.fault, Fault::Truncated { place: 2000 });
    let whole = gpx(RIDE).unwrap();
    let track = stopped.before.strip_suffix("</trkseg></trk>\n</gpx>\n").unwrap();
    assert!(whole.starts_with(track) && track.matches("<trkpt").count() > 50);
    assert_eq!(gpx(&[]).unwrap_err().before.lines().count(), 3);
}
