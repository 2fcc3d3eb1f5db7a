//! Files that are edited: fields emptied, times moved, parts cut out. The parts together have the sums of the whole.
mod made;

use gazhdor::{
    check, join_as_one, messages, Definition, Draft, Edit, EditFault, Fault, Message, Messages, Names, Time, Unfit,
    Writer,
};
use made::{any_file, data, define, fit, Random};

const RIDE: &[u8] = include_bytes!(concat!(env!("GAZHDOR_RIDES"), "/ride.fit"));
const TIME: u32 = 1_000_000_000;

fn edited(edit: &Edit, file: &[u8]) -> Vec<u8> {
    edit.write(file, Vec::new()).unwrap().0
}

fn only<'a>(read: &'a Messages, name: &'a str) -> Vec<Message<'a>> {
    read.iter().filter(move |message| message.name() == Some(name)).collect()
}

fn sum(read: &Messages, message: &str, field: &str) -> f64 {
    let names = Names::extra();
    only(read, message).into_iter().map(|of| of.named(&names).value(field).unwrap_or(0.0)).sum()
}

fn seconds(message: &Message<'_>) -> u32 {
    message.time().unwrap().seconds()
}

#[test]
fn without_a_change() {
    let mut random = Random(20_261_130);
    let files = (0..40).map(|_| any_file(&mut random)).chain([RIDE.to_vec(), RIDE.repeat(2)]);
    for file in files {
        assert!(edited(&Edit::new(), &file) == file);
    }
}

#[test]
fn without_places() {
    let (file, emptied) = Edit::new().drop("position").write(RIDE, Vec::new()).unwrap();
    let (old, new) = (messages(RIDE).unwrap(), messages(&file).unwrap());
    let mut counted = 0;
    for (one, other) in old.iter().zip(&new) {
        for (field, now) in one.fields().zip(other.fields()) {
            let is_place = field.unit() == Some("semicircles");
            counted += u64::from(is_place && field.value(0).is_some());
            assert!(if is_place { now.value(0).is_none() } else { now == field }, "{field:?}");
        }
    }
    assert!(counted > 200 && counted == emptied.values().sum());
    assert_eq!((file.len(), new.iter().count()), (RIDE.len(), old.iter().count()));
}

/// By name and number, of one message or of all; and by no name.
#[test]
fn fields_that_are_named() {
    let count = |word: &str| Edit::new().drop(word).write(RIDE, Vec::new()).unwrap().1;
    let of = |message: &str, field: &str| (message.to_string(), field.to_string());
    let altitudes = count("altitude");
    assert_eq!(altitudes.keys().collect::<Vec<_>>(), [&of("record", "altitude")]);
    assert_eq!(
        (count("record.2"), count("20.altitude"), count("20.2")),
        (altitudes.clone(), altitudes.clone(), altitudes)
    );
    assert!(count("lap.altitude").is_empty() && count("heart_rate").is_empty());
    let fault = |word: &str| match Edit::new().drop(word).write(RIDE, Vec::new()) {
        Err(EditFault::Unfit(unfit)) => unfit,
        other => panic!("{other:?}"),
    };
    assert_eq!(fault("hart_rate"), Unfit::NoField { field: "hart_rate".to_string() });
    assert_eq!(fault("rekord.altitude"), Unfit::NoMessage { message: "rekord".to_string() });
    let fault = Edit::new().write(&RIDE[..2000], Vec::new()).unwrap_err();
    assert!(matches!(fault, EditFault::File(Fault::Truncated { place: 2000 })));
}

/// Times of fields and of headers; there and back it is the same file.
#[test]
fn later_and_earlier() {
    let mut time = TIME;
    let mut records = vec![
        define(0, 20, &[[253, 4, 0x86], [3, 1, 2]], &[], false),
        data(0, &[&time.to_le_bytes(), &[60]]),
        define(1, 20, &[[3, 1, 2]], &[], false),
    ];
    for beat in 0..100_u8 {
        time += u32::from(beat) % 31;
        records.push(data(0x80 | 1 << 5 | (time & 31) as u8, &[&[beat]]));
    }
    for file in [fit(&records), RIDE.to_vec()] {
        for shift in [1, 7, -7, 3600, -86_399] {
            let moved = edited(&Edit::new().shift(shift), &file);
            let (old, new) = (messages(&file).unwrap(), messages(&moved).unwrap());
            for (one, other) in old.iter().zip(&new) {
                let later = |time: Time| i64::from(time.seconds()) + shift;
                assert_eq!(one.time().map(later), other.time().map(|time| i64::from(time.seconds())));
                assert_eq!(one.value("heart_rate"), other.value("heart_rate"));
                let start = one.value("start_time").map(|time| time + shift as f64);
                assert_eq!(start, other.value("start_time"));
            }
            assert_eq!(old.iter().count(), new.iter().count());
            assert!(edited(&Edit::new().shift(-shift), &moved) == file);
        }
    }
    let fault = Edit::new().shift(1 << 33).write(RIDE, Vec::new()).unwrap_err();
    assert!(matches!(fault, EditFault::Write(gazhdor::WriteFault::Unfit(Unfit::Range { .. }))), "{fault}");
}

/// Each part of the ride says what its records say, and nothing of outside its span is in it; both parts together have the records, the time,
/// the distance and the laps of the whole.
#[test]
fn parts_of_the_ride() {
    let read = messages(RIDE).unwrap();
    let records = only(&read, "record");
    let (first, last) = (seconds(&records[0]), seconds(&records[records.len() - 1]));
    let whole = |field: &str| sum(&read, "lap", field);
    for k in 1..20 {
        let cut = first + (last - first) * k / 20;
        let one = edited(&Edit::new().to(Time::new(cut)), RIDE);
        let other = edited(&Edit::new().from(Time::new(cut + 1)), RIDE);
        let (parts, mut count) = ([messages(&one).unwrap(), messages(&other).unwrap()], 0);
        for (part, is_in) in parts.iter().zip([|time: u32, cut: u32| time <= cut, |time, cut| time > cut]) {
            let of = only(part, "record");
            count += of.len();
            assert!(of.iter().all(|record| is_in(seconds(record), cut)));
            let sessions = only(part, "session");
            assert_eq!((sessions.len(), only(part, "activity").len()), (1, 1));
            let metres = of[of.len() - 1].distance().unwrap() - of[0].distance().unwrap();
            assert!((sessions[0].value("total_distance").unwrap() - metres).abs() < 0.02);
            assert_eq!(sum(part, "lap", "total_timer_time"), sum(part, "session", "total_timer_time"));
            let start = sessions[0].value("start_time").unwrap() as u32;
            let elapsed = sessions[0].value("total_elapsed_time").unwrap() as u32;
            assert!(start >= first && start + elapsed <= last + 1, "{start} {elapsed}");
            assert_eq!(only(part, "file_id"), only(&read, "file_id"));
        }
        assert_eq!(count, records.len());
        assert_eq!(only(&parts[1], "record")[0].distance(), Some(0.0));
        let joined = messages(&join_as_one([one, other], Vec::new()).unwrap()).unwrap();
        assert_eq!((only(&joined, "record").len(), only(&joined, "session").len()), (records.len(), 1));
        let gap = |of: &[Message<'_>]| {
            let at = of.iter().position(|record| seconds(record) > cut).unwrap();
            let step = of[at].distance().unwrap() - of[at - 1].distance().unwrap();
            (f64::from(seconds(&of[at]) - seconds(&of[at - 1])), step)
        };
        let (time, step) = gap(&records);
        let (ran, metres) = (sum(&joined, "session", "total_timer_time"), sum(&joined, "session", "total_distance"));
        assert!((0.0..=time).contains(&(whole("total_timer_time") - ran)), "{ran} {time}");
        assert!((whole("total_distance") - metres - step).abs() < 0.05, "{metres} {step}");
    }
    assert!(matches!(Edit::new().to(Time::new(first - 10)).write(RIDE, Vec::new()), Err(EditFault::Empty)));
}

/// A lap or a session of some seconds.
fn span<'a>(definition: &'a Definition<'_>, begin: u32, lasts: u32, sport: u32, calories: u32) -> Draft<'a> {
    let made = definition.message().with("timestamp", begin + lasts).unwrap().with("start_time", begin).unwrap();
    let made = made.with("total_elapsed_time", lasts).unwrap().with("total_timer_time", lasts).unwrap();
    made.with("sport", sport).unwrap().with("total_calories", calories).unwrap()
}

/// Swimming, cycling and running, 100 s each, with a lap, intervals between heart beats and calories.
fn triathlon() -> Vec<u8> {
    let fields = ["timestamp", "start_time", "total_elapsed_time", "total_timer_time", "sport", "total_calories"];
    let (lap, session) = (Definition::of("lap", &fields).unwrap(), Definition::of("session", &fields).unwrap());
    let record = Definition::of("record", &["timestamp", "distance", "heart_rate"]).unwrap();
    let hrv = Definition::of("hrv", &["time"]).unwrap();
    let mut out = Writer::new(Vec::new());
    out.write(&Definition::of("file_id", &["type"]).unwrap().message().with("type", 4).unwrap()).unwrap();
    for second in 0..300 {
        let made = record.message().with("timestamp", TIME + second).unwrap().with("distance", second).unwrap();
        out.write(&made.with("heart_rate", 100 + second / 100).unwrap()).unwrap();
        out.write(&hrv.message().with("time", 1.0).unwrap()).unwrap();
    }
    for definition in [&lap, &session] {
        for (k, sport) in (0..).zip([5, 2, 1]) {
            out.write(&span(definition, TIME + 100 * k, 100, sport, 37)).unwrap();
        }
    }
    out.finish().unwrap()
}

/// A part has the sport, the lap and the intervals of its own time, and the calories of all parts are those of the whole.
#[test]
fn several_sports() {
    let file = triathlon();
    let cut = |begin: u32, end: u32| {
        let edit = Edit::new().from(Time::new(TIME + begin)).to(Time::new(TIME + end));
        messages(&edited(&edit, &file)).unwrap()
    };
    let part = cut(120, 169);
    let values = |name: &str, field: &str| only(&part, name).iter().map(|of| of.value(field)).collect::<Vec<_>>();
    assert_eq!((values("session", "sport"), values("lap", "sport")), (vec![Some(2.0)], vec![Some(2.0)]));
    assert_eq!(
        (values("session", "start_time"), values("session", "total_elapsed_time")),
        (vec![Some(f64::from(TIME + 120))], vec![Some(49.0)])
    );
    assert_eq!(
        (values("session", "total_distance"), values("session", "avg_heart_rate")),
        (vec![Some(49.0)], vec![Some(101.0)])
    );
    assert_eq!((only(&part, "record").len(), sum(&part, "hrv", "time")), (50, 50.0));
    for step in [7, 20, 50, 100, 150] {
        let parts: Vec<_> = (0..300).step_by(step).map(|begin| cut(begin, begin + step as u32 - 1)).collect();
        let all = |name: &str, field: &str| parts.iter().map(|part| sum(part, name, field)).sum::<f64>();
        assert_eq!((all("lap", "total_calories"), all("session", "total_calories")), (111.0, 111.0), "{step}");
        assert_eq!(all("hrv", "time"), 300.0);
        let count: usize = parts.iter().map(|part| only(part, "record").len()).sum();
        assert_eq!(count, 300);
    }
    // A span that ends where another sport begins has none of that.
    assert_eq!(sum(&cut(0, 99), "session", "sport"), 5.0);
    assert_eq!(only(&cut(50, 250), "session").len(), 3);
}

/// Fields that are emptied are no part of what is made anew, and times that are moved are moved there too.
#[test]
fn anew_with_other_changes() {
    let read = messages(RIDE).unwrap();
    let first = seconds(&only(&read, "record")[0]);
    let edit = Edit::new().from(Time::new(first + 100)).to(Time::new(first + 400)).shift(1000);
    let part = messages(&edited(&edit.drop("position").drop("session.total_distance"), RIDE)).unwrap();
    let session = only(&part, "session")[0];
    assert_eq!(session.value("total_distance"), None);
    assert_eq!(session.value("start_position_lat"), None);
    assert!(only(&part, "lap")[0].value("total_distance").unwrap() > 100.0);
    assert_eq!(session.value("start_time").map(|time| time >= f64::from(first + 1100)), Some(true));
    assert!(seconds(&session) <= first + 1400);
    assert_eq!(check(&edited(&Edit::new().from(Time::new(first + 100)), &RIDE.repeat(2))), Ok(2));
}

/// Laps, sessions, sports and activities, as many as a file can have in a hundred thousand bytes: nothing is asked of each beside each other.
#[test]
fn very_many_laps() {
    let stamp = |number: u16| Definition::numbered(number).with("timestamp", 1).unwrap();
    let [lap, session, sport, activity] = [19, 18, 12, 34].map(stamp);
    let mut out = Writer::new(Vec::new());
    for second in 0..4000 {
        for definition in [&lap, &session, &sport, &activity] {
            out.write(&definition.message().with("timestamp", TIME + second).unwrap()).unwrap();
        }
    }
    let record = stamp(20);
    out.write(&record.message().with("timestamp", TIME + 1000).unwrap()).unwrap();
    let file = out.finish().unwrap();
    let part = edited(&Edit::new().from(Time::new(TIME + 1000)).to(Time::new(TIME + 2999)), &file);
    let read = messages(&part).unwrap();
    assert_eq!(["lap", "session", "sport"].map(|name| only(&read, name).len()), [2000, 2000, 2000]);
    assert_eq!(only(&read, "activity").len(), 4000);
    assert_eq!(only(&messages(&join_as_one([&part], Vec::new()).unwrap()).unwrap(), "lap").len(), 2000);
}

/// Over a hundred laps that begin before the span, each with an end of its own.
#[test]
fn very_many_cuts() {
    let lap = Definition::of("lap", &["start_time", "total_elapsed_time"]).unwrap();
    let record = Definition::of("record", &["timestamp"]).unwrap();
    let file = |count: u32| {
        let mut out = Writer::new(Vec::new());
        out.write(&record.message().with("timestamp", TIME + 200).unwrap()).unwrap();
        for second in 0..count {
            let made = lap.message().with("start_time", TIME).unwrap();
            out.write(&made.with("total_elapsed_time", 200 + second).unwrap()).unwrap();
        }
        out.finish().unwrap()
    };
    let edit = Edit::new().from(Time::new(TIME + 100));
    assert!(matches!(edit.write(&file(101), Vec::new()), Err(EditFault::Cuts)));
    assert_eq!(only(&messages(&edited(&edit, &file(100))).unwrap(), "lap").len(), 100);
}

/// What a reader adds up of a field that is emptied isn't written into another field of a part either.
#[test]
fn sums_of_what_is_emptied() {
    let names = Names::extra();
    let fields = ["compressed_speed_distance", "cycles", "compressed_accumulated_power"];
    let definition = Definition::of("record", &["timestamp"]).unwrap().with(fields[0], 3).unwrap();
    let definition = definition.with(fields[1], 1).unwrap().with(fields[2], 1).unwrap();
    let mut out = Writer::new(Vec::new());
    for k in 0..10_u32 {
        let speed = ((160 * k & 0xFFF) << 12 | 300).to_le_bytes();
        let draft = definition.message().with("timestamp", TIME + k).unwrap().with(fields[0], &speed[..3]).unwrap();
        out.write(&draft.with(fields[1], 3 * k).unwrap().with(fields[2], 100 * k).unwrap()).unwrap();
    }
    let ride = out.finish().unwrap();
    let steps = |begin: u32, step: u32| (0..7).map(|k| Some(f64::from((begin + k) * step))).collect::<Vec<_>>();
    for (at, field) in fields.iter().enumerate() {
        for word in [field.to_string(), format!("record.{field}"), [8, 18, 28][at].to_string()] {
            let (part, emptied) = Edit::new().drop(&word).from(Time::new(TIME + 3)).write(&ride, Vec::new()).unwrap();
            assert_eq!(emptied.into_iter().collect::<Vec<_>>(), [(("record".to_string(), field.to_string()), 7)]);
            let read = messages(&part).unwrap();
            let records: Vec<_> = only(&read, "record").into_iter().map(|record| record.named(&names)).collect();
            let of = |number: u8| records.iter().map(|record| record.numbered(number)?.value(0)).collect::<Vec<_>>();
            let mut sums = [steps(0, 10), steps(3, 3), steps(3, 100)];
            sums[at] = vec![None; 7];
            assert_eq!([5, 19, 29].map(of), sums, "{word}");
            for message in only(&read, "lap").into_iter().chain(only(&read, "session")) {
                let told = (message.value("total_distance"), message.value("max_speed"));
                assert_eq!(told, if at == 0 { (None, None) } else { (Some(60.0), Some(3.0)) });
            }
        }
    }
}
