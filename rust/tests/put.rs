//! Messages that are put after others than those before which they were read: each is read as it was.
mod made;

use gazhdor::{messages, BaseType, Definition, Developer, Message, Messages, Time, Writer};
use made::{data, define, describe, describes, fit, Random};

const TIME: u32 = 1_000_000_000;

/// A file of a record with a timestamp, and of others that tell it by their compressed headers, each so many seconds after the one before.
fn by_headers(steps: impl IntoIterator<Item = u32>) -> Vec<u8> {
    let (mut time, mut beat) = (TIME, 60_u8);
    let mut records = vec![
        define(0, 20, &[[253, 4, 0x86], [3, 1, 2]], &[], false),
        data(0, &[&time.to_le_bytes(), &[beat]]),
        define(1, 20, &[[3, 1, 2]], &[], false),
    ];
    for step in steps {
        (time, beat) = (time + step, beat.wrapping_add(1) % 200);
        records.push(data(0x80 | 1 << 5 | (time & 31) as u8, &[&[beat]]));
    }
    fit(&records)
}

fn written<'a>(some: impl Iterator<Item = Message<'a>>) -> Messages {
    let mut out = Writer::new(Vec::new());
    some.for_each(|message| out.copy_message(&message).unwrap());
    messages(&out.finish().unwrap()).unwrap()
}

fn told<'a>(some: impl Iterator<Item = Message<'a>>) -> Vec<(Option<Time>, Option<f64>)> {
    some.map(|message| (message.time(), message.value("heart_rate"))).collect()
}

/// 31 records, 20 s apart: without each third one there are 40 s between two, and an offset can't tell more than 31.
#[test]
fn each_third_record_left_out() {
    let file = by_headers([20; 30]);
    let read = messages(&file).unwrap();
    let stay = || (0..).zip(&read).filter(|(k, _)| k % 3 != 2).map(|(_, message)| message);
    let wanted: Vec<_> = (0..31_u32).filter(|k| k % 3 != 2).map(|k| Some(Time::new(TIME + 20 * k))).collect();
    let times = |some: Vec<(Option<Time>, Option<f64>)>| some.into_iter().map(|(time, _)| time).collect::<Vec<_>>();
    assert_eq!(times(told(stay())), wanted);
    assert_eq!(times(told(written(stay()).iter())), wanted);
}

/// Any records of any such file, in any order.
#[test]
fn any_records_in_any_order() {
    let mut random = Random(20_261_130);
    let mut kept = 0;
    for _ in 0..60 {
        let steps: Vec<_> = (0..40).map(|_| random.below(32) as u32).collect();
        let file = by_headers(steps);
        let read = messages(&file).unwrap();
        let mut some: Vec<_> = read.iter().filter(|_| random.below(3) != 0).collect();
        if random.below(2) == 0 {
            some.reverse();
        }
        let again = written(some.iter().copied());
        assert_eq!(told(again.iter()), told(some.iter().copied()));
        kept += again.iter().filter(|message| message.time_offset().is_some()).count();
    }
    assert!(kept > 300, "{kept}"); // where an offset says the time it stays
}

/// A message with an offset and no time before it has none, and doesn't get that of the message before which it comes.
#[test]
fn a_message_without_a_time_gets_none() {
    let timed = by_headers([5]);
    let bare = fit(&[define(0, 20, &[[3, 1, 2]], &[], false), data(0x80 | 9, &[&[77]]), data(0, &[&[78]])]);
    let (timed, bare) = (messages(&timed).unwrap(), messages(&bare).unwrap());
    assert_eq!(told(bare.iter()), [(None, Some(77.0)), (None, Some(78.0))]);
    let all = || timed.iter().chain(&bare).chain(&timed);
    assert_eq!(told(written(all()).iter()), told(all()));
}

/// A chain of two files in which a developer field has another name, unit and type. Of both the records alone are put into one file, one after
/// another and by turns: they keep name, unit, type and value.
#[test]
fn a_developer_field_that_is_renamed() {
    let file = |code: u8, name: &str, unit: &str, items: [&[u8]; 3]| {
        let size = items[0].len() as u8;
        let mut records = vec![describes(), describe(0, 0, code, name, unit)];
        records.push(define(1, 20, &[[3, 1, 2]], &[[0, size, 0]], false));
        records.extend(items.map(|item| data(1, &[&[60], item])));
        fit(&records)
    };
    let first = file(0x84, "power", "W", [&[44, 1], &[45, 1], &[46, 1]]);
    let second = file(0x83, "lean", "deg", [&[0xFD, 0xFF], &[0xFC, 0xFF], &[0xFB, 0xFF]]);
    let chain = [first, second].concat();
    let read = messages(&chain).unwrap();
    let records: Vec<_> = read.iter().filter(|message| message.number() == 20).collect();
    let of = |message: &Message<'_>| {
        let field = message.developer(0, 0).unwrap();
        (field.name().unwrap().to_string(), field.unit().unwrap().to_string(), field.base_type(), field.value(0))
    };
    let power = |value| ("power".to_string(), "W".to_string(), 0x84, Some(value));
    let lean = |value| ("lean".to_string(), "deg".to_string(), 0x83, Some(value));
    let wanted = [power(300.0), power(301.0), power(302.0), lean(-3.0), lean(-4.0), lean(-5.0)];
    assert!(records.iter().map(of).eq(wanted.iter().cloned()));
    for order in [[0, 1, 2, 3, 4, 5], [0, 3, 1, 4, 2, 5], [5, 0, 4, 1, 3, 2]] {
        let again = written(order.iter().map(|&k: &usize| records[k]));
        let told: Vec<_> = again.iter().filter(|message| message.number() == 20).map(|message| of(&message)).collect();
        assert_eq!(told, order.map(|k| wanted[k].clone()));
    }
}

/// Descriptions are written again only for what is described in another way: a file of many fields that changes one of them doesn't grow by
/// all of them each time.
#[test]
fn no_more_descriptions_than_are_needed() {
    let field = |number: u8, name: String| Developer {
        index: 0,
        number,
        base_type: BaseType::Uint8,
        name,
        unit: "u".repeat(200),
    };
    let fields: Vec<_> = (0..100).map(|number| field(number, "n".repeat(200))).collect();
    let other = field(0, "other".to_string());
    let of = |first: &Developer| {
        let all = [first].into_iter().chain(&fields[1..]);
        all.fold(Definition::numbered(20), |made, field| made.with_developer(field, 1).unwrap())
    };
    let (one, two) = (of(&fields[0]), of(&other));
    let mut out = Writer::new(Vec::new());
    for _ in 0..50 {
        out.write(&one.message().with((0, 0), 1).unwrap()).unwrap();
        out.describe(&other).unwrap(); // so that what was there is described in another way
        out.write(&two.message().with((0, 0), 2).unwrap()).unwrap();
    }
    let file = out.finish().unwrap();
    let read = messages(&file).unwrap();
    let described = read.iter().filter(|message| message.number() == 206).count();
    assert!(described < 100 + 4 * 50, "{described}");
    let told: Vec<_> =
        read.iter().filter(|message| message.number() == 20).map(|one| one.developer(0, 0).unwrap()).collect();
    assert_eq!(told.len(), 100);
    for (k, field) in told.iter().enumerate() {
        assert_eq!(field.name().map(|name| name == "other"), Some(k % 2 == 1));
    }
}

/// A compressed header can name four local message types: of a definition that wants another it gets one of these.
#[test]
fn a_compressed_header_of_a_high_local_message_type() {
    let power = Developer { index: 0, number: 1, base_type: BaseType::Uint8, name: "power".into(), unit: "W".into() };
    let record = Definition::of("record", &["timestamp"]).unwrap();
    let later = Definition::of("record", &["heart_rate"]).unwrap().with_developer(&power, 1).unwrap().at(9);
    let mut draft = later.message().with("power", 7).unwrap();
    draft.set_time_offset(Some(((TIME + 5) & 31) as u8)).unwrap();
    let mut out = Writer::new(Vec::new());
    out.write(&record.message().with("timestamp", TIME).unwrap()).unwrap();
    out.write(&draft).unwrap();
    let file = out.finish().unwrap();
    let last = messages(&file).unwrap().iter().last().map(|last| (last.local() < 4, last.time(), last.value("power")));
    assert_eq!(last, Some((true, Some(Time::new(TIME + 5)), Some(7.0))));
}
