//! What is read from messages, by files that are written here by hand.
mod made;

use gazhdor::{messages, Fault, Message, Messages, Raw, Reason, Stopped, Time, Value};
use made::{data, define, describe, describes, fit};
use std::thread;

const RIDE: &[u8] = include_bytes!(concat!(env!("GAZHDOR_RIDES"), "/ride.fit"));
const PRIVATE: u16 = 65280; // a message that the profile doesn't name

/// The messages of records, and sees the last of them.
fn last<T>(records: &[Vec<u8>], see: impl Fn(Message<'_>) -> T) -> T {
    let made = messages(&fit(records)).unwrap();
    let last = made.iter().last().unwrap();
    see(last)
}

/// The second example of docs/CSV.md: the second message is in big endian, and has a compressed header.
fn small() -> Vec<u8> {
    fit(&[
        define(0, 20, &[[253, 4, 0x86], [3, 1, 2]], &[], false),
        data(0, &[&1_000_000_031_u32.to_le_bytes(), &[120]]),
        define(1, 20, &[[2, 2, 0x84], [8, 3, 13]], &[], true),
        data(0xA2, &[&2500_u16.to_be_bytes(), &[0x64, 0, 0x10]]),
    ])
}

#[test]
fn of_a_message() {
    let made = messages(&small()).unwrap();
    let [first, second] = <[_; 2]>::try_from(made.iter().collect::<Vec<_>>()).unwrap();
    assert_eq!(
        (first.name(), first.number(), first.file(), first.local(), first.place()),
        (Some("record"), 20, 1, 0, 26)
    );
    assert_eq!((first.time(), first.header_time(), first.time_offset()), (Some(Time::new(1_000_000_031)), None, None));
    assert_eq!(
        (first.speed(), first.distance(), first.total_cycles(), first.accumulated_power()),
        (None, None, None, None)
    );
    let time = Some(Time::new(1_000_000_034));
    assert_eq!((second.local(), second.place()), (1, 44));
    assert_eq!((second.time(), second.header_time(), second.time_offset()), (time, time, Some(2)));
    assert_eq!((second.speed(), second.distance()), (Some(1.0), Some(16.0)));
    assert_eq!((second.total_cycles(), second.accumulated_power()), (None, None));
    assert_eq!((made.into_iter().count(), first == second), (2, false));
}

#[test]
fn of_a_field() {
    let made = messages(&small()).unwrap();
    let second = (&made).into_iter().nth(1).unwrap();
    let altitude = second.field("altitude").unwrap();
    assert_eq!((altitude.name(), altitude.number(), altitude.developer()), (Some("altitude"), 2, None));
    assert_eq!((altitude.unit(), altitude.base_type(), altitude.count()), (Some("m"), 0x84, 1));
    assert_eq!((altitude.scale(), altitude.offset(), altitude.decimals()), (5, 500, 1));
    assert_eq!(
        (altitude.value(0), altitude.raw(0), altitude.whole()),
        (Some(0.0), Some(Raw::Unsigned(2500)), Value::Float(0.0))
    );
    assert_eq!(
        (altitude.value(1), altitude.raw(1), altitude.item(1), altitude.is_valid(1)),
        (None, None, Value::None, false)
    );
    assert_eq!((altitude.value(usize::MAX), altitude.raw(usize::MAX), altitude.text()), (None, None, None));
    assert_eq!(
        (second.numbered(2), second.value("altitude"), altitude.bytes()),
        (Some(altitude), Some(0.0), &[0xC4, 9][..])
    );
    let both = second.numbered(8).unwrap();
    assert_eq!((both.whole(), both.value(0), both.unit()), (Value::Bytes(&[0x64, 0, 0x10]), None, None));
    assert_eq!((both.raw(2), both.is_valid(1), both.count()), (Some(Raw::Byte(0x10)), true, 3));
    for name in ["heart_rate", "", "altitud", "altitude\0", "altitudes"] {
        assert_eq!((second.field(name), second.value(name)), (None, None));
    }
    assert_eq!((second.numbered(3), second.developer(0, 2), second.fields().count()), (None, None, 2));
}

/// Field k of a message in big endian is the k-th of these: its base type, its items, and what it stands for as a whole.
fn big_fields() -> [(u8, Vec<u8>, Value<'static>); 9] {
    [
        (0x83, (-2_i16).to_be_bytes().into(), Value::Signed(-2)),
        (0x86, [7_u32.to_be_bytes(), u32::MAX.to_be_bytes()].concat(), Value::Several),
        (0x8E, (-(1_i64 << 40)).to_be_bytes().into(), Value::Signed(-(1 << 40))),
        (0x89, 0.1_f64.to_be_bytes().into(), Value::Float(0.1)),
        (0x8F, ((1_u64 << 63) + 1).to_be_bytes().into(), Value::Unsigned((1 << 63) + 1)),
        (0x84, vec![0xFF, 0xFF], Value::None),
        (1, vec![0x80], Value::Signed(-128)),
        (2, vec![], Value::None),
        (0x88, 1.5_f32.to_be_bytes().into(), Value::Float(1.5)),
    ]
}

#[test]
fn numbers() {
    let fields = big_fields();
    let defined: Vec<_> = (0..).zip(&fields).map(|(k, (code, items, _))| [k, items.len() as u8, *code]).collect();
    let items: Vec<_> = fields.iter().map(|(_, items, _)| &items[..]).collect();
    last(&[define(0, PRIVATE, &defined, &[], true), data(0, &items)], |message| {
        assert_eq!((message.name(), message.number(), message.time()), (None, PRIVATE, None));
        let wanted = fields.iter().map(|(_, _, whole)| *whole);
        assert_eq!(message.fields().map(|field| field.whole()).collect::<Vec<_>>(), wanted.collect::<Vec<_>>());
        let several = message.numbered(1).unwrap();
        let [raw, nothing] = [Raw::Unsigned(7), Raw::Unsigned(u32::MAX.into())].map(Some);
        assert_eq!((several.name(), several.unit(), several.count()), (None, None, 2));
        assert_eq!([0, 1, 2].map(|k| several.item(k)), [Value::Unsigned(7), Value::None, Value::None]);
        assert_eq!([0, 1, 2].map(|k| several.value(k)), [Some(7.0), None, None]);
        assert_eq!([0, 1, 2].map(|k| several.raw(k)), [raw, nothing, None]);
        let [double, float] = [Raw::Float64(0.1_f64.to_bits()), Raw::Float32(1.5_f32.to_bits())].map(Some);
        let numbered = |number| message.numbered(number).unwrap();
        assert_eq!([0, 3, 8].map(|number| numbered(number).raw(0)), [Some(Raw::Signed(-2)), double, float]);
        assert_eq!([4, 5, 7].map(|number| numbered(number).value(0)), [Some(9_223_372_036_854_775_808.0), None, None]);
    });
}

#[test]
fn scaled_numbers() {
    let items: Vec<_> = [2500_u16, 2501, 0, 65535].iter().flat_map(|item| item.to_le_bytes()).collect();
    let records = [define(0, 20, &[[2, 8, 0x84], [5, 4, 0x86]], &[], false), data(0, &[&items, &[1, 0, 0, 0]])];
    last(&records, |record| {
        let altitude = record.field("altitude").unwrap();
        assert_eq!([0, 1, 2, 3].map(|k| altitude.value(k)), [Some(0.0), Some(0.2), Some(-500.0), None]);
        assert_eq!(
            (altitude.whole(), altitude.item(1), altitude.item(3)),
            (Value::Several, Value::Float(0.2), Value::None)
        );
        assert_eq!((record.value("distance"), record.value("altitude")), (Some(0.01), Some(0.0)));
    });
}

/// A NaN is a number here, of which each bit is kept; all ones alone stand for no value.
#[test]
fn floats() {
    let bits = [0x7F80_0001_u32, 0xFFC0_1234, u32::MAX, 0x8000_0000];
    let items: Vec<_> = bits.iter().flat_map(|bits| bits.to_le_bytes()).collect();
    last(&[define(0, PRIVATE, &[[0, 16, 0x88]], &[], false), data(0, &[&items])], |message| {
        let field = message.numbered(0).unwrap();
        assert_eq!([0, 1, 2, 3].map(|k| field.raw(k)), bits.map(|bits| Some(Raw::Float32(bits))));
        assert!(field.value(0).unwrap().is_nan() && field.value(1).unwrap().is_nan());
        assert_eq!((field.value(2), field.value(3), field.item(3)), (None, Some(0.0), Value::Float(0.0)));
    });
}

#[test]
fn texts_and_bytes() {
    let texts: [(&[u8], Value<'_>, Option<&str>); 6] = [
        (b"R\xc3\xa4der\0\0", Value::Text("R\u{e4}der"), Some("R\u{e4}der")),
        (b"one\0two", Value::Text("one"), Some("one")),
        (b"full", Value::Text("full"), Some("full")),
        (b"\0\0", Value::None, None),
        (b"", Value::None, None),
        (b"R\xe4der\0x", Value::Bytes(b"R\xe4der"), None),
    ];
    for (bytes, whole, text) in texts {
        last(&[define(0, PRIVATE, &[[0, bytes.len() as u8, 7]], &[], false), data(0, &[bytes])], |message| {
            let field = message.numbered(0).unwrap();
            assert_eq!((field.whole(), field.text(), field.bytes(), field.count()), (whole, text, bytes, bytes.len()));
            assert_eq!((field.value(0), field.raw(0)), (None, bytes.first().map(|&byte| Raw::Byte(byte))));
        });
    }
    let bytes: [(u8, &[u8], Value<'_>); 6] = [
        (13, &[0xFF, 0xFF], Value::None),
        (13, &[0xFF, 0], Value::Bytes(&[0xFF, 0])),
        (13, &[], Value::None),
        (200, &[1, 2], Value::Bytes(&[1, 2])),
        (0x84, &[1, 2, 3], Value::Bytes(&[1, 2, 3])),
        (0x84, &[0xFF; 3], Value::Bytes(&[0xFF; 3])),
    ];
    for (code, bytes, whole) in bytes {
        last(&[define(0, PRIVATE, &[[0, bytes.len() as u8, code]], &[], false), data(0, &[bytes])], |message| {
            let field = message.numbered(0).unwrap();
            assert_eq!((field.whole(), field.text()), (whole, None));
            assert!((0..bytes.len()).all(|k| field.is_valid(k)) && !field.is_valid(bytes.len()));
        });
    }
}

#[test]
fn developer_fields() {
    let records = [
        describes(),
        describe(0, 2, 0x84, "Form power", "W"),
        define(0, 20, &[[3, 1, 2]], &[[2, 2, 0], [3, 2, 1]], false),
        // It comes too late for that definition.
        describe(0, 2, 0x83, "Other", "N"),
        data(0, &[&[120, 44, 1, 5, 6]]),
    ];
    last(&records, |record| {
        let form = record.field("Form power").unwrap();
        assert_eq!(
            (form.name(), form.unit(), form.developer(), form.number()),
            (Some("Form power"), Some("W"), Some(0), 2)
        );
        assert_eq!((form.value(0), form.whole(), form.base_type()), (Some(300.0), Value::Unsigned(300), 0x84));
        assert_eq!((record.developer(0, 2), record.value("Form power")), (Some(form), Some(300.0)));
        let unnamed = record.developer(1, 3).unwrap();
        assert_eq!((unnamed.name(), unnamed.unit(), unnamed.whole()), (None, None, Value::Bytes(&[5, 6])));
        assert_eq!((record.numbered(2), record.developer(1, 2), record.field("Other")), (None, None, None));
        assert_eq!(record.fields().map(|field| field.developer()).collect::<Vec<_>>(), [None, Some(0), Some(1)]);
    });
}

#[test]
fn what_is_added_up() {
    let records = [
        define(0, 20, &[[8, 3, 13], [18, 1, 2], [28, 2, 0x84]], &[], false),
        data(0, &[&[0x64, 0, 0x10], &[250], &[10, 0]]),
        data(0, &[&[0x64, 0, 0x20], &[4], &[20, 0]]),
        data(0, &[&[0xFF, 0xFF, 0xFF], &[0xFF], &[0xFF, 0xFF]]),
    ];
    let made = messages(&fit(&records)).unwrap();
    let told = |message: Message<'_>| {
        (message.speed(), message.distance(), message.total_cycles(), message.accumulated_power())
    };
    let wanted = [
        (Some(1.0), Some(16.0), Some(250), Some(10)),
        (Some(1.0), Some(32.0), Some(260), Some(20)),
        (None, None, None, None),
    ];
    assert_eq!(made.iter().map(told).collect::<Vec<_>>(), wanted);
}

#[test]
fn system_times() {
    let records = [define(0, 20, &[[253, 4, 0x86]], &[], false), data(0, &[&7_u32.to_le_bytes()])];
    let time = last(&records, |message| message.time()).unwrap();
    assert_eq!(
        (time.is_system(), time.seconds(), time.unix(), time.to_string()),
        (true, 7, None, "system+7".to_string())
    );
    let none = [define(0, 20, &[[253, 4, 0x86]], &[], false), data(0, &[&u32::MAX.to_le_bytes()])];
    assert_eq!(last(&none, |message| message.time()), None);
}

#[test]
fn what_comes_before_a_fault() {
    let mut bytes = small();
    let (end, sum) = (bytes.len(), bytes.len() as u64 - 2);
    bytes[end - 2] ^= 1;
    let stopped = messages(&bytes).unwrap_err();
    assert_eq!(
        (stopped.fault, stopped.before.iter().count()),
        (Fault::Refused { place: sum, reason: Reason::FileSum }, 2)
    );
    assert_eq!(stopped.to_string(), format!("refused at byte {sum}: FileSum"));
    let stopped = messages(&bytes[..40]).unwrap_err();
    assert_eq!((stopped.fault, stopped.before.iter().count()), (Fault::Truncated { place: 40 }, 1));
    let stopped: Stopped<Messages> = messages(&[]).unwrap_err();
    assert!(stopped.before.iter().next().is_none());
    assert_eq!(Fault::from(stopped), Fault::Truncated { place: 0 });
    fn count(bytes: &[u8]) -> Result<usize, Box<dyn std::error::Error + Send + Sync>> {
        Ok(messages(bytes)?.iter().count())
    }
    assert_eq!(count(&small()).unwrap(), 2);
    assert_eq!(count(&small()[..40]).unwrap_err().to_string(), "truncated at byte 40");
}

#[test]
fn chains_have_files() {
    let made = messages(&[small(), small()].concat()).unwrap();
    assert_eq!(made.iter().map(|message| message.file()).collect::<Vec<_>>(), [1, 1, 2, 2]);
    assert_eq!(made.iter().map(|message| message.place()).collect::<Vec<_>>(), [26, 44, 78, 96]);
}

#[test]
fn as_text() {
    let made = messages(&small()).unwrap();
    let field =
        "Field { name: Some(\"heart_rate\"), number: 3, developer: None, value: Unsigned(120), unit: Some(\"bpm\") }";
    let first = made.iter().next().unwrap();
    assert_eq!(format!("{:?}", first.field("heart_rate").unwrap()), field);
    let begins = "Message { name: Some(\"record\"), number: 20, file: 1, place: 26, time: Some(Time(1000000031)), fields: [Field {";
    assert!(format!("{first:?}").starts_with(begins));
    assert_eq!(format!("{:?}", made.iter()), format!("{:?}", made.iter().collect::<Vec<_>>()));
    assert_eq!(format!("{made:?}"), "Messages { bytes: 536, .. }");
}

#[test]
fn four_threads() {
    let made = thread::spawn(|| messages(RIDE).unwrap()).join().unwrap();
    let sum = |made: &Messages| made.iter().filter_map(|message| message.value("altitude")).sum::<f64>();
    thread::scope(|scope| {
        for _ in 0..4 {
            scope.spawn(|| (0..10).for_each(|_| assert_eq!(sum(&messages(RIDE).unwrap()), sum(&made))));
        }
    });
}
