//! Files that are written from values, beside bytes that are put together by hand.
mod made;

use gazhdor::{
    check, messages, BaseType, Checksum, Definition, Developer, Draft, Header, Key, Names, Raw, Time, Unfit, Value,
    Writer,
};
use made::{data, define, fit};
use BaseType::*;

const PRIVATE: u16 = 65280; // a message that the profile doesn't name

/// The second example of docs/CSV.md: the second message is in big endian, and has a compressed header.
#[test]
fn by_hand() {
    let first = Definition::of("record", &["timestamp", "heart_rate"]).unwrap();
    let second =
        Definition::of("record", &["altitude"]).unwrap().with("compressed_speed_distance", 3).unwrap().big_endian();
    let mut draft = second.message().with("altitude", 0).unwrap().with(8, &[0x64, 0, 0x10][..]).unwrap();
    draft.set_time_offset(Some(2)).unwrap();
    let mut out = Writer::new(Vec::new());
    out.begin(&Header::new(32, 2132, Checksum::There)).unwrap();
    out.write(&first.message().with("timestamp", Time::new(1_000_000_031)).unwrap().with("heart_rate", 120).unwrap())
        .unwrap();
    out.write(&draft).unwrap();
    let wanted = fit(&[
        define(0, 20, &[[253, 4, 0x86], [3, 1, 2]], &[], false),
        data(0, &[&1_000_000_031_u32.to_le_bytes(), &[120]]),
        define(1, 20, &[[2, 2, 0x84], [8, 3, 13]], &[], true),
        data(0xA2, &[&2500_u16.to_be_bytes(), &[0x64, 0, 0x10]]),
    ]);
    assert_eq!(out.finish().unwrap(), wanted);
}

/// Each base type of whole numbers: its least and its greatest, and what no value is in the file.
const WHOLE: [(BaseType, i128, i128, &[u8]); 13] = [
    (Enum, 0, 254, &[0xFF]),
    (Sint8, -128, 126, &[0x7F]),
    (Uint8, 0, 254, &[0xFF]),
    (Uint8z, 1, 255, &[0]),
    (Sint16, -32768, 32766, &[0xFF, 0x7F]),
    (Uint16, 0, 65534, &[0xFF, 0xFF]),
    (Uint16z, 1, 65535, &[0, 0]),
    (Sint32, -(1 << 31), (1 << 31) - 2, &[0xFF, 0xFF, 0xFF, 0x7F]),
    (Uint32, 0, (1 << 32) - 2, &[0xFF; 4]),
    (Uint32z, 1, (1 << 32) - 1, &[0; 4]),
    (Sint64, -(1 << 63), (1 << 63) - 2, &[0xFF, 0xFF, 0xFF, 0xFF, 0xFF, 0xFF, 0xFF, 0x7F]),
    (Uint64, 0, (1 << 64) - 2, &[0xFF; 8]),
    (Uint64z, 1, (1 << 64) - 1, &[0; 8]),
];

/// A field of each, with these numbers, and with those that are one too many.
#[test]
fn limits_of_numbers() {
    for (base_type, least, most, none) in WHOLE {
        let definition = Definition::numbered(PRIVATE).with_field(0, base_type, 1).unwrap();
        let of = |number: i128| {
            let value = u64::try_from(number).map_or_else(|_| Value::Signed(number as i64), Value::Unsigned);
            definition.message().with(0, value)
        };
        let bytes = |draft: Draft<'_>| draft.field(0).unwrap().bytes().to_vec();
        assert_eq!(
            (bytes(definition.message()), bytes(definition.message().with(0, Value::None).unwrap())),
            (none.into(), none.into())
        );
        for number in [least, least + 1, most - 1, most] {
            assert_eq!(bytes(of(number).unwrap()), number.to_le_bytes()[..none.len()], "{number} as {base_type:?}");
        }
        for number in [least - 1, most + 1]
            .into_iter()
            .filter(|&number| number == number as i64 as i128 || number == number as u64 as i128)
        {
            let (field, value) = ("field_0".to_string(), number.to_string());
            let (least, most) = (least.to_string(), most.to_string());
            assert_eq!(of(number).unwrap_err(), Unfit::Range { field, value, least, most });
        }
        assert_eq!(bytes(definition.message().with(0, f64::NAN).unwrap()), bytes(definition.message()));
        for number in [f64::INFINITY, -1e30, 1e300] {
            assert!(matches!(definition.message().with(0, number), Err(Unfit::Range { .. })));
        }
    }
}

#[test]
fn scaled_numbers() {
    let record = Definition::of("record", &["altitude", "speed", "distance", "vertical_speed"]).unwrap();
    let raw = |key: &str, value: f64| {
        record.message().with(key, value).map(|draft| draft.field(key).unwrap().raw(0).unwrap())
    };
    // a step is a fifth of a metre above -500 m, 1 mm/s, 1 cm
    assert_eq!(raw("altitude", 408.0), Ok(Raw::Unsigned(4540)));
    assert_eq!(raw("altitude", 408.1), Ok(Raw::Unsigned(4541))); // 4540.5 and a little more
    assert_eq!(raw("altitude", -500.09), Ok(Raw::Unsigned(0)));
    assert_eq!(raw("altitude", 12606.8), Ok(Raw::Unsigned(65534)));
    assert_eq!(raw("speed", 16.009), Ok(Raw::Unsigned(16009)));
    assert_eq!(raw("distance", 0.125), Ok(Raw::Unsigned(13))); // 12.5: the one that is farther from 0
    assert_eq!(raw("vertical_speed", -0.0625), Ok(Raw::Signed(-63))); // -62.5
    for (key, value) in [("altitude", -500.1), ("altitude", 12606.95), ("distance", -0.005), ("vertical_speed", 32.767)]
    {
        assert!(matches!(raw(key, value), Err(Unfit::Range { .. })), "{value}");
    }
    let fault = raw("altitude", 20000.0).unwrap_err();
    assert_eq!(fault.to_string(), "altitude: 20000.0 isn't from -500 to 12606.8");
    assert_eq!(record.message().with("heart_rate", 3).unwrap_err(), Unfit::NoField { field: "heart_rate".into() });
}

/// Each 16-bit number of a field whose scale has no exact values is what its value is written as.
#[test]
fn each_number_comes_back() {
    let record = Definition::of("record", &["altitude", "speed", "grade"]).unwrap();
    let mut draft = record.message();
    for raw in 0..=u16::MAX {
        for key in ["altitude", "speed"] {
            draft.set_raw(key, 0, Raw::Unsigned(raw.into())).unwrap();
            let value = draft.field(key).unwrap().value(0);
            assert_eq!(value.is_none(), raw == u16::MAX);
            let again = record.message().with(key, value).unwrap();
            assert_eq!(again.field(key).unwrap().raw(0), Some(Raw::Unsigned(raw.into())));
        }
        draft.set_raw("grade", 0, Raw::Signed((raw as i16).into())).unwrap();
        let again = record.message().with("grade", draft.field("grade").unwrap().value(0)).unwrap();
        assert_eq!(again.field("grade").unwrap().raw(0), Some(Raw::Signed((raw as i16).into())));
    }
}

#[test]
fn floats() {
    let definition =
        Definition::numbered(PRIVATE).with_field(0, Float32, 1).unwrap().with_field(1, Float64, 1).unwrap();
    let narrow = |value: f64| definition.message().with(0, value).map(|draft| draft.field(0).unwrap().raw(0).unwrap());
    assert_eq!(narrow(1.5), Ok(Raw::Float32(0x3FC0_0000)));
    assert_eq!(narrow(0.1), Ok(Raw::Float32(0x3DCC_CCCD)));
    assert_eq!(narrow(f64::NEG_INFINITY), Ok(Raw::Float32(0xFF80_0000)));
    assert_eq!(narrow(f64::NAN), Ok(Raw::Float32(0xFFFF_FFFF))); // as where there is no value
    for value in [1e39, -1e300] {
        assert!(matches!(narrow(value), Err(Unfit::Range { .. })));
    }
    let wide = definition.message().with(1, 0.1).unwrap().with(0, 7).unwrap();
    assert_eq!(
        (wide.field(1).unwrap().raw(0), wide.field(0).unwrap().value(0)),
        (Some(Raw::Float64(0x3FB9_9999_9999_999A)), Some(7.0))
    );
    assert_eq!(definition.message().with(1, f64::NAN).unwrap().field(1).unwrap().value(0), None);
    let mut draft = definition.message();
    draft.set_raw(0, 0, Raw::Float32(0x7F80_0001)).unwrap();
    assert_eq!(draft.field(0).unwrap().bytes(), [1, 0, 0x80, 0x7F]);
    assert!(draft.set_raw(0, 0, Raw::Float64(0)).is_err() && draft.set_raw(0, 1, Raw::Float32(0)).is_err());
}

#[test]
fn texts_and_bytes() {
    let definition = Definition::numbered(PRIVATE).with_field(0, String, 8).unwrap().with_field(1, Byte, 3).unwrap();
    let bytes = |key: u8, value: Value<'_>| {
        definition.message().with(key, value).map(|draft| draft.field(key).unwrap().bytes().to_vec())
    };
    assert_eq!(bytes(0, "R\u{e4}der".into()), Ok(b"R\xC3\xA4der\0\0".to_vec()));
    assert_eq!(bytes(0, "12345678".into()), Ok(b"12345678".to_vec()));
    assert_eq!(bytes(0, Value::Bytes(b"R\xE4der")), Ok(b"R\xE4der\0\0\0".to_vec()));
    assert_eq!((bytes(0, "".into()), bytes(0, Value::None)), (Ok(vec![0; 8]), Ok(vec![0; 8])));
    assert_eq!(bytes(0, "123456789".into()), Err(Unfit::Length { field: "field_0".into(), length: 9, room: 8 }));
    assert_eq!((bytes(1, Value::Bytes(&[1, 2, 3])), bytes(1, Value::None)), (Ok(vec![1, 2, 3]), Ok(vec![0xFF; 3])));
    assert_eq!(bytes(1, Value::Bytes(&[0xFF; 3])), bytes(1, Value::None));
    for value in [Value::Text("a\0b"), Value::Unsigned(7), Value::Float(1.5), Value::Several] {
        assert!(matches!(bytes(0, value), Err(Unfit::Kind { .. })), "{value:?}");
    }
    for value in [Value::Bytes(&[1, 2]), Value::Bytes(&[1; 4]), Value::Text("abc"), Value::Unsigned(7)] {
        assert!(bytes(1, value).is_err(), "{value:?}");
    }
    let long = "\u{e4}".repeat(1000);
    let fault = definition.message().with(1, long.as_str()).unwrap_err().to_string();
    assert_eq!(fault, format!("field_1: it takes bytes, not \"{}\"", "\u{e4}".repeat(40)));
}

#[test]
fn several_numbers() {
    let definition = Definition::of("hrv", &[]).unwrap().with("time", 3).unwrap();
    let mut draft = definition.message();
    draft.set_items("time", [0.5, 0.501]).unwrap();
    assert_eq!(draft.field("time").unwrap().bytes(), [0xF4, 1, 0xF5, 1, 0xFF, 0xFF]);
    draft.set_item("time", 2, 1).unwrap();
    assert_eq!(draft.field("time").unwrap().bytes(), [0xF4, 1, 0xF5, 1, 0xE8, 3]);
    let before = draft.clone();
    assert_eq!(draft.set_item("time", 3, 1), Err(Unfit::Length { field: "time".into(), length: 4, room: 3 }));
    let one_too_many = Err(Unfit::Length { field: "time".into(), length: 4, room: 3 });
    assert_eq!(
        (draft.set_items("time", [1, 2, 3, 4]), draft.set_items("time", std::iter::repeat(1))),
        (one_too_many.clone(), one_too_many)
    );
    let gap = draft.set_items("time", [1.0, f64::NAN]).map(|()| draft.field("time").unwrap().bytes().to_vec());
    assert_eq!(gap, Ok(vec![0xE8, 3, 0xFF, 0xFF, 0xFF, 0xFF]));
    draft = before.clone();
    assert_eq!(draft.set("time", 1), Err(Unfit::Length { field: "time".into(), length: 1, room: 3 }));
    assert!(draft == before);
    draft.set("time", Value::None).unwrap();
    assert_eq!(draft.field("time").unwrap().bytes(), [0xFF; 6]);
}

#[test]
fn definitions_that_cannot_be() {
    let no_message = Unfit::NoMessage { message: "rekord".into() };
    assert_eq!(Definition::of("rekord", &[]).unwrap_err(), no_message);
    assert_eq!(Definition::of("record", &["puls"]).unwrap_err(), Unfit::NoField { field: "puls".into() });
    assert_eq!(Definition::of("sport", &["name"]).unwrap_err(), Unfit::NoBaseType { field: "name".into() });
    assert_eq!(Definition::of("sport", &[]).unwrap().with("name", 16).unwrap().fields().next().unwrap().count(), 16);
    let full = |field: &str| Err(Unfit::Full { field: field.into() });
    let long = Definition::numbered(PRIVATE).with_field(7, Uint64, 32);
    assert_eq!(long.map(drop), full("field_7"));
    let most =
        (0..255).try_fold(Definition::numbered(PRIVATE), |made, number| made.with_field(number, Uint8, 255)).unwrap();
    assert_eq!((most.fields().count(), most.clone().with_field(255, Uint8, 1).map(drop)), (255, full("field_255")));
    // The longest message: 255 fields of 255 bytes.
    let mut out = Writer::new(Vec::new());
    out.write(&most.message()).unwrap();
    let file = out.finish().unwrap();
    assert_eq!((file.len(), check(&file)), (14 + 6 + 765 + 1 + 255 * 255 + 2, Ok(1)));
}

#[test]
fn own_names() {
    let mut names = Names::read(
        "message\tmessage name\tfield\tfield name\tscale\tbase type\n300\tsauna\t0\tsteam\t0.7111111\tuint8\n",
    )
    .unwrap();
    names.set_base_type(300, 1, Sint16);
    let sauna = Definition::by(&names, "sauna", &["timestamp", "steam"]).unwrap().with_field(1, Sint16, 1).unwrap();
    let draft = sauna.message().with("steam", 90.0).unwrap();
    // 90 * 0.7111111 = 63.999999, and steps are 1.40625 apart
    assert_eq!(draft.field("steam").unwrap().raw(0), Some(Raw::Unsigned(64)));
    assert_eq!(Definition::by(&names, "sauna", &["heat"]).unwrap_err(), Unfit::NoField { field: "heat".into() });
    assert_eq!(Definition::by(&names, "record", &["heart_rate"]).unwrap().number(), 20);
}

#[test]
fn developer_fields() {
    let power = Developer { index: 3, number: 9, base_type: Sint16, name: "Form power".into(), unit: "W".into() };
    let record = Definition::numbered(20).with_developer(&power, 1).unwrap().with("heart_rate", 1).unwrap();
    let mut out = Writer::new(Vec::new());
    out.begin(&Header::new(32, 2132, Checksum::There)).unwrap();
    out.describe(&power).unwrap();
    out.write(
        &record.message().with("Form power", -2).unwrap().with((3, 9), -3).unwrap().with(Key::Position(0), 99).unwrap(),
    )
    .unwrap();
    let wanted = fit(&[
        define(0, 206, &[[0, 1, 2], [1, 1, 2], [2, 1, 2], [3, 11, 7], [8, 2, 7]], &[], false),
        data(0, &[&[3, 9, 0x83], b"Form power\0W\0"]),
        define(1, 20, &[[3, 1, 2]], &[[9, 2, 3]], false),
        data(1, &[&[99], &(-3_i16).to_le_bytes()]),
    ]);
    let file = out.finish().unwrap();
    assert_eq!(file, wanted);
    let read = messages(&file).unwrap();
    assert_eq!(read.iter().last().unwrap().value("Form power"), Some(-3.0));
    let long = Developer { name: "x".repeat(256), ..power };
    assert!(matches!(Writer::new(Vec::new()).describe(&long), Err(gazhdor::WriteFault::Unfit(Unfit::Length { .. }))));
}
