//! Values that are ready to use, places that are looked up once, fields that are added, and what a record says as the table has it.
use gazhdor::{BaseType, Definition, Ready, Time, Value, Writer};

const TIME: u32 = 1_147_937_400;

#[test]
fn ready() {
    let session =
        Definition::of("session", &["timestamp", "start_time", "start_position_lat", "sport", "total_distance"])
            .unwrap();
    let session = session.with_field(200, BaseType::Byte, 2).unwrap().with_field(201, BaseType::Uint16, 3).unwrap();
    let mut draft = session.message();
    for (key, number) in [("timestamp", TIME), ("start_time", TIME), ("start_position_lat", 1 << 29), ("sport", 2)] {
        draft.set(key, number).unwrap();
    }
    draft.set("total_distance", 123.45).unwrap();
    draft.set(200, Value::Bytes(&[1, 0xFE])).unwrap();
    draft.set_items(201, [Value::Unsigned(1), Value::None, Value::Unsigned(3)]).unwrap();
    let mut writer = Writer::new(Vec::new());
    writer.write(&draft).unwrap();
    let file = writer.finish().unwrap();
    let messages = gazhdor::messages(&file).unwrap();
    let found = messages.iter().next().unwrap().ready();
    let text = |text: &str| Ready::Text(text.to_string());
    let wanted = [
        ("timestamp", Ready::Time(Time::new(TIME))),
        ("start_time", Ready::Time(Time::new(TIME))),
        ("start_position_lat", Ready::Float(45.0)),
        ("sport", text("cycling")),
        ("total_distance", Ready::Float(123.45)),
        ("field_200", text("0x01FE")),
        ("field_201_0", Ready::Unsigned(1)),
        ("field_201_1", Ready::None),
        ("field_201_2", Ready::Unsigned(3)),
    ];
    assert_eq!(found, wanted.map(|(name, value)| (name.to_string(), value)));
}

#[test]
fn as_the_table_has_it() {
    let record =
        Definition::of("record", &["timestamp", "altitude", "enhanced_altitude", "speed", "enhanced_speed"]).unwrap();
    let mut writer = Writer::new(Vec::new());
    for (altitude, enhanced, speed, more) in [(1.0, Some(2.0), 3.0, Some(4.0)), (1.0, None, 3.0, None)] {
        let draft = record.message().with("timestamp", TIME).unwrap().with("altitude", altitude).unwrap();
        let draft = draft.with("enhanced_altitude", enhanced).unwrap().with("speed", speed).unwrap();
        writer.write(&draft.with("enhanced_speed", more).unwrap()).unwrap();
    }
    let file = writer.finish().unwrap();
    let messages = gazhdor::messages(&file).unwrap();
    let found: Vec<_> =
        messages.iter().map(|message| (message.altitude(), message.speed(), message.distance())).collect();
    assert_eq!(found, [(Some(2.0), Some(4.0), None), (Some(1.0), Some(3.0), None)]);
}

/// A place gives what the field's name gives, and nothing of a message of another definition.
#[test]
fn places() {
    let file = std::fs::read(concat!(env!("GAZHDOR_RIDES"), "/ride.fit")).unwrap();
    let messages = gazhdor::messages(&file).unwrap();
    let (mut place, mut found) = (None, 0);
    for message in &messages {
        if let Some(of) = place.filter(|&of| message.has(of)) {
            assert_eq!(message.at(of).and_then(|field| field.value(0)), message.value("altitude"));
            found += 1;
        } else {
            assert!(place.map_or(true, |of| message.at(of).is_none()));
            place = message.look_up("altitude").or(place);
        }
    }
    assert_eq!(found, 143);
}

#[test]
fn added() {
    let file = std::fs::read(concat!(env!("GAZHDOR_RIDES"), "/ride.fit")).unwrap();
    let messages = gazhdor::messages(&file).unwrap();
    let record = messages.iter().find(|message| message.number() == 20).unwrap();
    let wider = record.definition().with("heart_rate", 1).unwrap();
    let made = wider.filled(&record).with("heart_rate", 120).unwrap();
    let told = |fields: gazhdor::Fields<'_>| fields.map(|field| (field.number(), field.value(0))).collect::<Vec<_>>();
    let mut wanted = told(record.fields());
    wanted.push((3, Some(120.0)));
    assert_eq!(told(made.fields()), wanted);
}
