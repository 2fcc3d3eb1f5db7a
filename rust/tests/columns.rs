//! Columns: what messages have one by one, in one piece.
mod made;

use gazhdor::{BaseType, Columns, Definition, Developer, Draft, Key, Ready, Time, Unfit, Value, Writer};

const TIME: u32 = 1_147_937_400;

fn ride() -> Vec<u8> {
    std::fs::read(concat!(env!("GAZHDOR_RIDES"), "/ride.fit")).unwrap()
}

fn written<'a>(drafts: impl IntoIterator<Item = Draft<'a>>) -> Vec<u8> {
    let mut writer = Writer::new(Vec::new());
    drafts.into_iter().for_each(|draft| writer.write(&draft).unwrap());
    writer.finish().unwrap()
}

/// Bit by bit, so that NaN is NaN.
fn bits(column: &[f64]) -> Vec<u64> {
    column.iter().map(|number| number.to_bits()).collect()
}

fn or_nan(value: Option<f64>) -> f64 {
    value.unwrap_or(f64::NAN)
}

#[test]
fn as_messages_have_them() {
    let file = ride();
    let messages = gazhdor::messages(&file).unwrap();
    for name in ["record", "lap", "session", "event", "hrv", "file_id"] {
        let of_name: Vec<_> = messages.iter().filter(|message| message.name() == Some(name)).collect();
        let all = messages.all_columns(name).unwrap();
        assert_eq!(all.rows(), of_name.len());
        for label in all.labels() {
            let fields = of_name.iter().map(|message| message.field(label.as_str())).collect::<Vec<_>>();
            match (label.as_str(), all.numbers(label)) {
                ("timestamp", none) => {
                    assert!(none.is_none() && all.fields(label).is_none());
                    let times: Vec<_> = of_name.iter().map(|message| message.time()).collect();
                    assert_eq!(all.times(label).unwrap(), times);
                }
                (_, Some(numbers)) => {
                    let one_by_one: Vec<_> =
                        fields.iter().map(|field| or_nan(field.and_then(|of| of.value(0)))).collect();
                    assert_eq!(bits(&numbers), bits(&one_by_one), "{name} {label}");
                    assert_eq!(all.fields(label).unwrap(), fields);
                }
                (_, None) => assert_eq!(all.fields(label).unwrap(), fields, "{name} {label}"),
            }
        }
        let chosen = messages.columns(name, all.labels().iter().map(|label| label.as_str())).unwrap();
        assert_eq!(chosen.labels(), all.labels());
        for label in all.labels() {
            assert_eq!(chosen.numbers(label).map(|of| bits(&of)), all.numbers(label).map(|of| bits(&of)));
            assert_eq!(chosen.times(label), all.times(label));
        }
    }
}

/// Of random files, each label by the search that a message does.
#[test]
fn of_any_files() {
    let mut random = made::Random(20_261_130);
    let mut seen = 0;
    for _ in 0..60 {
        let file = made::any_file(&mut random);
        let messages = gazhdor::messages(&file).unwrap();
        for number in [20, 18, 0, 31, 65280] {
            let of_number: Vec<_> = messages.iter().filter(|message| message.number() == number).collect();
            let columns = Columns::all(of_number.iter().copied()).unwrap();
            for label in columns.labels().iter().filter(|label| *label != "timestamp") {
                let numbers = |front: &str| -> Option<Vec<u8>> {
                    label.strip_prefix(front)?.split('_').map(|of| of.parse().ok()).collect()
                };
                let found = numbers("field_").or_else(|| numbers("dev_"));
                let fields = columns.fields(label).unwrap();
                assert_eq!(fields.len(), of_number.len());
                for (field, message) in fields.into_iter().zip(&of_number) {
                    match found.as_deref() {
                        Some(&[number]) => assert_eq!(field, message.numbered(number)),
                        Some(&[index, number]) => assert!(field.is_none() || field == message.developer(index, number)),
                        _ => assert_eq!(field, message.field(label)),
                    }
                    seen += usize::from(field.is_some());
                }
            }
            let ready = columns.ready().unwrap();
            assert!(ready.iter().all(|(_, values)| values.len() == columns.rows()));
        }
    }
    assert!(seen > 3000, "{seen}");
}

/// Rows stand in the order of the messages, whatever definitions they have, and each definition has its own base type and place.
#[test]
fn of_several_definitions() {
    let narrow = Definition::of("record", &["timestamp", "heart_rate"]).unwrap();
    let wide = Definition::numbered(20).with_field(3, BaseType::Uint16, 1).unwrap().with("distance", 1).unwrap();
    let of = |k: u32| {
        if k % 3 == 0 {
            let draft = wide.message().with(3, 300 + k).unwrap();
            draft.with("distance", f64::from(k) / 4.0).unwrap()
        } else {
            narrow.message().with("timestamp", TIME + k).unwrap().with("heart_rate", 100 + k).unwrap()
        }
    };
    let file = written((0..30).map(of));
    let messages = gazhdor::messages(&file).unwrap();
    let keys = [Key::from("heart_rate"), Key::from("distance"), Key::from(253), Key::from("power"), Key::from(200)];
    let columns = messages.columns("record", keys).unwrap();
    let beats: Vec<_> = (0..30).map(|k| f64::from(if k % 3 == 0 { 300 + k } else { 100 + k })).collect();
    let metres: Vec<_> = (0..30).map(|k| if k % 3 == 0 { f64::from(k) / 4.0 } else { f64::NAN }).collect();
    let times: Vec<_> = (0..30).map(|k| if k % 3 == 0 { None } else { Some(Time::new(TIME + k)) }).collect();
    assert_eq!(columns.labels(), ["heart_rate", "distance", "field_253", "power", "field_200"]);
    assert_eq!(columns.numbers("heart_rate").unwrap(), beats);
    assert_eq!(bits(&columns.numbers("distance").unwrap()), bits(&metres));
    assert_eq!(columns.times("field_253").unwrap(), times);
    assert_eq!(columns.times("heart_rate"), None);
    for absent in ["power", "field_200"] {
        assert_eq!(bits(&columns.numbers(absent).unwrap()), bits(&[f64::NAN; 30]));
    }
    assert!(columns.numbers("distance_").is_none());
}

#[test]
fn names_that_nothing_has() {
    let file = ride();
    let messages = gazhdor::messages(&file).unwrap();
    let no_field = |field: &str| Unfit::NoField { field: field.to_string() };
    assert_eq!(messages.columns("record", ["hart_rate"]).unwrap_err(), no_field("hart_rate"));
    assert_eq!(messages.columns("record", [".speeed"]).unwrap_err(), no_field(".speeed"));
    assert_eq!(messages.columns("rekord", ["speed"]).unwrap_err(), Unfit::NoMessage { message: "rekord".to_string() });
    assert_eq!(messages.columns("sport", ["sport"]).unwrap().rows(), 0);
    assert_eq!(messages.columns("sport", ["sprt"]).unwrap_err(), no_field("sprt"));
}

#[test]
fn what_messages_tell() {
    let file = ride();
    let messages = gazhdor::messages(&file).unwrap();
    let records: Vec<_> = messages.iter().filter(|message| message.number() == 20).collect();
    let columns = messages.columns("record", [".altitude", ".speed", ".distance", ".place", ".latitude"]).unwrap();
    for (row, record) in records.iter().enumerate() {
        let told = [record.altitude(), record.speed(), record.distance(), Some(record.place() as f64)];
        for (label, value) in columns.labels().iter().zip(told) {
            assert_eq!(columns.numbers(label).unwrap()[row].to_bits(), or_nan(value).to_bits(), "{label}");
        }
        let north = record.value("position_lat").map(|semicircles| semicircles * 180.0 / 2_f64.powi(31));
        assert_eq!(columns.numbers(".latitude").unwrap()[row].to_bits(), or_nan(north).to_bits());
    }
}

#[test]
fn by_other_names() {
    let definition = Definition::numbered(20).with_field(83, BaseType::Uint16, 1).unwrap();
    let file = written((0..3).map(|k| definition.message().with(83, 700 + k).unwrap()));
    let (messages, names) = (gazhdor::messages(&file).unwrap(), gazhdor::Names::extra());
    let named = || messages.iter().map(|message| message.named(&names));
    let columns = Columns::of(named(), ["vertical_ratio"]).unwrap();
    assert_eq!(columns.numbers("vertical_ratio").unwrap(), [7.0, 7.01, 7.02]);
    assert_eq!(Columns::all(named()).unwrap().labels(), ["vertical_ratio"]);
    assert_eq!(Columns::all(&messages).unwrap().labels(), ["field_83"]);
}

/// A file can't have a program make cells by the square of its own length.
#[test]
fn not_by_the_square() {
    let fields = |first: u8| {
        let add = |of: Definition<'static>, number| of.with_field(number, BaseType::Uint8, 1).unwrap();
        (first..255).fold(Definition::numbered(20), add)
    };
    let (wide, narrow) = (fields(0), Definition::numbered(20).with_field(0, BaseType::Uint8, 1).unwrap());
    let many = |first: &Definition<'_>| {
        let mut writer = Writer::new(Vec::new());
        writer.write(&first.message()).unwrap();
        (0..17_000).for_each(|_| writer.write(&narrow.message()).unwrap());
        writer.finish().unwrap()
    };
    let file = many(&wide);
    let messages = gazhdor::messages(&file).unwrap();
    assert_eq!(messages.all_columns("record").unwrap_err(), Unfit::TooMany { columns: 255, rows: 17_001 });
    assert_eq!(messages.columns("record", [3_u8, 4]).unwrap().rows(), 17_001);

    let file = many(&Definition::numbered(20).with_field(1, BaseType::Uint8, 255).unwrap());
    let messages = gazhdor::messages(&file).unwrap();
    let columns = messages.all_columns("record").unwrap();
    assert_eq!(columns.labels(), ["position_long", "position_lat"]);
    assert_eq!(columns.ready().unwrap_err(), Unfit::TooMany { columns: 256, rows: 17_001 });
}

#[test]
fn ready_to_use() {
    let session = Definition::of("session", &["start_time", "start_position_lat", "sport", "avg_heart_rate"]).unwrap();
    let session = session.with_field(200, BaseType::Byte, 2).unwrap().with_field(201, BaseType::Uint16, 2).unwrap();
    let of = |sport: u8, time: u32| {
        let mut draft = session.message().with("start_time", time).unwrap().with("sport", sport).unwrap();
        draft.set("start_position_lat", 1 << 29).unwrap();
        draft.set(200, Value::Bytes(&[1, sport])).unwrap();
        draft.set_items(201, [Value::Unsigned(1), Value::None]).unwrap();
        draft
    };
    let file = written([of(2, TIME), of(199, 7)]);
    let messages = gazhdor::messages(&file).unwrap();
    let text = |text: &str| Ready::Text(text.to_string());
    let wanted = [
        ("start_time", [Ready::Time(Time::new(TIME)), Ready::None]),
        ("start_position_lat", [Ready::Float(45.0), Ready::Float(45.0)]),
        ("sport", [text("cycling"), text("199")]),
        ("avg_heart_rate", [Ready::None, Ready::None]),
        ("field_200", [text("0x0102"), text("0x01C7")]),
        ("field_201_0", [Ready::Unsigned(1), Ready::Unsigned(1)]),
        ("field_201_1", [Ready::None, Ready::None]),
    ];
    let wanted: Vec<_> = wanted.into_iter().map(|(label, values)| (label.to_string(), values.to_vec())).collect();
    assert_eq!(messages.all_columns("session").unwrap().ready().unwrap(), wanted);
}

/// A developer field whose name another one has, or that means something else, is called by its numbers; and texts beside numbers make
/// texts of all.
#[test]
fn labels_and_types_of_developer_fields() {
    let field = |number: u8, base_type: BaseType, name: &str| Developer {
        index: 0,
        number,
        base_type,
        name: name.to_string(),
        unit: String::new(),
    };
    let told = [(1, "power"), (2, "timestamp"), (3, "heart_rate"), (4, "field_9"), (5, "field_x"), (6, ".speed")];
    let developers = told.map(|(number, name)| field(number, BaseType::Uint8, name));
    let mut writer = Writer::new(Vec::new());
    developers.iter().for_each(|developer| writer.describe(developer).unwrap());
    let first = Definition::of("record", &["timestamp", "heart_rate"]).unwrap();
    let definition = developers.iter().fold(first, |made, developer| made.with_developer(developer, 1).unwrap());
    writer.write(&definition.message().with((0, 1), 7).unwrap().with("timestamp", TIME).unwrap()).unwrap();
    let again = field(1, BaseType::String, "power");
    writer.describe(&again).unwrap();
    let definition = Definition::of("record", &["timestamp"]).unwrap().with_developer(&again, 5).unwrap();
    writer.write(&definition.message().with((0, 1), "seven").unwrap()).unwrap();
    let file = writer.finish().unwrap();
    let messages = gazhdor::messages(&file).unwrap();
    let columns = messages.all_columns("record").unwrap();
    assert_eq!(
        columns.labels(),
        ["timestamp", "heart_rate", "power", "dev_0_2", "dev_0_3", "dev_0_4", "field_x", "dev_0_6"]
    );
    assert_eq!(columns.numbers("power"), None);
    let ready = columns.ready().unwrap();
    let text = |text: &str| Ready::Text(text.to_string());
    assert_eq!(ready[2], ("power".to_string(), vec![text("7"), text("seven")]));
    assert_eq!(ready[0].1, [Ready::Time(Time::new(TIME)), Ready::None]);
}
