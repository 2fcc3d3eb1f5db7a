//! Files that are joined: the whole has the sums of its parts.
mod made;

use gazhdor::{
    check, join, join_as_one, messages, BaseType, Checksum, Definition, Developer, Draft, Header, JoinFault, Message,
    Writer,
};

const RIDE: &[u8] = include_bytes!(concat!(env!("GAZHDOR_RIDES"), "/ride.fit"));
const TIME: u32 = 1_000_000_000;

/// The file of some drafts.
fn file<'a>(drafts: impl IntoIterator<Item = Draft<'a>>) -> Vec<u8> {
    let mut out = Writer::new(Vec::new());
    drafts.into_iter().for_each(|draft| out.write(&draft).unwrap());
    out.finish().unwrap()
}

fn only<'a>(read: &'a gazhdor::Messages, name: &'a str) -> impl Iterator<Item = Message<'a>> + 'a {
    read.iter().filter(move |message| message.name() == Some(name))
}

fn value(read: &gazhdor::Messages, message: &str, field: &str) -> Option<f64> {
    let names = gazhdor::Names::extra();
    let all: Vec<_> = only(read, message).collect();
    assert_eq!(all.len(), 1, "{message}");
    all[0].named(&names).value(field)
}

#[test]
fn a_chain() {
    let chain = join([RIDE, &RIDE.repeat(2)], Vec::new()).unwrap();
    assert!(chain == RIDE.repeat(3) && check(&chain) == Ok(3));
    let fault = join([RIDE, &RIDE[..2000]], Vec::new()).unwrap_err();
    assert_eq!(fault.to_string(), "file 2: truncated at byte 2000");
    assert!(matches!(join(Vec::<&[u8]>::new(), Vec::new()), Err(JoinFault::Write(_))));
}

/// The ride, cut in two anywhere and joined: its distance, its time, its records.
#[test]
fn parts_have_the_sums_of_the_whole() {
    let read = messages(RIDE).unwrap();
    let records: Vec<_> = only(&read, "record").collect();
    let of = |records: &[Message<'_>]| file(records.iter().map(|record| record.draft()));
    let whole = messages(&join_as_one([of(&records)], Vec::new()).unwrap()).unwrap();
    let (first, last) = (records[0].time().unwrap().seconds(), records[records.len() - 1].time().unwrap().seconds());
    let metres = records[records.len() - 1].distance().unwrap() - records[0].distance().unwrap();
    assert_eq!(value(&whole, "session", "total_timer_time"), Some(f64::from(last - first)));
    assert_eq!(value(&whole, "session", "total_distance"), Some(metres));
    for cut in (1..records.len()).step_by(7) {
        let (one, other) = records.split_at(cut);
        let joined = messages(&join_as_one([of(one), of(other)], Vec::new()).unwrap()).unwrap();
        assert_eq!(only(&joined, "record").count(), records.len());
        let gap = other[0].time().unwrap().seconds() - one[cut - 1].time().unwrap().seconds();
        let step = other[0].distance().unwrap() - one[cut - 1].distance().unwrap();
        let laps: Vec<_> = only(&joined, "lap").collect();
        assert_eq!(laps.len(), 2);
        let sum = |field: &str| laps.iter().map(|lap| lap.value(field).unwrap()).sum::<f64>();
        let told = value(&joined, "session", "total_timer_time").unwrap();
        assert_eq!(told, sum("total_timer_time"));
        assert_eq!(told, f64::from(last - first - gap));
        let told = value(&joined, "session", "total_distance").unwrap();
        assert!((told - (metres - step)).abs() < 0.02 && (told - sum("total_distance")).abs() < 0.02, "{told} {cut}");
        assert_eq!(value(&joined, "session", "num_laps"), Some(2.0));
        let times: Vec<_> = only(&joined, "record").map(|record| record.time()).collect();
        assert!(times.iter().copied().eq(records.iter().map(|record| record.time())));
    }
}

/// Two rides of 1,000 m whose records have compressed_speed_distance alone: together 2,000 m, of which the second begins where the first ended.
#[test]
fn what_is_accumulated() {
    let definition = Definition::of("record", &["timestamp"]).unwrap().with("compressed_speed_distance", 3).unwrap();
    let ride = |begin: u32| {
        let record = |k: u32| {
            let sixteenths = (k * 100 * 16 % 4096) as u16; // each 100 m further
            let bytes = [0, (sixteenths << 4) as u8, (sixteenths >> 4) as u8];
            definition.message().with("timestamp", begin + 20 * k).unwrap().with(8, &bytes[..]).unwrap()
        };
        file((0..11).map(record))
    };
    let (first, second) = (ride(TIME), ride(TIME + 1000));
    let told = |file: &[u8]| -> Vec<f64> {
        messages(file)
            .unwrap()
            .iter()
            .filter_map(|message| message.distance().filter(|_| message.number() == 20))
            .collect()
    };
    let of_one: Vec<_> = (0..11).map(|k| 100.0 * f64::from(k)).collect();
    assert_eq!((told(&first), told(&second)), (of_one.clone(), of_one.clone()));
    let joined = join_as_one([first, second], Vec::new()).unwrap();
    let wanted: Vec<_> = of_one.iter().copied().chain(of_one.iter().map(|metres| 1000.0 + metres)).collect();
    assert_eq!(told(&joined), wanted);
    let read = messages(&joined).unwrap();
    assert_eq!(value(&read, "session", "total_distance"), Some(2000.0));
    assert_eq!(value(&read, "session", "total_timer_time"), Some(400.0)); // twice 200 s; the time between is no riding
    assert_eq!(value(&read, "session", "total_elapsed_time"), Some(1200.0));
    assert_eq!(value(&read, "session", "avg_speed"), Some(5.0));
}

/// A lap or a session of 100 s.
fn span(draft: Draft<'_>, begin: u32) -> Draft<'_> {
    let made = draft.with("timestamp", begin + 100).unwrap().with("start_time", begin).unwrap();
    made.with("total_elapsed_time", 100).unwrap()
}

/// A ride of 100 s and 100 m from 7 m on, with a lap and a session, in which the timer ran so long.
fn told(begin: u32, timer: u32, calories: u32, maker: u32) -> Vec<u8> {
    let lap = Definition::of("lap", &["timestamp", "start_time", "total_elapsed_time", "total_timer_time"]).unwrap();
    let lap = lap.with("message_index", 1).unwrap();
    let session =
        Definition::of("session", &["timestamp", "start_time", "total_elapsed_time", "total_calories"]).unwrap();
    let session = session.with("sport", 1).unwrap();
    let record = Definition::of("record", &["timestamp", "distance", "heart_rate"]).unwrap();
    let file_id = Definition::of("file_id", &["type", "manufacturer"]).unwrap();
    let of = |k: u32| {
        let made = record.message().with("timestamp", begin + k).unwrap().with("distance", f64::from(7 + k)).unwrap();
        made.with("heart_rate", 100 + k % 2).unwrap()
    };
    let mut drafts = vec![file_id.message().with("type", 4).unwrap().with("manufacturer", maker).unwrap()];
    drafts.extend((0..=100).map(of));
    drafts.push(span(lap.message(), begin).with("total_timer_time", timer).unwrap().with("message_index", 0).unwrap());
    let made = span(session.message(), begin).with("total_calories", calories).unwrap();
    drafts.push(made.with("sport", "cycling").unwrap());
    file(drafts)
}

/// Laps, calories and the timer of files that say them; the messages that are made anew are there once, and the file_id is that of the first.
#[test]
fn what_files_say() {
    let files = [told(TIME, 90, 50, 1), told(TIME + 300, 80, 60, 2), told(TIME + 600, 70, 70, 3)];
    let joined = join_as_one(&files, Vec::new()).unwrap();
    let read = messages(&joined).unwrap();
    assert_eq!(value(&read, "file_id", "manufacturer"), Some(1.0));
    let wanted = [
        ("total_timer_time", 240.0),
        ("total_elapsed_time", 700.0),
        ("total_calories", 180.0),
        ("total_distance", 300.0),
        ("num_laps", 3.0),
        ("sport", 2.0),
        ("avg_speed", 1.25),
        ("max_heart_rate", 101.0),
    ];
    for (field, number) in wanted {
        assert_eq!(value(&read, "session", field), Some(number), "{field}");
    }
    let indices: Vec<_> = only(&read, "lap").map(|lap| lap.value("message_index")).collect();
    assert_eq!(indices, [Some(0.0), Some(1.0), Some(2.0)]);
    let metres: Vec<_> = only(&read, "record").filter_map(|record| record.distance()).collect();
    assert_eq!((metres[0], metres[100], metres[101], metres[302]), (7.0, 107.0, 107.0, 307.0));
    assert_eq!(value(&read, "activity", "num_sessions"), Some(1.0));
    let fault = join_as_one([&files[1], &files[0]], Vec::new()).unwrap_err();
    assert!(matches!(fault, JoinFault::Order { file: 2 }), "{fault}");
}

/// A ride of two lengths and two laps, each of which names its first length, with what tells more of each lap, of one that isn't there, and of
/// the session.
fn swim(begin: u32) -> Vec<u8> {
    let record = Definition::of("record", &["timestamp", "distance"]).unwrap();
    let names = gazhdor::Names::extra();
    let length = Definition::by(&names, "length", &["timestamp", "message_index"]).unwrap();
    let fields = ["timestamp", "start_time", "total_elapsed_time", "message_index", "first_length_index"];
    let lap = Definition::by(&names, "lap", &fields).unwrap();
    let zones = Definition::numbered(216).with_field(0, BaseType::Uint16, 1).unwrap();
    let zones = zones.with_field(1, BaseType::Uint16, 1).unwrap().with_field(2, BaseType::Uint32, 1).unwrap();
    let zones_of = |of: u16, number: u16, seconds: u32| {
        let made = zones.message().with(0, of).unwrap().with(1, number).unwrap();
        made.with(2, 1000 * seconds).unwrap()
    };
    let mut drafts = Vec::new();
    for k in 0..2_u32 {
        let time = begin + 100 * k;
        drafts.push(record.message().with("timestamp", time).unwrap().with("distance", 25 * k).unwrap());
        drafts.push(length.message().with("timestamp", time + 50).unwrap().with("message_index", 7 + k).unwrap());
        let made = span(lap.message(), time).with("message_index", 3 + k).unwrap();
        drafts.push(made.with("first_length_index", 7 + k).unwrap());
    }
    drafts.extend([zones_of(19, 4, 1), zones_of(19, 3, 2), zones_of(19, 9, 3), zones_of(18, 0, 4), zones_of(20, 3, 5)]);
    file(drafts)
}

/// Lengths and laps are numbered among all, and what names one names it by that; what is of a session that is gone isn't there.
#[test]
fn numbers_of_laps_and_lengths() {
    let joined = join_as_one([swim(TIME), swim(TIME + 300)], Vec::new()).unwrap();
    let (read, names) = (messages(&joined).unwrap(), gazhdor::Names::extra());
    let told = |name: &str, fields: &[u8]| -> Vec<Vec<Option<f64>>> {
        let all = read.iter().map(|message| message.named(&names)).filter(|message| message.name() == Some(name));
        all.map(|message| fields.iter().map(|&field| message.numbered(field)?.value(0)).collect()).collect()
    };
    let of = |numbers: &[f64]| numbers.iter().map(|&number| Some(number)).collect::<Vec<_>>();
    let [first, second, third, last] = [0.0, 1.0, 2.0, 3.0].map(|number| of(&[number]));
    assert_eq!(told("length", &[254]), [first, second, third, last]);
    let laps = [0.0, 1.0, 2.0, 3.0].map(|number| of(&[number, number]));
    assert_eq!(told("lap", &[254, 35]), laps);
    let zones = |[one, other]: [f64; 2]| {
        let none = vec![Some(19.0), None, Some(3.0)];
        [of(&[19.0, other, 1.0]), of(&[19.0, one, 2.0]), none, of(&[20.0, 3.0, 5.0])]
    };
    assert_eq!(told("time_in_zone", &[0, 1, 2]), [zones([0.0, 1.0]), zones([2.0, 3.0])].concat());
    assert_eq!(value(&read, "session", "num_laps"), Some(4.0));
}

/// A developer field that the second file doesn't describe would be that of the first one: an error that names it. One that it describes in
/// another way keeps its own name.
#[test]
fn developer_fields() {
    let field = |name: &str, base_type: BaseType| Developer {
        index: 0,
        number: 0,
        base_type,
        name: name.to_string(),
        unit: String::new(),
    };
    let record = || Definition::of("record", &["timestamp"]).unwrap();
    let of = |developer: &Developer, time: u32, number: u8| {
        let definition = record().with_developer(developer, 1).unwrap();
        let draft = definition.message().with("timestamp", time).unwrap();
        let draft = match developer.base_type {
            BaseType::Byte => draft.with((0, 0), &[number][..]).unwrap(),
            _ => draft.with((0, 0), number).unwrap(),
        };
        let mut out = Writer::new(Vec::new());
        out.begin(&Header::new(32, 2132, Checksum::There)).unwrap();
        if developer.name.is_empty() {
            out.define(&definition).unwrap();
        }
        out.write(&draft).unwrap();
        out.finish().unwrap()
    };
    let first = of(&field("power", BaseType::Uint8), TIME, 1);
    let bare = of(&field("", BaseType::Byte), TIME + 10, 2);
    let other = of(&field("lean", BaseType::Sint8), TIME + 10, 3);
    let fault = join_as_one([&first, &bare], Vec::new()).unwrap_err();
    let text = "file 2 doesn't describe its developer field dev_0_0, and one before it does";
    assert_eq!(fault.to_string(), text);
    let joined =
        messages(&join_as_one([&first, &other, &first[..0]].into_iter().take(2), Vec::new()).unwrap()).unwrap();
    let told: Vec<_> = only(&joined, "record").map(|record| (record.value("power"), record.value("lean"))).collect();
    assert_eq!(told, [(Some(1.0), None), (None, Some(3.0))]);
}

/// The number of a lap stays of its base type; several numbers, a text and bytes are none, and stay.
#[test]
fn kinds_of_numbers() {
    use BaseType::{Byte, Float32, String, Uint16, Uint32, Uint8};
    for (base_type, items) in [(Uint8, 1), (Uint32, 1), (Float32, 1), (Uint16, 2), (String, 3), (Byte, 2)] {
        let lap = Definition::of("lap", &["timestamp", "start_time", "total_elapsed_time"]).unwrap();
        let lap = lap.with_field(254, base_type, items).unwrap();
        let record = Definition::of("record", &["timestamp"]).unwrap();
        let ride = |begin: u32| {
            let mut made = span(lap.message(), begin);
            match base_type {
                Uint16 => made.set_items(254, [1_u8, 2]).unwrap(),
                String | Byte => made.set(254, &b"ab"[..]).unwrap(),
                _ => made.set(254, 7).unwrap(),
            }
            file([record.message().with("timestamp", begin).unwrap(), made])
        };
        let first = ride(TIME);
        let joined = messages(&join_as_one([&first, &ride(TIME + 300)], Vec::new()).unwrap()).unwrap();
        let laps: Vec<_> = only(&joined, "lap").filter_map(|lap| lap.numbered(254)).collect();
        let old = messages(&first).unwrap();
        let old = only(&old, "lap").find_map(|lap| lap.numbered(254)).unwrap();
        assert!(laps.len() == 2 && laps.iter().all(|index| index.base_type() == old.base_type()));
        match (base_type, items) {
            (Uint8 | Uint32 | Float32, _) => assert!((0..2).all(|k| laps[k].value(0) == Some(k as f64))),
            _ => assert!(laps.iter().all(|index| index.bytes() == old.bytes())),
        }
    }
}
