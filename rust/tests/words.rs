//! Words for the numbers of fields. What is expected is what the FIT protocol calls these numbers.
use gazhdor::{from_csv, messages, words, BaseType, Definition, Draft, Key, Message, Names, Unfit, Writer};

/// The bytes of a file with a message of these fields, whose values are set.
fn file_of(number: u16, fields: &[(u8, BaseType)], set: impl FnOnce(&mut Draft<'_>) -> Result<(), Unfit>) -> Vec<u8> {
    let mut definition = Definition::numbered(number);
    for &(field, base_type) in fields {
        definition = definition.with_field(field, base_type, 1).unwrap();
    }
    let mut out = Writer::new(Vec::new());
    let mut draft = definition.message();
    set(&mut draft).unwrap();
    out.write(&draft).unwrap();
    out.finish().unwrap()
}

fn first<T>(bytes: &[u8], see: impl FnOnce(Message<'_>) -> T) -> T {
    see(messages(bytes).unwrap().iter().next().unwrap())
}

const SESSION: [(u8, BaseType); 4] =
    [(5, BaseType::Enum), (6, BaseType::Enum), (0, BaseType::Enum), (28, BaseType::Enum)];

#[test]
fn reading() {
    let session = file_of(18, &SESSION, |draft| {
        draft.set("sport", 2)?;
        draft.set("sub_sport", 253)?;
        draft.set("event", 9)
    });
    first(&session, |message| {
        let told = ["sport", "sub_sport", "event", "trigger", "lap_trigger"].map(|name| message.word(name));
        assert_eq!(told, [Some("cycling"), None, Some("lap"), None, None]);
        assert_eq!((message.field("sport").unwrap().word(), message.value("sport")), (Some("cycling"), Some(2.0)));
    });
}

/// A product is called by its manufacturer, and a device type by its source.
#[test]
fn by_another_field() {
    let word = |number, fields: [u8; 2], items: [u16; 2]| {
        let both = [(fields[0], BaseType::Uint16), (fields[1], BaseType::Uint16)];
        let bytes = file_of(number, &both, |draft| {
            draft.set(fields[0], items[0])?;
            draft.set(fields[1], items[1])
        });
        first(&bytes, |message| message.numbered(fields[1]).unwrap().word())
    };
    let products = [[1, 1169], [15, 1169], [263, 12], [32, 1169], [263, 1169]].map(|items| word(0, [1, 2], items));
    assert_eq!(products, [Some("edge800"), Some("edge800"), Some("assioma_duo"), None, None]);
    let devices = [[1, 120], [3, 1], [5, 4], [0, 120]].map(|items| word(23, [25, 1], items));
    assert_eq!(devices, [Some("heart_rate"), Some("heart_rate"), Some("barometer"), None]);
    let alone = file_of(0, &[(2, BaseType::Uint16)], |draft| draft.set("product", 1169));
    assert_eq!(first(&alone, |message| message.word("product")), None);
}

/// Several numbers, numbers that are scaled, developer fields and messages that nobody knows have no words.
#[test]
fn what_has_none() {
    let definition = "file,14,32,2132,sum,,\ndef,0,0,little,18,1,\nfdef,5,2,0,,,\n";
    let several = format!("row,a,b,c,d,e,f\n{definition}data,0,,session,,,\nfield,sport,2|2,,,,\nend,,,,,,\n");
    let several = from_csv(several).unwrap();
    assert_eq!(first(&several, |message| message.word("sport")), None);
    let session = file_of(18, &SESSION[..1], |draft| draft.set(5, 2));
    let names = Names::read("message\tfield\tscale\n18\t5\t10\n").unwrap();
    assert_eq!(first(&session, |message| message.named(&names).word("sport")), None);
    let private = file_of(65280, &SESSION[..1], |draft| draft.set(5, 2));
    assert_eq!(first(&private, |message| message.numbered(5).unwrap().word()), None);
    let names = Names::read("message\tfield\ttype\n65280\t5\tswim_stroke\n").unwrap();
    assert_eq!(first(&private, |message| message.named(&names).numbered(5).unwrap().word()), Some("breaststroke"));
    assert_eq!(Names::read("message\tfield\ttype\n65280\t5\tswimming\n").unwrap_err().line, 2);
}

/// Fields of the tables beside the profile have words too, with these names and without.
#[test]
fn extra_fields() {
    let workout = file_of(26, &[(4, BaseType::Enum)], |draft| draft.set(4, 5));
    assert_eq!(first(&workout, |message| message.numbered(4).unwrap().word()), Some("swimming"));
    let extra = Names::extra();
    assert_eq!(first(&workout, |message| message.named(&extra).word("sport")), Some("swimming"));
}

#[test]
fn writing() {
    let by_words = file_of(18, &SESSION, |draft| {
        draft.set("sport", "cycling")?;
        draft.set("event", "lap")?;
        draft.set_items("sub_sport", ["road"])?;
        draft.set_item("trigger", 0, "activity_end")
    });
    let by_numbers = file_of(18, &SESSION, |draft| {
        draft.set("sport", 2)?;
        draft.set("event", 9)?;
        draft.set("sub_sport", 7)?;
        draft.set("trigger", 0)
    });
    assert_eq!(by_words, by_numbers);
    let product = file_of(0, &[(1, BaseType::Uint16), (2, BaseType::Uint16)], |draft| {
        assert!(draft.set("product", "edge800").is_err());
        draft.set("manufacturer", "garmin")?;
        draft.set("product", "edge800")
    });
    assert_eq!(first(&product, |message| message.value("product")), Some(1169.0));
    let definition = Definition::of("session", &["sport", "total_timer_time"]).unwrap();
    let takes = [("sport", "a number or one of its words"), ("total_timer_time", "a number")];
    for (field, takes) in takes {
        let fault = definition.message().with(Key::Name(field), "cyclign").unwrap_err();
        assert_eq!(fault.to_string(), format!("{field}: it takes {takes}, not \"cyclign\""));
    }
}

#[test]
fn tables() {
    assert_eq!(words("display_measure"), [(0, "metric"), (1, "statute"), (2, "nautical")]);
    assert!(words("display").is_empty());
    let base_types = words("fit_base_type");
    assert!(base_types.contains(&(0x84, "uint16")) && base_types.len() == 17);
}
