//! Names beside those of the profile, and reasons in words.
use gazhdor::{check, from_csv, messages, BaseType, Message, Named, Names, Reason, Value};

/// A file of one record with these fields, each as the rows of `fdef` and `field` have it.
fn record(fields: &[(u8, u8, u8, &str, &str, &str)]) -> Vec<u8> {
    let mut text = format!("row,a,b,c,d,e,f\nfile,14,32,2132,sum,,\ndef,0,0,little,20,{},\n", fields.len());
    for (number, size, code, ..) in fields {
        text += &format!("fdef,{number},{size},{code},,,\n");
    }
    text += "data,0,,record,,,\n";
    for (.., name, value, unit) in fields {
        text += &format!("field,{name},{value},{unit},,,\n");
    }
    from_csv(text + "end,,,,,,\n").unwrap().to_vec()
}

fn with_first<T>(bytes: &[u8], see: impl Fn(Message<'_>) -> T) -> T {
    see(messages(bytes).unwrap().iter().next().unwrap())
}

/// Heart rate, a power phase of a quarter and of half a turn (each step is 360 / 256 degrees), and a field of whole numbers.
fn sample() -> Vec<u8> {
    record(&[
        (3, 1, 2, "heart_rate", "120", "bpm"),
        (69, 2, 2, "field_69", "64|128", ""),
        (200, 2, 132, "field_200", "500", ""),
    ])
}

#[test]
fn extra_names() {
    let extra = Names::extra();
    with_first(&sample(), |message| {
        assert!(message.field("left_power_phase").is_none());
        let named = message.named(&extra);
        let phase = named.field("left_power_phase").unwrap();
        assert_eq!((phase.number(), phase.unit(), phase.count()), (69, Some("degrees"), 2));
        assert!((phase.value(0).unwrap() - 90.0).abs() < 1e-4 && (phase.value(1).unwrap() - 180.0).abs() < 1e-4);
        // what the profile names stays as it is
        assert_eq!((named.name(), named.value("heart_rate")), (Some("record"), Some(120.0)));
        assert_eq!(named.field("heart_rate").unwrap().unit(), Some("bpm"));
        assert_eq!(
            named.fields().map(|field| field.name()).collect::<Vec<_>>(),
            [Some("heart_rate"), Some("left_power_phase"), None]
        );
    });
    assert_eq!(
        (extra.message(101), extra.message(132), extra.message(20)),
        (Some("length"), Some("hr"), Some("record"))
    );
    let names = |message, field| extra.field(message, field).and_then(|named| named.name.clone()).unwrap_or_default();
    assert_eq!([names(20, 30), names(18, 29), names(19, 27)], ["left_right_balance", "nec_lat", "nec_lat"]);
    assert_eq!((extra.field(20, 83).unwrap().scale, extra.field(20, 3)), (Some(100.0), None));
}

#[test]
fn own_names() {
    let mut own = Names::new();
    own.name_message(20, "point");
    own.name_field(20, 3, Named { name: Some("pulse".into()), ..Named::default() });
    let left = Named { name: Some("left".into()), unit: Some("mm".into()), scale: Some(10.0), offset: Some(-1.0) };
    own.name_field(20, 200, left);
    with_first(&sample(), |message| {
        let named = message.named(&own);
        assert_eq!(
            (named.name(), named.value("pulse"), named.field("heart_rate").is_none()),
            (Some("point"), Some(120.0), true)
        );
        assert_eq!(named.field("pulse").unwrap().whole(), Value::Unsigned(120));
        assert_eq!(named.field("left").unwrap().whole(), Value::Float(51.0));
        assert_eq!(
            (named.numbered(200).unwrap().unit(), named.numbered(200).unwrap().value(0)),
            (Some("mm"), Some(51.0))
        );
        assert_eq!(message.numbered(200).unwrap().whole(), Value::Unsigned(500));
        assert!(named != message && named == message.named(&own));
    });
    // floats stand for themselves
    let float = record(&[(200, 4, 136, "field_200", "0x3FC00000", "")]);
    with_first(&float, |message| assert_eq!(message.named(&own).value("left"), Some(1.5)));
    own.name_field(20, 200, Named { scale: Some(0.0), ..Named::default() });
    with_first(&sample(), |message| assert_eq!(message.named(&own).numbered(200).unwrap().whole(), Value::None));
}

#[test]
fn texts() {
    let names = Names::read(
        "\u{feff}# mine\nmessage\tmessage name\tfield\tfield name\tscale\n\n140\tphysiology\n140\t\t1\teffect\t0.5\n",
    )
    .unwrap();
    assert_eq!((names.message(140), names.field(140, 1).unwrap().scale), (Some("physiology"), Some(0.5)));
    for (text, said) in [
        ("", "line 1: the first line has the names of the columns, and one is message"),
        ("message\tname\n", "line 1: the first line has the names of the columns, and one is message"),
        ("message\tfield\n65536\t1\n", "line 2: a message is 0 to 65535"),
        ("message\tfield\n# it\n20\t256\n", "line 3: a field is 0 to 255"),
        ("message\tfield\tscale\n20\t1\t0\n", "line 2: a scale can't be 0"),
        ("message\tfield\tscale\n20\t1\tnan\n", "line 2: a scale and an offset are numbers"),
        ("message\n20\t1\n", "line 2: it has more cells than the first line"),
    ] {
        assert_eq!(Names::read(text).unwrap_err().to_string(), said);
    }
}

#[test]
fn reasons_in_words() {
    let reason = check(b"PK\x03\x04").unwrap_err().reason().unwrap();
    assert_eq!((reason, reason.explanation()), (Reason::Protocol, "the byte has a major version above 2"));
    assert_eq!(Reason::Architecture.explanation(), "the byte is neither 0 nor 1");
}

/// Each base type by its code and by its name, as the FIT protocol has them.
#[test]
fn base_types() {
    let codes = [0, 1, 2, 7, 10, 13, 0x83, 0x84, 0x85, 0x86, 0x88, 0x89, 0x8B, 0x8C, 0x8E, 0x8F, 0x90];
    let names = "enum sint8 uint8 string uint8z byte sint16 uint16 sint32 uint32 float32 float64 uint16z uint32z sint64 uint64 uint64z";
    let widths = [1, 1, 1, 1, 1, 1, 2, 2, 4, 4, 4, 8, 2, 4, 8, 8, 8];
    assert_eq!(names.split(' ').count(), 17);
    for ((code, name), width) in codes.into_iter().zip(names.split(' ')).zip(widths) {
        let base_type = BaseType::of(code).unwrap();
        assert_eq!((base_type.code(), base_type.name(), base_type.width()), (code, name, width));
        assert_eq!(BaseType::named(name), Some(base_type));
    }
    assert_eq!((0..=255).filter_map(BaseType::of).count(), 17);
    assert_eq!((BaseType::named("uint7"), BaseType::named("")), (None, None));
}

#[test]
fn base_types_of_fields() {
    let extra = Names::extra();
    let numbers = |message, field| {
        let message = extra.message_named(message)?;
        Some((message, extra.field_named(message, field)?))
    };
    assert_eq!(numbers("device_settings", "utc_offset"), Some((2, 1)));
    assert_eq!(extra.base_type(2, 1), Some(BaseType::Uint32));
    assert_eq!(
        (extra.base_type(2, 36), extra.message_named("sauna"), numbers("device_settings", "steam")),
        (None, None, None)
    );
    let mut own = Names::read("message\tfield\tfield name\tbase type\n300\t0\tsteam\tuint8\n").unwrap();
    own.set_base_type(300, 1, BaseType::Sint16);
    assert_eq!([0, 1, 2].map(|field| own.base_type(300, field)), [Some(BaseType::Uint8), Some(BaseType::Sint16), None]);
    let fault = Names::read("message\tfield\tbase type\n1\t2\tuint7\n").unwrap_err();
    assert_eq!((fault.line, fault.what), (2, "there is no such base type"));
}

/// A name finds the first field that has it, also once fields before and after it get it, or another one.
#[test]
fn fields_by_their_names() {
    let called = |name: &str| Named { name: Some(name.to_string()), ..Named::default() };
    let mut names = Names::new();
    let found = |names: &Names| ["a", "b", "c", ""].map(|name| names.field_named(7, name));
    assert_eq!(found(&names), [None; 4]);
    [(200, "b"), (3, "a"), (9, "b"), (0, "c")]
        .iter()
        .for_each(|&(field, name)| names.name_field(7, field, called(name)));
    assert_eq!(found(&names), [Some(3), Some(9), Some(0), None]);
    names.name_field(7, 9, called("a"));
    assert_eq!(found(&names), [Some(3), Some(200), Some(0), None]);
    names.name_field(7, 3, called("c"));
    assert_eq!(found(&names), [Some(9), Some(200), Some(0), None]);
    names.name_field(7, 0, Named::default());
    assert_eq!(found(&names), [Some(9), Some(200), Some(3), None]);
    assert_eq!(names.field_named(8, "a"), None);
}
