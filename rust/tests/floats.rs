//! Floating point numbers: a float32 as speed and a float64 as altitude stand for themselves, in both byte orders, where whole numbers are
//! scaled by the profile.
mod made;

use gazhdor::{messages, Value};
use made::{data, define, fit};

const FLOATS: [[u8; 3]; 2] = [[6, 4, 0x88], [2, 8, 0x89]];

/// Of each message of a file: scale and offset of speed and of altitude, and their values.
fn found(records: &[Vec<u8>]) -> Vec<[(u32, u32, Option<f64>); 2]> {
    let made = messages(&fit(records)).unwrap();
    let of = |message: gazhdor::Message<'_>, name| {
        let field = message.field(name).unwrap();
        (field.scale(), field.offset(), field.value(0))
    };
    made.iter().map(|message| [of(message, "speed"), of(message, "altitude")]).collect()
}

#[test]
fn stand_for_themselves() {
    let little = [&5_f32.to_le_bytes()[..], &454.25_f64.to_le_bytes()].concat();
    let big = [&5_f32.to_be_bytes()[..], &454.25_f64.to_be_bytes()].concat();
    let records = [
        define(0, 20, &FLOATS, &[], false),
        data(0, &[&little]),
        data(0, &[&[0xFF; 12]]),
        define(1, 20, &FLOATS, &[], true),
        data(1, &[&big]),
    ];
    let as_it_is = [(1, 0, Some(5.0)), (1, 0, Some(454.25))];
    assert_eq!(found(&records), [as_it_is, [(1, 0, None), (1, 0, None)], as_it_is]);
}

#[test]
fn whole_numbers_are_scaled() {
    let records = [
        define(0, 20, &[[6, 2, 0x84], [2, 2, 0x84]], &[], false),
        data(0, &[&5000_u16.to_le_bytes(), &4771_u16.to_le_bytes()]),
    ];
    assert_eq!(found(&records), [[(1000, 0, Some(5.0)), (5, 500, Some(454.2))]]);
}

#[test]
fn several_have_no_scale() {
    let records =
        [define(0, 20, &[[6, 8, 0x88]], &[], false), data(0, &[&1.5_f32.to_le_bytes(), &2.25_f32.to_le_bytes()])];
    let made = messages(&fit(&records)).unwrap();
    let message = made.iter().next().unwrap();
    let field = message.field("speed").unwrap();
    assert_eq!((field.value(0), field.value(1)), (Some(1.5), Some(2.25)));
    assert!(matches!(field.item(0), Value::Float(number) if number == 1.5));
}
