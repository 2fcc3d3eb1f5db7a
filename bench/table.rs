//! What `fit table` does, written by hand in Rust over nothing but std, to measure it against: the same table
//! for each chain of files that is whole. On other input it panics. usage: table_rs [FILE]; without FILE it
//! reads standard input.
mod files;
mod numbers;
mod profile;
mod records;
mod text;

use files::{convert, Converter};
use numbers::{number, Numbers};
use profile::{field_row, Class};
use records::{Definition, Known, Spot};
use text::{put_fixed, Clock};

const RECORD: u16 = 20;

/// A number of a message: where it begins, and how it is written.
struct Place {
    at: usize,
    numbers: Numbers,
}

impl Place {
    /// That of the first field of a number, where it has numbers.
    fn find(definition: &Definition, number: u8) -> Option<Place> {
        let Spot { at, size, code } = definition.find(number)?;
        let (_, _, _, scale, offset) = field_row(RECORD, number)?;
        let numbers = Numbers::new(code, scale, offset);
        let fits = size > 0 && size % numbers.width == 0;
        let counts = matches!(numbers.class, Class::Signed | Class::Unsigned);
        (fits && counts).then_some(Place { at, numbers })
    }

    /// Puts the number, where it is valid; returns whether it is.
    fn put(&self, out: &mut Vec<u8>, big: bool, body: &[u8]) -> bool {
        let bits = number(big, &body[self.at..self.at + self.numbers.width]);
        self.numbers.put(out, bits)
    }
}

/// Where a record message has the cells of its row. Of two places for a cell the first valid one counts.
struct Columns {
    positions: [Option<usize>; 2],
    altitude: [Option<Place>; 2],
    distance: Option<Place>,
    speed: [Option<Place>; 2],
    compressed: Option<usize>,
    others: [Option<Place>; 4],
}

impl Columns {
    fn of(definition: &Definition) -> Option<Columns> {
        let place = |number| Place::find(definition, number);
        let position = |spot: &Spot| spot.code == 0x85 && spot.size > 0 && spot.size % 4 == 0;
        let at = |spot: Spot| spot.at;
        (definition.global == RECORD).then(|| Columns {
            positions: [0, 1].map(|number| definition.find(number).filter(position).map(at)),
            altitude: [78, 2].map(place),
            distance: place(5),
            speed: [73, 6].map(place),
            compressed: definition.find(8).filter(|spot| spot.size == 3).map(at),
            others: [3, 4, 7, 13].map(place),
        })
    }

    /// Speed and distance in the field that has both in three bytes, lowest first.
    fn compressed(&self, body: &[u8]) -> Option<(u32, u32)> {
        let at = self.compressed?;
        let bits = u32::from_le_bytes([body[at], body[at + 1], body[at + 2], 0]);
        (bits != 0xFF_FFFF).then_some((bits & 0xFFF, bits >> 12))
    }
}

/// A comma and the first valid number of these places; returns whether there is one.
fn put_cell<'a>(
    out: &mut Vec<u8>,
    places: impl IntoIterator<Item = &'a Place>,
    big: bool,
    body: &[u8],
) -> bool {
    out.push(b',');
    places.into_iter().any(|place| place.put(out, big, body))
}

/// A comma and the degrees in that many semicircles, with seven decimals.
fn put_degrees(out: &mut Vec<u8>, place: Option<usize>, big: bool, body: &[u8]) {
    out.push(b',');
    let Some(at) = place else { return };
    let semicircles = number(big, &body[at..at + 4]) as u32 as i32;
    if semicircles != i32::MAX {
        let size = u64::from(semicircles.unsigned_abs()) * 3_600_000_000;
        let degrees = ((size + (1 << 31)) >> 32) as i64;
        put_fixed(out, if semicircles < 0 { -degrees } else { degrees }, 7);
    }
}

struct Table {
    files: u32,
    front: String,
    known: Known<Option<Columns>>,
    distance: u64,
    clock: Clock,
}

impl Converter for Table {
    fn begin(&mut self, _out: &mut Vec<u8>, _header: &[u8], _word: &str, _data: usize) {
        self.files += 1;
        self.front = format!("{},", self.files);
        self.known = Known::new();
        self.distance = 0;
    }

    fn define(&mut self, _out: &mut Vec<u8>, bytes: &[u8]) -> usize {
        let definition = Definition::read(bytes);
        self.known.define(&definition, Columns::of(&definition))
    }

    fn message(&mut self, out: &mut Vec<u8>, bytes: &[u8]) -> usize {
        let (kept, message) = self.known.message(bytes);
        let used = 1 + message.body.len();
        let Some(columns) = &kept.made else {
            return used;
        };
        let (big, body) = (kept.big, message.body);
        let compressed = columns.compressed(body);
        if let Some((_, low)) = compressed {
            self.distance += u64::from(low).wrapping_sub(self.distance) & 0xFFF;
        }
        out.extend_from_slice(self.front.as_bytes());
        if let Some(time) = message.time {
            self.clock.put(out, time);
        }
        for place in columns.positions {
            put_degrees(out, place, big, body);
        }
        put_cell(out, columns.altitude.iter().flatten(), big, body);
        if !put_cell(out, &columns.distance, big, body) && compressed.is_some() {
            put_fixed(out, self.distance as i64 * 625, 4);
        }
        if !put_cell(out, columns.speed.iter().flatten(), big, body) {
            if let Some((speed, _)) = compressed {
                put_fixed(out, i64::from(speed), 2);
            }
        }
        for place in &columns.others {
            put_cell(out, place, big, body);
        }
        out.push(b'\n');
        used
    }
}

fn main() {
    let table = Table {
        files: 0,
        front: String::new(),
        known: Known::new(),
        distance: 0,
        clock: Clock::new(),
    };
    let first = "file,timestamp,position_lat,position_long,altitude,distance,speed,\
                 heart_rate,cadence,power,temperature\n";
    convert(table, first, "");
}
