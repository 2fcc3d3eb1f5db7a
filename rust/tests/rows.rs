//! Messages against the rows of `to_csv`, which are read here by docs/CSV.md: of the ride, of random files, of changed copies of both.
mod made;

use gazhdor::{check, messages, to_csv, Field, Message, Raw, Stopped, Time, Value};
use made::{any_file, Random};

const RIDE: &[u8] = include_bytes!(concat!(env!("GAZHDOR_RIDES"), "/ride.fit"));

/// What the rows tell of a message: file, place, local message type, time offset, name, time of its header; and of each field its name,
/// value and unit.
#[derive(Debug, PartialEq)]
struct Told {
    front: (u32, u64, u8, String, String, String),
    cells: Vec<[String; 3]>,
}

fn rows(text: &str) -> Vec<Vec<String>> {
    let (mut rows, mut row, mut cell, mut quoted) = (Vec::new(), Vec::new(), String::new(), false);
    let mut letters = text.chars().peekable();
    while let Some(letter) = letters.next() {
        match letter {
            '"' if quoted && letters.peek() == Some(&'"') => cell.extend(letters.next()),
            '"' => quoted = !quoted,
            ',' | '\n' if !quoted => {
                row.push(std::mem::take(&mut cell));
                if letter == '\n' {
                    rows.push(std::mem::take(&mut row));
                }
            }
            _ => cell.push(letter),
        }
    }
    rows
}

fn number(cell: &str) -> u64 {
    cell.parse().unwrap()
}

fn told_by_rows(text: &str) -> Vec<Told> {
    let (mut told, mut file, mut place, mut sizes) = (Vec::new(), 0, 0, vec![0; 16]);
    let mut local = 0;
    for row in rows(text).into_iter().skip(1) {
        match &*row[0] {
            "file" => (file, place) = (file + 1, place + number(&row[1])),
            "def" => {
                local = number(&row[1]) as usize;
                sizes[local] = 0;
                place += 6 + if row[6].is_empty() { 0 } else { 1 };
            }
            "fdef" | "ddef" => (sizes[local], place) = (sizes[local] + number(&row[2]), place + 3),
            "data" => {
                let [_, local, offset, name, time, ..] = <[String; 7]>::try_from(row).unwrap();
                let size = sizes[number(&local) as usize];
                told.push(Told { front: (file, place, local.parse().unwrap(), offset, name, time), cells: Vec::new() });
                place += 1 + size;
            }
            "end" => place += 2,
            _ => told.last_mut().unwrap().cells.push(<[String; 3]>::try_from(row[1..4].to_vec()).unwrap()),
        }
    }
    told
}

fn hex(bytes: &[u8]) -> String {
    let digits: String = bytes.iter().map(|byte| format!("{byte:02X}")).collect();
    if digits.is_empty() {
        digits
    } else {
        format!("0x{digits}")
    }
}

/// The decimal text of a whole number, which is exact; and `value` gives the number that is nearest to it.
fn decimal(field: &Field<'_>, k: usize, raw: i128) -> String {
    let [scale, offset] = [field.scale(), field.offset()].map(i128::from);
    let power = 10i128.pow(field.decimals().into());
    let parts = (raw - offset * scale) * power / scale;
    let (sign, parts) = (if parts < 0 { "-" } else { "" }, parts.abs());
    let text = match usize::from(field.decimals()) {
        0 => format!("{sign}{parts}"),
        some => format!("{sign}{}.{:02$}", parts / power, parts % power, some),
    };
    let value = field.value(k);
    if raw.abs() < 1 << 53 {
        assert_eq!(value, Some(text.parse().unwrap()));
    }
    match field.item(k) {
        Value::Float(item) => assert!(scale != 1 || offset != 0 || value == Some(item)),
        item if raw < 0 => assert_eq!(item, Value::Signed(raw as i64)),
        item => assert!(item == Value::Unsigned(raw as u64) || item == Value::Signed(raw as i64)),
    }
    text
}

fn item_cell(field: &Field<'_>, k: usize) -> String {
    match field.raw(k).unwrap() {
        Raw::Float32(bits) => format!("0x{bits:08X}"),
        Raw::Float64(bits) => format!("0x{bits:016X}"),
        _ if !field.is_valid(k) => {
            assert_eq!((field.value(k), field.item(k)), (None, Value::None));
            String::new()
        }
        Raw::Unsigned(raw) => decimal(field, k, raw.into()),
        Raw::Signed(raw) => decimal(field, k, raw.into()),
        Raw::Byte(_) => unreachable!(),
    }
}

fn text_cell(field: &Field<'_>) -> String {
    let all = field.bytes();
    let end = all.iter().rposition(|&byte| byte != 0).map_or(0, |last| last + 1);
    match std::str::from_utf8(&all[..end]) {
        Ok(text) if !text.contains('\0') && !text.starts_with("0x") => {
            assert_eq!(field.text().unwrap_or(""), text);
            assert_eq!(field.whole(), if text.is_empty() { Value::None } else { Value::Text(text) });
            text.to_string()
        }
        _ => hex(all),
    }
}

fn cell(field: &Field<'_>) -> String {
    assert_eq!(field.raw(field.count()), None);
    match field.raw(0) {
        Some(Raw::Byte(_)) if field.base_type() == 7 => text_cell(field),
        Some(Raw::Byte(first)) => {
            assert_eq!((field.bytes()[0], field.bytes().len(), field.value(0)), (first, field.count(), None));
            assert!([Value::Bytes(field.bytes()), Value::None].contains(&field.whole()));
            hex(field.bytes())
        }
        _ => (0..field.count()).map(|k| item_cell(field, k)).collect::<Vec<_>>().join("|"),
    }
}

fn label(field: &Field<'_>) -> String {
    match (field.name(), field.developer()) {
        (Some(name), _) => name.to_string(),
        (None, None) => format!("field_{}", field.number()),
        (None, Some(index)) => format!("dev_{index}_{}", field.number()),
    }
}

fn shown<T: ToString>(what: Option<T>) -> String {
    what.map_or_else(String::new, |what| what.to_string())
}

fn told_by_message(message: Message<'_>) -> Told {
    let name = message.name().map_or_else(|| format!("message_{}", message.number()), String::from);
    let offset = shown(message.time_offset());
    message.fields().for_each(|field| see_found(message, field));
    if message.time() != message.header_time() {
        let stamp = message.numbered(253).and_then(|field| field.value(0)).unwrap();
        assert_eq!(message.time().map(|time| f64::from(time.seconds())), Some(stamp));
    }
    Told {
        front: (message.file(), message.place(), message.local(), offset, name, shown(message.header_time())),
        cells: message.fields().map(|field| [label(&field), cell(&field), shown(field.unit())]).collect(),
    }
}

/// Each field is found by its name and by its numbers, or one before it that has the same.
fn see_found(message: Message<'_>, field: Field<'_>) {
    let at = |wanted: Field<'_>| message.fields().position(|field| field == wanted).unwrap();
    if let Some(name) = field.name() {
        let found = message.field(name).unwrap();
        assert_eq!(found.name(), Some(name));
        assert!(at(found) <= at(field));
    }
    let found = match field.developer() {
        Some(index) => message.developer(index, field.number()),
        None => message.numbered(field.number()),
    };
    assert_eq!(found.map(|found| (found.developer(), found.number())), Some((field.developer(), field.number())));
    assert!(at(found.unwrap()) <= at(field));
}

fn compare(bytes: &[u8]) -> usize {
    let text = to_csv(bytes).unwrap_or_else(|stopped| stopped.before);
    let made = match messages(bytes) {
        Ok(made) => {
            assert!(check(bytes).is_ok());
            made
        }
        Err(Stopped { fault, before }) => {
            assert_eq!(check(bytes), Err(fault));
            before
        }
    };
    let found: Vec<_> = made.iter().map(told_by_message).collect();
    assert_eq!(found, told_by_rows(&text));
    found.len()
}

#[test]
fn the_ride() {
    let count = compare(RIDE);
    assert!(count > 100);
    assert_eq!(compare(&RIDE.repeat(3)), 3 * count);
    let made = messages(RIDE).unwrap();
    let table = gazhdor::table(RIDE).unwrap();
    let times: Vec<_> = table.lines().skip(1).map(|line| line.split(',').nth(1).unwrap()).collect();
    let records = made.iter().filter(|message| message.name() == Some("record"));
    assert_eq!(
        records.map(|record| record.time().as_ref().map_or(String::new(), Time::to_string)).collect::<Vec<_>>(),
        times
    );
}

#[test]
fn random_files() {
    let mut r = Random(20_260_101);
    let files: Vec<_> = (0..60).map(|_| any_file(&mut r)).collect();
    let counts: Vec<_> = files.iter().map(|file| compare(file)).collect();
    assert!(counts.iter().sum::<usize>() > 3000);
    assert_eq!(compare(&files[..9].concat()), counts[..9].iter().sum());
}

#[test]
fn each_front() {
    for end in (0..RIDE.len()).step_by(7) {
        // A block of just these bytes, so that valgrind sees a read past them.
        let front = RIDE[..end].to_vec();
        compare(&front);
    }
}

#[test]
fn random_changes() {
    let mut r = Random(20_261_127);
    for turn in 0..300 {
        let mut bytes = if turn % 2 == 0 { RIDE.to_vec() } else { any_file(&mut r) };
        for _ in 0..1 + r.below(6) {
            let place = 14 + r.below(bytes.len() - 14);
            bytes[place] = r.byte();
        }
        compare(&bytes);
    }
}
