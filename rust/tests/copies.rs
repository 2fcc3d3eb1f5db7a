//! Files that are written as they were read: by their blocks, event by event, and value by value.
mod made;

use gazhdor::{check, messages, table, Writer};
use gazhdor::{
    BaseType, Definition, Developer, Draft, Event, Field, Header, Key, Message, Messages, PutFault, Time, Value,
};
use made::{any_file, Random};

const RIDE: &[u8] = include_bytes!(concat!(env!("GAZHDOR_RIDES"), "/ride.fit"));

/// The ride, random files, and a chain; and where the variable names a folder, the recordings in it, whose values say all.
fn files() -> Vec<Vec<u8>> {
    let mut random = Random(20_261_129);
    let mut files: Vec<_> = (0..60).map(|_| any_file(&mut random)).collect();
    let chain = [&files[0][..], RIDE, &files[1]].concat();
    files.extend([chain, RIDE.repeat(2)]);
    files
}

/// The ride, and where GAZHDOR_RECORDINGS names a folder, the recordings in it.
fn recordings() -> Vec<Vec<u8>> {
    let mut all = vec![RIDE.to_vec()];
    if let Some(folder) = std::env::var_os("GAZHDOR_RECORDINGS") {
        let files = std::fs::read_dir(folder).unwrap();
        all.extend(files.map(|file| std::fs::read(file.unwrap().path()).unwrap()));
        assert!(all.len() > 1);
    }
    all
}

fn copied(read: &Messages) -> Vec<u8> {
    let mut out = Writer::new(Vec::new());
    read.events().for_each(|event| out.copy(&event).unwrap());
    out.finish().unwrap()
}

#[test]
fn event_by_event() {
    for file in files().into_iter().chain(recordings()) {
        assert!(copied(&messages(&file).unwrap()) == file);
    }
}

/// Without headers and definitions the writer makes its own: where a file defines each local message type once, and just before its first
/// message, all after the header stays as it was.
#[test]
fn message_by_message() {
    let mut out = Writer::new(Vec::new());
    messages(RIDE).unwrap().iter().for_each(|message| out.copy_message(&message).unwrap());
    let file = out.finish().unwrap();
    assert_eq!((check(&file), &*table(&file).unwrap()), (Ok(1), &*table(RIDE).unwrap()));
    let (ours, theirs) = (messages(&file).unwrap(), messages(RIDE).unwrap());
    assert_eq!(ours.iter().count(), theirs.iter().count());
    for (one, other) in ours.iter().zip(&theirs) {
        assert_eq!(
            (one.number(), one.local(), one.time_offset()),
            (other.number(), other.local(), other.time_offset())
        );
        assert!(one.fields().map(|field| field.bytes()).eq(other.fields().map(|field| field.bytes())));
    }
}

/// The fields of a record that have whole what a reader accumulates.
const WHOLE: [u8; 3] = [5, 19, 29];

/// What a record tells in one of these, or else what a reader accumulates, a distance in whole centimetres. None where the field is there
/// without a value, and of a type that hasn't room for each.
fn amount(message: &Message<'_>, number: u8) -> Option<String> {
    let field = message.numbered(number);
    if let Some(field) = field.filter(|field| field.whole() != Value::None) {
        return Some(format!("{:?}", field.whole()));
    }
    let has_room = |field: Field<'_>| field.base_type() == BaseType::Uint32.code() && field.count() == 1;
    let told = match number {
        5 => message.distance().map(|metres| Value::Float((100.0 * metres).round() / 100.0)),
        19 => message.total_cycles().map(Value::Unsigned),
        _ => message.accumulated_power().map(Value::Unsigned),
    };
    told.filter(|_| field.map_or(true, has_room)).map(|told| format!("{told:?}"))
}

/// What a message says, but for a timestamp that it got, and for sums of a record that it got: its number, its time, each field and developer
/// field with name, unit, base type and items, and these sums.
fn said(message: &Message<'_>, is_dated: bool) -> Said {
    let of = |field: Field<'_>| {
        let text = |text: Option<&str>| text.map(str::to_string);
        let told = (field.developer(), field.number(), field.base_type(), field.bytes().to_vec());
        (told, text(field.name()), text(field.unit()))
    };
    let is_whole = |field: &Field<'_>| field.developer().is_none() && WHOLE.contains(&field.number());
    let is_record = message.number() == 20;
    let fields =
        message.fields().skip(is_dated.into()).filter(|field| !is_record || !is_whole(field)).map(of).collect();
    let sums = WHOLE.map(|number| amount(message, number).filter(|_| is_record));
    (message.number(), message.time(), fields, sums)
}

type Told = ((Option<u8>, u8, u8, Vec<u8>), Option<String>, Option<String>);
type Said = (u16, Option<Time>, Vec<Told>, [Option<String>; 3]);

/// Messages of two files by turns, with the same local message types and the same developer fields, which they describe in other ways: each
/// is read as it was, whatever comes before it.
#[test]
fn two_files_by_turns() {
    let (mut random, mut seen) = (Random(5), 0);
    for turn in 0..40 {
        let (first, other) = (if turn == 0 { RIDE.to_vec() } else { any_file(&mut random) }, any_file(&mut random));
        let (ones, others) = (messages(&first).unwrap(), messages(&other).unwrap());
        let mut out = Writer::new(Vec::new());
        let mut wanted = Vec::new();
        for (one, two) in ones.iter().zip(&others) {
            for message in [one, two, two] {
                match out.copy_message(&message) {
                    // A developer field that its own file doesn't describe would be the other one's.
                    Err(PutFault::Described { .. }) => {
                        assert!(message.fields().any(|field| field.developer().is_some()))
                    }
                    done => {
                        assert_eq!(done, Ok(()));
                        wanted.push(message);
                    }
                }
            }
        }
        let file = out.finish().unwrap();
        let read = messages(&file).unwrap();
        let told: Vec<_> = read.iter().filter(|message| ![206, 207].contains(&message.number())).collect();
        let wanted: Vec<_> = wanted.iter().filter(|message| ![206, 207].contains(&message.number())).collect();
        assert_eq!(told.len(), wanted.len());
        for (message, of) in told.iter().zip(&wanted) {
            let is_stamp = |field: &Field<'_>| field.developer().is_none() && field.number() == 253;
            let stamps = |of: &Message<'_>| of.fields().filter(is_stamp).count();
            let is_dated = stamps(message) > stamps(of);
            assert_eq!(said(message, is_dated), said(of, false));
        }
        seen += wanted.len();
    }
    assert!(seen > 2000, "{seen}");
}

#[test]
fn unchanged_drafts() {
    for file in files() {
        let mut out = Writer::new(Vec::new());
        for event in messages(&file).unwrap().events() {
            match event {
                Event::Message(message) => out.write(&message.draft()).unwrap(),
                other => out.copy(&other).unwrap(),
            }
        }
        assert!(out.finish().unwrap() == file);
    }
}

/// A definition made of what can be asked of another; none where a base type, a size or a reserved byte isn't one that a program gives.
fn defined_anew(old: &Definition<'_>) -> Option<Definition<'static>> {
    let mut made = Definition::numbered(old.number());
    for field in old.fields() {
        let base_type = BaseType::of(field.base_type())?;
        if usize::from(base_type.width()) != field.width() {
            return None;
        }
        let items = field.count().try_into().ok()?;
        made = match field.developer() {
            None => made.with_field(field.number(), base_type, items).ok()?,
            Some(index) => {
                let text = |text: Option<&str>| text.unwrap_or("").to_string();
                let (number, name, unit) = (field.number(), text(field.name()), text(field.unit()));
                made.with_developer(&Developer { index, number, base_type, name, unit }, items).ok()?
            }
        };
    }
    let made = made.at(old.local());
    Some(if old.is_big_endian() { made.big_endian() } else { made })
}

/// Sets a field to the value of another. Returns whether that says all of it; if not, its items are set bit by bit.
fn set(draft: &mut Draft<'_>, position: usize, field: &Field<'_>) -> bool {
    let key = Key::Position(position);
    let done = match field.whole() {
        Value::Several => draft.set_items(key, (0..field.count()).map(|k| field.item(k))),
        whole => draft.set(key, whole),
    };
    let says_all = done.is_ok() && draft.field(key).unwrap().bytes() == field.bytes();
    if !says_all {
        (0..field.count()).for_each(|k| draft.set_raw(key, k, field.raw(k).unwrap()).unwrap());
    }
    says_all
}

fn drafted<'a>(definition: &'a Definition<'_>, message: &Message<'_>) -> (Draft<'a>, usize) {
    let mut draft = definition.message();
    draft.set_time_offset(message.time_offset()).unwrap();
    let fields = (0..).zip(message.fields());
    let unsaid = fields.filter(|(position, field)| !set(&mut draft, *position, field)).count();
    (draft, unsaid)
}

/// The file of all values, and how many fields had to be set bit by bit.
fn by_values(read: &Messages) -> (Vec<u8>, usize) {
    let mut out = Writer::new(Vec::new());
    let mut known: [Option<Definition<'_>>; 16] = Default::default();
    let mut unsaid = 0;
    for event in read.events() {
        match event {
            Event::Header(header) => {
                out.begin(&Header::new(header.protocol(), header.profile(), header.checksum())).unwrap();
            }
            Event::Definition(old) => {
                let made = defined_anew(&old).unwrap_or(old);
                out.define(&made).unwrap();
                let local = usize::from(made.local());
                known[local] = Some(made);
            }
            Event::Message(message) => {
                let definition = known[usize::from(message.local())].as_ref().unwrap();
                let (draft, more) = drafted(definition, &message);
                out.write(&draft).unwrap();
                unsaid += more;
            }
            Event::End => out.end(),
        }
    }
    (out.finish().unwrap(), unsaid)
}

/// Values say all of a recording.
#[test]
fn recordings_by_their_values() {
    for file in recordings() {
        let (made, unsaid) = by_values(&messages(&file).unwrap());
        assert!(made == file && unsaid == 0);
    }
}

/// Of random bytes they don't say what comes after the zero of a text, and which NaN a float is.
#[test]
fn random_files_by_their_values() {
    let mut unsaid = 0;
    for file in files() {
        let (made, more) = by_values(&messages(&file).unwrap());
        assert!(made == file);
        unsaid += more;
    }
    assert!(unsaid > 0);
}

/// What a reader accumulates stays as it was where messages before are left out, or files are put together: it is written into the fields that
/// have it whole. The distances, cycles and watts are those that were written.
#[test]
fn what_is_accumulated() {
    let mut random = Random(20_261_201);
    for _ in 0..40 {
        let step = |random: &mut Random, most| random.below(most) as u64;
        let (mut sums, mut told) =
            ([step(&mut random, 4000), step(&mut random, 250), step(&mut random, 60_000)], vec![]);
        let record = Definition::of("record", &["timestamp", "heart_rate"]).unwrap();
        let record = record.with_field(8, BaseType::Byte, 3).unwrap().with_field(18, BaseType::Uint8, 1).unwrap();
        let record = record.with_field(28, BaseType::Uint16, 1).unwrap();
        let mut out = Writer::new(Vec::new());
        for k in 0..30 {
            let [distance, cycles, power] = sums;
            let packed = (((distance & 0xFFF) << 12) | 300).to_le_bytes();
            let draft = record.message().with("timestamp", 1_147_937_400 + k).unwrap();
            let draft =
                draft.with(8, &packed[..3]).unwrap().with(18, cycles & 0xFF).unwrap_or_else(|_| record.message());
            out.write(&draft.with(28, power & 0xFFFF).unwrap_or_else(|_| record.message())).unwrap();
            told.push(sums);
            sums = [
                distance + step(&mut random, 4096),
                cycles + step(&mut random, 250),
                power + step(&mut random, 65_000),
            ];
        }
        let read = out.finish().unwrap();
        let read = messages(&read).unwrap();
        let sums = |message: &Message<'_>| {
            let value =
                |number: u8, told: Option<f64>| message.numbered(number).and_then(|field| field.value(0)).or(told);
            let cycles = value(19, message.total_cycles().map(|told| told as f64));
            (
                message.time(),
                value(5, message.distance()),
                cycles,
                value(29, message.accumulated_power().map(|told| told as f64)),
            )
        };
        let wanted: Vec<_> = read.iter().map(|message| sums(&message)).collect();
        let mut out = Writer::new(Vec::new());
        let kept: Vec<_> = (0..wanted.len()).filter(|k| k % 3 != 0).collect();
        read.iter()
            .enumerate()
            .filter(|(k, _)| kept.contains(k))
            .for_each(|(_, message)| out.copy_message(&message).unwrap());
        let copied = out.finish().unwrap();
        let near = |one: Option<f64>, other: Option<f64>| {
            one.zip(other).map_or(one == other, |(one, other)| (one - other).abs() < 0.0051)
        };
        for (message, k) in messages(&copied).unwrap().iter().zip(kept) {
            let (found, wanted) = (sums(&message), wanted[k]);
            assert!(
                near(found.1, wanted.1) && (found.0, found.2, found.3) == (wanted.0, wanted.2, wanted.3),
                "{found:?} {wanted:?}"
            );
        }
        assert_eq!(told.len(), wanted.len());
    }
}
