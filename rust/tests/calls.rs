//! What the calls return of a ride and of changed copies of it, by what the FIT protocol says of such bytes.
use gazhdor::{check, from_csv, show, table, to_csv, Fault, Reason};
use std::error::Error;
use std::thread;

const RIDE: &[u8] = include_bytes!(concat!(env!("GAZHDOR_RIDES"), "/ride.fit"));

fn changed(place: usize, byte: u8) -> Vec<u8> {
    let mut bytes = RIDE.to_vec();
    assert_ne!(bytes[place], byte);
    bytes[place] = byte;
    bytes
}

#[test]
fn files_are_counted() {
    assert_eq!(check(RIDE), Ok(1));
    assert_eq!(check(&RIDE.repeat(3)), Ok(3));
    assert_eq!(check(&[]), Err(Fault::Truncated { place: 0 }));
}

#[test]
fn each_front_is_truncated_at_its_end() {
    let [whole_table, whole_text, whole_lines] = [table, to_csv, show].map(|call| call(RIDE).unwrap());
    for end in 0..RIDE.len() {
        // A block of just these bytes, so that valgrind sees a read past them.
        let front = RIDE[..end].to_vec();
        let fault = Fault::Truncated { place: end as u64 };
        assert_eq!(check(&front), Err(fault));
        assert_eq!((fault.place(), fault.reason()), (Some(end as u64), None));
        for (call, whole) in [(table as fn(&[u8]) -> _, &whole_table), (to_csv, &whole_text), (show, &whole_lines)] {
            let stopped = call(&front).unwrap_err();
            assert_eq!(stopped.fault, fault);
            assert!(whole.starts_with(&*stopped.before));
        }
    }
}

/// The closing checksum sees each change of one byte, and what comes before it still begins a file.
#[test]
fn each_changed_byte_is_found() {
    for (place, byte) in RIDE.iter().enumerate() {
        let bytes = changed(place, byte ^ 0x55);
        let fault = check(&bytes).unwrap_err();
        assert!((place as u64..=RIDE.len() as u64).contains(&fault.place().unwrap()));
        assert_eq!(table(&bytes).unwrap_err().fault, fault);
    }
}

#[test]
fn reasons() {
    let mut overrun = vec![14, 16, 0, 0, 6, 0, 0, 0, b'.', b'F', b'I', b'T', 0, 0];
    overrun.extend([0x40, 0, 0, 0, 0, 1]); // a definition of one field, for which no bytes are left
    let refused = [
        (changed(0, 13), 0, Reason::HeaderSize),
        (changed(1, 0x30), 1, Reason::Protocol),
        (vec![14, 16, 0, 0, 5, 0, 0, 0], 7, Reason::NoFit),
        (changed(8, b','), 8, Reason::Signature),
        (changed(12, 0x93), 12, Reason::HeaderSum),
        (changed(14, 0x50), 14, Reason::ReservedBit),
        (changed(14, 0), 14, Reason::UndefinedLocal),
        (overrun, 19, Reason::Overrun),
        (changed(16, 2), 16, Reason::Architecture),
        (changed(RIDE.len() - 1, !RIDE[RIDE.len() - 1]), RIDE.len() as u64 - 1, Reason::FileSum),
    ];
    for (bytes, place, reason) in refused {
        let fault = check(&bytes).unwrap_err();
        assert_eq!(fault, Fault::Refused { place, reason });
        assert_eq!((fault.place(), fault.reason()), (Some(place), Some(reason)));
        assert_eq!(fault.to_string(), format!("refused at byte {place}: {reason:?}"));
    }
}

#[test]
fn texts_come_back_as_the_same_bytes() {
    for chain in [RIDE.to_vec(), RIDE.repeat(2)] {
        let text = to_csv(&chain).unwrap();
        assert_eq!(*from_csv(&text).unwrap(), chain[..]);
        assert_eq!(*from_csv(String::from(&*text)).unwrap(), chain[..]);
        assert_eq!(*from_csv(text.as_bytes()).unwrap(), chain[..]);
    }
}

#[test]
fn texts_that_are_refused() {
    let first = "row,a,b,c,d,e,f\n";
    let refused = [
        (String::new(), 1, None),
        (first.to_string(), 2, None),
        (format!("{first}end,,,,,,\n"), 2, None),
        (format!("{first}file,14,32,65536,sum,,\nend,,,,,,\n"), 2, Some(4)),
    ];
    for (text, row, column) in refused {
        let fault = from_csv(&text).unwrap_err();
        assert_eq!(fault, Fault::Text { row, column });
        assert_eq!((fault.place(), fault.reason()), (None, None));
    }
    // The true checksum of this header is 0, for which zeros can't stand.
    let zeros = format!("{first}file,14,32,46477,zero,,\nend,,,,,,\n");
    assert_eq!(from_csv(zeros).unwrap_err(), Fault::Unwritable);
}

#[test]
fn a_table_has_a_line_for_each_record() {
    let table = table(RIDE).unwrap();
    let mut lines = table.lines();
    let names =
        "file,timestamp,position_lat,position_long,altitude,distance,speed,heart_rate,cadence,power,temperature";
    assert_eq!(lines.next(), Some(names));
    // The route was made by another program, with a point for each record that has a position.
    let points = include_str!(concat!(env!("GAZHDOR_RIDES"), "/ride.gpx")).matches("<trkpt ").count();
    assert_eq!(lines.filter(|line| !line.split(',').nth(2).unwrap().is_empty()).count(), points);
}

#[test]
fn faults_are_errors() {
    fn first_line(bytes: &[u8]) -> Result<String, Fault> {
        Ok(table(bytes)?.lines().next().unwrap_or_default().to_string())
    }
    fn boxed(bytes: &[u8]) -> Result<u64, Box<dyn Error + Send + Sync>> {
        show(bytes)?;
        Ok(check(bytes)?)
    }
    assert!(first_line(RIDE).unwrap().starts_with("file,"));
    assert_eq!(first_line(&RIDE[..20]), Err(Fault::Truncated { place: 20 }));
    assert_eq!(boxed(RIDE).unwrap(), 1);
    assert_eq!(boxed(&RIDE[..20]).unwrap_err().to_string(), "truncated at byte 20");
}

#[test]
fn four_threads() {
    let wanted = table(RIDE).unwrap();
    thread::scope(|scope| {
        for _ in 0..4 {
            scope.spawn(|| {
                for _ in 0..25 {
                    assert_eq!(*table(RIDE).unwrap(), *wanted);
                    assert_eq!(check(RIDE), Ok(1));
                }
            });
        }
    });
    // What one thread made another may drop.
    let text = thread::spawn(|| to_csv(RIDE).unwrap()).join().unwrap();
    assert_eq!(*from_csv(text).unwrap(), *RIDE);
}
