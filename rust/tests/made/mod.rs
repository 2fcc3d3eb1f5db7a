//! FIT files that are made here, as the FIT protocol has them, by hand and at random.
#![allow(dead_code)]

/// Numbers at random, the same each time.
pub struct Random(pub u64);

impl Random {
    /// One below `end`.
    pub fn below(&mut self, end: usize) -> usize {
        self.0 ^= self.0 << 13;
        self.0 ^= self.0 >> 7;
        self.0 ^= self.0 << 17;
        (self.0.wrapping_mul(0x2545_F491_4F6C_DD1D) >> 33) as usize % end
    }

    pub fn pick<T: Copy>(&mut self, of: &[T]) -> T {
        of[self.below(of.len())]
    }

    pub fn byte(&mut self) -> u8 {
        self.below(256) as u8
    }
}

fn checksum(bytes: &[u8]) -> [u8; 2] {
    let mut sum: u16 = 0;
    for &byte in bytes {
        sum ^= u16::from(byte);
        for _ in 0..8 {
            sum = sum >> 1 ^ if sum & 1 == 1 { 0xA001 } else { 0 };
        }
    }
    sum.to_le_bytes()
}

/// A file of records.
pub fn fit(records: &[Vec<u8>]) -> Vec<u8> {
    let data = records.concat();
    let mut file = vec![14, 32, 84, 8];
    file.extend((data.len() as u32).to_le_bytes());
    file.extend(b".FIT");
    file.extend(checksum(&file));
    file.extend(data);
    file.extend(checksum(&file));
    file
}

/// A definition message of fields (number, size, base type), and of developer fields (number, size, index).
pub fn define(local: u8, number: u16, fields: &[[u8; 3]], developer: &[[u8; 3]], big: bool) -> Vec<u8> {
    let own = if developer.is_empty() { 0 } else { 0x20 };
    let mut record = vec![0x40 | own | local, 0, big.into()];
    record.extend(if big { number.to_be_bytes() } else { number.to_le_bytes() });
    record.push(fields.len() as u8);
    record.extend(fields.concat());
    if own != 0 {
        record.push(developer.len() as u8);
        record.extend(developer.concat());
    }
    record
}

/// A data message.
pub fn data(header: u8, items: &[&[u8]]) -> Vec<u8> {
    [&[header], &items.concat()[..]].concat()
}

/// The definition of field descriptions, and a description.
pub fn describes() -> Vec<u8> {
    define(15, 206, &[[0, 1, 2], [1, 1, 2], [2, 1, 2], [3, 12, 7], [8, 6, 7]], &[], false)
}

pub fn describe(index: u8, number: u8, base_type: u8, name: &str, unit: &str) -> Vec<u8> {
    let mut texts = [[0; 12], [0; 12]];
    texts[0][..name.len()].copy_from_slice(name.as_bytes());
    texts[1][..unit.len()].copy_from_slice(unit.as_bytes());
    data(15, &[&[index, number, base_type], &texts[0], &texts[1][..6]])
}

const CODES: [u8; 17] = [0, 1, 2, 7, 10, 13, 0x83, 0x84, 0x85, 0x86, 0x88, 0x89, 0x8B, 0x8C, 0x8E, 0x8F, 0x90];

fn width(code: u8) -> u8 {
    match code {
        0x83 | 0x84 | 0x8B => 2,
        0x85 | 0x86 | 0x88 | 0x8C => 4,
        0x89 | 0x8E | 0x8F | 0x90 => 8,
        _ => 1,
    }
}

fn any_items(r: &mut Random, size: u8) -> Vec<u8> {
    let mut items: Vec<u8> = match r.below(5) {
        0 => vec![0],
        1 => vec![0xFF],
        2 => vec![0xFF, 0x7F],
        3 => "R\u{e4}der, \"2\"".into(),
        _ => (0..size).map(|_| r.byte()).collect(),
    };
    items = items.iter().copied().cycle().take(if items.is_empty() { 0 } else { size.into() }).collect();
    items.resize(size.into(), 0);
    items
}

fn any_fields(r: &mut Random) -> Vec<[u8; 3]> {
    let one = |r: &mut Random| {
        let code = if r.below(8) == 0 { r.byte() } else { r.pick(&CODES) };
        let size = if r.below(2) == 0 { width(code) } else { r.pick(&[0, 1, 3, 8, 12, 16]) };
        [r.pick(&[253, 254, 0, 1, 2, 3, 4, 5, 6, 7, 8, 13, 18, 28, 73, 78, 200]), size, code]
    };
    (0..r.below(7)).map(|_| one(r)).collect()
}

fn any_developer(r: &mut Random) -> Vec<[u8; 3]> {
    let count = if r.below(2) == 0 { 0 } else { r.below(4) };
    (0..count).map(|_| [r.below(3) as u8, r.pick(&[1, 2, 4, 8, 3]), r.below(3) as u8]).collect()
}

/// A file of random definitions in both architectures, data, compressed headers and developer fields.
pub fn any_file(r: &mut Random) -> Vec<u8> {
    let mut records = vec![describes()];
    for (index, number, name) in [(0, 0, "Form power"), (0, 1, "heart_rate"), (1, 0, ""), (2, 2, "Form power")] {
        let code = r.pick(&CODES);
        records.push(describe(index, number, code, name, r.pick(&["", "W", "\u{b0}C"])));
    }
    let mut sizes: Vec<Option<Vec<u8>>> = vec![None; 15];
    for _ in 0..r.below(60) {
        let local = r.below(15) as u8;
        let known = &mut sizes[usize::from(local)];
        if known.is_none() || r.below(10) == 0 {
            let (fields, developer) = (any_fields(r), any_developer(r));
            let number = r.pick(&[20, 20, 20, 18, 0, 31, 65280]);
            records.push(define(local, number, &fields, &developer, r.below(2) == 0));
            *known = Some(fields.iter().chain(&developer).map(|field| field[1]).collect());
        }
        for _ in 0..r.pick(&[1, 1, 2, 5, 20]) {
            let is_compressed = local < 4 && r.below(2) == 0;
            let header = if is_compressed { 0x80 | local << 5 | r.below(32) as u8 } else { local };
            let items = known.iter().flatten().flat_map(|&size| any_items(r, size));
            records.push([header].into_iter().chain(items.collect::<Vec<_>>()).collect());
        }
    }
    fit(&records)
}
