//! Chains of files, as `csv.rs`, `show.rs` and `table.rs` read them: all of the input at first. The text goes out
//! by some 64 KiB.
use crate::numbers::number;
use std::io::{Read, Write};

/// What a program writes of a chain of files.
pub trait Converter {
    /// Begins a file: its header, the word for the header's own sum, and how many bytes of data it has.
    fn begin(&mut self, out: &mut Vec<u8>, header: &[u8], word: &str, data: usize);
    /// A definition message; returns how many bytes it has.
    fn define(&mut self, out: &mut Vec<u8>, bytes: &[u8]) -> usize;
    /// A data message; returns how many bytes it has.
    fn message(&mut self, out: &mut Vec<u8>, bytes: &[u8]) -> usize;
    /// Ends a file.
    fn end(&mut self, _out: &mut Vec<u8>) {}
}

/// Writes what a program makes of the file that is named, or of standard input, between two texts.
pub fn convert(mut converter: impl Converter, first: &str, last: &str) {
    let bytes = match std::env::args().nth(1) {
        Some(path) => std::fs::read(path).expect("a file"),
        None => {
            let mut bytes = Vec::new();
            std::io::stdin().read_to_end(&mut bytes).expect("an input");
            bytes
        }
    };
    let mut output = std::io::stdout().lock();
    let mut out = first.as_bytes().to_vec();
    let mut rest = &bytes[..];
    while !rest.is_empty() {
        let size = usize::from(rest[0]) + number(false, &rest[4..8]) as usize;
        assert!(
            &rest[8..12] == b".FIT"
                && number(false, &rest[size..size + 2]) == u64::from(sum(&rest[..size]))
        );
        let (header, mut data) = rest[..size].split_at(usize::from(rest[0]));
        converter.begin(&mut out, header, sum_word(header), data.len());
        while !data.is_empty() {
            let used = if data[0] & 0xC0 == 0x40 {
                converter.define(&mut out, data)
            } else {
                converter.message(&mut out, data)
            };
            data = &data[used..];
            if out.len() > 1 << 16 {
                output.write_all(&out).expect("an output");
                out.clear();
            }
        }
        converter.end(&mut out);
        rest = &rest[size + 2..];
    }
    out.extend_from_slice(last.as_bytes());
    output.write_all(&out).expect("an output");
}

/// What a header has for its own sum.
fn sum_word(header: &[u8]) -> &'static str {
    match header.get(12..14) {
        None => "none",
        Some(word) if number(false, word) == u64::from(sum(&header[..12])) => "sum",
        Some(_) => "zero",
    }
}

// ---- the sum, eight bytes at a time

fn sum(bytes: &[u8]) -> u16 {
    let mut sum = 0;
    let mut eights = bytes.chunks_exact(8);
    for p in &mut eights {
        sum = TABLES[7][usize::from(p[0] ^ sum as u8)]
            ^ TABLES[6][usize::from(p[1] ^ (sum >> 8) as u8)]
            ^ TABLES[5][usize::from(p[2])]
            ^ TABLES[4][usize::from(p[3])]
            ^ TABLES[3][usize::from(p[4])]
            ^ TABLES[2][usize::from(p[5])]
            ^ TABLES[1][usize::from(p[6])]
            ^ TABLES[0][usize::from(p[7])];
    }
    for b in eights.remainder() {
        sum = sum >> 8 ^ TABLES[0][usize::from(sum as u8 ^ b)];
    }
    sum
}

static TABLES: [[u16; 256]; 8] = {
    let mut tables = [[0; 256]; 8];
    let mut byte = 0;
    while byte < 256 {
        let mut sum = byte as u16;
        let mut k = 0;
        while k < 8 {
            let mut bit = 0;
            while bit < 8 {
                sum = if sum & 1 == 1 {
                    sum >> 1 ^ 0xA001
                } else {
                    sum >> 1
                };
                bit += 1;
            }
            tables[k][byte] = sum;
            k += 1;
        }
        byte += 1;
    }
    tables
};
