//! Numbers: read from the bytes of a recording, and written as `csv.rs`, `show.rs` and `table.rs` do.
use crate::profile::{base_type, Class};
use crate::text::{put_fixed, put_hex};
use std::io::Write;

pub fn number(big: bool, bytes: &[u8]) -> u64 {
    match *bytes {
        [a] => u64::from(a),
        [a, b] => u64::from(if big {
            u16::from_be_bytes([a, b])
        } else {
            u16::from_le_bytes([a, b])
        }),
        [a, b, c, d] => u64::from(if big {
            u32::from_be_bytes([a, b, c, d])
        } else {
            u32::from_le_bytes([a, b, c, d])
        }),
        _ => {
            let eight = bytes.try_into().unwrap();
            if big {
                u64::from_be_bytes(eight)
            } else {
                u64::from_le_bytes(eight)
            }
        }
    }
}

/// What the numbers of a field stand for, and with how many decimals they are written.
pub struct Numbers {
    pub width: usize,
    pub class: Class,
    invalid: u64,
    sign: i64,
    shift: i64,
    factor: i64,
    decimals: usize,
}

impl Numbers {
    /// Those of a base type, a scale and an offset.
    pub fn new(code: u8, scale: u32, offset: u32) -> Numbers {
        let (width, invalid, class) = base_type(code);
        let decimals = match scale {
            5 | 10 => 1,
            100 => 2,
            1000 => 3,
            256 => 8,
            _ => 0,
        };
        Numbers {
            width,
            class,
            invalid,
            sign: i64::from(class == Class::Signed) << (8 * width - 1),
            shift: i64::from(offset) * i64::from(scale),
            factor: 10_i64.pow(decimals as u32) / i64::from(scale),
            decimals,
        }
    }

    #[inline]
    /// Puts the number that these bits are; the invalid one has no text. Returns whether there is one.
    pub fn put(&self, out: &mut Vec<u8>, bits: u64) -> bool {
        if self.class == Class::Float {
            put_hex(out, &bits.to_be_bytes()[8 - self.width..]);
        } else if bits == self.invalid {
            return false;
        } else if self.width == 8 {
            self.put_wide(out, bits);
        } else {
            // The highest bit of a signed number counts as one below zero.
            let raw = (bits as i64 ^ self.sign) - self.sign;
            put_fixed(out, (raw - self.shift) * self.factor, self.decimals);
        }
        true
    }

    /// A number of 64 bits, which may have more of them in units of its last decimal.
    fn put_wide(&self, out: &mut Vec<u8>, bits: u64) {
        let raw = if self.class == Class::Signed {
            i128::from(bits as i64)
        } else {
            i128::from(bits)
        };
        let value = (raw - i128::from(self.shift)) * i128::from(self.factor);
        let sign = if value < 0 { "-" } else { "" };
        let (size, units) = (value.unsigned_abs(), 10_u128.pow(self.decimals as u32));
        let _ = write!(out, "{sign}{}", size / units);
        if self.decimals > 0 {
            let _ = write!(out, ".{:0width$}", size % units, width = self.decimals);
        }
    }
}
