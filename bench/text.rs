//! Digits and times, as `csv.rs`, `show.rs` and `table.rs` write them.

/// The two digits of each number below 100.
static PAIRS: [[u8; 2]; 100] = {
    let mut pairs = [[0; 2]; 100];
    let mut n = 0;
    while n < 100 {
        pairs[n] = [b'0' + (n / 10) as u8, b'0' + (n % 10) as u8];
        n += 1;
    }
    pairs
};

/// A number in decimal.
pub fn put_digits(out: &mut Vec<u8>, n: u64) {
    put_point::<0>(out, false, n);
}

/// A number in units of its last decimal.
pub fn put_fixed(out: &mut Vec<u8>, value: i64, decimals: usize) {
    let (negative, n) = (value < 0, value.unsigned_abs());
    match decimals {
        0 => put_point::<0>(out, negative, n),
        1 => put_point::<1>(out, negative, n),
        2 => put_point::<2>(out, negative, n),
        3 => put_point::<3>(out, negative, n),
        4 => put_point::<4>(out, negative, n),
        7 => put_point::<7>(out, negative, n),
        8 => put_point::<8>(out, negative, n),
        _ => unreachable!(),
    }
}

/// The same by its sign and its size.
#[inline(always)]
fn put_point<const DECIMALS: usize>(out: &mut Vec<u8>, negative: bool, mut n: u64) {
    let mut text = [0; 30];
    let mut at = text.len();
    if DECIMALS > 0 {
        for _ in 0..DECIMALS / 2 {
            at -= 2;
            text[at..at + 2].copy_from_slice(&PAIRS[(n % 100) as usize]);
            n /= 100;
        }
        if DECIMALS % 2 == 1 {
            at -= 1;
            text[at] = b'0' + (n % 10) as u8;
            n /= 10;
        }
        at -= 1;
        text[at] = b'.';
    }
    while n >= 100 {
        at -= 2;
        text[at..at + 2].copy_from_slice(&PAIRS[(n % 100) as usize]);
        n /= 100;
    }
    if n >= 10 {
        at -= 2;
        text[at..at + 2].copy_from_slice(&PAIRS[n as usize]);
    } else {
        at -= 1;
        text[at] = b'0' + n as u8;
    }
    if negative {
        at -= 1;
        text[at] = b'-';
    }
    out.extend_from_slice(&text[at..]);
}

/// `0x` and two hexadecimal digits a byte.
pub fn put_hex(out: &mut Vec<u8>, bytes: &[u8]) {
    out.extend_from_slice(b"0x");
    for b in bytes {
        out.push(b"0123456789ABCDEF"[usize::from(b >> 4)]);
        out.push(b"0123456789ABCDEF"[usize::from(b & 15)]);
    }
}

/// Writes times. It keeps the text of the last one, since the next one mostly has the same date.
pub struct Clock {
    day: u32,
    text: [u8; 20],
}

impl Clock {
    pub fn new() -> Clock {
        Clock {
            day: u32::MAX,
            text: *b"0000-00-00T00:00:00Z",
        }
    }

    fn set(&mut self, at: usize, pair: u32) {
        self.text[at..at + 2].copy_from_slice(&PAIRS[pair as usize]);
    }

    /// The date and time of an instant in seconds from 1989-12-31T00:00:00 UTC.
    pub fn put(&mut self, out: &mut Vec<u8>, instant: u32) {
        if instant < 0x1000_0000 {
            out.extend_from_slice(b"system+");
            put_digits(out, u64::from(instant));
            return;
        }
        let (day, second) = (instant / 86_400, instant % 86_400);
        if day != self.day {
            self.set_date(day);
        }
        self.set(11, second / 3_600);
        self.set(14, second / 60 % 60);
        self.set(17, second % 60);
        out.extend_from_slice(&self.text);
    }

    /// The date of a day. Days are counted from 1 March of the year 0, so that a leap day is the last
    /// of its year.
    fn set_date(&mut self, day: u32) {
        self.day = day;
        let from_march = day + 7_304 + 719_468;
        let (era, of_era) = (from_march / 146_097, from_march % 146_097);
        let year_of_era = (of_era - of_era / 1_460 + of_era / 36_524 - of_era / 146_096) / 365;
        let of_year = of_era - (365 * year_of_era + year_of_era / 4 - year_of_era / 100);
        let month_from_march = (5 * of_year + 2) / 153;
        let month = if month_from_march < 10 {
            month_from_march + 3
        } else {
            month_from_march - 9
        };
        let year = 400 * era + year_of_era + u32::from(month <= 2);
        self.set(0, year / 100);
        self.set(2, year % 100);
        self.set(5, month);
        self.set(8, of_year - (153 * month_from_march + 2) / 5 + 1);
    }
}
