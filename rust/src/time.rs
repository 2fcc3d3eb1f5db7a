//! Times as FIT files have them.
use crate::numbers::NO_TIME;
use std::fmt::{self, Display, Formatter};

/// 1989-12-31T00:00:00 UTC in Unix time.
const EPOCH: u64 = 631_065_600;
/// The first second that isn't a system time.
const FIRST_DATE: u32 = 0x1000_0000;

/// A time in whole seconds. Its text is that of [`table`](crate::table): `2021-09-08T01:47:14Z`, or `system+7`.
///
/// ```
/// use gazhdor::Time;
///
/// let time = Time::new(1_000_000_034);
/// assert_eq!((time.seconds(), time.unix()), (1_000_000_034, Some(1_631_065_634)));
/// assert_eq!(time.to_string(), "2021-09-08T01:47:14Z");
///
/// // The device didn't know the time of day.
/// assert_eq!((Time::new(7).unix(), Time::new(7).to_string()), (None, "system+7".to_string()));
/// ```
#[derive(Debug, Clone, Copy, PartialEq, Eq, PartialOrd, Ord, Hash)]
pub struct Time(u32);

impl Time {
    /// The time that a number of a field such as `start_time` stands for.
    #[must_use]
    pub fn new(seconds: u32) -> Time {
        Time(seconds)
    }

    /// The time of a date in seconds since 1970-01-01T00:00:00 UTC; none of those that no file can have, before 3 July 1998 and after 2126.
    ///
    /// ```
    /// assert_eq!(gazhdor::Time::from_unix(1_631_065_634), Some(gazhdor::Time::new(1_000_000_034)));
    /// ```
    #[must_use]
    pub fn from_unix(seconds: u64) -> Option<Time> {
        let seconds = u32::try_from(seconds.checked_sub(EPOCH)?).ok()?;
        Some(Time(seconds)).filter(|time| !time.is_system() && seconds != NO_TIME)
    }

    /// Seconds since 1989-12-31T00:00:00 UTC; of a system time, since the device was switched on.
    #[must_use]
    pub fn seconds(self) -> u32 {
        self.0
    }

    /// Whether it counts from when the device was switched on, and so has no date: below 268,435,456 seconds.
    #[must_use]
    pub fn is_system(self) -> bool {
        self.0 < FIRST_DATE
    }

    /// Seconds since 1970-01-01T00:00:00 UTC, without leap seconds; none of a system time.
    #[must_use]
    pub fn unix(self) -> Option<u64> {
        (!self.is_system()).then(|| u64::from(self.0) + EPOCH)
    }
}

/// The time of a time offset after a message of a time: the least one from that on with these low five bits.
pub(crate) fn time_after(before: u32, offset: u8) -> u32 {
    before.wrapping_add(u32::from(offset).wrapping_sub(before) & 31)
}

impl Display for Time {
    fn fmt(&self, f: &mut Formatter<'_>) -> fmt::Result {
        let seconds = match self.unix() {
            Some(seconds) => seconds,
            None => return write!(f, "system+{}", self.0),
        };
        let (year, month, day) = date(seconds / 86400);
        let (hour, minute, second) = (seconds / 3600 % 24, seconds / 60 % 60, seconds % 60);
        write!(f, "{year}-{month:02}-{day:02}T{hour:02}:{minute:02}:{second:02}Z")
    }
}

/// Year, month and day of a day that is counted from 1970-01-01. Years begin in March here, so that a leap day is the last of its year.
fn date(day: u64) -> (u64, u64, u64) {
    let day = day + 719_468; // since 0000-03-01
    let (era, day) = (day / 146_097, day % 146_097);
    let year = (day - day / 1460 + day / 36524 - day / 146_096) / 365;
    let day = day - (365 * year + year / 4 - year / 100);
    let month = (5 * day + 2) / 153;
    let day = day - (153 * month + 2) / 5 + 1;
    let next = u64::from(month >= 10);
    (400 * era + year + next, month + 3 - 12 * next, day)
}

#[cfg(test)]
mod tests {
    use super::*;

    #[test]
    fn texts() {
        let texts = [
            (0, "system+0"),
            (268_435_455, "system+268435455"),
            (268_435_456, "1998-07-03T21:24:16Z"),
            (320_803_199, "2000-02-29T23:59:59Z"),
            (320_803_200, "2000-03-01T00:00:00Z"),
            (1_104_623_999, "2024-12-31T23:59:59Z"),
            (1_104_624_000, "2025-01-01T00:00:00Z"),
            (3_476_476_800, "2100-03-01T00:00:00Z"),
            (u32::MAX, "2126-02-06T06:28:15Z"),
        ];
        for (seconds, text) in texts {
            assert_eq!(Time::new(seconds).to_string(), text);
        }
    }

    /// Each day is the one after that before it.
    #[test]
    fn days() {
        let mut last = (1970, 1, 1);
        assert_eq!(date(0), last);
        for day in 1..100_000 {
            let (year, month, of_month) = last;
            let leap = year % 4 == 0 && (year % 100 != 0 || year % 400 == 0);
            let length = [31, 28 + u64::from(leap), 31, 30, 31, 30, 31, 31, 30, 31, 30, 31][month as usize - 1];
            last = match (of_month < length, month < 12) {
                (true, _) => (year, month, of_month + 1),
                (false, true) => (year, month + 1, 1),
                (false, false) => (year + 1, 1, 1),
            };
            assert_eq!(date(day), last);
        }
    }
}
