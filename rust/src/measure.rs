//! The whole number that a field has for a value.

/// How the whole numbers of a field stand for values: `n` for `n / scale - offset`.
#[derive(Debug, Clone, Copy)]
pub(crate) struct Measure {
    pub(crate) scale: f64,
    pub(crate) offset: f64,
}

impl Measure {
    /// Whether a whole number stands for itself.
    pub(crate) fn is_plain(self) -> bool {
        self.scale == 1.0 && self.offset == 0.0
    }

    /// The value of a whole number, as `Field::value` gives it.
    pub(crate) fn value(self, number: f64) -> f64 {
        (number - self.offset * self.scale) / self.scale
    }

    /// The whole number that is nearest to a value, and of two the one that is farther from 0. None where it has more than 65 bits, or the
    /// value is no number.
    pub(crate) fn nearest(self, value: f64) -> Option<i128> {
        match (whole(self.scale), whole(self.offset)) {
            (Some(0), _) => None,
            (Some(scale), Some(offset)) => rounded(value, scale, offset),
            _ => self.closest(value),
        }
    }

    /// The same of a whole number in the unit of the field.
    pub(crate) fn nearest_to_whole(self, value: i128) -> Option<i128> {
        match (whole(self.scale), whole(self.offset)) {
            (Some(0), _) => None,
            (Some(scale), Some(offset)) => Some((value + offset) * scale),
            _ => self.closest(value as f64),
        }
    }

    /// By a scale that isn't whole: the number whose value is closest.
    fn closest(self, value: f64) -> Option<i128> {
        let guess = ((value + self.offset) * self.scale).round();
        if !is_small(guess) {
            return None;
        }
        let distance = |number: &f64| (self.value(*number) - value).abs();
        let around = [guess, guess - guess.signum(), guess + guess.signum()];
        let found = around.into_iter().min_by(|one, other| distance(one).total_cmp(&distance(other)))?;
        Some(found as i128)
    }
}

/// 2^65, above all numbers of 64 bits.
const LIMIT: f64 = 36_893_488_147_419_103_232.0;

/// Whether it is a number, and small enough.
fn is_small(number: f64) -> bool {
    number.abs() < LIMIT
}

/// A number as a whole one of at most 33 bits, where it is.
fn whole(number: f64) -> Option<i128> {
    Some(number as i128).filter(|_| number.fract() == 0.0 && number.abs() <= 4_294_967_296.0)
}

/// The whole number that is nearest to `(value + offset) * scale`, which is worked out exactly.
fn rounded(value: f64, scale: i128, offset: i128) -> Option<i128> {
    if !is_small(value) {
        return None;
    }
    let (mantissa, exponent) = parts(value);
    if exponent >= 0 {
        return Some(((mantissa << exponent) + offset) * scale);
    }
    // The product has at most 86 bits, so less than a half of it is left where it is shifted by 88 and more.
    let (product, shift) = (mantissa * scale, -exponent);
    if shift >= 88 {
        return Some(offset * scale);
    }
    let (floor, half) = (product >> shift, 1_i128 << (shift - 1));
    let (rest, below) = (product - (floor << shift), offset * scale + floor);
    let is_above = rest > half || (rest == half && below >= 0);
    Some(below + i128::from(is_above))
}

/// A finite number as `mantissa * 2^exponent`.
fn parts(value: f64) -> (i128, i32) {
    let bits = value.to_bits();
    let (fraction, power) = ((bits & ((1 << 52) - 1)) as i128, (bits >> 52 & 0x7FF) as i32);
    let (mantissa, exponent) = if power == 0 { (fraction, -1074) } else { (fraction + (1 << 52), power - 1075) };
    (if value < 0.0 { -mantissa } else { mantissa }, exponent)
}

#[cfg(test)]
mod tests {
    use super::*;

    fn measure(scale: f64, offset: f64) -> Measure {
        Measure { scale, offset }
    }

    #[test]
    fn to_the_nearest_step() {
        let cases = [
            (5.0, 500.0, 408.0, Some(4540)),
            (5.0, 500.0, -500.0, Some(0)),
            (5.0, 500.0, -500.2, Some(-1)),
            (1.0, 0.0, 120.5, Some(121)),
            (1.0, 0.0, -120.5, Some(-121)),
            (1.0, 0.0, 0.5, Some(1)),
            (1.0, 0.0, -0.5, Some(-1)),
            (1.0, 0.0, 0.499_999_999_999_999_94, Some(0)),
            (1.0, 0.0, -0.499_999_999_999_999_94, Some(0)),
            (1.0, 0.0, 4_503_599_627_370_497.5, Some(4_503_599_627_370_498)),
            (2.0, 0.0, 0.25, Some(1)),
            (2.0, 0.0, -0.25, Some(-1)),
            (1000.0, 0.0, 5e-324, Some(0)),
            (1000.0, 7.0, -5e-324, Some(7000)),
            (-2.0, 0.0, 1.25, Some(-3)),
            (1.0, 1.0, -0.5, Some(1)),
            (1.0, 1.0, -1.5, Some(-1)),
            (1.0, 0.0, 18_446_744_073_709_551_616.0, Some(1 << 64)),
            (4_294_967_296.0, 4_294_967_296.0, 3e19, Some((30_000_000_000_000_000_000 + (1 << 32)) << 32)),
            (1.0, 0.0, 4e19, None),
            (1.0, 0.0, f64::NAN, None),
            (1.0, 0.0, f64::INFINITY, None),
            (1.0, 0.0, f64::NEG_INFINITY, None),
            (0.0, 0.0, 1.0, None),
            (0.5, 0.0, 3.0, Some(2)),
            (0.5, 0.0, f64::NAN, None),
            (f64::NAN, 0.0, 1.0, None),
        ];
        for (scale, offset, value, wanted) in cases {
            assert_eq!(measure(scale, offset).nearest(value), wanted, "{value} by {scale} and {offset}");
        }
        assert_eq!(measure(5.0, 500.0).nearest_to_whole(408), Some(4540));
        assert_eq!(measure(0.0, 0.0).nearest_to_whole(408), None);
        assert_eq!(measure(1.0, 0.0).nearest_to_whole(u64::MAX.into()), Some(u64::MAX.into()));
    }

    /// Sums by whole numbers of a hundredth: `k / 100` is no exact number, and is nearest to that hundredth all the same.
    #[test]
    fn what_is_read_comes_back() {
        for (scale, offset) in
            [(1.0, 0.0), (5.0, 500.0), (100.0, 0.0), (1000.0, 0.0), (128.0, 0.0), (0.7111111, 0.0), (1.5, 2.5)]
        {
            let of = measure(scale, offset);
            let mut number: u64 = 0;
            for turn in 0..200_000_u64 {
                assert_eq!(
                    of.nearest(of.value(number as f64)),
                    Some(number.into()),
                    "{number} by {scale} and {offset}"
                );
                // The first 65,536 one by one, and then some of 32 bits.
                number = if turn < 65_536 {
                    turn
                } else {
                    number.wrapping_mul(6_364_136_223_846_793_005).wrapping_add(1) >> 16 & 0xFFFF_FFFF
                };
            }
            assert_eq!(of.nearest(of.value(4_294_967_295.0)), Some(4_294_967_295));
            assert_eq!(of.nearest(of.value(-2_147_483_648.0)), Some(-2_147_483_648));
        }
    }
}
