//! A double as an R line of the program `sweep` has it: its exact value rounded to six places, half to even. It is worked out in whole
//! numbers of any length, so that nothing is rounded before.

use std::cmp::Ordering;

/// The width of a column. A number leaves its first place free.
pub const COLUMNS: usize = 21;
const PLACES: usize = 6;
/// 10 to the power of the places.
const SCALE: u32 = 1_000_000;

/// The number at the right end of its column; stars where there is no room for it, and for a NaN or an infinity.
pub fn column(x: f64) -> [u8; COLUMNS] {
    let mut column = [b' '; COLUMNS];
    match text(x) {
        Some(text) if text.len() < COLUMNS => {
            column[COLUMNS - text.len()..].copy_from_slice(&text);
        }
        _ => column.fill(b'*'),
    }
    column
}

/// All digits of a finite double, and a minus sign if what they say is below 0.
fn text(x: f64) -> Option<Vec<u8>> {
    let bits = x.to_bits();
    let fraction = bits & ((1 << 52) - 1);
    // The size is the mantissa times 2 to the power of the exponent.
    let (mantissa, exponent) = match (bits >> 52) as i32 & 2047 {
        2047 => return None,
        0 => (fraction, -1074),
        field => (fraction | 1 << 52, field - 1075),
    };
    let millionths = rounded(Whole::from(mantissa).times(SCALE), exponent);
    let is_zero = millionths.is_zero();
    let mut text = millionths.digits();
    while text.len() <= PLACES {
        text.insert(0, b'0');
    }
    text.insert(text.len() - PLACES, b'.');
    if bits >> 63 == 1 && !is_zero {
        text.insert(0, b'-');
    }
    Some(text)
}

/// The whole number next to n times 2 to the power of the exponent, and the even one of two that are as near.
fn rounded(n: Whole, exponent: i32) -> Whole {
    let places = exponent.unsigned_abs() as usize;
    if exponent >= 0 {
        return n.shifted_left(places);
    }
    let divisor = Whole::from(1).shifted_left(places);
    let quotient = n.shifted_right(places);
    let rest = n.minus(&quotient.shifted_left(places));
    let up = match rest.times(2).order(&divisor) {
        Ordering::Less => false,
        Ordering::Equal => quotient.is_odd(),
        Ordering::Greater => true,
    };
    if up {
        quotient.plus_one()
    } else {
        quotient
    }
}

/// A whole number, its lowest 32 binary digits first; the last are not all 0.
#[derive(Clone, PartialEq, Debug)]
struct Whole(Vec<u32>);

impl From<u64> for Whole {
    fn from(n: u64) -> Whole {
        Whole::of(vec![n as u32, (n >> 32) as u32])
    }
}

impl Whole {
    fn of(mut limbs: Vec<u32>) -> Whole {
        while limbs.last() == Some(&0) {
            limbs.pop();
        }
        Whole(limbs)
    }

    fn is_zero(&self) -> bool {
        self.0.is_empty()
    }

    fn is_odd(&self) -> bool {
        self.0.first().is_some_and(|limb| limb % 2 == 1)
    }

    fn times(&self, factor: u32) -> Whole {
        let mut carry = 0;
        let mut limbs = Vec::new();
        for &limb in &self.0 {
            let sum = u64::from(limb) * u64::from(factor) + carry;
            limbs.push(sum as u32);
            carry = sum >> 32;
        }
        limbs.push(carry as u32);
        Whole::of(limbs)
    }

    fn shifted_left(&self, places: usize) -> Whole {
        let mut limbs = vec![0; places / 32];
        limbs.extend(&self.0);
        Whole::of(limbs).times(1 << (places % 32))
    }

    /// The quotient by 2 to the power of the places.
    fn shifted_right(&self, places: usize) -> Whole {
        let limbs = self.0.get(places / 32..).unwrap_or_default();
        let above = limbs.iter().skip(1).chain([&0]);
        let pairs = limbs.iter().zip(above);
        let shifted = pairs.map(|(&low, &high)| {
            let both = u64::from(high) << 32 | u64::from(low);
            (both >> (places % 32)) as u32
        });
        Whole::of(shifted.collect())
    }

    /// What is left of it without another that is not larger.
    fn minus(&self, other: &Whole) -> Whole {
        let mut borrowed = false;
        let mut limbs = Vec::new();
        for (at, &limb) in self.0.iter().enumerate() {
            let less = other.0.get(at).copied().unwrap_or(0);
            let (left, first) = limb.overflowing_sub(less);
            let (left, second) = left.overflowing_sub(u32::from(borrowed));
            limbs.push(left);
            borrowed = first || second;
        }
        assert!(!borrowed && other.0.len() <= self.0.len());
        Whole::of(limbs)
    }

    fn plus_one(&self) -> Whole {
        let mut limbs = self.0.clone();
        for limb in &mut limbs {
            *limb = limb.wrapping_add(1);
            if *limb != 0 {
                return Whole(limbs);
            }
        }
        limbs.push(1);
        Whole(limbs)
    }

    fn order(&self, other: &Whole) -> Ordering {
        let lengths = self.0.len().cmp(&other.0.len());
        lengths.then_with(|| self.0.iter().rev().cmp(other.0.iter().rev()))
    }

    /// Quotient and rest.
    fn divided(&self, divisor: u32) -> (Whole, u32) {
        let mut limbs = self.0.clone();
        let mut rest = 0;
        for limb in limbs.iter_mut().rev() {
            let both = rest << 32 | u64::from(*limb);
            *limb = (both / u64::from(divisor)) as u32;
            rest = both % u64::from(divisor);
        }
        (Whole::of(limbs), rest as u32)
    }

    /// In decimal, without zeros before them; none of 0.
    fn digits(&self) -> Vec<u8> {
        let mut digits = Vec::new();
        let mut left = self.clone();
        // Nine at a time, the lowest first.
        while !left.is_zero() {
            let (quotient, mut nine) = left.divided(1_000_000_000);
            for _ in 0..9 {
                digits.push(b'0' + (nine % 10) as u8);
                nine /= 10;
            }
            left = quotient;
        }
        while digits.last() == Some(&b'0') {
            digits.pop();
        }
        digits.reverse();
        digits
    }
}

#[cfg(test)]
mod tests {
    use super::*;
    use crate::draw::Random;

    fn printed(x: f64) -> String {
        String::from_utf8(column(x).to_vec()).unwrap()
    }

    fn assert_prints(cases: &[(f64, &str)]) {
        for &(x, text) in cases {
            assert_eq!(printed(x), format!("{text:>21}"), "{x:e}");
        }
    }

    const STARS: &str = "*********************";

    #[test]
    fn exact_values() {
        assert_prints(&[
            (0.0, "0.000000"),
            (1.0, "1.000000"),
            (-1.0, "-1.000000"),
            (0.5, "0.500000"),
            (0.015625, "0.015625"),
            (0.1, "0.100000"),
            (0.999999, "0.999999"),
            (-12.75, "-12.750000"),
            (123456789.123456, "123456789.123456"),
            (4294967296.0, "4294967296.000000"),
            (0.9999994, "0.999999"),
            (0.9999996, "1.000000"),
            (-0.9999996, "-1.000000"),
            (1e-6, "0.000001"),
            (-1e-6, "-0.000001"),
        ]);
    }

    /// Halves of a millionth that are no doubles: what is nearest to them decides.
    #[test]
    fn beside_a_half() {
        // 4.99999999999999977e-7, 1.50000000000000004e-6 and 2.50000000000000020e-6.
        assert_prints(&[
            (5e-7, "0.000000"),
            (5e-7f64.next_up(), "0.000001"),
            (5e-7f64.next_down(), "0.000000"),
            (-5e-7, "0.000000"),
            (-(5e-7f64.next_up()), "-0.000001"),
            (1.5e-6, "0.000002"),
            (1.5e-6f64.next_down(), "0.000001"),
            (2.5e-6, "0.000003"),
            (2.5e-6f64.next_down(), "0.000002"),
        ]);
    }

    /// Odd numbers of 128ths have seven places, the last a 5.
    #[test]
    fn ties() {
        let part = 1.0 / 128.0;
        assert_prints(&[
            (part, "0.007812"),
            (part.next_up(), "0.007813"),
            (part.next_down(), "0.007812"),
            (3.0 * part, "0.023438"),
            ((3.0 * part).next_down(), "0.023437"),
            (-part, "-0.007812"),
            (-3.0 * part, "-0.023438"),
            (127.0 * part, "0.992188"),
            (123456.0 + 5.0 * part, "123456.039062"),
            (8796093022207.0 + part, "8796093022207.007812"),
        ]);
    }

    #[test]
    fn no_minus_before_zero() {
        let least = f64::from_bits(1);
        for x in [-0.0, -4e-7, -least, -f64::MIN_POSITIVE, least, 4e-7] {
            assert_prints(&[(x, "0.000000")]);
        }
    }

    #[test]
    fn the_last_that_fit() {
        assert_prints(&[
            (9999999999999.998, "9999999999999.998047"),
            (1e13, STARS),
            (1e13f64.next_up(), STARS),
            (-999999999999.9999, "-999999999999.999878"),
            (-1e12, STARS),
            ((-1e12f64).next_down(), STARS),
            (1e12, "1000000000000.000000"),
            (-9999999999999.998, STARS),
        ]);
        assert_eq!(9999999999999.998f64.next_up(), 1e13);
        assert_eq!((-999999999999.9999f64).next_down(), -1e12);
    }

    #[test]
    fn stars() {
        for x in [
            f64::NAN,
            -f64::NAN,
            f64::from_bits(0x7ff0_0000_0000_0001),
            f64::INFINITY,
            f64::NEG_INFINITY,
            f64::MAX,
            f64::MIN,
            1e22,
        ] {
            assert_prints(&[(x, STARS)]);
        }
    }

    /// What Rust's own formatting gives.
    fn formatted(x: f64) -> String {
        let text = format!("{x:.6}");
        match text.strip_prefix('-') {
            Some("0.000000") => "0.000000".to_string(),
            _ => text,
        }
    }

    /// Of every size below 1e12.
    #[test]
    fn as_rust_formats_them() {
        let mut random = Random::new(1);
        for _ in 0..100_000 {
            let x = loop {
                let exponent = 1023 - 40 + random.below(80);
                let signed = random.below(2) << 63 | exponent << 52;
                let x = f64::from_bits(signed | random.bits() >> 12);
                if x.abs() < 1e12 {
                    break x;
                }
            };
            assert_eq!(printed(x), format!("{:>21}", formatted(x)), "{x:e}");
        }
    }

    /// All digits of doubles of every exponent, those without room too.
    #[test]
    fn all_digits() {
        let mut random = Random::new(2);
        for exponent in 0..2047 {
            let x = f64::from_bits(random.below(2) << 63 | exponent << 52 | random.bits() >> 12);
            let text = String::from_utf8(text(x).unwrap()).unwrap();
            assert_eq!(text, formatted(x), "{x:e}");
        }
        assert_eq!(text(f64::MAX).unwrap(), formatted(f64::MAX).as_bytes());
    }
}
