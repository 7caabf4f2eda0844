//! E, S and C of document 01, which stand for `exp`, `sin` and `cos`. Each has a value at every double.

use std::f64::consts::PI;

pub trait StandIn {
    fn stand_in_exp(self) -> f64;
    fn stand_in_sin(self) -> f64;
    fn stand_in_cos(self) -> f64;
}

impl StandIn for f64 {
    /// E: 0 below -700; else 18 terms at t/1,024, and ten squarings.
    #[inline]
    fn stand_in_exp(self) -> f64 {
        if self < -700.0 {
            return 0.0;
        }
        let y = self / 1024.0;
        let mut p = 1.0;
        for k in (1..19).rev() {
            p = 1.0 + (y * p) / f64::from(k);
        }
        for _ in 0..10 {
            p *= p;
        }
        p
    }

    /// S: whole turns taken off, then 13 terms. The whole part is cut towards zero, also of a negative quotient.
    #[inline]
    fn stand_in_sin(self) -> f64 {
        let w = 2.0 * PI;
        let n = (self / w).trunc();
        let mut r = self - n * w;
        if r > PI {
            r -= w;
        }
        let mut q = 1.0;
        for k in (1..14).rev() {
            q = 1.0 - ((r * r) * q) / f64::from(2 * k * (2 * k + 1));
        }
        (r * q).clamp(-1.0, 1.0)
    }

    /// C: 13 terms at t as it is.
    #[inline]
    fn stand_in_cos(self) -> f64 {
        let mut q = 1.0;
        for k in (1..14).rev() {
            q = 1.0 - ((self * self) * q) / f64::from((2 * k - 1) * (2 * k));
        }
        q.clamp(-1.0, 1.0)
    }
}

#[cfg(test)]
mod tests {
    use super::*;

    #[test]
    fn worked_examples() {
        assert_eq!(0.0.stand_in_exp(), 1.0);
        assert_eq!((-701.0).stand_in_exp(), 0.0);
        assert_eq!(0.0.stand_in_sin(), 0.0);
        assert_eq!(0.0.stand_in_cos(), 1.0);
    }

    #[test]
    fn near_what_they_stand_for() {
        for k in 0..=1000 {
            let part = f64::from(k) / 1000.0;
            let (t, turn, half) = (-700.0 * part, 100.0 * part, PI * part);
            assert!((t.stand_in_exp() - t.exp()).abs() <= 1e-12 * t.exp());
            assert!((turn.stand_in_sin() - turn.sin()).abs() <= 1e-12);
            assert!((half.stand_in_cos() - half.cos()).abs() <= 1e-12);
        }
    }

    #[test]
    fn total() {
        for x in [f64::INFINITY, f64::NEG_INFINITY, f64::NAN] {
            assert!(x.stand_in_sin().is_nan());
        }
        assert_eq!(f64::NEG_INFINITY.stand_in_exp(), 0.0);
        assert!(f64::NAN.stand_in_exp().is_nan());
        assert!(f64::NAN.stand_in_cos().is_nan());
    }
}
