// Fractions from 0 upward: a whole number of any length over one above 0. They
// are never reduced, since the exact rise has some 100 limbs without it, and
// are compared by multiplying across.

use crate::big::Big;
use std::cmp::Ordering;

#[derive(Clone, Debug)]
pub struct Fraction {
    numerator: Big,
    denominator: Big,
}

impl Ord for Fraction {
    fn cmp(&self, other: &Fraction) -> Ordering {
        let left = self.numerator.times(&other.denominator);
        left.cmp(&other.numerator.times(&self.denominator))
    }
}

impl PartialOrd for Fraction {
    fn partial_cmp(&self, other: &Fraction) -> Option<Ordering> {
        Some(self.cmp(other))
    }
}

impl PartialEq for Fraction {
    fn eq(&self, other: &Fraction) -> bool {
        self.cmp(other) == Ordering::Equal
    }
}

impl Eq for Fraction {}

impl Fraction {
    /// `denominator` is above 0.
    pub fn new(numerator: u128, denominator: u128) -> Fraction {
        assert!(denominator > 0, "a fraction over 0");
        Fraction { numerator: numerator.into(), denominator: denominator.into() }
    }

    pub fn whole(number: u128) -> Fraction {
        Fraction::new(number, 1)
    }

    pub fn is_zero(&self) -> bool {
        self.numerator.is_zero()
    }

    pub fn plus(&self, other: &Fraction) -> Fraction {
        let left = self.numerator.times(&other.denominator);
        let right = other.numerator.times(&self.denominator);
        Fraction {
            numerator: left.plus(&right),
            denominator: self.denominator.times(&other.denominator),
        }
    }

    /// The difference, or nothing where it would be below 0.
    pub fn minus(&self, other: &Fraction) -> Option<Fraction> {
        let left = self.numerator.times(&other.denominator);
        let right = other.numerator.times(&self.denominator);
        let denominator = self.denominator.times(&other.denominator);
        left.minus(&right).map(|numerator| Fraction { numerator, denominator })
    }

    pub fn times(&self, other: &Fraction) -> Fraction {
        Fraction {
            numerator: self.numerator.times(&other.numerator),
            denominator: self.denominator.times(&other.denominator),
        }
    }

    /// The quotient by a fraction above 0.
    pub fn over(&self, other: &Fraction) -> Fraction {
        assert!(!other.is_zero(), "a quotient by 0");
        Fraction {
            numerator: self.numerator.times(&other.denominator),
            denominator: self.denominator.times(&other.numerator),
        }
    }

    pub fn squared(&self) -> Fraction {
        self.times(self)
    }

    /// For reports only: the nearest float but for a few units of its last place.
    pub fn to_f64(&self) -> f64 {
        let (above, above_exponent) = self.numerator.float_and_exponent();
        let (below, below_exponent) = self.denominator.float_and_exponent();
        above / below * 2f64.powi(above_exponent - below_exponent)
    }
}

#[cfg(test)]
mod tests {
    use super::*;

    #[test]
    fn small_fractions_go_as_by_hand() {
        let (half, third) = (Fraction::new(1, 2), Fraction::new(1, 3));
        assert_eq!(half.plus(&third), Fraction::new(5, 6));
        assert_eq!(half.minus(&third), Some(Fraction::new(1, 6)));
        assert_eq!(half.minus(&half), Some(Fraction::whole(0)));
        assert_eq!(third.minus(&half), None);
        assert_eq!(half.times(&third), Fraction::new(2, 12));
        assert_eq!(half.over(&third), Fraction::new(3, 2));
        assert_eq!(third.squared(), Fraction::new(1, 9));
        assert!(third < half && half <= Fraction::new(7, 14) && half != third);
        assert!(Fraction::new(0, 9).is_zero() && !third.is_zero());
    }

    #[test]
    fn the_least_difference_is_seen() {
        let large = u128::MAX;
        let under = Fraction::new(large - 2, large - 1);
        let over = Fraction::new(large - 1, large);
        assert!(under < over);
        let product = Fraction::whole(large).times(&Fraction::whole(large - 1));
        assert_eq!(over.minus(&under), Some(Fraction::whole(1).over(&product)));
    }

    #[test]
    fn floats_are_near_however_long_the_fraction_is() {
        let mut fraction = Fraction::new(2, 3);
        let same = Fraction::new(u128::MAX, u128::MAX);
        for _ in 0..20 {
            assert!((fraction.to_f64() * 1.5 - 1.0).abs() < 1e-15);
            fraction = fraction.times(&same);
        }
        assert_eq!(Fraction::whole(0).to_f64(), 0.0);
    }
}
