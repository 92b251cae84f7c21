// Whole numbers from 0 upward of any length, in limbs of 64 bits, the lowest
// first. The last limb is never 0, so 0 has no limbs and equal numbers have
// equal limbs.

use std::cmp::Ordering;

#[derive(Clone, Debug, PartialEq, Eq)]
pub struct Big {
    limbs: Vec<u64>,
}

impl From<u128> for Big {
    fn from(number: u128) -> Big {
        Big::trimmed(vec![number as u64, (number >> 64) as u64])
    }
}

impl Ord for Big {
    fn cmp(&self, other: &Big) -> Ordering {
        let lengths = self.limbs.len().cmp(&other.limbs.len());
        lengths.then_with(|| self.limbs.iter().rev().cmp(other.limbs.iter().rev()))
    }
}

impl PartialOrd for Big {
    fn partial_cmp(&self, other: &Big) -> Option<Ordering> {
        Some(self.cmp(other))
    }
}

impl Big {
    fn trimmed(mut limbs: Vec<u64>) -> Big {
        while limbs.last() == Some(&0) {
            limbs.pop();
        }
        Big { limbs }
    }

    /// The limb of an index, which is 0 past the last one.
    fn limb(&self, index: usize) -> u64 {
        self.limbs.get(index).copied().unwrap_or(0)
    }

    pub fn is_zero(&self) -> bool {
        self.limbs.is_empty()
    }

    pub fn plus(&self, other: &Big) -> Big {
        let length = self.limbs.len().max(other.limbs.len());
        let mut limbs = Vec::with_capacity(length + 1);
        let mut carry = 0;
        for index in 0..length {
            let sum = u128::from(self.limb(index)) + u128::from(other.limb(index)) + carry;
            limbs.push(sum as u64);
            carry = sum >> 64;
        }
        limbs.push(carry as u64);
        Big::trimmed(limbs)
    }

    /// The difference, or nothing where it would be below 0.
    pub fn minus(&self, other: &Big) -> Option<Big> {
        if self < other {
            return None;
        }
        let mut limbs = Vec::with_capacity(self.limbs.len());
        let mut borrow = false;
        for (index, limb) in self.limbs.iter().enumerate() {
            let (difference, under) = limb.overflowing_sub(other.limb(index));
            let (difference, under_again) = difference.overflowing_sub(u64::from(borrow));
            limbs.push(difference);
            borrow = under || under_again;
        }
        Some(Big::trimmed(limbs))
    }

    pub fn times(&self, other: &Big) -> Big {
        let mut limbs = vec![0; self.limbs.len() + other.limbs.len()];
        for (first, &a) in self.limbs.iter().enumerate() {
            let mut carry = 0;
            for (second, &b) in other.limbs.iter().enumerate() {
                // (2^64 - 1)^2 and twice 2^64 - 1 make just the largest u128.
                let place = &mut limbs[first + second];
                let sum = u128::from(a) * u128::from(b) + u128::from(*place) + carry;
                *place = sum as u64;
                carry = sum >> 64;
            }
            limbs[first + other.limbs.len()] = carry as u64;
        }
        Big::trimmed(limbs)
    }

    /// A float and a power of two whose product is this number to a float's
    /// precision. The number itself may be too large for a float.
    pub fn float_and_exponent(&self) -> (f64, i32) {
        let below = self.limbs.len().saturating_sub(2);
        let leading = u128::from(self.limb(below)) + (u128::from(self.limb(below + 1)) << 64);
        (leading as f64, 64 * below as i32)
    }
}

#[cfg(test)]
mod tests {
    use super::*;
    use crate::dice::Dice;

    const PRIME: u128 = (1 << 61) - 1;

    fn wide(dice: &mut Dice) -> u128 {
        let number = (0..4).fold(0, |number, _| number << 32 | u128::from(dice.roll()));
        // Short numbers and numbers of ones bring about carries over limbs.
        match dice.roll() % 4 {
            0 => u128::MAX >> (dice.roll() % 128),
            _ => number >> (dice.roll() % 128),
        }
    }

    /// The remainder by a prime: sums and products must go along with it.
    fn remainder(number: &Big) -> u128 {
        let limbs = number.limbs.iter().rev();
        limbs.fold(0, |rest, &limb| ((rest << 64) % PRIME + u128::from(limb)) % PRIME)
    }

    fn long(dice: &mut Dice) -> Big {
        let length = dice.roll() % 12;
        let factors = (0..length).map(|_| Big::from(wide(dice)));
        factors.fold(Big::from(1), |product, factor| product.times(&factor).plus(&factor))
    }

    #[test]
    fn short_numbers_go_like_u128() {
        let mut dice = Dice(128);
        for _ in 0..20_000 {
            let (a, b) = (wide(&mut dice), wide(&mut dice));
            let (big_a, big_b) = (Big::from(a), Big::from(b));
            assert_eq!(big_a.cmp(&big_b), a.cmp(&b));
            assert_eq!(big_a.minus(&big_b), a.checked_sub(b).map(Big::from));
            assert_eq!(big_a.is_zero(), a == 0);
            assert_eq!(big_a.float_and_exponent(), (a as f64, 0));
            let (half_a, half_b) = (a >> 1, b >> 1);
            assert_eq!(Big::from(half_a).plus(&Big::from(half_b)), Big::from(half_a + half_b));
            let (low_a, low_b) = (a >> 64, b >> 64);
            assert_eq!(Big::from(low_a).times(&Big::from(low_b)), Big::from(low_a * low_b));
        }
    }

    #[test]
    fn long_numbers_keep_the_laws() {
        let mut dice = Dice(1024);
        for _ in 0..5000 {
            let (a, b, c) = (long(&mut dice), long(&mut dice), long(&mut dice));
            let sum = a.plus(&b);
            assert_eq!(remainder(&sum), (remainder(&a) + remainder(&b)) % PRIME);
            assert_eq!(remainder(&a.times(&b)), remainder(&a) * remainder(&b) % PRIME);
            assert_eq!(sum.minus(&b).as_ref(), Some(&a));
            assert_eq!(sum.times(&c), a.times(&c).plus(&b.times(&c)));
            assert!(sum >= a && a.minus(&sum).is_none() == (sum > a));
        }
    }

    #[test]
    fn a_carry_runs_through_all_limbs() {
        let ones = Big { limbs: vec![u64::MAX; 5] };
        let power = Big { limbs: vec![0, 0, 0, 0, 0, 1] };
        assert_eq!(ones.plus(&Big::from(1)), power);
        assert_eq!(power.minus(&Big::from(1)), Some(ones.clone()));
        assert_eq!(power.minus(&power), Some(Big::from(0)));
        // (2^320 - 1)^2 = 2^640 - 2^321 + 1.
        let mut limbs = vec![u64::MAX; 10];
        limbs[..6].copy_from_slice(&[1, 0, 0, 0, 0, u64::MAX - 1]);
        assert_eq!(ones.times(&ones), Big { limbs });
        assert_eq!(power.float_and_exponent(), (2f64.powi(64), 256));
    }
}
