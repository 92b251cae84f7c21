// How far a rated case is from the two bounds on its rating, by exact
// fractions: at I the exact rise is at most the permitted one, at I + 2 it is
// above, for every combination of the ends of pi, ln 2 and the logarithms.

use crate::ends::{Chosen, Ends};
use crate::exact_rise::{permitted_rise, Heating};
use crate::fraction::Fraction;
use crate::rating::{Rated, Words};

/// Where the sheet keeps dd and E.
const DD: usize = 11;
const E: usize = 12;

/// 1 K in the units of dd.
const KELVIN: u128 = 1_000_000_000;

/// The least margins and the largest errors over some combinations of ends.
#[derive(Clone, Copy, Debug)]
pub struct Margins {
    pub combinations: u64,
    /// Under the line at I, as a part of the permitted rise.
    pub under: f64,
    /// Above the line at I + 2, as a part of the permitted rise.
    pub above: f64,
    /// The error of the rounded E as a part of the exact one.
    pub e_error: f64,
    /// The error of the rounded dd as a part of the exact one, where that is
    /// at least 1 K: a dd of a few units is rounded up by a large part of it.
    pub dd_error: f64,
    /// The error of any dd as a part of the rise that is left for the current.
    pub dd_error_of_rise_left: f64,
}

impl Margins {
    /// Those of no combination at all.
    pub fn none() -> Margins {
        Margins {
            combinations: 0,
            under: f64::INFINITY,
            above: f64::INFINITY,
            e_error: 0.0,
            dd_error: 0.0,
            dd_error_of_rise_left: 0.0,
        }
    }

    /// Those of the combinations of both.
    pub fn join(&self, other: &Margins) -> Margins {
        Margins {
            combinations: self.combinations + other.combinations,
            under: self.under.min(other.under),
            above: self.above.min(other.above),
            e_error: self.e_error.max(other.e_error),
            dd_error: self.dd_error.max(other.dd_error),
            dd_error_of_rise_left: self.dd_error_of_rise_left.max(other.dd_error_of_rise_left),
        }
    }
}

/// How far a rise is strictly above the permitted one, or nothing.
fn excess(rise: &Fraction, permitted: &Fraction) -> Option<Fraction> {
    rise.minus(permitted).filter(|excess| !excess.is_zero())
}

/// The margins for one choice of fractions, or nothing where a bound is broken
/// or the rounded E or dd is below the exact one.
pub fn margins_at(case: &Words, rated: &Rated, chosen: &Chosen) -> Option<Margins> {
    let exact = Heating::of(case, chosen);
    let permitted = permitted_rise(case);
    let current = u128::from(rated.rating);
    let under = permitted.minus(&exact.rise(current))?;
    let above = excess(&exact.rise(current + 2), &permitted)?;
    let e_error = Fraction::whole(rated.sheet[E].into()).minus(&exact.e)?;
    let dd_error = Fraction::whole(rated.sheet[DD].into()).minus(&exact.dd)?;
    let left = permitted.minus(&exact.d0)?;
    let dd_counts = exact.dd >= Fraction::whole(KELVIN);
    Some(Margins {
        combinations: 1,
        under: under.over(&permitted).to_f64(),
        above: above.over(&permitted).to_f64(),
        e_error: e_error.over(&exact.e).to_f64(),
        dd_error: if dd_counts { dd_error.over(&exact.dd).to_f64() } else { 0.0 },
        dd_error_of_rise_left: dd_error.over(&left).to_f64(),
    })
}

/// The margins over every combination of ends, or nothing where one is broken.
pub fn margins(case: &Words, rated: &Rated) -> Option<Margins> {
    let mut all = Margins::none();
    for chosen in Ends::of(case).combinations() {
        all = all.join(&margins_at(case, rated, &chosen)?);
    }
    Some(all)
}

/// How far a current in mA lies under the exact limit, in mA, for one choice
/// of fractions. The difference of the squares is taken before any float, so
/// that no digit of the distance is lost.
fn distance_at(case: &Words, current: u32, chosen: &Chosen) -> Option<f64> {
    let limit_squared = Heating::of(case, chosen).limit_squared(&permitted_rise(case))?;
    let difference = limit_squared.minus(&Fraction::whole(current.into()).squared())?;
    Some(difference.to_f64() / (limit_squared.to_f64().sqrt() + f64::from(current)))
}

/// The least distance over every combination of ends, or nothing where the
/// current is over the limit.
pub fn distance_under_line(case: &Words, current: u32) -> Option<f64> {
    let mut least = f64::INFINITY;
    for chosen in Ends::of(case).combinations() {
        least = least.min(distance_at(case, current, &chosen)?);
    }
    Some(least)
}

#[cfg(test)]
mod tests {
    use super::*;

    #[test]
    fn a_rise_at_the_line_is_not_above_it() {
        let line = Fraction::whole(7);
        assert_eq!(excess(&Fraction::new(21, 3), &line), None);
        assert_eq!(excess(&Fraction::new(20, 3), &line), None);
        assert_eq!(excess(&Fraction::new(22, 3), &line), Some(Fraction::new(1, 3)));
    }
}
