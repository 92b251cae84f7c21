// The stated ends of pi, ln 2 and the two logarithms of a case, and fractions
// taken at the ends or between them to stand for these four numbers.

use crate::fraction::Fraction;
use crate::rating::{circulating, direct, Words};
use crate::stages::{log_high, log_low, LN_2_HIGH, LN_2_LOW, PI_HIGH, PI_LOW, PI_UNIT, T};

/// Fractions that stand for pi, ln 2, the logarithm of 2s/d and that of Di/ds,
/// as far as each enters the formulas of the case's arrangement: of direct current none
/// does.
#[derive(Debug, PartialEq)]
pub struct Chosen {
    pub pi: Option<Fraction>,
    pub ln_2: Option<Fraction>,
    pub spacing_log: Option<Fraction>,
    pub insulation_log: Option<Fraction>,
}

/// The lower and the upper end of one number, as parts of a unit.
struct Pair {
    low: u128,
    high: u128,
    unit: u128,
}

impl Pair {
    /// `steps` of `parts` of the way from the lower end to the upper one.
    fn at(&self, steps: u128, parts: u128) -> Fraction {
        Fraction::new(self.low * parts + (self.high - self.low) * steps, self.unit * parts)
    }
}

/// The ends of the numbers of `Chosen`.
pub struct Ends {
    pi: Option<Pair>,
    ln_2: Option<Pair>,
    spacing_log: Option<Pair>,
    insulation_log: Option<Pair>,
}

impl Ends {
    /// The ends for a rated case.
    pub fn of(case: &Words) -> Ends {
        let field = |index: usize| u128::from(case[index]);
        let (twice_s, ds, di, d) = (2 * field(7), field(8), field(9), field(13));
        let log = |a, b| Pair { low: log_low(a, b), high: log_high(a, b), unit: T };
        let alternates = !direct(case);
        Ends {
            pi: alternates.then_some(Pair { low: PI_LOW, high: PI_HIGH, unit: PI_UNIT }),
            ln_2: (case[0] == 2).then_some(Pair { low: LN_2_LOW, high: LN_2_HIGH, unit: T }),
            // Under a common sheath 2s may be below d, where no end is stated.
            spacing_log: circulating(case).then(|| log(twice_s, d)),
            insulation_log: alternates.then(|| log(di, ds)),
        }
    }

    /// The fractions that lie `steps` of `parts` of the way from each lower
    /// end to its upper one, in the order of `Chosen`.
    pub fn between(&self, steps: [u128; 4], parts: u128) -> Chosen {
        let [pi, ln_2, spacing_log, insulation_log] = self.in_order();
        let at = |pair: &Option<Pair>, steps| pair.as_ref().map(|pair| pair.at(steps, parts));
        Chosen {
            pi: at(pi, steps[0]),
            ln_2: at(ln_2, steps[1]),
            spacing_log: at(spacing_log, steps[2]),
            insulation_log: at(insulation_log, steps[3]),
        }
    }

    fn in_order(&self) -> [&Option<Pair>; 4] {
        [&self.pi, &self.ln_2, &self.spacing_log, &self.insulation_log]
    }

    /// Every combination of the ends of those numbers that enter.
    pub fn combinations(&self) -> Vec<Chosen> {
        let enters = self.in_order().map(|pair| pair.is_some());
        let mut steps = vec![[0; 4]];
        for index in (0..4).filter(|&index| enters[index]) {
            for lower in steps.clone() {
                let mut upper = lower;
                upper[index] = 1;
                steps.push(upper);
            }
        }
        steps.into_iter().map(|steps| self.between(steps, 1)).collect()
    }
}
