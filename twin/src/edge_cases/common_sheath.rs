// A common sheath where its loss changes from one formula to the other, at an Rs
// of 10^12: at it, and as near to it as resistance and temperature allow. Then one
// for each formula whose loss shows how each step is rounded.

use super::{Edge, Group};
use crate::rating::Words;
use crate::sample_cables::{with, COMMON_SHEATH};

/// A sheath's metal, resistance and temperature, and how far they bring Rs from
/// the last that takes the first formula: above, or below where it is negative.
pub struct Nearest {
    pub metal: u32,
    pub resistance: u32,
    pub theta: i32,
    pub distance: i64,
}

const fn nearest(metal: u32, resistance: u32, theta: i32, distance: i64) -> Nearest {
    Nearest { metal, resistance, theta, distance }
}

/// Of each metal the nearest Rs below, one at it, and the nearest above. A test
/// sees that nothing is nearer.
pub const NEAREST: [Nearest; 18] = [
    nearest(1, 100_004, 1999, -1600),
    nearest(1, 80_000, 8250, 0),
    nearest(1, 126_807, -3285, 2000),
    nearest(2, 71_638, 11824, -64),
    nearest(2, 100_000, 2000, 0),
    nearest(2, 128_797, -3548, 332),
    nearest(3, 102_238, 1443, -438),
    nearest(3, 100_000, 2000, 0),
    nearest(3, 84_625, 6623, 375),
    nearest(4, 81_819, 9407, -100),
    nearest(4, 64_000, 20750, 0),
    nearest(4, 105_158, 365, 1000),
    nearest(5, 99_999, 8000, -10_000_000),
    nearest(5, 100_000, 8000, 0),
    nearest(5, 100_001, 8000, 10_000_000),
    nearest(6, 81_819, 6938, -100),
    nearest(6, 64_000, 14500, 0),
    nearest(6, 52_739, 21914, 700),
];

/// The cable with such a sheath, and a conductor that is as hot as any.
pub fn with_sheath(near: &Nearest) -> Words {
    let sheath = [(14, near.metal), (15, near.resistance), (16, near.theta as u32)];
    with(&with(&COMMON_SHEATH, &sheath), &[(3, 25000)])
}

pub fn formulas() -> Group {
    let cases = NEAREST.iter().map(with_sheath);
    Group {
        remark: "Rs of a common sheath at 10^12 and the nearest below and above, of each metal.",
        edges: cases.map(|case| Edge { case, answer: 0 }).collect(),
    }
}

/// Cables with the axes nearly at the sheath, of which S is another number if any
/// of its steps is rounded the other way, one for each formula.
pub const ROUNDINGS: [Words; 2] = [stainless(20007), stainless(100_001)];

const fn stainless(resistance: u32) -> Words {
    let mut case = COMMON_SHEATH;
    case[2] = 6500;
    case[14] = 5;
    case[15] = resistance;
    case[20] = 3688;
    case
}

pub fn roundings() -> Group {
    Group {
        remark: "S of a common sheath by either formula, where each rounding shows.",
        edges: ROUNDINGS.map(|case| Edge { case, answer: 0 }).into(),
    }
}
