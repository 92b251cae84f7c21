// Refusal 8 on both sides of its limit, as near as frequency, temperature and
// resistance allow. No case has z at the limit itself.

use super::{Edge, Group};
use crate::rating::Words;
use crate::sample_cables::{with, ALL};

/// The fields f, θc and R0, and how far they bring z from the limit, in parts
/// of 10^12: above, or below where it is negative.
pub struct Nearest {
    pub f: u32,
    pub theta_c: u32,
    pub r0: u32,
    pub distance: i64,
}

const fn nearest(f: u32, theta_c: u32, r0: u32, distance: i64) -> Nearest {
    Nearest { f, theta_c, r0, distance }
}

/// Conductor codes whose z is decided by the same k and temperature coefficient,
/// with the nearest z at or below the limit and the nearest above it. In codes 6
/// to 8 kp is above ks and decides; in 2 and 5 they are equal; in the others ks
/// does. A test sees that nothing is nearer.
pub const NEAREST: [(&[u32], [Nearest; 2]); 4] = [
    (&[1, 2], [nearest(6353, 6518, 17295, -5), nearest(5110, 23489, 8881, 37)]),
    (&[3], [nearest(5829, 9936, 6196, -21), nearest(6412, 16995, 5626, 85)]),
    (&[4, 5], [nearest(3923, 8308, 10027, -18), nearest(5764, 22763, 10060, 19)]),
    (&[6, 7, 8], [nearest(6367, 14111, 5075, -132), nearest(5514, 7101, 5425, 92)]),
];

/// A cable with the fields of z, cold and of a high sheath resistance, so that
/// refusals 6 and 9 do not hold, and without a voltage.
pub fn with_skin(cable: &Words, code: u32, near: &Nearest) -> Words {
    let fields = [(1, code), (2, near.f), (3, near.theta_c), (5, near.r0), (10, 0)];
    let mut case = with(&with(cable, &fields), &[(15, 2_000_000), (16, 4000)]);
    case[19] = case[19].min(4000);
    case
}

/// Each code, in one arrangement after the other.
pub fn skin() -> Group {
    let mut edges = Vec::new();
    for (codes, near) in &NEAREST {
        for &code in *codes {
            let cable = ALL[code as usize % ALL.len()];
            edges.extend(near.iter().map(|near| Edge {
                case: with_skin(&cable, code, near),
                answer: if near.distance > 0 { 8 } else { 0 },
            }));
        }
    }
    Group {
        remark: "z as near to refusal 8's limit as can be, below and above, by ks and by kp.",
        edges,
    }
}
