// Refusal 9 at equality, 5B = Rs, and as near to it as can be on both sides. B
// and so 5B is given by the frequency; Rs by resistance and temperature, and
// for lead it is a multiple of 400, while 5B is one of 5: 5 is the nearest. A
// common sheath of the same Rs is rated.

use super::{Edge, Group};
use crate::rating::{limits, value, Words};
use crate::sample_cables::{with, COMMON_SHEATH, FLAT_SINGLE_POINT, TREFOIL_SINGLE_POINT};
use crate::stages::reactance_unit_high;

/// Rs of lead is its resistance field times 400 times its temperature above
/// -230 degrees, in hundredths: 10^7 + 400 (θ - 2000) = 400 (θ + 23000).
const STEP: u128 = 400;
const ABOVE: i64 = 23000;

/// Resistance and temperature fields of a lead sheath of just this Rs.
fn sheath_of(rs: u128) -> Option<(u32, u32)> {
    if !rs.is_multiple_of(STEP) {
        return None;
    }
    let (low, high) = limits(16);
    let (least, most) = limits(15);
    (low..=high).find_map(|theta| {
        let factor = STEP * u128::try_from(theta + ABOVE).ok()?;
        let resistance = i64::try_from(rs / factor).ok()?;
        let fits = rs.is_multiple_of(factor) && (least..=most).contains(&resistance);
        fits.then_some((resistance as u32, theta as u32))
    })
}

/// The first case, by its frequency, whose Rs lies so far above 5B.
fn at_distance(cable: &Words, distance: i128) -> Option<Words> {
    let (low, high) = limits(2);
    (low as u32..=high as u32).find_map(|f| {
        let rs = (5 * reactance_unit_high(f.into())).checked_add_signed(distance)?;
        let (resistance, theta) = sheath_of(rs)?;
        let case = with(cable, &[(2, f), (15, resistance), (16, theta)]);
        // The sheath may be hot, but not hotter than the conductor.
        (value(&case, 16) <= value(&case, 3)).then_some(case)
    })
}

pub fn eddy() -> Group {
    let mut edges = Vec::new();
    for (cable, below) in [(TREFOIL_SINGLE_POINT, 9), (FLAT_SINGLE_POINT, 9), (COMMON_SHEATH, 0)] {
        for (distance, answer) in [(5, 0), (0, 0), (-5, below)] {
            let case = at_distance(&cable, distance).expect("some frequency has this distance");
            edges.push(Edge { case, answer });
        }
    }
    Group { remark: "Rs 5 above 5B, at it and 5 below; a common sheath does not ask.", edges }
}
