// Refusal 10 at equality, 10 dd = 9 x 10^7 (θc - θa), and one above it, in the shade;
// and how such cases are found there and in the sun.

use super::{Edge, Group};
use crate::cable::Cable;
use crate::rating::{limits, Words};
use crate::sample_cables::{with, ALL};
use crate::turning::first;

/// How far d0 lies above the largest that passes, in 10^-9 K.
fn above_limit(case: &Words) -> i128 {
    let cable = Cable::of(case);
    // The permitted rise is a whole number of 10^-5 K.
    cable.rise_without_current() as i128 - 9 * (cable.permitted_rise() / 10) as i128
}

/// A cable of the least rise and the largest thermal resistances, of which T1
/// then moves dd by the smallest steps.
pub fn fine(cable: &Words) -> Words {
    let cold = with(cable, &[(3, 4500), (4, 4000), (11, 100), (12, 100), (16, 4000)]);
    let mut case = with(&cold, &[(22, 10_000_000), (23, 10_000_000), (24, 10_000_000)]);
    case[19] = case[19].min(4000);
    with(&case, &[(25, 20_000_000)])
}

/// The first case, by its voltage, whose d0 lies so far above the limit. dd, and so
/// d0, grows with the voltage and with T1.
pub fn at_distance(cable: &Words, distance: i128) -> Option<Words> {
    let reaches = |case: &Words| above_limit(case) >= distance;
    let lowest = first(cable, 10, reaches)?;
    (lowest[10]..=limits(10).1 as u32).find_map(|volts| {
        let case = first(&with(cable, &[(10, volts)]), 22, reaches)?;
        (above_limit(&case) == distance).then_some(case)
    })
}

pub fn dielectric() -> Group {
    let mut edges = Vec::new();
    for cable in ALL {
        for (distance, answer) in [(0, 0), (1, 10)] {
            let case = at_distance(&fine(&cable), distance).expect("some voltage has the distance");
            edges.push(Edge { case, answer });
        }
    }
    Group { remark: "dd at nine tenths of the permitted rise, and 10^-9 K above.", edges }
}
