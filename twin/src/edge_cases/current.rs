// Refusal 11: ratings of the last mA up to 5000 A, and cases that would be
// rated at the first mA above, in moist soil, in soil that dries out and in the sun.

use super::{Edge, Group};
use crate::cable::Cable;
use crate::rating::{has_field, limits, Words, CURRENT_LIMIT};
use crate::sample_cables::{with, ALL};
use crate::turning::first;

/// How many mA on either side of the limit.
const AROUND: i128 = 3;

/// A cable that can carry 5000 A: hot, with a sheath of little loss if it has any, and
/// with the lowest thermal resistances.
fn strong(cable: &Words) -> Words {
    let sheath = if has_field(cable, 15) { 20_000_000 } else { 0 };
    let hot = with(cable, &[(3, 25000), (10, 0), (15, sheath)]);
    with(&hot, &[(22, 1000), (23, 0), (24, 0), (25, 10000)])
}

fn current_of(case: &Words) -> u128 {
    Cable::of(case).current().unwrap_or(0)
}

/// The first case, by its ambient temperature, of a current, which falls with
/// R0.
fn at_current(cable: &Words, wanted: u128) -> Option<Words> {
    let (low, high) = limits(4);
    (low..=high).find_map(|ambient| {
        let ambient = with(cable, &[(4, ambient as u32)]);
        let case = first(&ambient, 5, |case| current_of(case) <= wanted)?;
        (current_of(&case) == wanted).then_some(case)
    })
}

/// The cable at and about the limit, in moist soil, in soil that dries out and in the sun.
pub fn about_limit(cable: &Words) -> Vec<Edge> {
    let mut edges = Vec::new();
    for surroundings in [&[][..], &[(27, 2500), (28, 6000)], &[(29, 200_000)]] {
        let cable = strong(&with(cable, surroundings));
        for distance in -AROUND..=AROUND {
            let wanted = CURRENT_LIMIT.saturating_add_signed(distance);
            let case = at_current(&cable, wanted).expect("some ambient has the current");
            edges.push(Edge { case, answer: if distance > 0 { 11 } else { 0 } });
        }
    }
    edges
}

pub fn current() -> Group {
    Group {
        remark: "Currents from 4999997 to 5000003 mA.",
        edges: ALL.iter().flat_map(about_limit).collect(),
    }
}
