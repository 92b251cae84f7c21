// The voltage from which the dielectric loss counts, field 26: at U0 and one
// beside it, at both ends of its limits and one beyond, in cables that are refused
// for their dielectric wherever the loss counts and in those that are rated either
// way.

use super::{Edge, Group};
use crate::rating::Words;
use crate::sample_cables::{with, ALL, LOW_VOLTAGE};

/// The highest of its limits, and of U0's.
const HIGHEST: u32 = 300_000;

fn cables() -> impl Iterator<Item = Words> {
    ALL.into_iter().chain([LOW_VOLTAGE])
}

/// A cable at a voltage, with the most lossy of insulations.
fn lossy(cable: &Words, volts: u32) -> Words {
    with(cable, &[(10, volts), (11, 800), (12, 10000)])
}

/// Loss voltages and what they are made for, of a cable that is refused for its
/// dielectric where its loss counts.
fn refused(cable: &Words) -> Vec<Edge> {
    let edge = |volts, loss_voltage, answer| Edge {
        case: with(&lossy(cable, volts), &[(26, loss_voltage)]),
        answer,
    };
    vec![
        edge(200_000, 0, 10),
        edge(200_000, 199_999, 10),
        edge(200_000, 200_000, 10),
        edge(200_000, 200_001, 0),
        edge(200_000, HIGHEST, 0),
        edge(200_000, HIGHEST + 1, 3),
        edge(200_000, u32::MAX, 3),
        edge(HIGHEST, HIGHEST - 1, 10),
        edge(HIGHEST, HIGHEST, 10),
        edge(HIGHEST - 1, HIGHEST, 0),
        edge(HIGHEST, HIGHEST + 1, 3),
    ]
}

/// Of a cable that is rated, at its own voltage, at none and at 1 V: the sheet
/// says whether the loss counts.
fn rated(cable: &Words) -> Vec<Edge> {
    let own = cable[10];
    let pairs = [(own, 0), (own, own - 1), (own, own), (own, own + 1), (own, HIGHEST)];
    let low = [(0, 0), (0, 1), (0, HIGHEST), (1, 0), (1, 1), (1, 2)];
    let edge = |(volts, loss_voltage)| Edge {
        case: with(cable, &[(10, volts), (26, loss_voltage)]),
        answer: 0,
    };
    pairs.into_iter().chain(low).map(edge).collect()
}

pub fn loss_voltage() -> Group {
    Group {
        remark: "The voltage from which the dielectric loss counts: about U0 and its limits.",
        edges: cables().flat_map(|cable| [refused(&cable), rated(&cable)]).flatten().collect(),
    }
}
