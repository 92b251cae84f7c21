// The codes of arrangement, conductor and metals, from one below the first to
// one above the last, and the fields that an arrangement does not have and others
// do.

use super::{Edge, Group};
use crate::rating::{limits, Words, DIRECT_CURRENT};
use crate::sample_cables::{with, ALL, COMMON_SHEATH, FEEDER, SL_TYPE, TREFOIL};
use crate::tables::{LEAD, STEEL};

/// A code's word with its answer: `refusal` where it is none of 1 to `last`.
fn code(case: &Words, field: usize, word: u32, last: u32, refusal: u32) -> Edge {
    let answer = if (1..=last).contains(&word) { 0 } else { refusal };
    Edge { case: with(case, &[(field, word)]), answer }
}

pub fn arrangements() -> Group {
    let arrangement = |case, word| code(case, 0, word, DIRECT_CURRENT, 1);
    let single_core = (0..=4).map(|word| arrangement(&TREFOIL, word));
    let three_cores = [arrangement(&SL_TYPE, 5), arrangement(&COMMON_SHEATH, 6)];
    let direct = (7..=8).map(|word| arrangement(&FEEDER, word));
    Group {
        remark: "Arrangements 0 to 8.",
        edges: single_core.chain(three_cores).chain(direct).collect(),
    }
}

pub fn conductors() -> Group {
    Group {
        remark: "Conductor codes 0 to 9.",
        edges: (0..=9).map(|word| code(&TREFOIL, 1, word, 8, 2)).collect(),
    }
}

/// A metal's word where only one metal may be, or any of them.
fn metal(case: &Words, field: usize, word: u32, only: Option<u32>) -> Edge {
    let mut edge = code(case, field, word, 6, 3);
    if edge.answer == 0 && only.is_some_and(|metal| metal != word) {
        edge.answer = 7;
    }
    edge
}

pub fn metals() -> Group {
    let mut edges = Vec::new();
    for word in 0..=7 {
        for case in ALL {
            let only = matches!(case[0], 3..=5).then_some(LEAD);
            edges.push(metal(&case, 14, word, only));
        }
        edges.push(metal(&SL_TYPE, 17, word, Some(STEEL)));
    }
    Group { remark: "Metals 0 to 7 of the sheath in every arrangement, and of the armour.", edges }
}

/// A field that an arrangement does not have is stray whatever its value, within
/// or outside the limits that it has in others.
pub fn stray_fields(cables: &[Words], fields: &[usize]) -> Vec<Edge> {
    let mut edges = Vec::new();
    for case in cables {
        for &field in fields {
            let (low, high) = limits(field);
            for value in [1, low, high, high + 1, -1] {
                edges.push(Edge { case: with(case, &[(field, value as u32)]), answer: 4 });
            }
        }
    }
    edges
}

/// Each stray field by itself; then cables under the number of another
/// arrangement, whose fields are stray or missing there.
pub fn stray() -> Group {
    let mut edges = stray_fields(&ALL[..4], &[17, 18, 19, 20, 21]);
    edges.extend(stray_fields(&ALL[5..], &[17, 18, 19, 21]));
    let renumbered = [
        (&TREFOIL, 6, 3),
        (&TREFOIL, 7, 4),
        (&SL_TYPE, 4, 4),
        (&SL_TYPE, 6, 4),
        (&SL_TYPE, 7, 4),
        (&COMMON_SHEATH, 4, 4),
        (&COMMON_SHEATH, 5, 3),
        (&COMMON_SHEATH, 7, 4),
        (&FEEDER, 1, 3),
        (&FEEDER, 5, 3),
        (&FEEDER, 6, 3),
    ];
    edges.extend(
        renumbered.map(|(cable, word, answer)| Edge { case: with(cable, &[(0, word)]), answer }),
    );
    Group {
        remark: "Each field that an arrangement does not have, and other numbers of it.",
        edges,
    }
}
