// Every field from 2 to 26 at both of its limits, which pass refusal 3, and one
// beyond; dry_soil.rs and sun.rs have those after them, and direct_current.rs those of
// its arrangement. The other fields are such that the case at the limit is rated
// wherever it can be, so that a limit stated one off changes the answer from a refusal
// to a rating or the other way round.

use super::{Edge, Group};
use crate::rating::{armoured, direct, has_field, limits as limits_of, Words};
use crate::sample_cables::{with, COMMON_SHEATH, SL_TYPE, TREFOIL};

#[derive(Clone, Copy)]
enum End {
    Low,
    High,
}
use End::{High, Low};

/// Every diameter and the spacing at their highest, which go together.
const WIDEST: &[(usize, u32)] =
    &[(6, 10000), (7, 1_000_000), (8, 20000), (9, 30000), (13, 50000), (21, 50000)];

/// What else must change for a field at the end of its limits to be rated.
fn room(field: usize, end: End) -> &'static [(usize, u32)] {
    match (field, end) {
        // Sheath and armour must not be hotter than the coldest conductor.
        (3, Low) => &[(16, 3000), (19, 3000)],
        // The least resistance passes the skin's limit at a low frequency.
        (5, Low) => &[(2, 1000)],
        (6..=9 | 13 | 20, High) => WIDEST,
        (7 | 8, Low) => &[(6, 100)],
        // The highest voltage and loss factor pass the dielectric's limit only
        // when the rest of the loss is small.
        (10, High) => &[(11, 100), (12, 1)],
        (12, High) => &[(10, 6000)],
        (16 | 19, High) => &[(3, 25000)],
        _ => &[],
    }
}

/// What a field at the end of its limits gets. Some can never be rated: dc is
/// at least 100, so ds is too and Di, d and, but for a common sheath, s are at
/// least 105; c is at least 100 and d or dA around the cores at most 50000, so dA
/// is at least 200 and c at most 25000; the SL cable's metals are lead and steel;
/// and direct current is rated up to 5000 V.
fn answer_at(case: &Words, field: usize, end: End) -> u32 {
    match (field, end) {
        (7, Low) if case[0] == 6 => 0,
        (7 | 9 | 13, Low) | (20, High) | (21, Low) => 5,
        (10, High) if direct(case) => 33,
        (14, High) if armoured(case) => 7,
        (17, Low) => 7,
        _ => 0,
    }
}

/// A field at a value, with the room it needs.
fn at(cable: &Words, field: usize, end: End, value: i64) -> Words {
    let mut case = with(cable, room(field, end));
    // What the cable's arrangement does not have stays 0.
    for absent in (0..case.len()).filter(|&index| !has_field(cable, index)) {
        case[absent] = 0;
    }
    // One below 0 is the highest word.
    case[field] = value as u32;
    case
}

pub fn field_edges(cable: &Words, field: usize) -> [Edge; 4] {
    let (low, high) = limits_of(field);
    let limit = |end, value| Edge {
        case: at(cable, field, end, value),
        answer: answer_at(cable, field, end),
    };
    let beyond = |end, value| Edge { case: at(cable, field, end, value), answer: 3 };
    [limit(Low, low), beyond(Low, low - 1), limit(High, high), beyond(High, high + 1)]
}

/// The single-core cable for the fields that all with alternating current have, the SL
/// cable for every field, and the one with a common sheath for the former and c, which
/// must not be 0 there.
pub fn limits() -> Group {
    let alternating = || (2..=16).chain(22..=26);
    let single_core = alternating().flat_map(|field| field_edges(&TREFOIL, field));
    let armoured = (2..=26).flat_map(|field| field_edges(&SL_TYPE, field));
    let with_c = alternating().chain([20]);
    let common_sheath = with_c.flat_map(|field| field_edges(&COMMON_SHEATH, field));
    let without_c = Edge { case: with(&COMMON_SHEATH, &[(20, 0)]), answer: 3 };
    Group {
        remark: "Each field at its lower limit, one below, at its upper limit and one above.",
        edges: single_core.chain(armoured).chain(common_sheath).chain([without_c]).collect(),
    }
}
