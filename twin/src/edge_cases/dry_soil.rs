// Soil that dries out: v in field 27 and the critical isotherm's temperature θx in
// field 28, at both ends of their limits and one beyond, with and without v; θx at
// the ambient's and the conductor's temperature and one beyond; a v of moist soil;
// and refusal 10 where the dry zone's addition to the permitted rise decides it.

use super::dielectric::{at_distance, fine};
use super::{Edge, Group};
use crate::rating::Words;
use crate::sample_cables::{with, ALL, FEEDER, LOW_VOLTAGE};

const LEAST: u32 = 1000;
const HIGHEST: u32 = 5000;

fn cables() -> impl Iterator<Item = Words> {
    ALL.into_iter().chain([LOW_VOLTAGE, FEEDER])
}

/// A temperature's word.
const fn word(theta: i32) -> u32 {
    theta as u32
}

/// The cable with a v and a θx.
fn soil(cable: &Words, v: u32, theta_x: i32) -> Words {
    with(cable, &[(27, v), (28, word(theta_x))])
}

fn edge(cable: &Words, v: u32, theta_x: i32, answer: u32) -> Edge {
    Edge { case: soil(cable, v, theta_x), answer }
}

/// v at its ends and one beyond, the isotherm being between ambient and conductor.
const RATIOS: [(u32, u32); 8] = [
    (1, 3),
    (LEAST - 1, 3),
    (LEAST, 0),
    (LEAST + 1, 0),
    (HIGHEST, 0),
    (HIGHEST + 1, 3),
    (1 << 31, 3),
    (u32::MAX, 3),
];

pub fn ratios() -> Group {
    let mut edges = Vec::new();
    for cable in cables() {
        edges.push(edge(&cable, 0, 0, 0));
        edges.extend(RATIOS.map(|(v, answer)| edge(&cable, v, 3000, answer)));
    }
    Group { remark: "v 0, 1000 and 5000, and one beyond either end.", edges }
}

/// An ambient or a conductor of a temperature at which the isotherm's limits are
/// reached, and the isotherm.
fn isotherms_at_limits(cable: &Words, v: u32) -> [Edge; 4] {
    let cold = with(cable, &[(4, word(-4000))]);
    let hot = with(cable, &[(3, 25000)]);
    [
        edge(&cold, v, -4000, 0),
        edge(&cold, v, -4001, 3),
        edge(&hot, v, 25000, 0),
        edge(&hot, v, 25001, 3),
    ]
}

/// Without v the isotherm has the same limits, and is stray within them. A
/// temperature below zero is within them, though its word is above them.
const WITHOUT_RATIO: [(i32, u32); 10] = [
    (i32::MIN, 3),
    (-4001, 3),
    (-4000, 4),
    (-1, 4),
    (0, 0),
    (1, 4),
    (5000, 4),
    (25000, 4),
    (25001, 3),
    (i32::MAX, 3),
];

pub fn isotherm_limits() -> Group {
    let mut edges = Vec::new();
    for cable in cables() {
        edges.extend(
            [LEAST, 2500, HIGHEST].map(|v| isotherms_at_limits(&cable, v)).into_iter().flatten(),
        );
        edges.extend(WITHOUT_RATIO.map(|(theta_x, answer)| edge(&cable, 0, theta_x, answer)));
    }
    Group { remark: "θx at -4000 and 25000 and one beyond, with v and without.", edges }
}

/// The isotherm from one below the ambient to one above the conductor.
fn about_both(cable: &Words, v: u32) -> [Edge; 7] {
    let (conductor, ambient) = (cable[3] as i32, cable[4] as i32);
    [
        edge(cable, v, ambient - 1, 31),
        edge(cable, v, ambient, 0),
        edge(cable, v, ambient + 1, 0),
        edge(cable, v, (ambient + conductor) / 2, 0),
        edge(cable, v, conductor - 1, 0),
        edge(cable, v, conductor, 0),
        edge(cable, v, conductor + 1, 31),
    ]
}

pub fn isotherms() -> Group {
    let mut edges = Vec::new();
    for cable in cables() {
        for v in [LEAST, LEAST + 1, 2500, HIGHEST] {
            edges.extend(about_both(&cable, v));
        }
    }
    Group { remark: "θx at the ambient's and the conductor's temperature, and one beyond.", edges }
}

/// Ambients at and below zero, and isotherms about them and about zero. A
/// comparison of the words would take every one below zero for the hotter.
const BELOW_ZERO: [(i32, i32, u32); 14] = [
    (-1000, -1001, 31),
    (-1000, -1000, 0),
    (-1000, -999, 0),
    (-1000, -1, 0),
    (-1000, 0, 0),
    (-1000, 1, 0),
    (-1, -2, 31),
    (-1, -1, 0),
    (-1, 0, 0),
    (0, -1, 31),
    (0, 0, 0),
    (0, 1, 0),
    (1, 0, 31),
    (1, -1, 31),
];

pub fn below_zero() -> Group {
    let mut edges = Vec::new();
    for cable in cables() {
        edges.extend(BELOW_ZERO.map(|(ambient, theta_x, answer)| {
            edge(&with(&cable, &[(4, word(ambient))]), 2500, theta_x, answer)
        }));
    }
    Group { remark: "θx about ambients below zero.", edges }
}

/// Each cable in moist soil, and what it is with the v of moist soil and any
/// isotherm. A test sees that they are rated alike.
pub fn moist_pairs() -> Vec<(Words, Words)> {
    let mut pairs = Vec::new();
    for cable in cables() {
        let (conductor, ambient) = (cable[3] as i32, cable[4] as i32);
        for theta_x in [ambient, (ambient + conductor) / 2, conductor] {
            pairs.push((cable, soil(&cable, LEAST, theta_x)));
        }
    }
    pairs
}

pub fn moist() -> Group {
    let same = moist_pairs().into_iter().map(|(_, case)| Edge { case, answer: 0 });
    Group { remark: "v 1000: the rating and the sheet of moist soil.", edges: same.collect() }
}

/// Cables of which v T4 is no whole number of thousands, so that one who rounds v
/// T4/1000 has another E, and another dd too. A test sees to it.
pub fn uneven() -> Vec<Words> {
    // By each about half of a thousand is left.
    let soils = [(1001, 499), (2500, 1), (2501, 500), (4999, 500)];
    let altered = |cable: Words, (v, further): (u32, u32)| {
        // A voltage at which dd shows it.
        let lossy = with(&cable, &[(10, 30_000), (25, cable[25] / 1000 * 1000 + further)]);
        soil(&lossy, v, 3000)
    };
    ALL.into_iter().flat_map(|cable| soils.map(|soil| altered(cable, soil))).collect()
}

pub fn thousandths() -> Group {
    let edges = uneven().into_iter().map(|case| Edge { case, answer: 0 });
    Group { remark: "v T4 that no thousand divides.", edges: edges.collect() }
}

/// The isotherm of the cables in which the addition decides refusal 10, with a
/// conductor of 45 degrees and an ambient of 40.
const DECIDING: i32 = 4300;

/// Cables whose dd is at nine tenths of the permitted rise with the addition of the
/// dry zone, or 10^-9 K above.
pub fn deciding(distance: i128) -> Vec<Words> {
    let nearest = |cable: Words| {
        let dry = soil(&fine(&cable), 3000, DECIDING);
        at_distance(&dry, distance).expect("some voltage has the distance")
    };
    ALL.into_iter().map(nearest).collect()
}

/// At equality, with θx one colder, which is too little, with θx at the ambient, where
/// nothing is added, and with one hotter; then 10^-9 K above.
pub fn dielectric() -> Group {
    let isotherm = |case: &Words, theta_x: i32, answer| Edge {
        case: with(case, &[(28, word(theta_x))]),
        answer,
    };
    let mut edges = Vec::new();
    for case in deciding(0) {
        edges.push(isotherm(&case, DECIDING, 0));
        edges.push(isotherm(&case, DECIDING - 1, 10));
        edges.push(isotherm(&case, DECIDING + 1, 0));
        edges.push(isotherm(&case, 4000, 10));
    }
    for case in deciding(1) {
        edges.push(isotherm(&case, DECIDING, 10));
        edges.push(isotherm(&case, DECIDING + 1, 0));
    }
    Group {
        remark: "dd at nine tenths of the rise with the dry zone's addition, and above.",
        edges,
    }
}
