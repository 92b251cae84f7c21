// Direct current: each field that it has at both ends of its limits and one beyond, and
// each other at 0 and above; U0 about 5000; geometry and heat at equality and one
// beyond; refusals 10 and 11 at and beyond their limits; and what alternating current
// is refused or rated otherwise for and direct current is not. dry_soil.rs and sun.rs
// have v, the isotherm and the sun's heat of the feeder too.

use super::codes::stray_fields;
use super::current::about_limit;
use super::limits::field_edges;
use super::skin::{with_skin, NEAREST};
use super::sun::heated;
use super::{Edge, Group};
use crate::rating::{limits as limits_of, Words};
use crate::sample_cables::{with, FEEDER, FEEDER_ALTERNATING};

type Changes = &'static [(usize, u32)];

/// What a cable gets with some changes.
type Made = (Changes, u32);

fn edges(cable: &Words, made: &[Made]) -> Vec<Edge> {
    made.iter().map(|&(changes, answer)| Edge { case: with(cable, changes), answer }).collect()
}

/// The fields of alternating current, of the armour and of three cores.
pub const ALWAYS_ZERO: [usize; 13] = [2, 7, 11, 12, 13, 14, 15, 16, 17, 18, 19, 20, 21];

fn limits() -> Group {
    let fields = (3..=6).chain(8..=10).chain(22..=26);
    Group {
        remark: "Direct current: each field that it has at its limits, and one beyond.",
        edges: fields.flat_map(|field| field_edges(&FEEDER, field)).collect(),
    }
}

fn stray() -> Group {
    let zero = Edge { case: FEEDER, answer: 0 };
    Group {
        remark: "Direct current: each field that it does not have, at 0 and not.",
        edges: [zero].into_iter().chain(stray_fields(&[FEEDER], &ALWAYS_ZERO)).collect(),
    }
}

/// U0, and what the feeder gets at it.
const VOLTAGES: [(u32, u32); 10] = [
    (0, 0),
    (1, 0),
    (4999, 0),
    (5000, 0),
    (5001, 33),
    (299_999, 33),
    (300_000, 33),
    (300_001, 3),
    (1 << 31, 3),
    (u32::MAX, 3),
];

fn voltages() -> Group {
    let direct =
        VOLTAGES.map(|(volts, answer)| Edge { case: with(&FEEDER, &[(10, volts)]), answer });
    // Alternating current may have any.
    let alternating = [5000, 5001, 126_999]
        .map(|volts| Edge { case: with(&FEEDER_ALTERNATING, &[(10, volts)]), answer: 0 });
    Group {
        remark: "U0 up to 5000 with direct current and above; with alternating current.",
        edges: direct.into_iter().chain(alternating).collect(),
    }
}

/// dc = ds and 100 Di = 105 ds, and each one beyond; then a ds of which Di falls short by
/// the least amount that there is, the least diameters, and the widest insulation, which
/// no d bounds.
const GEOMETRY: [Made; 11] = [
    (&[(6, 1400), (8, 1400), (9, 1470)], 0),
    (&[(6, 1401), (8, 1400), (9, 1470)], 5),
    (&[(6, 1400), (8, 1401), (9, 1470)], 5),
    (&[(6, 1400), (8, 1399), (9, 1470)], 5),
    (&[(6, 1400), (8, 1400), (9, 1469)], 5),
    (&[(6, 1401), (8, 1401), (9, 1472)], 0),
    (&[(6, 1401), (8, 1401), (9, 1471)], 5),
    (&[(6, 100), (8, 100), (9, 105)], 0),
    (&[(6, 100), (8, 100), (9, 104)], 5),
    (&[(6, 100), (8, 100), (9, 30000)], 0),
    (&[(6, 10000), (8, 20000), (9, 21000)], 0),
];

/// A rise of 5 K and of 4.99 K, by the conductor and by the ambient, also at the ends of
/// their limits.
const HEAT: [Made; 7] = [
    (&[(3, 5000), (4, 4500)], 0),
    (&[(3, 4999), (4, 4500)], 6),
    (&[(3, 5000), (4, 4501)], 6),
    (&[(3, 6500), (4, 6000)], 0),
    (&[(3, 6499), (4, 6000)], 6),
    (&[(3, 4000), (4, 3500)], 0),
    (&[(3, 4000), (4, -4000i32 as u32)], 0),
];

fn relations() -> Group {
    Group {
        remark: "Direct current: dc = ds, 100 Di = 105 ds and a rise of 5 K, and one beyond.",
        edges: edges(&FEEDER, &[&GEOMETRY[..], &HEAT].concat()),
    }
}

/// v, the isotherm and the heat with the highest voltage and one above it: 31 and 32
/// stand before 33.
const SURROUNDINGS: [Made; 12] = [
    (&[(10, 5000), (27, 2500), (28, 1999)], 31),
    (&[(10, 5000), (27, 2500), (28, 2000)], 0),
    (&[(10, 5000), (27, 2500), (28, 9000)], 0),
    (&[(10, 5000), (27, 2500), (28, 9001)], 31),
    (&[(10, 5000), (27, 1000), (28, 3500), (29, 1)], 32),
    (&[(10, 5000), (29, 1)], 0),
    (&[(10, 5001), (27, 2500), (28, 1999)], 31),
    (&[(10, 5001), (27, 2500), (28, 2000)], 33),
    (&[(10, 5001), (27, 2500), (28, 9000)], 33),
    (&[(10, 5001), (27, 2500), (28, 9001)], 31),
    (&[(10, 5001), (27, 1000), (28, 3500), (29, 1)], 32),
    (&[(10, 5001), (29, 200_000)], 33),
];

fn surroundings() -> Group {
    Group {
        remark: "Direct current: the isotherm and the sun at 5000 V and one above.",
        edges: edges(&FEEDER, &SURROUNDINGS),
    }
}

/// The feeder of the least rise and the largest thermal resistances, in soil that dries
/// out the least and the most, in which the isotherm adds nothing and the most.
const DRIEST: [Changes; 4] = [
    &[(27, 1000), (28, 4000)],
    &[(27, 1000), (28, 4500)],
    &[(27, 5000), (28, 4000)],
    &[(27, 5000), (28, 4500)],
];

/// Without the sun nothing heats the feeder but its current.
fn without_sun() -> Vec<Edge> {
    let cold = with(&FEEDER, &[(3, 4500), (4, 4000), (10, 5000)]);
    let case =
        with(&cold, &[(22, 10_000_000), (23, 10_000_000), (24, 10_000_000), (25, 20_000_000)]);
    let rated = DRIEST.iter().map(|soil| Edge { case: with(&case, soil), answer: 0 });
    let sunny = DRIEST
        .iter()
        .map(|soil| Edge { case: with(&case, &[*soil, &[(29, 1)]].concat()), answer: 32 });
    rated.chain(sunny).collect()
}

/// At equality, with the heat or T4 one less or one more, and with the loss voltage at 0,
/// from which alternating current's loss would count; and 10^-9 K above.
fn by_sun_alone() -> Vec<Edge> {
    let edge =
        |case: &Words, changes: &[(usize, u32)], answer| Edge { case: with(case, changes), answer };
    let (at, above) = (heated(&FEEDER, 0), heated(&FEEDER, 1));
    let (t4, heat) = (at[25], at[29]);
    vec![
        edge(&at, &[], 0),
        edge(&at, &[(29, heat - 1)], 0),
        edge(&at, &[(29, heat + 1)], 10),
        edge(&at, &[(25, t4 - 1)], 0),
        edge(&at, &[(25, t4 + 1)], 10),
        edge(&at, &[(10, 5000), (26, 0)], 0),
        edge(&above, &[], 10),
        edge(&above, &[(29, above[29] - 1)], 0),
    ]
}

fn dielectric() -> Group {
    Group {
        remark: "Direct current: the sun's rise at nine tenths of the rise, and above; dry soil.",
        edges: by_sun_alone().into_iter().chain(without_sun()).collect(),
    }
}

fn current() -> Group {
    Group { remark: "Direct current: from 4999997 to 5000003 mA.", edges: about_limit(&FEEDER) }
}

/// Every conductor whose z is above refusal 8's limit with alternating current, which
/// gets 8, and the same with direct current; and the least resistance of each code.
fn skin() -> Group {
    let mut edges = Vec::new();
    for (codes, near) in &NEAREST {
        for &code in *codes {
            let beyond = near.iter().find(|near| near.distance > 0).expect("one above the limit");
            let conductor = [(1, code), (3, beyond.theta_c), (5, beyond.r0)];
            edges.push(Edge { case: with_skin(&FEEDER_ALTERNATING, code, beyond), answer: 8 });
            edges.push(Edge { case: with(&FEEDER, &conductor), answer: 0 });
            let least = [(1, code), (3, 4000), (5, limits_of(5).0 as u32)];
            edges.push(Edge { case: with(&FEEDER, &least), answer: 0 });
        }
    }
    Group {
        remark: "A z above refusal 8's limit, and the same conductor with direct current.",
        edges,
    }
}

/// The feeder with U0 above, at and below the loss voltage, which are rated alike.
pub fn loss_voltages() -> [Words; 8] {
    let u0 = FEEDER[10];
    [(u0, 0), (u0, u0 - 1), (u0, u0), (u0, u0 + 1), (u0, 300_000), (0, 0), (0, 1), (5000, 0)]
        .map(|(volts, loss_voltage)| with(&FEEDER, &[(10, volts), (26, loss_voltage)]))
}

fn loss_voltage() -> Group {
    Group {
        remark: "Direct current: U0 above and below the loss voltage, which makes no difference.",
        edges: loss_voltages().map(|case| Edge { case, answer: 0 }).into(),
    }
}

/// The feeder with either current, and with direct current in dry soil, by a v T4 that no
/// thousand divides and with a T2 too, and in the sun.
fn sheets() -> Group {
    let dry = with(&FEEDER, &[(27, 2500), (28, 3500)]);
    let bedded = with(&dry, &[(23, 40_001), (27, 2501)]);
    let sunny = with(&FEEDER, &[(25, 400_000), (29, 16_000)]);
    let rated = [FEEDER, FEEDER_ALTERNATING, dry, bedded, sunny];
    Group {
        remark: "A feeder with direct and with alternating current, in dry soil and in the sun.",
        edges: rated.map(|case| Edge { case, answer: 0 }).into(),
    }
}

/// Every group, in the order of the refusals.
pub fn groups() -> Vec<Group> {
    vec![
        limits(),
        stray(),
        relations(),
        surroundings(),
        voltages(),
        skin(),
        loss_voltage(),
        sheets(),
        dielectric(),
        current(),
    ]
}
