// The sun: its heat in field 29 at both ends of its limits and one beyond, and with a
// v; sheets, which are those of the shade; and refusal 10 where the heat decides it, by
// itself and together with the dielectric loss, at equality and 10^-9 K above.

use super::dielectric::{at_distance, fine};
use super::{Edge, Group};
use crate::rating::{limits, value, Words};
use crate::sample_cables::{with, ALL, FEEDER, LOW_VOLTAGE, ON_A_BRIDGE};

const HIGHEST: u32 = 200_000;

fn alternating() -> impl Iterator<Item = Words> {
    ALL.into_iter().chain([LOW_VOLTAGE])
}

fn cables() -> impl Iterator<Item = Words> {
    alternating().chain([FEEDER])
}

fn sun(cable: &Words, heat: u32) -> Words {
    with(cable, &[(29, heat)])
}

fn edge(cable: &Words, heat: u32, answer: u32) -> Edge {
    Edge { case: sun(cable, heat), answer }
}

/// A T4 by which the highest heat makes a rise of 20 K.
const IN_AIR: u32 = 100_000;

const HEATS: [(u32, u32); 7] =
    [(0, 0), (1, 0), (HIGHEST - 1, 0), (HIGHEST, 0), (HIGHEST + 1, 3), (1 << 31, 3), (u32::MAX, 3)];

/// With its own T4 none of the cables can take the highest heat.
pub fn heats() -> Group {
    let mut edges = Vec::new();
    for cable in cables() {
        let in_air = with(&cable, &[(25, IN_AIR)]);
        edges.extend(HEATS.map(|(heat, answer)| edge(&in_air, heat, answer)));
        edges.push(edge(&cable, 1, 0));
        edges.push(edge(&cable, HIGHEST, 10));
    }
    Group { remark: "The sun's heat 0, 1 and 200000, and beyond.", edges }
}

/// v, θx, the heat, and what a cable between whose ambient and conductor θx lies gets.
const WITH_RATIO: [(u32, u32, u32, u32); 12] = [
    (1000, 3000, 1, 32),
    (1000, 3000, HIGHEST, 32),
    (1001, 3000, 1, 32),
    (2500, 3000, 1, 32),
    (5000, 3000, 1, 32),
    (5000, 3000, HIGHEST, 32),
    (1000, 3000, HIGHEST + 1, 3),
    (5000, 3000, u32::MAX, 3),
    (999, 3000, 1, 3),
    (5001, 3000, HIGHEST, 3),
    (0, 3000, 1, 4),
    (0, 25001, 1, 3),
];

/// θx about the ambient's and the conductor's temperature: 31 stands before 32.
fn isotherms(cable: &Words, v: u32) -> [(u32, u32, u32, u32); 4] {
    let (conductor, ambient) = (cable[3], cable[4]);
    [(v, ambient - 1, 1, 31), (v, ambient, 1, 32), (v, conductor, 1, 32), (v, conductor + 1, 1, 31)]
}

pub fn with_ratio() -> Group {
    let mut edges = Vec::new();
    for cable in cables() {
        let about = [1000, 2500].map(|v| isotherms(&cable, v)).into_iter().flatten();
        edges.extend(WITH_RATIO.into_iter().chain(about).map(|(v, theta_x, heat, answer)| Edge {
            case: with(&cable, &[(27, v), (28, theta_x), (29, heat)]),
            answer,
        }));
    }
    Group { remark: "The sun's heat with a v, and with θx alone.", edges }
}

/// Each cable in the shade, and in some sun. A test sees that both have one sheet.
pub fn shaded_pairs() -> Vec<(Words, Words)> {
    let pairs = |cable| [1, 20_000].map(|heat| (cable, sun(&cable, heat)));
    cables().flat_map(pairs).collect()
}

/// The cable on a bridge in the shade. It has the sheath temperature and the T4 of the
/// shade too.
pub const SHADED_BRIDGE: [(usize, u32); 3] = [(16, 7402), (25, 314_776), (29, 0)];

pub fn sheets() -> Group {
    let bridge = [with(&ON_A_BRIDGE, &SHADED_BRIDGE), ON_A_BRIDGE];
    let sunny = shaded_pairs().into_iter().map(|(_, case)| case).chain(bridge);
    Group {
        remark: "In the sun: the sheet of the shade; and a cable on a bridge in both.",
        edges: sunny.map(|case| Edge { case, answer: 0 }).collect(),
    }
}

/// The cable with a loss voltage at which its loss does not count.
fn lossless(cable: &Words) -> Words {
    with(cable, &[(26, cable[10] + 1)])
}

/// The cable without a dielectric loss whose rise by the sun is at nine tenths of the
/// permitted rise, or so far above: of the largest heat below the highest, so that one
/// more is within its limit, with which some T4 makes it. The ambient is the coldest
/// from the cable's own on at which there is one.
pub fn heated(cable: &Words, distance: i64) -> Words {
    let (low, high) = limits(25);
    let at_ambient = |ambient: i64| {
        let rise = 9_000_000 * (value(cable, 3) - ambient) + distance;
        let divides = |heat: &i64| rise % heat == 0 && (low..=high).contains(&(rise / heat));
        let heat = (1..i64::from(HIGHEST)).rev().find(divides)?;
        let changes = [(4, ambient), (25, rise / heat), (29, heat)];
        Some(with(&lossless(cable), &changes.map(|(field, value)| (field, value as u32))))
    };
    let mut ambients = value(cable, 4)..=limits(4).1;
    ambients.find_map(at_ambient).expect("some ambient has it")
}

/// So each cable with alternating current.
pub fn alone(distance: i64) -> Vec<Words> {
    alternating().map(|cable| heated(&cable, distance)).collect()
}

/// At equality, and with the heat or T4 one less or one more; with the loss, which is
/// too much then; and 10^-9 K above.
pub fn dielectric_alone() -> Group {
    let mut edges = Vec::new();
    for case in alone(0) {
        let (t4, heat) = (case[25], case[29]);
        edges.push(edge(&case, heat, 0));
        edges.push(edge(&case, heat - 1, 0));
        edges.push(edge(&case, heat + 1, 10));
        edges.push(Edge { case: with(&case, &[(25, t4 - 1)]), answer: 0 });
        edges.push(Edge { case: with(&case, &[(25, t4 + 1)]), answer: 10 });
        edges.push(Edge { case: with(&case, &[(26, 0)]), answer: 10 });
    }
    for case in alone(1) {
        edges.push(edge(&case, case[29], 10));
        edges.push(edge(&case, case[29] - 1, 0));
    }
    Group { remark: "The rise by the sun alone at nine tenths of the rise, and above.", edges }
}

/// The highest T4 and the highest heat, each with the other that makes a rise of 2 K.
const TWO_KELVIN: [(u32, u32); 2] = [(20_000_000, 100), (10_000, HIGHEST)];

/// Cables of a permitted rise of 5 K that the sun heats by 2 K and whose dd takes the
/// rest of nine tenths of it, or 10^-9 K more.
pub fn together(distance: i128) -> Vec<Words> {
    let nearest = |cable: &Words, (t4, heat): (u32, u32)| {
        let case = with(&fine(cable), &[(25, t4), (29, heat)]);
        at_distance(&case, distance).expect("some voltage has the distance")
    };
    ALL.iter().flat_map(|cable| TWO_KELVIN.map(|two_kelvin| nearest(cable, two_kelvin))).collect()
}

/// At equality and 10^-9 K above, and as they are with a little less heat, without any
/// and without the loss, which all pass; and with more heat at equality.
pub fn dielectric_together() -> Group {
    let mut edges = Vec::new();
    for (distance, answer) in [(0, 0), (1, 10)] {
        for case in together(distance) {
            let heat = case[29];
            edges.push(edge(&case, heat, answer));
            edges.push(edge(&case, heat - 1, 0));
            edges.push(edge(&case, 0, 0));
            edges.push(Edge { case: lossless(&case), answer: 0 });
            if heat < HIGHEST && distance == 0 {
                edges.push(edge(&case, heat + 1, 10));
            }
        }
    }
    Group { remark: "dd and the rise by the sun together at nine tenths, and above.", edges }
}

/// T4, the heat, and what a cable gets whose permitted rise is 290 K, the most.
const HOTTEST: [(u32, u32, u32); 8] = [
    (10_000, 1, 0),
    (20_000_000, 1, 0),
    (10_000, HIGHEST, 0),
    (1_305_000, HIGHEST, 0),
    (1_305_001, HIGHEST, 10),
    (20_000_000, 13_050, 0),
    (20_000_000, 13_051, 10),
    (20_000_000, HIGHEST, 10),
];

/// The same where it is 5 K, the least.
const COLDEST: [(u32, u32, u32); 8] = [
    (10_000, 1, 0),
    (20_000_000, 1, 0),
    (10_000, HIGHEST, 0),
    (22_500, HIGHEST, 0),
    (22_501, HIGHEST, 10),
    (20_000_000, 225, 0),
    (20_000_000, 226, 10),
    (20_000_000, HIGHEST, 10),
];

/// T4 and the heat at their ends, and where the sun takes nine tenths of the rise.
pub fn ends() -> Group {
    let mut edges = Vec::new();
    for cable in cables() {
        let cable = lossless(&cable);
        let hot = with(&cable, &[(3, 25000), (4, -4000i32 as u32)]);
        let [sheath, armour] = [16, 19].map(|field| cable[field].min(4000));
        let cold = with(&cable, &[(3, 4500), (4, 4000), (16, sheath), (19, armour)]);
        for (cable, places) in [(hot, HOTTEST), (cold, COLDEST)] {
            edges.extend(places.map(|(t4, heat, answer)| Edge {
                case: with(&cable, &[(25, t4), (29, heat)]),
                answer,
            }));
        }
    }
    Group { remark: "T4 and the sun's heat at their limits, by a rise of 290 K and of 5 K.", edges }
}
