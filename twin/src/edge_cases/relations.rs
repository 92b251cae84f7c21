// The relations of refusals 5 and 6 between fields: all at equality at once,
// which passes, and each one step beyond.

use super::{Edge, Group};
use crate::rating::{armoured, Words};
use crate::sample_cables::{with, ALL, COMMON_SHEATH, SL_TYPE};

type Changes = &'static [(usize, u32)];

/// The case with changes on top of others, and the answer it is made for.
fn edge(cable: &Words, changes: Changes, beyond: Changes, answer: u32) -> Edge {
    Edge { case: with(&with(cable, changes), beyond), answer }
}

/// dc = ds, 100 Di = 105 ds, Di = d and d = s, without a voltage, which so thin
/// an insulation could not bear.
const TOUCHING: Changes = &[(6, 1400), (7, 1470), (8, 1400), (9, 1470), (10, 0), (13, 1470)];

/// 105 ds is 147105 here, so that Di = 1471 falls short by the least amount that
/// there is, 5, and Di = 1472 passes.
const ROUNDED: Changes = &[(6, 1401), (7, 1472), (8, 1401), (9, 1472), (10, 0), (13, 1472)];

/// Each relation of the core one beyond; Di's with ds by either.
const CORE_BEYOND: [Changes; 5] =
    [&[(6, 1401)], &[(9, 1469)], &[(8, 1401)], &[(13, 1469)], &[(7, 1469)]];

/// The relations of arrangements 1 to 5.
fn own_sheaths() -> Vec<Edge> {
    let mut edges = Vec::new();
    for cable in &ALL[..5] {
        edges.push(edge(cable, TOUCHING, &[], 0));
        edges.extend(CORE_BEYOND.map(|beyond| edge(cable, TOUCHING, beyond, 5)));
        edges.push(edge(cable, ROUNDED, &[], 0));
        edges.push(edge(cable, ROUNDED, &[(9, 1471)], 5));
    }
    // 2c = dA, one and two above, and one below by the odd dA.
    let armour: [(Changes, u32); 4] = [
        (&[(20, 5500)], 0),
        (&[(20, 5500), (21, 10999)], 5),
        (&[(20, 5501)], 5),
        (&[(20, 5499), (21, 10999)], 0),
    ];
    edges.extend(armour.map(|(beyond, answer)| edge(&SL_TYPE, &[], beyond, answer)));
    edges
}

/// Under a common sheath dc = s and 2c = d in place of d = s.
const TOUCHING_INSIDE: Changes =
    &[(6, 1400), (7, 1400), (8, 1400), (9, 1470), (10, 0), (13, 1470), (20, 735)];

/// Each relation there one beyond and no other with it; 2c's with d by 2 and, by
/// an odd d, by 1.
const INSIDE_BEYOND: [Changes; 7] = [
    &[(6, 1401), (7, 1401)],
    &[(9, 1469)],
    &[(8, 1401)],
    &[(13, 1469), (20, 734)],
    &[(7, 1399)],
    &[(20, 736)],
    &[(13, 1471), (20, 736)],
];

/// Spacings that pass there with a d of 7378: at d and at half of it, one above
/// and one below each, and at dc.
const INSIDE_SPACINGS: [u32; 7] = [7379, 7378, 7377, 3690, 3689, 3688, 1850];

/// The relations of arrangement 6.
fn common_sheath() -> Vec<Edge> {
    let mut edges = Vec::new();
    for cable in &ALL[5..] {
        edges.push(edge(cable, TOUCHING_INSIDE, &[], 0));
        edges.extend(INSIDE_BEYOND.map(|beyond| edge(cable, TOUCHING_INSIDE, beyond, 5)));
        // 2c one below an odd d.
        edges.push(edge(cable, TOUCHING_INSIDE, &[(13, 1471)], 0));
        edges.push(edge(cable, ROUNDED, &[(20, 736)], 0));
        edges.push(edge(cable, ROUNDED, &[(9, 1471), (20, 736)], 5));
    }
    edges.extend(INSIDE_SPACINGS.map(|spacing| Edge {
        case: with(&COMMON_SHEATH, &[(7, spacing), (13, 7378)]),
        answer: 0,
    }));
    edges
}

pub fn geometry() -> Group {
    Group {
        remark: "dc = ds, 100 Di = 105 ds, Di = d, d = s, 2c = dA, dc = s, 2c = d, and one beyond.",
        edges: own_sheaths().into_iter().chain(common_sheath()).collect(),
    }
}

/// The conductor 5 K above the ambient, and sheath and armour as hot as it.
fn tepid(cable: &Words) -> Words {
    let armour = if armoured(cable) { 5000 } else { 0 };
    with(cable, &[(3, 5000), (4, 4500), (10, 0), (16, 5000), (19, armour)])
}

pub fn heat() -> Group {
    let mut edges = Vec::new();
    for cable in ALL {
        let cable = tepid(&cable);
        edges.push(edge(&cable, &[], &[], 0));
        edges.push(edge(&cable, &[], &[(4, 4501)], 6));
        edges.push(edge(&cable, &[], &[(16, 5001)], 6));
    }
    let armoured = tepid(&SL_TYPE);
    edges.push(edge(&armoured, &[], &[(19, 5001)], 6));
    // The rise is 4.99 K by a colder conductor too.
    edges.push(edge(&armoured, &[(16, 4999), (19, 4999)], &[(3, 4999)], 6));
    Group {
        remark: "A rise of 5 K, a sheath and an armour as hot as the conductor; 4.99 K, or hotter.",
        edges,
    }
}
