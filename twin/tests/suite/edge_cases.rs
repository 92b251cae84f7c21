// The edge cases get the answers that they are made for, the distances from a
// limit are those that are stated, and two refusals do hold at once.

use twin::cable::Cable;
use twin::edge_cases::common_sheath;
use twin::edge_cases::pairs::{all, Pair, ORDER};
use twin::edge_cases::skin::{with_skin, Nearest, NEAREST};
use twin::edge_cases::{groups, Edge};
use twin::rating::{rate, SKIN_LIMIT};
use twin::sample_cables::{FEEDER, TREFOIL};
use twin::stages::{skin_argument, skin_reactance, temperature_factor};
use twin::tables::{
    conductor_coefficient, metal_coefficient, proximity_coefficient, skin_coefficient,
};

#[test]
fn each_gets_the_answer_it_is_made_for() {
    for group in groups() {
        println!("{}: {} cases", group.remark, group.edges.len());
        for Edge { case, answer } in group.edges {
            assert_eq!(rate(&case).answer, answer, "{} {case:?}", group.remark);
        }
    }
}

#[test]
fn both_refusals_of_a_pair_hold() {
    for pair in all() {
        let Pair { case, earlier, later, .. } = &pair;
        assert!(pair.both_hold(), "{earlier} and {later}: {case:?}");
    }
}

/// What is not tried in the arrangement that alone 33 is for.
const NOT_WITH_DIRECT_CURRENT: [u32; 3] = [7, 8, 9];

/// Every two of the refusals, in the order in which they are tried.
#[test]
fn every_pair_of_refusals_is_among_them() {
    assert_eq!(ORDER, [1, 2, 3, 4, 5, 6, 31, 32, 7, 33, 8, 9, 10, 11]);
    let pairs = all();
    for (place, earlier) in ORDER.iter().enumerate() {
        for later in &ORDER[place + 1..] {
            let found = pairs.iter().any(|pair| (pair.earlier, pair.later) == (*earlier, *later));
            let other = if *later == 33 { earlier } else { later };
            let apart = [*earlier, *later].contains(&33) && NOT_WITH_DIRECT_CURRENT.contains(other);
            assert_eq!(found, !apart, "{earlier} and {later}");
        }
    }
    assert!(pairs.iter().all(|pair| ORDER.contains(&pair.earlier) && ORDER.contains(&pair.later)));
}

/// Every two of those that direct current can get, but 10 with 11, which the sun keeps
/// apart.
#[test]
fn every_pair_of_direct_currents_refusals_is_among_them() {
    let pairs = all();
    let own = |number: &&u32| !NOT_WITH_DIRECT_CURRENT.contains(number);
    let order: Vec<u32> = ORDER.iter().filter(own).copied().collect();
    for (place, earlier) in order.iter().enumerate() {
        for later in &order[place + 1..] {
            let of_both = |pair: &&Pair| (pair.earlier, pair.later) == (*earlier, *later);
            let found = pairs.iter().filter(of_both).any(|pair| pair.cable == FEEDER);
            assert_eq!(found, (*earlier, *later) != (10, 11), "{earlier} and {later}");
        }
    }
}

/// How far a z lies above the limit of refusal 8.
fn above_limit(z: u128) -> i64 {
    z as i64 - SKIN_LIMIT as i64
}

#[test]
fn distances_from_the_skin_limit_are_those_stated() {
    for (codes, near) in &NEAREST {
        for &code in *codes {
            for near in near {
                let z = Cable::of(&with_skin(&TREFOIL, code, near)).skin_arguments();
                let [by_ks, by_kp] = z.map(above_limit);
                assert_eq!(by_ks.max(by_kp), near.distance, "{code}");
                assert_eq!(by_kp > by_ks, code >= 6, "{code}");
            }
        }
    }
}

/// The nearest distances at or below the limit and above it, over every
/// frequency, R0 and temperature of a conductor code.
fn nearest_of_all(code: u32) -> [i64; 2] {
    let k = skin_coefficient(code).max(proximity_coefficient(code));
    let alpha = conductor_coefficient(code);
    let mut nearest = [i64::MIN, i64::MAX];
    for f in 1000..=6500 {
        let a = skin_reactance(f, k);
        let product = a as f64 / 7.84;
        // Beyond these no temperature in its limits brings z to the limit.
        let [coldest, hottest] = [4000, 25000].map(|theta| temperature_factor(alpha, theta));
        let low = (product / hottest as f64).max(5000.0) as u128;
        for r0 in low..=(product / coldest as f64) as u128 + 1 {
            let theta = 2000.0 + (product / r0 as f64 - 1e7) / alpha as f64;
            // z moves by some 10^-8 of itself for this part of a step.
            if (theta - theta.round()).abs() > 1e-4 || !(3999.9..25000.1).contains(&theta) {
                continue;
            }
            let factor = temperature_factor(alpha, theta.round() as i64);
            let distance = above_limit(skin_argument(a, r0 * factor as u128));
            let side = usize::from(distance > 0);
            if distance.abs() < nearest[side].saturating_abs() {
                nearest[side] = distance;
            }
        }
    }
    nearest
}

#[test]
fn no_z_is_nearer_to_the_limit() {
    for (codes, near) in &NEAREST {
        let stated: Vec<i64> = near.iter().map(|near: &Nearest| near.distance).collect();
        assert_eq!(nearest_of_all(codes[0])[..], stated, "{codes:?}");
    }
}

/// The Rs at which a common sheath's loss changes its formula, 100 micro-ohm/m.
const TURN: i64 = 1_000_000_000_000;

#[test]
fn distances_from_the_change_of_formula_are_those_stated() {
    for near in &common_sheath::NEAREST {
        let rs = Cable::of(&common_sheath::with_sheath(near)).rs as i64;
        assert_eq!(rs - TURN, near.distance, "{} {}", near.metal, near.resistance);
    }
}

/// The nearest distances below and above the change of formula over every
/// resistance and temperature of a metal, and whether some Rs is at it.
fn nearest_rs_of_all(metal: u32) -> ([i64; 2], bool) {
    let mut nearest = [i64::MIN, i64::MAX];
    let mut at = false;
    for theta in -4000..=25000 {
        let factor = temperature_factor(metal_coefficient(metal), theta);
        // Resistances near this one are well within their limits.
        let last = TURN / factor;
        for distance in (last - 1..=last + 1).map(|resistance| resistance * factor - TURN) {
            at |= distance == 0;
            if distance < 0 {
                nearest[0] = distance.max(nearest[0]);
            } else if distance > 0 {
                nearest[1] = distance.min(nearest[1]);
            }
        }
    }
    (nearest, at)
}

#[test]
fn no_rs_is_nearer_to_the_change_of_formula() {
    let mut nearest_of_any = [i64::MIN, i64::MAX];
    for (metal, near) in (1..).zip(common_sheath::NEAREST.chunks(3)) {
        let stated: Vec<i64> = near.iter().map(|near| near.distance).collect();
        let ([below, above], at) = nearest_rs_of_all(metal);
        assert!(at && near.iter().all(|near| near.metal == metal), "{metal}");
        assert_eq!(stated, [below, 0, above], "{metal}");
        nearest_of_any = [below.max(nearest_of_any[0]), above.min(nearest_of_any[1])];
    }
    assert_eq!(nearest_of_any, [-64, 332]);
}
