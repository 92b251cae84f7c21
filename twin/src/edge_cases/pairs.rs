// Cases in which two refusals hold at once, so that the earlier is answered:
// every pair of refusals 1 to 11 and 31 to 33 but those of 33 with 7, 8 and 9, and every
// pair of those that a cable with a common sheath can get and that one of direct current
// can. A test asks both tests by themselves.
//
// Some pairs cannot hold as the documents state the tests, but the case is kept,
// since the later test holds once the arrangement or the conductor code is put
// right, and must not be tried before it is seen to be wrong:
// 1 with 4, 7, 9 and 33, which are stated for some of arrangements 1 to 7 only;
// 1 with 11, as E is stated for arrangements 1 to 7;
// 2 with 8 and 11, as ks, kp and the temperature coefficient are for codes 1 to 8.
// 3 by the loss voltage is not with 10 by the loss: beyond its limits it is above every
// U0, so that the loss does not count. 4 by the isotherm is not with 31 and 32, which
// ask for a v. 10 by the sun, and so 10 of direct current, is not with 11: the thermal
// resistances by which a current is too large leave the sun little. 33 is of direct
// current, for which 7, 8 and 9 are not tried.

use super::{Edge, Group};
use crate::rating::{holds, Words};
use crate::sample_cables::{with, COMMON_SHEATH, FEEDER, SL_TYPE, TREFOIL_SINGLE_POINT};

type Changes = &'static [(usize, u32)];

/// A refusal and changes to a cable that bring it about.
type Bring = (u32, Changes);

const COLD: u32 = (-4000i32) as u32;

/// The order in which the refusals are tried, as document 02 has it.
pub const ORDER: [u32; 14] = [1, 2, 3, 4, 5, 6, 31, 32, 7, 33, 8, 9, 10, 11];

fn place(refusal: u32) -> usize {
    ORDER.iter().position(|&number| number == refusal).expect("a refusal of a case")
}

/// Changes to the trefoil bonded at one point that bring about each refusal,
/// chosen so that they hardly disturb one another. The pairs apply the later
/// refusal's changes first, so 8's lower R0 stands over 11's.
pub const BRINGS: [Bring; 13] = [
    (1, &[(0, 8)]),
    (2, &[(1, 9)]),
    (3, &[(11, 801)]),
    (4, &[(17, 1)]),
    (5, &[(6, 2841)]),
    (6, &[(16, 8501)]),
    HOT_ISOTHERM,
    SUN_ON_DRY_SOIL,
    (7, &[(14, 3)]),
    (8, &[(5, 5000)]),
    (9, &[(15, 1000)]),
    (10, &[(9, 3180), (10, 300_000), (11, 800), (12, 10000)]),
    (11, &[(4, COLD), (5, 16000), (15, 20_000_000), (22, 1000), (24, 0), (25, 10000)]),
];

/// Changes to the SL cable that bring about a refusal by a core's field, and by
/// the armour's.
const BY_CORE_OR_ARMOUR: [(u32, Changes, Changes); 4] = [
    (3, &[(11, 801)], &[(18, 999)]),
    (5, &[(6, 1751)], &[(20, 5501)]),
    (6, &[(16, 8501)], &[(19, 8501)]),
    (7, &[(14, 3)], &[(17, 5)]),
];

/// As BRINGS, for the cable with a common sheath, which may be of any metal and
/// any resistance, so that 7 and 9 cannot hold. 8's frequency and R0 stand over
/// 11's.
pub const COMMON_BRINGS: [Bring; 11] = [
    (1, &[(0, 8)]),
    (2, &[(1, 9)]),
    (3, &[(11, 801)]),
    (4, &[(17, 1)]),
    (5, &[(6, 1971)]),
    (6, &[(16, 9001)]),
    HOT_ISOTHERM,
    SUN_ON_DRY_SOIL,
    (8, &[(2, 6500), (5, 5000)]),
    (10, &[(9, 2099), (10, 300_000), (11, 800), (12, 10000)]),
    (11, &[(2, 1000), (4, COLD), (5, 5000), (15, 20_000_000), (22, 1000), (24, 0), (25, 10000)]),
];

/// As BRINGS, for the feeder with direct current, which nothing but the sun can have
/// refused by 10: MOST_SUN is for that.
pub const DIRECT_BRINGS: [Bring; 10] = [
    (1, &[(0, 8)]),
    (2, &[(1, 9)]),
    (3, &[(22, 999)]),
    (4, &[(2, 5000)]),
    (5, &[(6, 2631)]),
    (6, &[(3, 4400), (4, 4000)]),
    HOT_ISOTHERM,
    SUN_ON_DRY_SOIL,
    (33, &[(10, 5001)]),
    (11, &[(5, 5000), (22, 1000), (23, 0), (24, 0), (25, 10000)]),
];

/// Other changes to it, by what arrangement 7 alone asks: fields that others have and
/// that must be zero here, a sheath hotter than the conductor among them, and the last U0
/// of its limits and one beyond.
const DIRECT_OWN: [Bring; 8] = [
    (3, &[(10, 300_001)]),
    (4, &[(7, 1)]),
    (4, &[(11, 801)]),
    (4, &[(14, 3)]),
    (4, &[(16, 9001)]),
    (4, &[(20, 100)]),
    (5, &[(9, 2761)]),
    (33, &[(10, 300_000)]),
];

/// Other changes to COMMON_SHEATH, by what arrangement 6 alone asks: limits of c but a dA of
/// 0, dc at most s, and 2c at most d.
const COMMON_OWN: [Bring; 4] =
    [(3, &[(20, 99)]), (4, &[(21, 1)]), (5, &[(7, 1849)]), (5, &[(20, 3689)])];

// Changes to any cable, by the fields that all arrangements have alike.

const LOSS_VOLTAGE: Bring = (3, &[(26, 300_001)]);
const SOIL_RATIO: Bring = (3, &[(27, 5001)]);
const ISOTHERM_BEYOND: Bring = (3, &[(27, 2000), (28, 25001)]);
/// The same without a v.
const ISOTHERM_BEYOND_ALONE: Bring = (3, &[(28, 25001)]);
const HEAT_BEYOND: Bring = (3, &[(29, 200_001)]);
const STRAY_ISOTHERM: Bring = (4, &[(28, 5000)]);
/// Hotter than any conductor that is not the hottest.
const HOT_ISOTHERM: Bring = (31, &[(27, 2000), (28, 25000)]);
/// Colder than any ambient that is not the coldest, with a v of moist soil.
const COLD_ISOTHERM: Bring = (31, &[(27, 1000), (28, COLD)]);
/// The least heat.
const SUN_ON_DRY_SOIL: Bring = (32, &[(27, 2000), (28, 5000), (29, 1)]);
/// The most, with a v of moist soil.
const SUN_ON_MOIST_SOIL: Bring = (32, &[(27, 1000), (28, 3000), (29, 200_000)]);
const MOST_SUN: Bring = (10, &[(29, 200_000)]);

/// Each with the refusals of other changes that it cannot hold together with, or only
/// in another's case: 11's make the ambient the coldest, and those of 31 and 32 make a
/// dry zone or another heat.
const ALIKE: [(Bring, &[u32]); 9] = [
    (LOSS_VOLTAGE, &[10]),
    (SOIL_RATIO, &[]),
    (ISOTHERM_BEYOND, &[]),
    (ISOTHERM_BEYOND_ALONE, &[31, 32]),
    (HEAT_BEYOND, &[]),
    (STRAY_ISOTHERM, &[31, 32]),
    (COLD_ISOTHERM, &[11]),
    (SUN_ON_MOIST_SOIL, &[]),
    (MOST_SUN, &[31, 32, 11]),
];

/// Those of them that hold together, the earlier first.
const ALIKE_PAIRS: [(Bring, Bring); 17] = [
    (LOSS_VOLTAGE, STRAY_ISOTHERM),
    (LOSS_VOLTAGE, COLD_ISOTHERM),
    (LOSS_VOLTAGE, SUN_ON_MOIST_SOIL),
    (LOSS_VOLTAGE, MOST_SUN),
    (SOIL_RATIO, COLD_ISOTHERM),
    (SOIL_RATIO, SUN_ON_MOIST_SOIL),
    (ISOTHERM_BEYOND, SUN_ON_MOIST_SOIL),
    (ISOTHERM_BEYOND_ALONE, STRAY_ISOTHERM),
    (ISOTHERM_BEYOND_ALONE, MOST_SUN),
    (HEAT_BEYOND, STRAY_ISOTHERM),
    (HEAT_BEYOND, COLD_ISOTHERM),
    (HEAT_BEYOND, SUN_ON_MOIST_SOIL),
    (HEAT_BEYOND, MOST_SUN),
    (STRAY_ISOTHERM, MOST_SUN),
    (COLD_ISOTHERM, SUN_ON_MOIST_SOIL),
    (COLD_ISOTHERM, MOST_SUN),
    (SUN_ON_MOIST_SOIL, MOST_SUN),
];

/// A case, the cable that it was made of, and the two refusals that hold of it,
/// the earlier first.
pub struct Pair {
    pub cable: Words,
    pub case: Words,
    pub earlier: u32,
    pub later: u32,
}

impl Pair {
    /// The case that the later test is asked of: with a right arrangement or
    /// conductor code in place of the wrong one, which most of them need.
    fn mended(&self) -> Words {
        match self.earlier {
            1 => with(&self.case, &[(0, self.cable[0])]),
            2 => with(&self.case, &[(1, self.cable[1])]),
            _ => self.case,
        }
    }

    /// Whether both tests hold, each asked by itself.
    pub fn both_hold(&self) -> bool {
        holds(self.earlier, &self.case) && holds(self.later, &self.mended())
    }
}

/// The cable with the changes of both refusals.
fn pair(cable: &Words, earlier: Bring, later: Bring) -> Pair {
    let case = with(&with(cable, later.1), earlier.1);
    Pair { cable: *cable, case, earlier: earlier.0, later: later.0 }
}

/// Every pair of a cable's refusals.
fn every_pair(cable: &Words, brings: &[Bring]) -> Vec<Pair> {
    let mut pairs = Vec::new();
    for (index, &earlier) in brings.iter().enumerate() {
        pairs.extend(brings[index + 1..].iter().map(|&later| pair(cable, earlier, later)));
    }
    pairs
}

/// Those of the SL cable's own tests, once with the armour's part first and once
/// with the core's.
fn armour_pairs() -> Vec<Pair> {
    let mut pairs = Vec::new();
    for (index, &(earlier, core, armour)) in BY_CORE_OR_ARMOUR.iter().enumerate() {
        for &(later, later_core, later_armour) in &BY_CORE_OR_ARMOUR[index + 1..] {
            pairs.push(pair(&SL_TYPE, (earlier, armour), (later, later_core)));
            pairs.push(pair(&SL_TYPE, (earlier, core), (later, later_armour)));
        }
    }
    pairs
}

/// Those of one way to bring about a refusal with each other refusal.
fn pairs_with(cable: &Words, own: Bring, brings: &[Bring]) -> Vec<Pair> {
    let others = brings.iter().filter(|other| other.0 != own.0);
    let in_order = |&other: &Bring| {
        if place(own.0) < place(other.0) {
            pair(cable, own, other)
        } else {
            pair(cable, other, own)
        }
    };
    others.map(in_order).collect()
}

/// Those of what one arrangement alone asks.
fn own_pairs(cable: &Words, own: &[Bring], brings: &[Bring]) -> Vec<Pair> {
    own.iter().flat_map(|&own| pairs_with(cable, own, brings)).collect()
}

/// Those of the fields that all arrangements have alike, with each other and with a
/// cable's refusals.
fn alike_pairs(cable: &Words, brings: &[Bring]) -> Vec<Pair> {
    let mut pairs = Vec::new();
    for (own, not_with) in ALIKE {
        let others = brings.iter().copied().filter(|bring| !not_with.contains(&bring.0));
        pairs.extend(pairs_with(cable, own, &others.collect::<Vec<Bring>>()));
    }
    pairs.extend(ALIKE_PAIRS.map(|(earlier, later)| pair(cable, earlier, later)));
    pairs
}

/// All of them.
pub fn all() -> Vec<Pair> {
    let mut pairs = every_pair(&TREFOIL_SINGLE_POINT, &BRINGS);
    pairs.extend(armour_pairs());
    pairs.extend(every_pair(&COMMON_SHEATH, &COMMON_BRINGS));
    pairs.extend(own_pairs(&COMMON_SHEATH, &COMMON_OWN, &COMMON_BRINGS));
    pairs.extend(every_pair(&FEEDER, &DIRECT_BRINGS));
    pairs.extend(own_pairs(&FEEDER, &DIRECT_OWN, &DIRECT_BRINGS));
    pairs.extend(alike_pairs(&TREFOIL_SINGLE_POINT, &BRINGS));
    let by_core = BY_CORE_OR_ARMOUR.map(|(number, core, _)| (number, core));
    pairs.extend(pairs_with(&SL_TYPE, HOT_ISOTHERM, &by_core));
    let brings = [&by_core[..], &[HOT_ISOTHERM, SUN_ON_DRY_SOIL]].concat();
    pairs.extend(pairs_with(&SL_TYPE, SUN_ON_DRY_SOIL, &brings));
    pairs.extend(alike_pairs(&SL_TYPE, &brings));
    pairs.extend(alike_pairs(&COMMON_SHEATH, &COMMON_BRINGS));
    pairs.extend(alike_pairs(&FEEDER, &DIRECT_BRINGS));
    pairs
}

pub fn pairs() -> Group {
    Group {
        remark: "Two refusals at once: the earlier is answered.",
        edges: all().iter().map(|pair| Edge { case: pair.case, answer: pair.earlier }).collect(),
    }
}
