// Real-looking cables, which the edge cases and the tests alter: one of each
// arrangement, of the sixth for each of its formulas, and one for each of the
// fields that came later.

use crate::rating::Words;

/// 500 mm2 copper, lead sheath, 64/110 kV paper, bonded at both ends.
pub const TREFOIL: Words = [
    1, 1, 5000, 8500, 1500, 36600, 2640, 7200, 2840, 5640, 64000, 350, 330, 6100, 1, 310_000, 7500,
    0, 0, 0, 0, 0, 520_000, 0, 60_000, 1_650_000, 0, 0, 0, 0,
];

/// The same flat, transposed, with an aluminium sheath.
pub const FLAT: Words = [
    2, 2, 5000, 9000, 2000, 36600, 2640, 20000, 2840, 5640, 64000, 250, 100, 6100, 2, 90_000, 8000,
    0, 0, 0, 0, 0, 480_000, 0, 70_000, 1_400_000, 0, 0, 0, 0,
];

/// Trefoil, lead sheaths bonded at one point.
pub const TREFOIL_SINGLE_POINT: Words = [
    3, 1, 5000, 8500, 1500, 36600, 2640, 7200, 2840, 5640, 64000, 350, 330, 6100, 1, 310_000, 7500,
    0, 0, 0, 0, 0, 520_000, 0, 60_000, 1_650_000, 0, 0, 0, 0,
];

/// Flat, lead sheaths bonded at one point, aluminium of four segments.
pub const FLAT_SINGLE_POINT: Words = [
    4, 6, 5000, 9000, 2000, 24700, 4010, 25000, 4210, 7810, 127_000, 250, 100, 8300, 1, 330_000,
    7800, 0, 0, 0, 0, 0, 420_000, 30_000, 65_000, 1_300_000, 0, 0, 0, 0,
];

/// Three-core SL cable of 19/33 kV, steel wire armour.
pub const SL_TYPE: Words = [
    5, 1, 5000, 8500, 1500, 124_000, 1450, 4200, 1750, 3600, 19000, 350, 1000, 4000, 1, 1_000_000,
    6000, 6, 250_000, 5500, 2500, 11000, 350_000, 40_000, 60_000, 450_000, 0, 0, 0, 0,
];

/// 240 mm2 copper of 12/20 kV, three cores under one lead sheath, whose Rs is
/// above 100 micro-ohm/m.
pub const COMMON_SHEATH: Words = [
    6, 2, 5000, 9000, 2000, 75400, 1850, 3210, 1970, 3070, 12000, 250, 400, 7377, 1, 355_169, 8118,
    0, 0, 0, 1853, 0, 406_119, 0, 51159, 869_665, 0, 0, 0, 0,
];

/// 240 mm2 aluminium of 12/20 kV, three cores under one aluminium sheath, whose
/// Rs is below 100 micro-ohm/m.
pub const COMMON_ALUMINIUM_SHEATH: Words = [
    6, 5, 5000, 9000, 2000, 125_000, 1850, 3210, 1970, 3070, 12000, 250, 400, 7297, 2, 68830, 8147,
    0, 0, 0, 1853, 0, 406_119, 0, 51444, 874_605, 0, 0, 0, 0,
];

/// 95 mm2 copper of 0.6/1 kV, three cores with PVC insulation under one concentric
/// conductor of copper, and a loss that counts from 6 kV on.
pub const LOW_VOLTAGE: Words = [
    6, 1, 5000, 7000, 2000, 193_000, 1150, 1470, 1150, 1470, 600, 800, 10000, 3500, 3, 387_000,
    6200, 0, 0, 0, 849, 0, 450_000, 0, 83_000, 674_000, 6000, 0, 0, 0,
];

/// A traction feeder of 1.5 kV: one of three cables of 500 mm2 copper of 1.8/3 kV with
/// direct current in each.
pub const FEEDER: Words = [
    7, 2, 0, 9000, 2000, 36600, 2630, 0, 2630, 3070, 1500, 0, 0, 0, 0, 0, 0, 0, 0, 0, 0, 0, 86171,
    0, 119_012, 1_791_461, 0, 0, 0, 0,
];

/// The same three cables as a circuit of 1.8/3 kV with alternating current, whose
/// screens are bonded at both ends.
pub const FEEDER_ALTERNATING: Words = [
    1, 2, 5000, 9000, 2000, 36600, 2630, 4000, 2630, 3070, 1800, 250, 400, 3420, 3, 524_000, 8720,
    0, 0, 0, 0, 0, 86171, 0, 119_012, 1_791_461, 127_000, 0, 0, 0,
];

/// All with alternating current in moist soil whose loss counts at every voltage, by
/// rising arrangement: the first four are single-core, and the last two have a common
/// sheath.
pub const ALL: [Words; 7] = [
    TREFOIL,
    FLAT,
    TREFOIL_SINGLE_POINT,
    FLAT_SINGLE_POINT,
    SL_TYPE,
    COMMON_SHEATH,
    COMMON_ALUMINIUM_SHEATH,
];

/// The SL cable in soil that dries out above 50 degrees, to two and a half times its
/// resistivity.
pub const DRY_SOIL: Words = [
    5, 1, 5000, 8500, 1500, 124_000, 1450, 4200, 1750, 3600, 19000, 350, 1000, 4000, 1, 1_000_000,
    6000, 6, 250_000, 5500, 2500, 11000, 350_000, 40_000, 60_000, 450_000, 0, 2500, 5000, 0,
];

/// The SL cable in the sun, of which it takes up 30 W/m.
pub const IN_THE_SUN: Words = [
    5, 1, 5000, 8500, 1500, 124_000, 1450, 4200, 1750, 3600, 19000, 350, 1000, 4000, 1, 1_000_000,
    6000, 6, 250_000, 5500, 2500, 11000, 350_000, 40_000, 60_000, 450_000, 0, 0, 0, 30_000,
];

/// COMMON_SHEATH on a bridge, in air of 30 degrees, where the sun's 1000 W/m2 give it
/// 33.48 W/m.
pub const ON_A_BRIDGE: Words = [
    6, 2, 5000, 9000, 3000, 75400, 1850, 3210, 1970, 3070, 12000, 250, 400, 7377, 1, 355_169, 7658,
    0, 0, 0, 1853, 0, 406_119, 0, 51159, 307_819, 0, 0, 0, 33480,
];

/// The case with some fields set anew, in order: a later change overrides.
pub fn with(case: &Words, changes: &[(usize, u32)]) -> Words {
    let mut altered = *case;
    for &(field, word) in changes {
        altered[field] = word;
    }
    altered
}
