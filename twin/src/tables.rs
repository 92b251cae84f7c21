// The two constant tables: the metals' temperature coefficients (Table 1 of
// the standard) and the conductors' skin and proximity coefficients (Table 2
// as amendment 2 has it).

pub const LEAD: u32 = 1;
pub const STEEL: u32 = 6;

/// Temperature coefficients of metals 1 to 6, in 10^-5 per K: lead, aluminium,
/// copper, bronze, stainless steel (negligible), steel.
const METAL_COEFFICIENTS: [i64; 6] = [400, 403, 393, 300, 0, 450];

/// ks and kp of conductor codes 1 to 8, in thousandths. The aluminium rows
/// take their kp from the similar copper conductor (note d of the table).
const CONDUCTOR_COEFFICIENTS: [(u128, u128); 8] = [
    (1000, 800),
    (1000, 1000),
    (435, 370),
    (1000, 800),
    (1000, 1000),
    (280, 370),
    (190, 370),
    (120, 370),
];

const COPPER_COEFFICIENT: i64 = 393;
const ALUMINIUM_COEFFICIENT: i64 = 403;
const LAST_COPPER_CODE: u32 = 3;

/// Temperature coefficient of a sheath or armour metal, 1 to 6.
pub fn metal_coefficient(metal: u32) -> i64 {
    METAL_COEFFICIENTS[metal as usize - 1]
}

/// Temperature coefficient of a conductor by its code, 1 to 8.
pub fn conductor_coefficient(code: u32) -> i64 {
    if code <= LAST_COPPER_CODE {
        COPPER_COEFFICIENT
    } else {
        ALUMINIUM_COEFFICIENT
    }
}

/// ks of a conductor code, 1 to 8, in thousandths.
pub fn skin_coefficient(code: u32) -> u128 {
    CONDUCTOR_COEFFICIENTS[code as usize - 1].0
}

/// kp of a conductor code, 1 to 8, in thousandths.
pub fn proximity_coefficient(code: u32) -> u128 {
    CONDUCTOR_COEFFICIENTS[code as usize - 1].1
}
