// A case's answer: the refusals 1 to 6, 31, 32, 7, 33 and 8 to 11 tried in this order,
// then the rating in mA and the sheet. Those up to 33 are decided on the words alone;
// only a case that passes them reaches a stage, so the stages see fields in limits.

use crate::cable::Cable;
use crate::stages;
use crate::tables;

/// What a case gets: answer 0 and its rating, or a refusal number and zeros.
#[derive(Clone, Copy, Debug, PartialEq, Eq)]
pub struct Rated {
    pub answer: u32,
    pub rating: u32,
    pub sheet: [u64; 13],
}

impl Rated {
    /// What a case gets that a refusal refuses.
    pub fn refused(answer: u32) -> Rated {
        Rated { answer, rating: 0, sheet: [0; 13] }
    }
}

/// The number of fields of a case, and that of one as it was before the last
/// four: these then count as zero.
pub const WIDTH: usize = 30;
pub const OLDER_WIDTH: usize = 26;

/// The fields of a case, as they are written.
pub type Words = [u32; WIDTH];

/// The case of an older one's fields.
pub fn from_older(older: &[u32; OLDER_WIDTH]) -> Words {
    std::array::from_fn(|field| older.get(field).copied().unwrap_or(0))
}

/// The last arrangement, whose current is direct. In all others it alternates.
pub const DIRECT_CURRENT: u32 = 7;

/// The largest U0 that passes refusal 33, the largest z that passes 8, and the largest
/// rating that passes 11.
pub const DIRECT_VOLTAGE_LIMIT: u32 = 5000;
pub const SKIN_LIMIT: u128 = 7_840_000_000_000;
pub const CURRENT_LIMIT: u128 = 5_000_000;

/// Lowest and highest permitted value of fields 2 to 29, in their order. Field 27
/// may be 0 as well.
const LIMITS: [(i64, i64); 28] = [
    (1000, 6500),
    (4000, 25000),
    (-4000, 6000),
    (5000, 20_000_000),
    (100, 10000),
    (100, 1_000_000),
    (100, 20000),
    (100, 30000),
    (0, 300_000),
    (100, 800),
    (1, 10000),
    (100, 50000),
    (1, 6),
    (1000, 20_000_000),
    (-4000, 25000),
    (1, 6),
    (1000, 20_000_000),
    (-4000, 25000),
    (100, 50000),
    (100, 50000),
    (1000, 10_000_000),
    (0, 10_000_000),
    (0, 10_000_000),
    (10000, 20_000_000),
    (0, 300_000),
    (1000, 5000),
    (-4000, 25000),
    (0, 200_000),
];

/// The limits of any field: those of refusals 1 and 2, and of 3.
pub fn limits(field: usize) -> (i64, i64) {
    match field {
        0 => (1, DIRECT_CURRENT.into()),
        1 => (1, 8),
        _ => LIMITS[field - 2],
    }
}

/// A field's value; the temperatures are two's complement.
pub fn value(case: &Words, field: usize) -> i64 {
    match field {
        3 | 4 | 16 | 19 | 28 => i64::from(case[field] as i32),
        _ => i64::from(case[field]),
    }
}

/// Whether the case's current is direct, so that it has no skin, proximity, sheath,
/// armour or dielectric term.
pub fn direct(case: &Words) -> bool {
    case[0] == DIRECT_CURRENT
}

/// Only the SL cable has armour.
pub fn armoured(case: &Words) -> bool {
    case[0] == 5
}

/// The SL cable, and the one with a common sheath.
pub fn three_cores(case: &Words) -> bool {
    matches!(case[0], 5 | 6)
}

/// Whether currents circulate in the sheaths, by X and the logarithm of 2s/d. The
/// others with alternating current have eddies only, and no use for either.
pub fn circulating(case: &Words) -> bool {
    matches!(case[0], 1 | 2 | 5)
}

/// Whether the dielectric loss counts: with alternating current, from the voltage in
/// field 26 on.
pub fn loss_counts(case: &Words) -> bool {
    !direct(case) && case[10] >= case[26]
}

/// Whether soil dries out around the cable: field 27 is v then, and 0 else.
pub fn dry_soil(case: &Words) -> bool {
    case[27] != 0
}

/// Whether the sun heats the cable: field 29 is the heat that it takes up.
pub fn in_the_sun(case: &Words) -> bool {
    case[29] != 0
}

/// Whether the case's arrangement has a field: frequency, spacing, permittivity, loss
/// factor and the sheath's are alternating current's, the armour's are the SL cable's,
/// and c both three-core cables'.
pub fn has_field(case: &Words, field: usize) -> bool {
    match field {
        2 | 7 | 11..=16 => !direct(case),
        17..=19 | 21 => armoured(case),
        20 => three_cores(case),
        _ => true,
    }
}

// Refusals 1 to 7 and 31 to 33. Each looks at 32-bit values held in i64 and multiplies
// by 105 at most, so none can overflow whatever the words are.

fn arrangement_wrong(case: &Words) -> bool {
    !(1..=DIRECT_CURRENT).contains(&case[0])
}

fn conductor_wrong(case: &Words) -> bool {
    !(1..=8).contains(&case[1])
}

/// Whether a field has a value that it may not have. One that the arrangement has not has
/// no limits; the isotherm's hold without dry soil too.
pub fn outside_limits(case: &Words, field: usize) -> bool {
    let (low, high) = limits(field);
    let without_soil = field == 27 && !dry_soil(case);
    has_field(case, field) && !without_soil && !(low..=high).contains(&value(case, field))
}

fn limit_passed(case: &Words) -> bool {
    (2..WIDTH).any(|field| outside_limits(case, field))
}

/// Whether a field must be zero: one that the arrangement has not, and the isotherm's
/// where no soil dries out.
pub fn must_be_zero(case: &Words, field: usize) -> bool {
    !has_field(case, field) || (field == 28 && !dry_soil(case))
}

fn field_stray(case: &Words) -> bool {
    (0..WIDTH).any(|field| must_be_zero(case, field) && case[field] != 0)
}

fn geometry_wrong(case: &Words) -> bool {
    let (dc, s, ds, di) = (value(case, 6), value(case, 7), value(case, 8), value(case, 9));
    let (d, c, d_armour) = (value(case, 13), value(case, 20), value(case, 21));
    let core_wrong = dc > ds || 100 * di < 105 * ds;
    let outside_wrong = match case[0] {
        5 => di > d || d > s || 2 * c > d_armour,
        // One sheath goes round all three cores, so s may be smaller than d.
        6 => di > d || dc > s || 2 * c > d,
        // Neither d nor s is given.
        DIRECT_CURRENT => false,
        _ => di > d || d > s,
    };
    core_wrong || outside_wrong
}

fn heat_wrong(case: &Words) -> bool {
    let conductor = value(case, 3);
    let hotter = |field| has_field(case, field) && value(case, field) > conductor;
    conductor - value(case, 4) < 500 || hotter(16) || hotter(19)
}

/// The soil dries out where it is hotter than the critical isotherm, which must lie
/// between the ambient and the conductor.
fn isotherm_wrong(case: &Words) -> bool {
    dry_soil(case) && !(value(case, 4)..=value(case, 3)).contains(&value(case, 28))
}

/// A cable that the sun heats lies in no soil that could dry out.
fn sun_wrong(case: &Words) -> bool {
    dry_soil(case) && in_the_sun(case)
}

fn metal_wrong(case: &Words) -> bool {
    let needs_lead = matches!(case[0], 3..=5);
    (needs_lead && case[14] != tables::LEAD) || (armoured(case) && case[17] != tables::STEEL)
}

/// The standard has its formula of direct current for cables up to 5 kV.
fn direct_voltage_wrong(case: &Words) -> bool {
    direct(case) && case[10] > DIRECT_VOLTAGE_LIMIT
}

type EarlyTest = fn(&Words) -> bool;
type LateTest = fn(&Cable) -> bool;

/// Refusals with their tests, in the order in which they are tried.
const EARLY_REFUSALS: [(u32, EarlyTest); 10] = [
    (1, arrangement_wrong),
    (2, conductor_wrong),
    (3, limit_passed),
    (4, field_stray),
    (5, geometry_wrong),
    (6, heat_wrong),
    (31, isotherm_wrong),
    (32, sun_wrong),
    (7, metal_wrong),
    (33, direct_voltage_wrong),
];

/// The first of them that holds.
fn early_refusal(case: &Words) -> Option<u32> {
    EARLY_REFUSALS.iter().find(|(_, holds)| holds(case)).map(|&(number, _)| number)
}

// Refusals 8 to 11, on stage values.

/// Refusal 8: the skin effect's formula does not reach so far.
pub fn skin_refused(z: u128) -> bool {
    z > SKIN_LIMIT
}

/// Refusal 9: m would be over 0.1, where the corrections may not be dropped.
pub fn eddy_refused(b_high: u128, rs: u128) -> bool {
    5 * b_high > rs
}

/// Refusal 10: the dielectric loss and the sun take over nine tenths of the
/// permitted rise.
pub fn dielectric_refused(d0: u128, permitted: u128) -> bool {
    10 * d0 > 9 * permitted
}

/// Refusal 11: the rating is over 5000 A.
pub fn current_refused(current: u128) -> bool {
    current > CURRENT_LIMIT
}

// Each of refusals 8 to 11 of a cable, by itself.

fn skin_holds(cable: &Cable) -> bool {
    cable.skin_arguments().into_iter().any(skin_refused)
}

fn eddy_holds(cable: &Cable) -> bool {
    cable.bonded_at_one_point() && eddy_refused(cable.b_high, cable.rs)
}

fn dielectric_holds(cable: &Cable) -> bool {
    dielectric_refused(cable.rise_without_current(), cable.permitted_rise())
}

fn current_holds(cable: &Cable) -> bool {
    cable.current().is_some_and(current_refused)
}

/// After the early ones, in this order.
const LATE_REFUSALS: [(u32, LateTest); 4] =
    [(8, skin_holds), (9, eddy_holds), (10, dielectric_holds), (11, current_holds)];

/// Whether the test of a refusal, 1 to 11 or 31 to 33, holds of a case, whatever the
/// others say. For 8 to 11 its codes must be in the tables, Di not below ds and v
/// not below that of moist soil, and the fields near enough to their limits that no
/// product overflows.
pub fn holds(refusal: u32, case: &Words) -> bool {
    if let Some((_, early)) = EARLY_REFUSALS.iter().find(|(number, _)| *number == refusal) {
        return early(case);
    }
    let late = LATE_REFUSALS.iter().find(|(number, _)| *number == refusal);
    late.expect("a refusal of a case").1(&Cable::of(case))
}

fn refuse(number: u32, when: bool) -> Result<(), u32> {
    if when {
        Err(number)
    } else {
        Ok(())
    }
}

/// The rating and the sheet, or the lowest of refusals 8 to 11.
fn rate_cable(cable: &Cable) -> Result<(u32, [u64; 13]), u32> {
    let z = cable.skin_arguments();
    refuse(8, z.into_iter().any(skin_refused))?;
    let (ys, yp, r) = cable.conductor(z);
    refuse(9, eddy_holds(cable))?;
    let (x, s) = cable.sheath();
    let w = cable.armour_loss();
    let (wd, dd) = cable.dielectric();
    let d0 = stages::rise_without_current(dd, cable.solar_rise());
    let permitted = cable.permitted_rise();
    refuse(10, dielectric_refused(d0, permitted))?;
    let n_left = stages::rise_left(permitted, d0);
    let e = stages::effective_resistance(r, s, w, &cable.thermal());
    let current = stages::largest_current(n_left, e);
    refuse(11, current_refused(current))?;
    let sheet = [cable.rc, cable.rs, cable.ra, cable.b_high, ys, yp, r, x, s, w, wd, dd, e];
    // The current is at most 5000000. E is the largest of the sheet and stays
    // below 10^18 with the fields' limits: no number loses a digit.
    Ok((current as u32, sheet.map(|number| number as u64)))
}

/// Rates a case of any words.
pub fn rate(case: &Words) -> Rated {
    let result = match early_refusal(case) {
        Some(number) => Err(number),
        None => rate_cable(&Cable::of(case)),
    };
    match result {
        Ok((rating, sheet)) => Rated { answer: 0, rating, sheet },
        Err(answer) => Rated::refused(answer),
    }
}
