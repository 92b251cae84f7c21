// Cases made by dice: sound ones, sound ones with some words replaced, a
// mixture of rated and refused ones for the records of a book, rated ones, and
// ones at the edge of a limit or of a refusal, of any arrangement or of direct current.

use crate::dice::Dice;
use crate::rating::{
    dry_soil, has_field, holds, in_the_sun, limits, rate, value, Rated, Words, DIRECT_CURRENT,
    DIRECT_VOLTAGE_LIMIT, WIDTH,
};
use crate::sample_cables::with;
use crate::stages::{temperature_factor, LARGEST_RS_OF_SUM};
use crate::tables::metal_coefficient;
use crate::turning::first;

/// The fields by their values, before they are written as words.
type Values = [i64; WIDTH];

/// Puts an SL cable's armour, past every refusal of it.
fn put_armour(case: &mut Values, dice: &mut Dice) {
    let resistance = dice.between(1000, 20_000_000);
    let theta = dice.between(-4000, case[3]);
    let diameter = dice.between(200, 50000);
    let c = dice.between(100, diameter / 2);
    case[17..=21].copy_from_slice(&[6, resistance, theta, c, diameter]);
}

/// dc, s, ds, Di and d, past the refusal of geometry.
fn sound_dimensions(dice: &mut Dice) -> [i64; 5] {
    let ds = dice.between(100, 20000);
    let di = dice.between((105 * ds + 99) / 100, 30000);
    let d = dice.between(di, 50000);
    [dice.between(100, ds.min(10000)), dice.between(d, 1_000_000), ds, di, d]
}

/// The resistance of a common sheath that is to have this factor of its
/// temperature: of every order of magnitude, so that both formulas of its loss
/// are used, and often the last that takes the first of them or one beside it.
fn common_sheath_resistance(dice: &mut Dice, factor: i64) -> i64 {
    let last = LARGEST_RS_OF_SUM as i64 / factor;
    match dice.roll() % 4 {
        0 => last - 1 + dice.roll() as i64 % 3,
        _ => (dice.between(1000, 20_000_000) >> (dice.roll() % 10)).max(1000),
    }
}

/// Puts one sheath round three cores: its resistance; its d, at least 200 so that
/// there is a c; and s, which may be smaller than d but would hardly ever be so
/// if all of its limits were open to it.
fn put_common_sheath(case: &mut Values, dice: &mut Dice) {
    let (dc, di) = (case[6], case[9]);
    let factor = temperature_factor(metal_coefficient(case[14] as u32), case[16]);
    case[15] = common_sheath_resistance(dice, factor);
    let d = dice.between(di.max(200), 50000);
    let widest = if dice.roll().is_multiple_of(4) { 1_000_000 } else { d };
    case[7] = dice.between(dc, widest);
    case[13] = d;
    case[20] = dice.between(100, d / 2);
}

/// Takes away what only alternating current has, and puts a voltage past refusal 33.
fn put_direct_current(case: &mut Values, dice: &mut Dice) {
    let words = case.map(|value| value as u32);
    for field in (0..WIDTH).filter(|&field| !has_field(&words, field)) {
        case[field] = 0;
    }
    case[10] = dice.between(0, DIRECT_VOLTAGE_LIMIT.into());
}

/// What an arrangement has otherwise than single-core cables with alternating current.
fn put_own(case: &mut Values, dice: &mut Dice) {
    match case[0] {
        5 => put_armour(case, dice),
        6 => put_common_sheath(case, dice),
        7 => put_direct_current(case, dice),
        _ => {}
    }
}

/// A voltage from which the loss counts: most often 0, from which it always does,
/// else U0 itself, the next on either side of it, the highest, or any.
fn loss_voltage(u0: i64, dice: &mut Dice) -> i64 {
    let (low, high) = limits(26);
    match dice.roll() % 8 {
        0 => u0,
        1 => (u0 + 1).min(high),
        2 => (u0 - 1).max(low),
        3 => high,
        4 => dice.between(low, high),
        _ => 0,
    }
}

/// v and θx of soil that dries out in half of the cases: the ends of v's limits come
/// up often, and so do the ambient's and the conductor's temperature.
fn soil(ambient: i64, theta_c: i64, dice: &mut Dice) -> [i64; 2] {
    if dice.roll().is_multiple_of(2) {
        return [0, 0];
    }
    let (low, high) = limits(27);
    [dice.between(low, high), dice.between(ambient, theta_c)]
}

/// Puts the sun on half of the cables that lie in no dry soil: a heat of any order of
/// magnitude or the highest, and most often a T4 that is at most the last by which the
/// sun alone leaves a tenth of the permitted rise, so that most of these can be rated.
fn put_sun(case: &mut Values, dice: &mut Dice) {
    if case[27] != 0 || dice.roll().is_multiple_of(2) {
        return;
    }
    let highest = limits(29).1;
    let heat = match dice.roll() % 4 {
        0 => highest,
        _ => (dice.between(1, highest) >> (dice.roll() % 18)).max(1),
    };
    let (low, high) = limits(25);
    if !dice.roll().is_multiple_of(8) {
        case[25] = dice.between(low, high.min(9_000_000 * (case[3] - case[4]) / heat));
    }
    case[29] = heat;
}

/// A case of an arrangement, within every limit and past refusals 1 to 7 and 31 to 33.
fn sound_case_of(arrangement: i64, dice: &mut Dice) -> Words {
    let theta_c = dice.between(4000, 25000);
    let ambient = dice.between(-4000, (theta_c - 500).min(6000));
    let [dc, s, ds, di, d] = sound_dimensions(dice);
    let sheath_metal = if matches!(arrangement, 3..=5) { 1 } else { dice.between(1, 6) };
    let mut case = [0; WIDTH];
    case[..3].copy_from_slice(&[arrangement, dice.between(1, 8), dice.between(1000, 6500)]);
    case[3..6].copy_from_slice(&[theta_c, ambient, dice.between(5000, 20_000_000)]);
    case[6..10].copy_from_slice(&[dc, s, ds, di]);
    case[10..12].copy_from_slice(&[dice.between(0, 300_000), dice.between(100, 800)]);
    case[12..15].copy_from_slice(&[dice.between(1, 10000), d, sheath_metal]);
    case[15..17].copy_from_slice(&[dice.between(1000, 20_000_000), dice.between(-4000, theta_c)]);
    case[22..24].copy_from_slice(&[dice.between(1000, 10_000_000), dice.between(0, 10_000_000)]);
    case[24..26].copy_from_slice(&[dice.between(0, 10_000_000), dice.between(10000, 20_000_000)]);
    case[26] = loss_voltage(case[10], dice);
    case[27..29].copy_from_slice(&soil(ambient, theta_c, dice));
    put_sun(&mut case, dice);
    put_own(&mut case, dice);
    case.map(|value| value as u32)
}

/// A case within every limit and past refusals 1 to 7 and 31 to 33, of any arrangement.
pub fn sound_case(dice: &mut Dice) -> Words {
    let (first, last) = limits(0);
    let arrangement = first + dice.roll() as i64 % (last - first + 1);
    sound_case_of(arrangement, dice)
}

/// Replaces some fields, most of them by words far outside their limits.
pub fn disturb(case: &mut Words, times: usize, dice: &mut Dice) {
    for _ in 0..times {
        let field = dice.roll() as usize % WIDTH;
        case[field] = match dice.roll() % 4 {
            0 => u32::MAX,
            1 => 1 << 31,
            2 => (1 << 31) - 1,
            _ => dice.roll() as u32,
        };
    }
}

/// A sound case in soil that dries out above an isotherm which is as hot as the
/// ambient or the conductor, or differs from it by the least step or by any. Some are
/// in the sun too.
fn near_isotherm(dice: &mut Dice) -> Words {
    let mut case = sound_case(dice);
    let (low, high) = limits(27);
    let neighbour = value(&case, if dice.roll().is_multiple_of(2) { 3 } else { 4 });
    let isotherm = match dice.roll() % 5 {
        0 => neighbour - 1,
        1 | 2 => neighbour,
        3 => neighbour + 1,
        _ => dice.between(limits(28).0, limits(28).1),
    };
    case[27] = dice.between(low, high) as u32;
    case[28] = isotherm as u32;
    case
}

/// One below a number, the number, or one above.
fn beside(number: i64, dice: &mut Dice) -> i64 {
    number - 1 + dice.roll() as i64 % 3
}

/// A voltage of direct current about the last that passes refusal 33, or above it.
fn direct_voltage(dice: &mut Dice) -> i64 {
    let last = i64::from(DIRECT_VOLTAGE_LIMIT);
    match dice.roll() % 4 {
        0 => dice.between(last + 1, limits(10).1),
        _ => beside(last, dice),
    }
}

/// Gives a cable of direct current a field that it does not have: the least word, or one
/// that the field may have in another arrangement.
fn put_stray(case: &mut Words, dice: &mut Dice) {
    let strays: Vec<usize> = (0..WIDTH).filter(|&field| !has_field(case, field)).collect();
    let field = strays[dice.roll() as usize % strays.len()];
    let (low, high) = limits(field);
    case[field] = match dice.roll() % 3 {
        0 => 1,
        _ => dice.between(low, high) as u32,
    };
}

/// dc at ds or beside it, and Di at the least insulation or beside it.
fn put_thin_insulation(case: &mut Words, dice: &mut Dice) {
    let ds = i64::from(case[8]).min(9999);
    let least = (105 * ds + 99) / 100;
    let dimensions = [(6, beside(ds, dice)), (8, ds), (9, beside(least, dice))];
    *case = with(case, &dimensions.map(|(field, value)| (field, value as u32)));
}

/// A conductor that is 5 K above the ambient, or so by the least step more or less.
fn put_least_rise(case: &mut Words, dice: &mut Dice) {
    let ambient = dice.between(3501, limits(4).1);
    case[4] = ambient as u32;
    case[3] = beside(ambient + 500, dice) as u32;
}

/// A cable of direct current of which one rule that it has otherwise than those with
/// alternating current is at its edge or broken.
fn near_direct_current(dice: &mut Dice) -> Words {
    let mut case = sound_case_of(DIRECT_CURRENT.into(), dice);
    match dice.roll() % 4 {
        0 => case[10] = direct_voltage(dice) as u32,
        1 => put_stray(&mut case, dice),
        2 => put_thin_insulation(&mut case, dice),
        _ => put_least_rise(&mut case, dice),
    }
    case
}

/// A case that may be rated and may get any refusal.
pub fn mixed_case(dice: &mut Dice) -> Words {
    let mut case = sound_case(dice);
    match dice.roll() % 7 {
        // Without voltage there is no dielectric loss, and most cases are rated.
        0 => case[10] = 0,
        // With the lowest thermal resistances too, some currents are refused.
        1 => {
            case[10] = 0;
            case[22..26].copy_from_slice(&[1000, 0, 0, 10000]);
        }
        2 => disturb(&mut case, 1, dice),
        // A field of another sound case is in its own limits but may not go
        // with the rest: refusals 3 to 7 and 31 to 33.
        3 => {
            let field = dice.roll() as usize % WIDTH;
            case[field] = sound_case(dice)[field];
        }
        4 => case = near_isotherm(dice),
        5 => case = near_direct_current(dice),
        _ => {}
    }
    case
}

/// The case in the most heat of the sun that refusal 10 lets pass, or the highest.
fn in_most_heat(case: &Words) -> Words {
    match first(case, 29, |case| holds(10, case)) {
        Some(mut refused) => {
            refused[29] -= 1;
            refused
        }
        None => with(case, &[(29, limits(29).1 as u32)]),
    }
}

/// The first of some sound cases that is rated, and its rating. Voltages are
/// brought to every order of magnitude, since most cases at a high one are
/// refused for the dielectric. A quarter of those in the sun take up the most heat
/// with which they are rated.
fn first_rated(dice: &mut Dice, sound: impl Fn(&mut Dice) -> Words) -> (Words, Rated) {
    loop {
        let mut case = sound(dice);
        case[10] >>= dice.roll() % 20;
        case[26] = loss_voltage(case[10].into(), dice) as u32;
        // The lowest thermal resistances make the largest currents.
        if dice.roll().is_multiple_of(4) {
            case[22..26].copy_from_slice(&[1000, 0, 0, 10000]);
        }
        if rate(&case).answer == 0 {
            if in_the_sun(&case) && dice.roll().is_multiple_of(4) {
                case = in_most_heat(&case);
            }
            return (case, rate(&case));
        }
    }
}

/// The surroundings that a drawn case is to have.
#[derive(Clone, Copy)]
pub enum Surroundings {
    Any,
    DrySoil,
    Sun,
}

impl Surroundings {
    fn are_of(self, case: &Words) -> bool {
        match self {
            Surroundings::Any => true,
            Surroundings::DrySoil => dry_soil(case),
            Surroundings::Sun => in_the_sun(case),
        }
    }
}

/// A rated case of any arrangement, and its rating.
pub fn rated_case(dice: &mut Dice) -> (Words, Rated) {
    first_rated(dice, sound_case)
}

/// A rated case of one arrangement, 1 to 7, or of any, in such surroundings, and its
/// rating.
pub fn rated_case_of(
    arrangement: Option<i64>,
    surroundings: Surroundings,
    dice: &mut Dice,
) -> (Words, Rated) {
    loop {
        let rated = match arrangement {
            Some(arrangement) => first_rated(dice, |dice| sound_case_of(arrangement, dice)),
            None => rated_case(dice),
        };
        if surroundings.are_of(&rated.0) {
            return rated;
        }
    }
}

/// A sound case with one field at one of its limits or next to it, on either
/// side; the arrangement and the conductor code have limits too.
pub fn near_limit(dice: &mut Dice) -> Words {
    let mut case = sound_case(dice);
    let field = dice.roll() as usize % case.len();
    let (low, high) = limits(field);
    let limit = if dice.roll().is_multiple_of(2) { low } else { high };
    case[field] = (limit + dice.roll() as i64 % 3 - 1) as u32;
    case
}

/// Refusals 8 to 11, each with a field that brings it about or ends it: R0 for
/// the skin and the current, the sheath's resistance, the voltage and the sun's heat.
const TURNS: [(u32, usize); 5] = [(8, 5), (9, 15), (10, 10), (10, 29), (11, 5)];

/// A sound case in which no other refusal is likely to stand before the one
/// that is wanted: no voltage, and for 5000 A small thermal resistances. Where the
/// sun's heat is to bring it about there is no dry soil, but a voltage of any order of
/// magnitude, since it is weighed together with the dielectric loss.
fn sound_case_for(refusal: u32, field: usize, dice: &mut Dice) -> Words {
    let mut case = sound_case(dice);
    if field == 29 {
        case[10] >>= dice.roll() % 20;
        case[27..29].fill(0);
    } else {
        case[10] = 0;
    }
    if refusal == 11 {
        let highest = [20000, 5000, 5000, 30000];
        for (field, highest) in (22..).zip(highest) {
            case[field] = dice.between(limits(field).0, highest) as u32;
        }
    }
    case
}

/// A case on one side or the other of where one of refusals 8 to 11 begins to
/// hold or ends, by the smallest step of a field. Only few cases that are drawn
/// otherwise come near 5000 A or the limit of the skin effect.
pub fn at_turn(dice: &mut Dice) -> Words {
    loop {
        let (refusal, field) = TURNS[dice.roll() as usize % TURNS.len()];
        let case = sound_case_for(refusal, field, dice);
        let at_low = holds(refusal, &with(&case, &[(field, limits(field).0 as u32)]));
        if let Some(mut turned) = first(&case, field, |case| holds(refusal, case) != at_low) {
            turned[field] -= dice.roll() as u32 % 2;
            return turned;
        }
    }
}

/// The case of a number, counted from 0: every kind in turn.
pub fn drawn_case(dice: &mut Dice, number: usize) -> Words {
    match number % 8 {
        0 => rated_case(dice).0,
        1 => sound_case(dice),
        2 => mixed_case(dice),
        3 => near_limit(dice),
        4 => at_turn(dice),
        5 => near_isotherm(dice),
        6 => near_direct_current(dice),
        _ => {
            let mut case = sound_case(dice);
            disturb(&mut case, 1 + number / 8 % WIDTH, dice);
            case
        }
    }
}
