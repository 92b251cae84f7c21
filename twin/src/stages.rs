// Stages 1 to 10 of document 01, with the common sheath's, the dry soil's and the
// sun's of document 02, one function for each quantity they name; direct current has
// none of its own. Ohms are in 10^-16 ohm/m, pure numbers in parts of T = 10^12,
// temperatures in hundredths of a degree. With the fields' limits every product fits
// u128.

use crate::whole::{down, square_root, up};

pub const T: u128 = 1_000_000_000_000;

pub const PI_LOW: u128 = 31_415_926_535;
pub const PI_HIGH: u128 = 31_415_926_536;
/// Pi's ends are parts of this.
pub const PI_UNIT: u128 = 10_000_000_000;
pub const LN_2_LOW: u128 = 693_147_180_559;
pub const LN_2_HIGH: u128 = 693_147_180_560;
const THIRD_OF_LN_2_LOW: u128 = 231_049_060_186;
const THIRD_OF_LN_2_HIGH: u128 = 231_049_060_187;

/// The logarithm's series is summed over j = 0 to 12.
const LAST_TERM: u128 = 12;

// Stage 1: resistance at temperature.

/// 10^7 + alpha (theta - 20 degrees). Cold metal makes the difference negative.
pub fn temperature_factor(coefficient: i64, theta: i64) -> i64 {
    10_000_000 + coefficient * (theta - 2000)
}

/// R', Rs or RA: exact, no rounding.
pub fn resistance(field: u128, coefficient: i64, theta: i64) -> u128 {
    // The factor is at least 7300000 (steel at -40 degrees), so its magnitude
    // is the factor itself.
    field * u128::from(temperature_factor(coefficient, theta).unsigned_abs())
}

// Stage 2: B is 4 pi f 10^-7 ohm/m.

/// B, with pi's upper end.
pub fn reactance_unit_high(f: u128) -> u128 {
    up(f * PI_HIGH, 250)
}

/// B-, with pi's lower end.
pub fn reactance_unit_low(f: u128) -> u128 {
    down(f * PI_LOW, 250)
}

// Stage 3: skin effect.

/// A, that is 8 pi f k 10^-7 ohm/m.
pub fn skin_reactance(f: u128, k: u128) -> u128 {
    up(f * PI_HIGH * k, 125_000)
}

/// z, the standard's x squared.
pub fn skin_argument(a: u128, dc_resistance: u128) -> u128 {
    up(a * T, dc_resistance)
}

/// w, the standard's x to the fourth.
pub fn skin_argument_squared(z: u128) -> u128 {
    up(z * z, T)
}

/// x^4 / (192 + 0.8 x^4): ys with ks, G with kp.
pub fn skin_factor(w: u128) -> u128 {
    up(5 * w * T, 960 * T + 4 * w)
}

/// Stage 3 whole: from z to the factor.
pub fn skin_factor_of(z: u128) -> u128 {
    skin_factor(skin_argument_squared(z))
}

// Stage 4: proximity effect and the conductor's a.c. resistance.

/// u = (dc/s)^2.
pub fn diameter_ratio_squared(dc: u128, s: u128) -> u128 {
    up(dc * dc * T, s * s)
}

/// h = 1.18 G / (G + 0.27).
pub fn proximity_main_term(factor: u128) -> u128 {
    up(118 * factor * T, 100 * factor + 27 * T)
}

/// g = 0.312 u G. Dividing by 10^15 takes off T and the thousandths of 312.
pub fn proximity_small_term(u: u128, factor: u128) -> u128 {
    up(312 * u * factor, 1_000_000_000_000_000)
}

/// yp = u (g + h).
pub fn proximity_factor(u: u128, g: u128, h: u128) -> u128 {
    up(u * (g + h), T)
}

/// R, the a.c. resistance of the conductor.
pub fn ac_resistance(dc_resistance: u128, ys: u128, yp: u128) -> u128 {
    up(dc_resistance * (T + ys + yp), T)
}

// Stage 5: both ends of the logarithm of a/b, for a at or above b, above 0.

/// The largest k with 2^k b at or below a.
pub fn halvings(a: u128, b: u128) -> u32 {
    let mut k = 0;
    while b << (k + 1) <= a {
        k += 1;
    }
    k
}

/// 2 artanh of (a - b)/(a + b), every quotient rounded by `round`.
fn artanh_sum(a: u128, b: u128, round: fn(u128, u128) -> u128) -> u128 {
    let mut p = round((a - b) * T, a + b);
    let q = round(p * p, T);
    let mut sum = 0;
    for j in 0..=LAST_TERM {
        sum += round(2 * p, 2 * j + 1);
        p = round(p * q, T);
    }
    sum
}

/// Lower end of the logarithm of a/b.
pub fn log_low(a: u128, b: u128) -> u128 {
    let k = halvings(a, b);
    artanh_sum(a, b << k, down) + LN_2_LOW * u128::from(k)
}

/// Upper end of the logarithm of a/b. The 1 covers the terms left out.
pub fn log_high(a: u128, b: u128) -> u128 {
    let k = halvings(a, b);
    artanh_sum(a, b << k, up) + 1 + LN_2_HIGH * u128::from(k)
}

// Stage 6: L and the sheath's reactance.

/// Lower end of L; flat and transposed (arrangement 2) adds a third of ln 2.
pub fn spacing_log_low(arrangement: u32, s: u128, d: u128) -> u128 {
    match arrangement {
        2 => log_low(2 * s, d) + THIRD_OF_LN_2_LOW,
        _ => log_low(2 * s, d),
    }
}

/// Upper end of L.
pub fn spacing_log_high(arrangement: u32, s: u128, d: u128) -> u128 {
    match arrangement {
        2 => log_high(2 * s, d) + THIRD_OF_LN_2_HIGH,
        _ => log_high(2 * s, d),
    }
}

/// X, from B and the upper end of L.
pub fn sheath_reactance_high(b_high: u128, log_high: u128) -> u128 {
    up(b_high * log_high, T)
}

/// X-, from B- and the lower end of L.
pub fn sheath_reactance_low(b_low: u128, log_low: u128) -> u128 {
    down(b_low * log_low, T)
}

// Stage 7: the sheath's loss, as ohms.

/// v = X/Rs. X is below 10^13 and Rs above 7 x 10^9, so v stays below
/// 2 x 10^15 and its square fits with room to spare.
pub fn circulating_ratio_high(x: u128, rs: u128) -> u128 {
    up(x * T, rs)
}

/// v2 = v squared.
pub fn circulating_ratio_squared_high(v: u128) -> u128 {
    up(v * v, T)
}

/// S of sheaths bonded at both ends, before the SL cable's 3/2. v2 is below
/// 4 x 10^18 and Rs below 5 x 10^14: the product is below 10^34.
pub fn circulating_loss(rs: u128, v2: u128) -> u128 {
    up(rs * v2, T + v2)
}

/// S of the SL cable: amendment 2's 1.5 in place of 1.7.
pub fn three_halves(s_loss: u128) -> u128 {
    up(3 * s_loss, 2)
}

/// m = omega 10^-7 / Rs, and B is twice omega 10^-7.
pub fn eddy_ratio(b_high: u128, rs: u128) -> u128 {
    up(b_high * T, 2 * rs)
}

/// m2 = m squared.
pub fn eddy_ratio_squared(m: u128) -> u128 {
    up(m * m, T)
}

/// e' = m2 / (1 + m2).
pub fn eddy_share(m2: u128) -> u128 {
    up(m2 * T, T + m2)
}

/// g' = (d / 2s)^2.
pub fn sheath_ratio_squared(d: u128, s: u128) -> u128 {
    up(d * d * T, 4 * s * s)
}

/// S of sheaths bonded at one point: `trefoils` is 1 in arrangement 3 and 2
/// for the centre cable of arrangement 4.
pub fn eddy_loss(trefoils: u128, rs: u128, e_prime: u128, g_prime: u128) -> u128 {
    up(3 * trefoils * up(rs * e_prime, T) * g_prime, T)
}

// Stage 7 of the common sheath (arrangement 6): the eddy loss of 2.3.8.

/// The largest Rs, 100 micro-ohm/m, at which the sum of two terms is taken.
pub const LARGEST_RS_OF_SUM: u128 = 1_000_000_000_000;

/// b = (2c/d)^2, d being the mean diameter of the sheath or of the armour. It is
/// at most T, as 2c is at most d.
pub fn axis_ratio_squared(c: u128, d: u128) -> u128 {
    up(4 * c * c * T, d * d)
}

/// b2 = b squared.
pub fn axis_ratio_fourth(b: u128) -> u128 {
    up(b * b, T)
}

/// y = Rs 10^7/omega = 2 Rs/B. Rounded down, since a smaller y makes a larger
/// loss.
pub fn common_sheath_ratio(rs: u128, b_high: u128) -> u128 {
    down(2 * rs * T, b_high)
}

/// y2 = y squared. Rs is at most T here and B above 10^11, so y is below 2 x 10^13.
pub fn common_sheath_ratio_squared(y: u128) -> u128 {
    down(y * y, T)
}

/// The sum's first term, b/(1 + y2).
pub fn common_sheath_first_term(b: u128, y2: u128) -> u128 {
    up(b * T, T + y2)
}

/// The sum's second term, b2/(1 + 4 y2).
pub fn common_sheath_second_term(b2: u128, y2: u128) -> u128 {
    up(b2 * T, T + 4 * y2)
}

/// S up to the largest Rs of the sum.
pub fn common_sheath_loss_by_sum(rs: u128, first: u128, second: u128) -> u128 {
    up(3 * rs * (first + second), T)
}

/// S above it: 3.2 omega^2 10^-14/Rs b, and B is twice omega 10^-7. B is below
/// 10^12 and b at most T, so the numerator is below 4 x 10^36.
pub fn common_sheath_loss_beyond(rs: u128, b_high: u128, b: u128) -> u128 {
    up(4 * b_high * b_high * b, 5 * rs * T)
}

/// S by the formula that Rs asks for.
pub fn common_sheath_loss(rs: u128, b_high: u128, b: u128) -> u128 {
    if rs > LARGEST_RS_OF_SUM {
        return common_sheath_loss_beyond(rs, b_high, b);
    }
    let y2 = common_sheath_ratio_squared(common_sheath_ratio(rs, b_high));
    let first = common_sheath_first_term(b, y2);
    let second = common_sheath_second_term(axis_ratio_fourth(b), y2);
    common_sheath_loss_by_sum(rs, first, second)
}

// Stage 8: the armour's loss, as ohms.

/// y = 2.77 RA 10^6 / omega = 0.554 RA/B. Rounded down, since a smaller y
/// makes a larger loss.
pub fn armour_ratio(ra: u128, b_high: u128) -> u128 {
    down(554_000_000_000 * ra, b_high)
}

/// y2 = y squared. y stays below 2 x 10^15, so its square fits.
pub fn armour_ratio_squared(y: u128) -> u128 {
    down(y * y, T)
}

/// r = RA / (1 + y2).
pub fn armour_reduced_resistance(ra: u128, y2: u128) -> u128 {
    up(ra * T, T + y2)
}

/// W before the screening: 1.23 r (2c/dA)^2.
pub fn armour_loss_unscreened(r: u128, c: u128, armour_diameter: u128) -> u128 {
    // r is below 5 x 10^14 and the ratio at most T: the product is below 10^29.
    up(123 * r * axis_ratio_squared(c, armour_diameter), 100 * T)
}

/// v for the screening: rounded down, since less screening makes a larger loss.
pub fn circulating_ratio_low(x_low: u128, rs: u128) -> u128 {
    down(x_low * T, rs)
}

/// v2 for the screening.
pub fn circulating_ratio_squared_low(v: u128) -> u128 {
    down(v * v, T)
}

/// W after the screening, which takes 2.3.1's factor without the 1.5.
pub fn armour_loss_screened(w_loss: u128, v2_low: u128) -> u128 {
    up(w_loss * up(T * T, T + v2_low), T)
}

// Stage 9: the dielectric loss and the sun's heat, and what they leave of the
// permitted rise.

/// What stage 9 takes of the insulation: permittivity in hundredths, volts to
/// earth, loss factor in 10^-5, and the lower end of the logarithm of Di/ds.
pub struct Insulation {
    pub permittivity: u128,
    pub volts: u128,
    pub loss_factor: u128,
    pub log_low: u128,
}

/// Wd in 10^-12 W/m. The numerator is below 10^30.
pub fn dielectric_loss(insulation: &Insulation, b_high: u128) -> u128 {
    let volts_squared = insulation.volts * insulation.volts;
    up(
        insulation.permittivity * volts_squared * insulation.loss_factor * b_high,
        360 * insulation.log_low,
    )
}

/// The ratio of soil that stays moist, in thousandths.
pub const MOIST: u128 = 1000;

/// The thermal resistances T1 to T4, 10^-6 K m/W, the ratio of dry to moist soil
/// resistivity in thousandths, and the number of cores n.
pub struct Thermal {
    pub t1: u128,
    pub t2: u128,
    pub t3: u128,
    pub t4: u128,
    pub soil_ratio: u128,
    pub cores: u128,
}

impl Thermal {
    /// T4 of the soil as it is, in 10^-9 K m/W, so that nothing is rounded yet.
    pub fn soil(&self) -> u128 {
        self.soil_ratio * self.t4
    }
}

/// dd in 10^-9 K. T1 counts half: hence the 2 in the divisor and in 2n. Wd is below
/// 4 x 10^16 and the sum below 10^12.
pub fn dielectric_rise(wd: u128, thermal: &Thermal) -> u128 {
    let outer = 1000 * (thermal.t2 + thermal.t3) + thermal.soil();
    up(wd * (1000 * thermal.t1 + 2 * thermal.cores * outer), 2_000_000_000_000)
}

/// The permitted rise in 10^-9 K, from the conductor's and the critical isotherm's
/// above the ambient, both in hundredths of a degree. The ratio is at least MOIST.
pub fn permitted_rise(rise: u128, soil_ratio: u128, isotherm_rise: u128) -> u128 {
    10_000_000 * rise + 10_000 * (soil_ratio - MOIST) * isotherm_rise
}

/// Q T4, the rise by the sun's heat in 10^-9 K: the heat is in mW/m and T4 in 10^-6
/// K m/W, so that nothing is rounded. T4 is that of a cable in air, of no soil.
pub fn solar_rise(heat: u128, t4: u128) -> u128 {
    heat * t4
}

/// d0, the rise that there is without any current.
pub fn rise_without_current(dd: u128, solar_rise: u128) -> u128 {
    dd + solar_rise
}

/// N, what is left for the current. The caller has seen that d0 is smaller.
pub fn rise_left(permitted: u128, d0: u128) -> u128 {
    permitted - d0
}

// Stage 10: the rating.

/// E. Each of the three parts is rounded up by itself.
pub fn effective_resistance(r: u128, s_loss: u128, w_loss: u128, thermal: &Thermal) -> u128 {
    let n = thermal.cores;
    let conductor = up(r * thermal.t1, 1_000_000);
    let bedding = up(n * (r + s_loss) * thermal.t2, 1_000_000);
    let outer = 1000 * thermal.t3 + thermal.soil();
    let outer = up(n * (r + s_loss + w_loss) * outer, 1_000_000_000);
    conductor + bedding + outer
}

/// The largest I in mA with I^2 E at or below 10^13 N. Rounding the quotient
/// down first changes nothing, since I^2 is whole.
pub fn largest_current(n_left: u128, e: u128) -> u128 {
    square_root(down(10 * T * n_left, e))
}
