// values: prints closed values of the stages, one `name value` a line, so that
// another implementation's theorems can be compared with them. The inputs are
// one three-core SL cable, one single-core spacing, and two common sheaths.

use std::fmt::Display;
use twin::cable::Cable;
use twin::rating::Words;
use twin::sample_cables::{COMMON_ALUMINIUM_SHEATH, COMMON_SHEATH};
use twin::stages::{self, Insulation, Thermal, LARGEST_RS_OF_SUM, MOIST};
use twin::tables;

const CONDUCTOR_CODE: u32 = 1;
const FREQUENCY: u128 = 5000;
const SPACING: u128 = 4200;
const SHEATH_DIAMETER: u128 = 4000;
const SINGLE_CORE_SPACING: u128 = 12000;
const RISE: u128 = 8500 - 1500;

const THERMAL: Thermal =
    Thermal { t1: 350_000, t2: 40_000, t3: 60_000, t4: 450_000, soil_ratio: MOIST, cores: 3 };

fn show(name: impl Display, value: impl Display) {
    println!("{name} {value}");
}

/// Rs of the sheath, which the single-core values use too.
fn sheath_resistance() -> u128 {
    stages::resistance(1_000_000, tables::metal_coefficient(tables::LEAD), 6000)
}

/// Stages 3 and 4: R.
fn show_conductor(rc: u128) -> u128 {
    let argument = |k| stages::skin_argument(stages::skin_reactance(FREQUENCY, k), rc);
    let zs = argument(tables::skin_coefficient(CONDUCTOR_CODE));
    let ys = stages::skin_factor_of(zs);
    let factor = stages::skin_factor_of(argument(tables::proximity_coefficient(CONDUCTOR_CODE)));
    let u = stages::diameter_ratio_squared(1450, SPACING);
    let h = stages::proximity_main_term(factor);
    let g = stages::proximity_small_term(u, factor);
    let yp = stages::proximity_factor(u, g, h);
    let r = stages::ac_resistance(rc, ys, yp);
    show("zs", zs);
    show("ys", ys);
    show("G", factor);
    show("u", u);
    show("h", h);
    show("g", g);
    show("yp", yp);
    show("R", r);
    r
}

/// Stages 5 to 7: X-, for the armour's screening, and S.
fn show_sheath(rs: u128) -> (u128, u128) {
    let low = stages::spacing_log_low(5, SPACING, SHEATH_DIAMETER);
    let high = stages::spacing_log_high(5, SPACING, SHEATH_DIAMETER);
    let x = stages::sheath_reactance_high(stages::reactance_unit_high(FREQUENCY), high);
    let x_low = stages::sheath_reactance_low(stages::reactance_unit_low(FREQUENCY), low);
    let v = stages::circulating_ratio_high(x, rs);
    let v2 = stages::circulating_ratio_squared_high(v);
    let before = stages::circulating_loss(rs, v2);
    let after = stages::three_halves(before);
    show("log_spacing_low", low);
    show("log_spacing_high", high);
    show("X", x);
    show("X_low", x_low);
    show("v", v);
    show("v2", v2);
    show("S_before_three_halves", before);
    show("S", after);
    (x_low, after)
}

/// Stage 8: W.
fn show_armour(ra: u128, rs: u128, x_low: u128) -> u128 {
    let y = stages::armour_ratio(ra, stages::reactance_unit_high(FREQUENCY));
    let y2 = stages::armour_ratio_squared(y);
    let r = stages::armour_reduced_resistance(ra, y2);
    let before = stages::armour_loss_unscreened(r, 2500, 11000);
    let v = stages::circulating_ratio_low(x_low, rs);
    let after = stages::armour_loss_screened(before, stages::circulating_ratio_squared_low(v));
    show("y", y);
    show("y2", y2);
    show("r", r);
    show("W_before_screening", before);
    show("W", after);
    after
}

/// Stage 9: N, in the shade, where d0 is dd.
fn show_dielectric() -> u128 {
    let low = stages::log_low(3600, 1750);
    let insulation =
        Insulation { permittivity: 350, volts: 19000, loss_factor: 1000, log_low: low };
    let wd = stages::dielectric_loss(&insulation, stages::reactance_unit_high(FREQUENCY));
    let dd = stages::dielectric_rise(wd, &THERMAL);
    let left = stages::rise_left(stages::permitted_rise(RISE, MOIST, 0), dd);
    show("log_insulation_low", low);
    show("log_insulation_high", stages::log_high(3600, 1750));
    show("Wd", wd);
    show("dd", dd);
    show("N", left);
    left
}

fn show_cable() {
    let copper = tables::conductor_coefficient(CONDUCTOR_CODE);
    let rc = stages::resistance(124_000, copper, 8500);
    let rs = sheath_resistance();
    let ra = stages::resistance(250_000, tables::metal_coefficient(tables::STEEL), 5500);
    show("rc", rc);
    show("rs", rs);
    show("ra", ra);
    let r = show_conductor(rc);
    let (x_low, s) = show_sheath(rs);
    let w = show_armour(ra, rs, x_low);
    let left = show_dielectric();
    let e = stages::effective_resistance(r, s, w, &THERMAL);
    show("E", e);
    show("I", stages::largest_current(left, e));
}

fn show_single_core() {
    let rs = sheath_resistance();
    let m = stages::eddy_ratio(stages::reactance_unit_high(FREQUENCY), rs);
    let m2 = stages::eddy_ratio_squared(m);
    let e_prime = stages::eddy_share(m2);
    let g_prime = stages::sheath_ratio_squared(SHEATH_DIAMETER, SINGLE_CORE_SPACING);
    show("L2_low", stages::spacing_log_low(2, SINGLE_CORE_SPACING, SHEATH_DIAMETER));
    show("L2_high", stages::spacing_log_high(2, SINGLE_CORE_SPACING, SHEATH_DIAMETER));
    show("m", m);
    show("m2", m2);
    show("e_prime", e_prime);
    show("g_prime", g_prime);
    show("S3", stages::eddy_loss(1, rs, e_prime, g_prime));
    show("S4", stages::eddy_loss(2, rs, e_prime, g_prime));
    show("three_halves_of_odd", stages::three_halves(2_480_000_000_001));
    let lead = tables::metal_coefficient(tables::LEAD);
    show("cold_lead", stages::temperature_factor(lead, -4000));
}

/// b of a cable with a common sheath.
fn axis_ratio_squared(case: &Words) -> u128 {
    stages::axis_ratio_squared(case[20].into(), case[13].into())
}

/// The aluminium sheath, whose loss is the sum of two terms.
fn show_common_aluminium_sheath() {
    let Cable { rs, b_high, .. } = Cable::of(&COMMON_ALUMINIUM_SHEATH);
    let b = axis_ratio_squared(&COMMON_ALUMINIUM_SHEATH);
    let b2 = stages::axis_ratio_fourth(b);
    let y = stages::common_sheath_ratio(rs, b_high);
    let y2 = stages::common_sheath_ratio_squared(y);
    let first = stages::common_sheath_first_term(b, y2);
    let second = stages::common_sheath_second_term(b2, y2);
    show("rs_aluminium", rs);
    show("b_aluminium", b);
    show("b2_aluminium", b2);
    show("y_aluminium", y);
    show("y2_aluminium", y2);
    show("first_aluminium", first);
    show("second_aluminium", second);
    show("S_aluminium", stages::common_sheath_loss_by_sum(rs, first, second));
}

/// The lead sheath, of a larger Rs; then the last Rs that takes the sum, and the
/// next.
fn show_common_lead_sheath() {
    let Cable { rs, b_high, .. } = Cable::of(&COMMON_SHEATH);
    let b = axis_ratio_squared(&COMMON_SHEATH);
    let loss = |rs| stages::common_sheath_loss(rs, b_high, b);
    show("rs_lead", rs);
    show("b_lead", b);
    show("S_lead", loss(rs));
    show("S_meeting", loss(LARGEST_RS_OF_SUM));
    show("S_past_meeting", loss(LARGEST_RS_OF_SUM + 1));
}

fn show_tables() {
    for metal in 1..=6 {
        show(format_args!("alpha_{metal}"), tables::metal_coefficient(metal));
    }
    for code in 1..=8 {
        show(format_args!("ks_{code}"), tables::skin_coefficient(code));
    }
    for code in 1..=8 {
        show(format_args!("kp_{code}"), tables::proximity_coefficient(code));
    }
}

fn main() {
    show_cable();
    show_single_core();
    show_common_aluminium_sheath();
    show_common_lead_sheath();
    show_tables();
}
