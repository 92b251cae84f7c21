// Document 01's 'Values at the edges', as far as they concern the rating, and
// those of document 02's common sheath, dry soil and sun, each asked of the function
// that gives it; those that can be reached by a whole case are asked of a case
// too.

use twin::edge_cases::common_sheath::ROUNDINGS;
use twin::rating::{dielectric_refused, eddy_refused, rate, skin_refused, Rated, Words};
use twin::sample_cables::{
    with, COMMON_ALUMINIUM_SHEATH, COMMON_SHEATH, DRY_SOIL, IN_THE_SUN, SL_TYPE,
    TREFOIL_SINGLE_POINT,
};
use twin::stages::{self, MOIST, T};
use twin::tables;

#[test]
fn reactance_unit_at_50_hz() {
    assert_eq!(stages::reactance_unit_high(5000), 628_318_530_720);
    assert_eq!(stages::reactance_unit_low(5000), 628_318_530_700);
}

#[test]
fn resistances_at_temperature() {
    for code in 1..=3 {
        let copper = tables::conductor_coefficient(code);
        assert_eq!(stages::resistance(28300, copper, 9000), 360_853_300_000);
    }
    let lead = tables::metal_coefficient(tables::LEAD);
    assert_eq!(stages::resistance(400_000, lead, 8000), 4_960_000_000_000);
    let steel = tables::metal_coefficient(tables::STEEL);
    assert_eq!(stages::temperature_factor(steel, -4000), 7_300_000);
}

#[test]
fn skin_and_proximity_parts() {
    assert_eq!(stages::skin_factor(48 * T), 208_333_333_334);
    assert_eq!(stages::diameter_ratio_squared(3000, 9000), 111_111_111_112);
}

#[test]
fn logarithm_of_two() {
    assert_eq!(stages::log_low(2, 1), 693_147_180_559);
    assert_eq!(stages::log_high(2, 1), 693_147_180_561);
}

#[test]
fn sheath_loss_where_reactance_equals_resistance() {
    let rs = 4_960_000_000_000;
    let v2 = stages::circulating_ratio_squared_high(stages::circulating_ratio_high(rs, rs));
    assert_eq!(stages::circulating_loss(rs, v2), 2_480_000_000_000);
}

#[test]
fn skin_limit() {
    let a = stages::skin_reactance(5000, 1000);
    assert!(!skin_refused(stages::skin_argument(a, 160_285_339_470)));
    assert!(skin_refused(stages::skin_argument(a, 160_285_339_469)));
}

#[test]
fn eddy_limit() {
    let b = stages::reactance_unit_high(5000);
    assert!(!eddy_refused(b, 3_141_592_653_600));
    assert!(eddy_refused(b, 3_141_592_653_599));
}

#[test]
fn dielectric_limit() {
    let permitted = stages::permitted_rise(5000, MOIST, 0);
    assert!(!dielectric_refused(45_000_000_000, permitted));
    assert!(dielectric_refused(45_000_000_001, permitted));
}

#[test]
fn current_of_one_thousand_amperes() {
    assert_eq!(stages::largest_current(50_000_000_000, 500_000_000_000), 1_000_000);
    assert_eq!(stages::largest_current(49_999_999_999, 500_000_000_000), 999_999);
}

#[test]
fn rise_of_five_kelvin() {
    let cold_sheath = with(&TREFOIL_SINGLE_POINT, &[(3, 5000), (10, 0), (16, 5000)]);
    assert_eq!(rate(&with(&cold_sheath, &[(4, 4500)])).answer, 0);
    assert_eq!(rate(&with(&cold_sheath, &[(4, 4501)])).answer, 6);
}

#[test]
fn rise_counts_from_below_zero() {
    let minus_ten = (-1000i32) as u32;
    let case = with(&TREFOIL_SINGLE_POINT, &[(4, minus_ten)]);
    assert_eq!(rate(&case).answer, 0);
    assert!(rate(&case).rating > rate(&TREFOIL_SINGLE_POINT).rating);
}

#[test]
fn ends_of_the_logarithm_stay_close() {
    // Document 01: the ends differ by at most 100, and enclose the logarithm.
    for (a, b) in [(2_000_000, 105), (21, 20), (30000, 100), (65535, 32768), (6, 1), (1, 1)] {
        let (low, high) = (stages::log_low(a, b), stages::log_high(a, b));
        let exact = (a as f64 / b as f64).ln() * 1e12;
        assert!(low < high && high - low <= 100, "{a}/{b}: {low} {high}");
        // The float itself is only good to a few thousandths of a unit here.
        assert!(low as f64 <= exact + 0.01 && exact <= high as f64 + 0.01, "{a}/{b}");
    }
    assert_eq!(stages::halvings(2_000_000, 105), 14);
}

#[test]
fn parts_of_the_common_sheaths_loss() {
    // The aluminium cable's, worked out apart from this package.
    let b_high = stages::reactance_unit_high(5000);
    let rs = 858_808_498_030;
    let b = stages::axis_ratio_squared(1853, 7297);
    let b2 = stages::axis_ratio_fourth(b);
    let y = stages::common_sheath_ratio(rs, b_high);
    let y2 = stages::common_sheath_ratio_squared(y);
    assert_eq!((b, b2), (257_942_044_288, 66_534_098_212));
    assert_eq!((y, y2), (2_733_672_352_607, 7_472_964_531_407));
    let first = stages::common_sheath_first_term(b, y2);
    let second = stages::common_sheath_second_term(b2, y2);
    assert_eq!((first, second), (30_442_951_028, 2_153_774_563));
    assert_eq!(stages::common_sheath_loss_by_sum(rs, first, second), 83_983_034_837);
}

#[test]
fn common_sheaths_loss_where_the_formula_changes() {
    // With the lead cable's c and d the loss rises by a tenth there.
    let b_high = stages::reactance_unit_high(5000);
    let b = stages::axis_ratio_squared(1853, 7377);
    assert_eq!(b, 252_377_865_551);
    assert_eq!(stages::common_sheath_loss(T, b_high, b), 72_614_704_926);
    assert_eq!(stages::common_sheath_loss(T + 1, b_high, b), 79_707_830_163);
    // Stainless steel has the same Rs at every temperature.
    let stainless = |field| with(&COMMON_SHEATH, &[(14, 5), (15, field)]);
    assert_eq!(rate(&stainless(100_000)).sheet[8], 72_614_704_926);
    assert_eq!(rate(&stainless(100_001)).sheet[8], 79_707_033_093);
}

/// Each case is such that any one of b, b2, y, y2, both terms and S, rounded the
/// other way, changes S.
#[test]
fn every_rounding_of_the_common_sheaths_loss_shows() {
    let [by_sum, beyond] = ROUNDINGS.map(|case| rate(&case).sheet[8]);
    assert_eq!((by_sum, beyond), (789_991_608_533, 533_598_173_808));
    // With 2c = d there is nothing to round.
    assert_eq!(stages::axis_ratio_squared(25000, 50000), T);
    assert_eq!(stages::axis_ratio_fourth(T), T);
}

/// The sheet's numbers were worked out once more apart from this package with
/// whole numbers of any length.
fn whole_sheet(case: &Words, rating: u32, sheet: [u64; 13]) {
    assert_eq!(rate(case), Rated { answer: 0, rating, sheet });
}

#[test]
fn whole_sheet_of_the_sl_cable() {
    // The numbers the program `values` prints.
    let expected = [
        1_556_758_000_000,
        11_600_000_000_000,
        2_893_750_000_000,
        628_318_530_720,
        3_384_533_249,
        1_130_039_126,
        1_563_786_096_662,
        466_172_982_335,
        28_056_057_354,
        97_764_071_631,
        305_721_378_649,
        557_941_517,
        3_323_443_717_554,
    ];
    whole_sheet(&SL_TYPE, 457_106, expected);
    // In dry soil dd and E alone are others.
    let mut dry = expected;
    dry[11..].copy_from_slice(&[1_177_027_308, 6_744_896_324_490]);
    whole_sheet(&DRY_SOIL, 424_115, dry);
    // In the sun none is.
    whole_sheet(&IN_THE_SUN, 410_275, expected);
}

#[test]
fn whole_sheets_of_the_common_sheaths() {
    let lead = [
        961_425_400_000,
        4_420_859_576_800,
        0,
        628_318_530_720,
        8_835_005_445,
        12_722_773_647,
        982_151_596_387,
        0,
        18_029_939_377,
        0,
        56_650_693_262,
        167_999_416,
        3_161_843_911_640,
    ];
    whole_sheet(&COMMON_SHEATH, 469_955, lead);
    let aluminium = [
        1_602_625_000_000,
        858_808_498_030,
        0,
        628_318_530_720,
        3_194_063_320,
        4_692_286_050,
        1_615_263_860_660,
        0,
        83_983_034_837,
        0,
        56_650_693_262,
        168_887_415,
        5_376_747_008_813,
    ];
    whole_sheet(&COMMON_ALUMINIUM_SHEATH, 360_383, aluminium);
}
