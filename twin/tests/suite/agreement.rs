// The whole-number rating against the standard's formulas in floating point:
// real-looking cases of every arrangement, then many made by dice.

use twin::dice::Dice;
use twin::drawn_cases::{disturb, sound_case};
use twin::edge_cases::common_sheath::{with_sheath, NEAREST};
use twin::edge_cases::pairs::ORDER;
use twin::rating::{dry_soil, in_the_sun, rate, Rated, Words};
use twin::sample_cables::{
    with, ALL, DRY_SOIL, FEEDER, FEEDER_ALTERNATING, IN_THE_SUN, LOW_VOLTAGE,
};
use twin::standard::Cable;

/// The float rating less the whole one, in mA. The whole one is cautious: it
/// may fall short by 1 mA and by 10^-8, and never be over by more than a
/// float's own error.
fn shortfall(case: &Words, rated: &Rated) -> f64 {
    let float = 1000.0 * Cable::from_fields(case).rating();
    let short = float - f64::from(rated.rating);
    assert!(short <= 1.0 + 1e-8 * float, "{case:?}: {rated:?}, float {float}");
    assert!(short >= -1e-10 * float, "{case:?}: {rated:?}, float {float}");
    short
}

/// What the stages' rounding costs before I is rounded to whole mA, as a part
/// of the rating: dd and E from the sheet, the root in floating point.
fn relative_gap(case: &Words, rated: &Rated) -> f64 {
    let without_current = rated.sheet[11] as f64 + f64::from(case[29]) * f64::from(case[25]);
    let left = 1e9 * Cable::from_fields(case).permitted_rise() - without_current;
    let amperes = (1e7 * left / rated.sheet[12] as f64).sqrt();
    (1.0 - amperes / Cable::from_fields(case).rating()).abs()
}

type Changes = &'static [(usize, u32)];

/// Variations every arrangement with alternating current can bear.
const VARIATIONS: [Changes; 18] = [
    &[],
    &[(2, 6000)],
    &[(2, 1667), (4, 0)],
    &[(1, 2)],
    &[(1, 3)],
    &[(1, 5), (5, 60500)],
    &[(1, 8), (4, (-2000i32) as u32)],
    &[(10, 0)],
    &[(15, 500_000), (16, (-500i32) as u32), (23, 90_000)],
    &[(26, 300_000)],
    &[(27, 1000), (28, 6000)],
    &[(27, 2500), (28, 4500)],
    &[(27, 5000), (28, 7000)],
    &[(4, (-2000i32) as u32), (27, 3333), (28, (-100i32) as u32)],
    &[(29, 1)],
    &[(29, 20_000)],
    &[(25, 100_000), (29, 200_000)],
    &[(10, 0), (25, 220_000), (29, 200_000)],
];

#[test]
fn real_cases_agree() {
    let mut largest = 0f64;
    for base in ALL.into_iter().chain([LOW_VOLTAGE]) {
        for changes in VARIATIONS {
            let case = with(&base, changes);
            let rated = rate(&case);
            assert_eq!(rated.answer, 0, "{case:?}");
            largest = largest.max(shortfall(&case, &rated));
        }
    }
    println!("real cases: largest shortfall {largest} mA");
}

/// Variations that a cable of direct current can bear.
const DIRECT_VARIATIONS: [Changes; 14] = [
    &[],
    &[(1, 1)],
    &[(1, 3), (4, 0)],
    &[(1, 5), (5, 60500)],
    &[(1, 8), (4, (-2000i32) as u32)],
    &[(10, 0)],
    &[(10, 5000), (23, 90_000)],
    &[(26, 300_000)],
    &[(27, 1000), (28, 6000)],
    &[(27, 2500), (28, 3500)],
    &[(27, 5000), (28, 7000)],
    &[(4, (-2000i32) as u32), (27, 3333), (28, (-100i32) as u32)],
    &[(25, 400_000), (29, 16_000)],
    &[(25, 220_000), (29, 200_000)],
];

#[test]
fn real_cases_of_direct_current_agree() {
    for changes in DIRECT_VARIATIONS {
        let case = with(&FEEDER, changes);
        let rated = rate(&case);
        assert_eq!(rated.answer, 0, "{case:?}");
        shortfall(&case, &rated);
    }
    let amperes = [FEEDER, FEEDER_ALTERNATING].map(|case| Cable::from_fields(&case).rating());
    assert_eq!(amperes.map(|amperes| format!("{amperes:.3}")), ["866.734", "795.388"]);
}

/// A common sheath's two formulas are far apart where one takes over from the
/// other: there the float must take the one that the whole numbers take.
#[test]
fn common_sheaths_next_to_the_change_of_formula_agree() {
    for near in &NEAREST {
        let case = with_sheath(near);
        let rated = rate(&case);
        assert_eq!(rated.answer, 0, "{case:?}");
        shortfall(&case, &rated);
    }
}

#[test]
fn rolled_cases_agree() {
    let mut dice = Dice(0x60287);
    let mut largest = 0f64;
    let mut widest = 0f64;
    let mut rated_cases = [0; 7];
    let mut dry_cases = [0; 7];
    let mut sunny_cases = [0; 7];
    let mut refused = [0; 34];
    for _ in 0..40_000 {
        let case = sound_case(&mut dice);
        let rated = rate(&case);
        refused[rated.answer as usize] += 1;
        if rated.answer == 0 {
            let short = shortfall(&case, &rated);
            largest = largest.max(short);
            widest = widest.max(relative_gap(&case, &rated));
            rated_cases[case[0] as usize - 1] += 1;
            dry_cases[case[0] as usize - 1] += usize::from(dry_soil(&case));
            sunny_cases[case[0] as usize - 1] += usize::from(in_the_sun(&case));
        }
    }
    println!("rolled cases: rated by arrangement {rated_cases:?}, in dry soil {dry_cases:?}");
    println!("in the sun {sunny_cases:?}");
    println!("answers {refused:?}");
    println!("largest shortfall {largest} mA; before the last rounding {widest:e} of the rating");
    assert!(rated_cases.iter().all(|&count| count > 500));
    assert!(dry_cases.iter().all(|&count| count > 200));
    assert!(sunny_cases.iter().all(|&count| count > 200));
    assert!(refused[1..8].iter().chain(&refused[31..]).all(|&count| count == 0));
}

/// A sheet number and its scale against the float, for the parts of the sheet
/// that the standard names.
#[test]
fn sheets_agree() {
    let without_loss = ALL.map(|case| with(&case, &[(26, case[10] + 1)]));
    let at_u0 = ALL.map(|case| with(&case, &[(26, case[10])]));
    let others = [LOW_VOLTAGE, DRY_SOIL, IN_THE_SUN, FEEDER_ALTERNATING];
    for case in [ALL, without_loss, at_u0].into_iter().flatten().chain(others) {
        let sheet = rate(&case).sheet.map(|number| number as f64);
        let cable = Cable::from_fields(&case);
        let r = cable.ac_resistance();
        let circulating = matches!(case[0], 1 | 2 | 5);
        let reactance = if circulating { cable.sheath_reactance() } else { 0.0 };
        let expected = [
            (0, 1e16 * cable.dc_resistance()),
            (1, 1e16 * cable.rs),
            (2, 1e16 * cable.ra),
            (3, 2e9 * cable.omega()),
            (4, 1e12 * cable.ys()),
            (5, 1e12 * cable.yp()),
            (6, 1e16 * r),
            (7, 1e16 * reactance),
            (8, 1e16 * r * cable.lambda1()),
            (9, 1e16 * r * cable.lambda2()),
            (10, 1e12 * cable.dielectric_loss()),
        ];
        for (index, float) in expected {
            let gap = (sheet[index] - float).abs();
            assert!(gap <= 5.0 + 1e-8 * float, "{case:?} {index}: {} {float}", sheet[index]);
        }
    }
}

#[test]
fn sheets_of_direct_current_have_three_numbers() {
    for changes in DIRECT_VARIATIONS {
        let case = with(&FEEDER, changes);
        let sheet = rate(&case).sheet;
        let float = 1e16 * Cable::from_fields(&case).dc_resistance();
        assert!((sheet[0] as f64 - float).abs() <= 5.0 + 1e-8 * float, "{case:?} {float}");
        let e = sheet[12];
        assert_eq!(sheet, [sheet[0], 0, 0, 0, 0, 0, sheet[0], 0, 0, 0, 0, 0, e]);
        assert!(e > 0);
    }
}

/// Any words get an answer; run with overflow checks (cargo test without
/// --release) this is also the test that no stage overflows.
#[test]
fn any_words_get_an_answer() {
    let mut dice = Dice(26);
    for round in 0..40_000 {
        let mut case = sound_case(&mut dice);
        disturb(&mut case, round % 4, &mut dice);
        let rated = rate(&case);
        assert!(rated.answer == 0 || ORDER.contains(&rated.answer));
        assert!(rated.rating <= 5_000_000);
        assert!(rated.answer == 0 || (rated.rating == 0 && rated.sheet == [0; 13]));
    }
}
