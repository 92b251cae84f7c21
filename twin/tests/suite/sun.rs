// Cables in the sun: the rise by its heat, d0, N and refusal 10 by numbers worked by
// hand from document 02, the sheet of the shade, a cable on a bridge, and refusal 32.

use twin::cable::Cable;
use twin::edge_cases::sun::{alone, shaded_pairs, together, SHADED_BRIDGE};
use twin::rating::{dielectric_refused, in_the_sun, rate, value, Rated, Words};
use twin::sample_cables::{with, ALL, DRY_SOIL, IN_THE_SUN, LOW_VOLTAGE, ON_A_BRIDGE, SL_TYPE};
use twin::stages::{largest_current, rise_left, rise_without_current, solar_rise};
use twin::standard;

/// Where the sheet keeps dd and E.
const DD: usize = 11;
const E: usize = 12;

#[test]
fn the_suns_rise_is_heat_times_t4() {
    // 30 W/m by 0.45 K m/W: 13.5 K.
    assert_eq!(solar_rise(30_000, 450_000), 13_500_000_000);
    assert_eq!((solar_rise(0, 450_000), solar_rise(1, 10_000)), (0, 10_000));
    // 200 W/m by 20 K m/W, the most there is.
    assert_eq!(solar_rise(200_000, 20_000_000), 4_000_000_000_000);
    assert_eq!(rise_without_current(557_941_517, 13_500_000_000), 14_057_941_517);
    assert_eq!(rise_left(70_000_000_000, 14_057_941_517), 55_942_058_483);
}

/// Nine tenths of 70 K are 63 K, which dd and the sun make up together.
#[test]
fn refusal_10_weighs_dd_and_the_sun_together() {
    let permitted = 70_000_000_000;
    let weighed = |dd, sun| dielectric_refused(rise_without_current(dd, sun), permitted);
    assert!(!weighed(63_000_000_000, 0) && !weighed(0, 63_000_000_000));
    assert!(!weighed(31_500_000_000, 31_500_000_000));
    assert!(weighed(31_500_000_001, 31_500_000_000) && weighed(31_500_000_000, 31_500_000_001));
    assert!(weighed(63_000_000_000, 1) && weighed(1, 63_000_000_000));
}

/// The heat times T4, as they stand in the case.
fn product(case: &Words) -> u64 {
    u64::from(case[29]) * u64::from(case[25])
}

/// Nine tenths of the permitted rise, of a cable in moist soil.
fn nine_tenths(case: &Words) -> u64 {
    9_000_000 * (value(case, 3) - value(case, 4)) as u64
}

#[test]
fn the_sun_alone_decides_refusal_10() {
    let (at, above) = (alone(0), alone(1));
    assert_eq!((at.len(), above.len()), (8, 8));
    for case in at {
        let rated = rate(&case);
        assert_eq!((rated.answer, rated.sheet[DD]), (0, 0), "{case:?}");
        assert_eq!(product(&case), nine_tenths(&case));
    }
    for case in above {
        assert_eq!(rate(&case).answer, 10, "{case:?}");
        assert_eq!(product(&case), nine_tenths(&case) + 1);
    }
}

/// 2 K by the sun and 2.5 K by the loss are nine tenths of 5 K.
#[test]
fn dd_and_the_sun_decide_refusal_10_together() {
    for (distance, answer) in [(0, 0), (1, 10)] {
        for case in together(distance) {
            assert_eq!((nine_tenths(&case), product(&case)), (4_500_000_000, 2_000_000_000));
            assert_eq!(rate(&case).answer, answer, "{case:?}");
            let shaded = rate(&with(&case, &[(29, 0)]));
            assert_eq!((shaded.answer, shaded.sheet[DD]), (0, 2_500_000_000 + distance as u64));
            assert_eq!(rate(&with(&case, &[(26, 300_000)])).answer, 0);
        }
    }
}

/// The whole sheet, dd and E among it, is that of the shade, and the rating is what is
/// left of the rise: the heat meets T4 once, whatever n is.
#[test]
fn the_sun_enters_the_rise_left_alone() {
    for (shaded, sunny) in shaded_pairs() {
        assert!(!in_the_sun(&shaded) && in_the_sun(&sunny));
        let (in_shade, in_sun) = (rate(&shaded), rate(&sunny));
        assert_eq!((in_shade.answer, in_sun.answer), (0, 0), "{sunny:?}");
        assert_eq!(in_shade.sheet, in_sun.sheet);
        assert!(in_sun.rating < in_shade.rating, "{sunny:?}");
        let permitted = 10_000_000 * (value(&sunny, 3) - value(&sunny, 4)) as u64;
        let left = permitted - in_sun.sheet[DD] - product(&sunny);
        assert_eq!(u128::from(in_sun.rating), largest_current(left.into(), in_sun.sheet[E].into()));
    }
}

#[test]
fn more_heat_or_a_larger_t4_makes_a_smaller_rating() {
    for cable in ALL.into_iter().chain([LOW_VOLTAGE]) {
        let rating = |t4, heat| rate(&with(&cable, &[(25, t4), (29, heat)])).rating;
        let ratings = [
            rating(100_000, 0),
            rating(100_000, 1000),
            rating(101_000, 1000),
            rating(101_000, 2000),
            rating(200_000, 200_000),
        ];
        assert!(ratings.is_sorted_by(|higher, lower| higher > lower), "{ratings:?}");
        assert!(ratings[4] > 0);
    }
}

/// The cable on a bridge, as the standard's formulas rate it: 632.628 A in the shade
/// and 579.762 A in the sun.
#[test]
fn a_cable_on_a_bridge() {
    let shade = with(&ON_A_BRIDGE, &SHADED_BRIDGE);
    assert_eq!([shade, ON_A_BRIDGE].map(|case| rate(&case).rating), [632_628, 579_762]);
    let floats = [shade, ON_A_BRIDGE].map(|case| standard::Cable::from_fields(&case).rating());
    assert_eq!(floats.map(|amperes| format!("{amperes:.3}")), ["632.628", "579.762"]);
    // 33.48 W/m by 0.307819 K m/W.
    assert_eq!(Cable::of(&ON_A_BRIDGE).solar_rise(), 10_305_780_120);
    assert_eq!(product(&ON_A_BRIDGE), 10_305_780_120);
}

fn refused(number: u32) -> Rated {
    Rated { answer: number, rating: 0, sheet: [0; 13] }
}

/// 0.45 K m/W by 200 W/m are 90 K, and by 138.7 W/m 62.4 K: dd is half a K, and nine
/// tenths of 70 K are 63 K.
#[test]
fn edges_of_field_29() {
    let at = |heat| rate(&with(&SL_TYPE, &[(29, heat)]));
    assert_eq!(at(0), rate(&SL_TYPE));
    assert_eq!(at(30_000), rate(&IN_THE_SUN));
    assert_eq!((at(138_760).answer, at(138_761)), (0, refused(10)));
    assert_eq!((at(200_000), at(200_001)), (refused(10), refused(3)));
    assert_eq!((at(1 << 31), at(u32::MAX)), (refused(3), refused(3)));
}

/// 32 stands after 31 and before 7, for all that its number is greater.
#[test]
fn refusal_32_stands_between_31_and_7() {
    let both = with(&DRY_SOIL, &[(29, 1)]);
    assert_eq!(rate(&both), refused(32));
    assert_eq!(rate(&with(&both, &[(27, 1000)])), refused(32));
    assert_eq!(rate(&with(&both, &[(29, 200_000)])), refused(32));
    assert_eq!(rate(&with(&both, &[(28, 8501)])), refused(31));
    assert_eq!(rate(&with(&both, &[(28, 1499)])), refused(31));
    assert_eq!(rate(&with(&both, &[(16, 8501)])), refused(6));
    assert_eq!(rate(&with(&both, &[(14, 2)])), refused(32));
    // Without a v the isotherm is stray before the sun is asked for.
    assert_eq!(rate(&with(&both, &[(27, 0)])), refused(4));
    assert_eq!(rate(&with(&both, &[(27, 0), (28, 0)])).answer, 0);
    assert_eq!(rate(&with(&both, &[(29, 0)])), rate(&DRY_SOIL));
}
