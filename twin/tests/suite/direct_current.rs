// Direct current: a traction feeder by numbers worked by hand from document 02, what its
// arrangement does not ask and does not have, and refusals 33 and 10.

use twin::cable::Cable;
use twin::edge_cases::direct_current::{loss_voltages, ALWAYS_ZERO};
use twin::edge_cases::sun::heated;
use twin::rating::{has_field, holds, loss_counts, rate, Rated, Words};
use twin::sample_cables::{with, ALL, FEEDER, FEEDER_ALTERNATING};

/// 36600 × (10^7 + 393 × 7000).
const DC_RESISTANCE: u64 = 466_686_600_000;

fn rated(rating: u32, e: u64) -> Rated {
    let mut sheet = [0; 13];
    (sheet[0], sheet[6], sheet[12]) = (DC_RESISTANCE, DC_RESISTANCE, e);
    Rated { answer: 0, rating, sheet }
}

/// E is R' times 86171, rounded up, and R' times 119012 + 1791461, rounded up, both over
/// 10^6: 40214851008.6 and 891592148761.8.
#[test]
fn the_feeder_by_hand() {
    assert_eq!(rate(&FEEDER), rated(866_734, 40_214_851_009 + 891_592_148_762));
    // v T4 is 4478652.5, and 1.5 times 15 K come to the rise of 70 K.
    let dry = with(&FEEDER, &[(27, 2500), (28, 3500)]);
    assert_eq!(rate(&dry), rated(650_515, 40_214_851_009 + 2_145_668_413_446));
    // 16 W/m by 0.4 K m/W are 6.4 K of them.
    let sunny = with(&FEEDER, &[(25, 400_000), (29, 16_000)]);
    assert_eq!(rate(&sunny), rated(1_500_626, 40_214_851_009 + 242_215_945_640));
    let cable = Cable::of(&sunny);
    assert_eq!((cable.dielectric(), cable.solar_rise()), ((0, 0), 6_400_000_000));
    // T2 has a part of its own, R' times 40001 over 10^6: 18667930686.6.
    let bedded = with(&dry, &[(23, 40_001), (27, 2501)]);
    let e = 40_214_851_009 + 18_667_930_687 + 2_146_504_464_289;
    assert_eq!(rate(&bedded), rated(647_684, e));
}

/// The sheet of the same cables with alternating current was worked out once more apart
/// from this package with whole numbers of any length. Their rating is 8 per cent less.
#[test]
fn the_feeder_with_alternating_current() {
    let sheet = [
        DC_RESISTANCE,
        6_623_863_040_000,
        0,
        628_318_530_720,
        36_655_729_563,
        63_114_123_517,
        513_247_853_517,
        533_945_709_829,
        42_763_180_211,
        0,
        0,
        0,
        1_106_471_148_426,
    ];
    assert_eq!(rate(&FEEDER_ALTERNATING), Rated { answer: 0, rating: 795_387, sheet });
}

fn refused(number: u32) -> Rated {
    Rated { answer: number, rating: 0, sheet: [0; 13] }
}

#[test]
fn fields_of_alternating_current_must_be_zero() {
    let absent = (0..FEEDER.len()).filter(|&field| !has_field(&FEEDER, field));
    assert_eq!(absent.collect::<Vec<usize>>(), ALWAYS_ZERO);
    for field in ALWAYS_ZERO {
        assert_eq!(FEEDER[field], 0);
        for word in [1, FEEDER_ALTERNATING[field].max(1), 1 << 31, u32::MAX] {
            assert_eq!(rate(&with(&FEEDER, &[(field, word)])), refused(4), "{field} {word}");
        }
    }
}

#[test]
fn edges_of_refusal_33() {
    let at = |volts| rate(&with(&FEEDER, &[(10, volts)]));
    assert_eq!([0, 1, 1500, 5000].map(at), [rate(&FEEDER); 4]);
    assert_eq!([5001, 300_000].map(at), [refused(33); 2]);
    assert_eq!([300_001, u32::MAX].map(at), [refused(3); 2]);
    for cable in ALL {
        assert!(!holds(33, &with(&cable, &[(10, 300_000)])), "{cable:?}");
    }
}

/// 33 stands after 32 and before 8 to 11, for all that its number is greater. 7, 8 and 9
/// are not of direct current.
#[test]
fn refusal_33_stands_before_10_and_11() {
    let high = with(&FEEDER, &[(10, 5001)]);
    let after: [&[(usize, u32)]; 2] =
        [&[(29, 200_000)], &[(5, 5000), (22, 1000), (24, 0), (25, 10000)]];
    for (changes, number) in after.into_iter().zip([10, 11]) {
        assert_eq!(rate(&with(&FEEDER, changes)), refused(number));
        assert_eq!(rate(&with(&high, changes)), refused(33));
    }
    let before: [(&[(usize, u32)], u32); 8] = [
        (&[(0, 8)], 1),
        (&[(1, 0)], 2),
        (&[(22, 999)], 3),
        (&[(7, 4000)], 4),
        (&[(6, 2631)], 5),
        (&[(3, 4000), (4, 3501)], 6),
        (&[(27, 1000), (28, 1999)], 31),
        (&[(27, 1000), (28, 2000), (29, 1)], 32),
    ];
    for (changes, number) in before {
        assert_eq!(rate(&with(&FEEDER, changes)), refused(number));
        assert_eq!(rate(&with(&high, changes)), refused(number));
    }
}

/// d and s are zero, so that nothing is within d or beside s.
#[test]
fn only_the_cores_own_geometry_is_asked() {
    assert_eq!((FEEDER[7], FEEDER[13]), (0, 0));
    assert_eq!(rate(&with(&FEEDER, &[(6, 10000), (8, 20000), (9, 30000)])).answer, 0);
    // 105 × 2630 = 276150.
    assert_eq!(rate(&with(&FEEDER, &[(9, 2762)])).answer, 0);
    assert_eq!(rate(&with(&FEEDER, &[(9, 2761)])), refused(5));
    assert_eq!(rate(&with(&FEEDER, &[(6, 2630)])).answer, 0);
    assert_eq!(rate(&with(&FEEDER, &[(6, 2631)])), refused(5));
    // Neither changes the rating.
    assert_eq!(rate(&with(&FEEDER, &[(6, 100), (8, 100), (9, 105)])), rate(&FEEDER));
}

/// The largest conductor of each code, the coldest, whose z of alternating current is far
/// above the limit of 8, is rated with direct current.
#[test]
fn what_8_refuses_in_ac_is_rated_in_dc() {
    for code in 1..=8 {
        let conductor = [(1, code), (3, 4000), (5, 5000)];
        let case = with(&FEEDER, &conductor);
        assert_eq!(rate(&case).answer, 0);
        assert!(!holds(8, &case) && !holds(9, &case));
        let alternating = with(&with(&FEEDER_ALTERNATING, &conductor), &[(16, 4000)]);
        assert_eq!(rate(&with(&alternating, &[(2, 6500)])), refused(8));
    }
}

#[test]
fn the_loss_voltage_makes_no_difference() {
    for case in loss_voltages() {
        assert!(!loss_counts(&case));
        assert_eq!(rate(&case), rate(&FEEDER), "{case:?}");
    }
}

/// d0 and the permitted rise.
fn without_current(case: &Words) -> (u128, u128) {
    let cable = Cable::of(case);
    (cable.rise_without_current(), cable.permitted_rise())
}

#[test]
fn the_sun_alone_brings_about_10() {
    for (distance, answer) in [(0, 0), (1, 10)] {
        let case = heated(&FEEDER, distance);
        let (d0, permitted) = without_current(&case);
        assert_eq!(d0, u128::from(case[25]) * u128::from(case[29]));
        assert_eq!(10 * d0, 9 * permitted + 10 * distance as u128);
        assert_eq!(rate(&case).answer, answer);
        // The highest voltage and a loss that would count weigh nothing.
        assert_eq!(rate(&with(&case, &[(10, 5000), (26, 0)])).answer, answer);
    }
}

/// In dry soil there is no sun, so that d0 is 0, whatever the soil is.
#[test]
fn dry_soil_cannot_bring_about_10() {
    let cold = with(&FEEDER, &[(3, 4500), (4, 4000), (10, 5000), (22, 10_000_000)]);
    let case = with(&cold, &[(23, 10_000_000), (24, 10_000_000), (25, 20_000_000)]);
    for ratio in [1000, 1001, 5000] {
        for isotherm in 4000..=4500 {
            let dry = with(&case, &[(27, ratio), (28, isotherm)]);
            assert_eq!(without_current(&dry).0, 0);
            assert_eq!(rate(&dry).answer, 0);
            assert_eq!(rate(&with(&dry, &[(29, 200_000)])), refused(32));
        }
    }
}
