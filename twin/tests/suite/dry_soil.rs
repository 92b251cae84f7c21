// Soil that dries out: T4, the permitted rise, dd, E and refusal 10 by numbers worked
// by hand from document 02, a v of moist soil, and what refusal 31 lets pass.

use twin::edge_cases::dry_soil::{deciding, moist_pairs, uneven};
use twin::rating::{dielectric_refused, dry_soil, rate, value, Rated};
use twin::sample_cables::{with, ALL, DRY_SOIL, LOW_VOLTAGE, SL_TYPE};
use twin::stages::{
    dielectric_rise, effective_resistance, permitted_rise, rise_left, Thermal, MOIST,
};

/// Where the sheet keeps dd and E.
const DD: usize = 11;
const E: usize = 12;

/// One core, T4 1 and the others 0.
const ONLY_SOIL: Thermal = Thermal { t1: 0, t2: 0, t3: 0, t4: 1, soil_ratio: 1001, cores: 1 };

#[test]
fn dd_is_rounded_once() {
    // 10^12 × 2 × 1001/(2 × 10^12); with v T4/1000 rounded to 1 or 2 it were 1000 or 2000.
    assert_eq!(dielectric_rise(1_000_000_000_000, &ONLY_SOIL), 1001);
    // 1.001, rounded up.
    assert_eq!(dielectric_rise(1_000_000_000, &ONLY_SOIL), 2);
    // T1 counts half, and all but T1 for each core: 1000 × 2 + 2 × 3 × (1000 (3 + 5) +
    // 2500 × 7) = 155000, times 8 × 10^9 over 2 × 10^12.
    let all = Thermal { t1: 2, t2: 3, t3: 5, t4: 7, soil_ratio: 2500, cores: 3 };
    assert_eq!(dielectric_rise(8_000_000_000, &all), 620);
    // In moist soil 2 + 6 × 15 = 92, times 8 × 10^9 over 2 × 10^9.
    assert_eq!(dielectric_rise(8_000_000_000, &Thermal { soil_ratio: MOIST, ..all }), 368);
}

#[test]
fn e_is_rounded_once_in_its_last_term() {
    // 10^9 × 1001/10^9; with v T4/1000 rounded to 1 or 2 it were 1000 or 2000.
    assert_eq!(effective_resistance(1_000_000_000, 0, 0, &ONLY_SOIL), 1001);
    // 1.001, rounded up; the sheath's and the armour's loss count as the conductor's.
    assert_eq!(effective_resistance(500_000, 300_000, 200_000, &ONLY_SOIL), 2);
    // 10^6 × 2, then 3 × (10^6 + 10^6) × 3, both over 10^6, and 3 × (3 × 10^6) ×
    // (1000 × 5 + 2500 × 7 = 22500) over 10^9, which is 202.5.
    let all = Thermal { t1: 2, t2: 3, t3: 5, t4: 7, soil_ratio: 2500, cores: 3 };
    let million = 1_000_000;
    assert_eq!(effective_resistance(million, million, million, &all), 2 + 18 + 203);
    // In moist soil the last is 9 × 12.
    let moist = Thermal { soil_ratio: MOIST, ..all };
    assert_eq!(effective_resistance(million, million, million, &moist), 2 + 18 + 108);
}

#[test]
fn the_dry_zone_adds_to_the_permitted_rise() {
    // 70 K.
    assert_eq!(permitted_rise(7000, MOIST, 0), 70_000_000_000);
    assert_eq!(permitted_rise(7000, MOIST, 7000), 70_000_000_000);
    assert_eq!(permitted_rise(7000, 5000, 0), 70_000_000_000);
    // 0.001 times 0.01 K.
    assert_eq!(permitted_rise(7000, 1001, 1), 70_000_010_000);
    // 1.5 times 35 K.
    assert_eq!(permitted_rise(7000, 2500, 3500), 122_500_000_000);
    // 4 times 70 K: the highest v, with the isotherm at the conductor's temperature.
    assert_eq!(permitted_rise(7000, 5000, 7000), 350_000_000_000);
    // 290 K and 4 times 290 K: the most that there is.
    assert_eq!(permitted_rise(29000, 5000, 29000), 1_450_000_000_000);
    assert_eq!(rise_left(122_500_000_000, 1_177_027_308), 121_322_972_692);
}

/// Nine tenths of 122.5 K are 110.25 K, and of 70 K 63 K.
#[test]
fn refusal_10_weighs_against_the_rise_with_the_addition() {
    let with_addition = permitted_rise(7000, 2500, 3500);
    assert!(!dielectric_refused(110_250_000_000, with_addition));
    assert!(dielectric_refused(110_250_000_001, with_addition));
    let without = permitted_rise(7000, 2500, 0);
    assert!(!dielectric_refused(63_000_000_000, without));
    assert!(dielectric_refused(63_000_000_001, without));
}

/// v is 3 and the isotherm 3 K above the ambient, so that 2 × 3 K come to the 5 K between
/// conductor and ambient: nine tenths of 11 K are 9.9 K.
#[test]
fn the_addition_decides_refusal_10() {
    for case in deciding(0) {
        let [conductor, ambient, isotherm] = [3, 4, 28].map(|field| value(&case, field));
        assert_eq!((conductor, ambient, isotherm, case[27]), (4500, 4000, 4300, 3000));
        let rated = rate(&case);
        assert_eq!((rated.answer, rated.sheet[DD]), (0, 9_900_000_000), "{case:?}");
        // Without the addition 4.5 K would be the most.
        assert_eq!(rate(&with(&case, &[(28, 4000)])).answer, 10);
    }
    for case in deciding(1) {
        assert_eq!(rate(&case).answer, 10, "{case:?}");
        // A hundredth of a degree adds 0.02 K.
        let hotter = rate(&with(&case, &[(28, 4301)]));
        assert_eq!((hotter.answer, hotter.sheet[DD]), (0, 9_900_000_001));
    }
}

#[test]
fn a_v_of_moist_soil_changes_nothing() {
    for (moist, same) in moist_pairs() {
        assert!(!dry_soil(&moist) && dry_soil(&same) && same[27] == 1000);
        assert_eq!(rate(&moist), rate(&same), "{same:?}");
    }
}

/// Rounding v T4/1000 up or down first would show in E and dd.
#[test]
fn no_thousandth_of_the_soils_resistance_is_lost() {
    for case in uneven() {
        let product = u64::from(case[27]) * u64::from(case[25]);
        assert_ne!(product % 1000, 0);
        let exact = rate(&case).sheet;
        for rounded in [product / 1000, product / 1000 + 1] {
            let moist = rate(&with(&case, &[(25, rounded as u32), (27, 0), (28, 0)]));
            assert_eq!(moist.answer, 0, "{case:?}");
            let (below, above) =
                if rounded * 1000 < product { (moist.sheet, exact) } else { (exact, moist.sheet) };
            assert!(below[DD] < above[DD] && below[E] < above[E], "{case:?}");
            assert_eq!(below[..DD], above[..DD]);
        }
    }
}

/// All but dd and E of the sheet is that of moist soil, and both of these grow with v
/// and not with the isotherm.
#[test]
fn dry_soil_enters_dd_e_and_the_permitted_rise_alone() {
    for cable in ALL.into_iter().chain([LOW_VOLTAGE]) {
        let moist = rate(&cable);
        let at = |v, isotherm| rate(&with(&cable, &[(27, v), (28, isotherm)]));
        let [cold, hot, higher] = [at(2500, 3000), at(2500, 5000), at(2501, 3000)];
        assert_eq!(moist.sheet[..DD], cold.sheet[..DD]);
        assert_eq!(cold.sheet, hot.sheet);
        assert!(moist.sheet[E] < cold.sheet[E] && cold.sheet[E] < higher.sheet[E]);
        assert!(moist.sheet[DD] <= cold.sheet[DD] && cold.sheet[DD] <= higher.sheet[DD]);
        assert!(cold.rating < hot.rating);
    }
}

/// With the isotherm at the conductor's temperature the soil is nowhere dry, so that
/// the rating is above that of moist soil: document 02 takes no smaller of the two.
#[test]
fn no_smaller_of_a_dry_and_a_moist_rating_is_taken() {
    for cable in ALL.into_iter().chain([LOW_VOLTAGE]) {
        let at_conductor = rate(&with(&cable, &[(27, 2500), (28, cable[3])]));
        assert_eq!(at_conductor.answer, 0);
        assert!(at_conductor.rating > rate(&cable).rating, "{cable:?}");
        let at_ambient = rate(&with(&cable, &[(27, 2500), (28, cable[4])]));
        assert!(at_ambient.rating < rate(&cable).rating, "{cable:?}");
    }
}

fn refused(number: u32) -> Rated {
    Rated { answer: number, rating: 0, sheet: [0; 13] }
}

/// DRY_SOIL's ambient is 1500 and its conductor 8500.
#[test]
fn isotherm_edges() {
    let at = |isotherm: i32| rate(&with(&DRY_SOIL, &[(28, isotherm as u32)]));
    assert_eq!((at(1499), at(8501)), (refused(31), refused(31)));
    assert_eq!((at(1500).answer, at(8500).answer), (0, 0));
    assert_eq!((at(-1), at(-4000), at(25000)), (refused(31), refused(31), refused(31)));
    assert_eq!((at(-4001), at(25001), at(i32::MIN)), (refused(3), refused(3), refused(3)));
    // Without a v no isotherm is asked for.
    assert_eq!(rate(&with(&DRY_SOIL, &[(27, 0), (28, 0)])), rate(&SL_TYPE));
    // An ambient of -10 degrees, and isotherms of -10.01 and -10.
    let cold = with(&DRY_SOIL, &[(4, -1000i32 as u32)]);
    let at = |isotherm: i32| rate(&with(&cold, &[(28, isotherm as u32)]));
    assert_eq!(at(-1001), refused(31));
    assert_eq!((at(-1000).answer, at(-1).answer, at(0).answer), (0, 0, 0));
    assert!(at(-1000).rating < at(-1).rating && at(-1).rating < at(0).rating);
}

/// 31 stands after 6 and before 7, for all that its number is greater.
#[test]
fn refusal_31_stands_between_6_and_7() {
    let isotherm = with(&DRY_SOIL, &[(28, 8501)]);
    assert_eq!(rate(&isotherm), refused(31));
    assert_eq!(rate(&with(&isotherm, &[(16, 8501)])), refused(6));
    assert_eq!(rate(&with(&isotherm, &[(14, 2)])), refused(31));
    assert_eq!(rate(&with(&DRY_SOIL, &[(14, 2)])), refused(7));
}
