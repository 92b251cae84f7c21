// The refusals 1 to 11 and 31 to 33: each by itself, and at the edges of its condition with
// the numbers as documents 01 and 02 have them.

use twin::edge_cases::pairs::{BRINGS, COMMON_BRINGS, DIRECT_BRINGS};
use twin::rating::{current_refused, rate, Rated, Words};
use twin::sample_cables::{
    with, ALL, COMMON_ALUMINIUM_SHEATH, COMMON_SHEATH, FEEDER, FLAT, FLAT_SINGLE_POINT,
    LOW_VOLTAGE, SL_TYPE, TREFOIL, TREFOIL_SINGLE_POINT,
};
use twin::standard::Cable;

const COLD: u32 = (-4000i32) as u32;
const TOO_COLD: u32 = (-4001i32) as u32;

type Changes = &'static [(usize, u32)];

/// The changes that bring a refusal about.
fn changes_for(number: u32, brings: &[(u32, Changes)]) -> Changes {
    brings.iter().find(|bring| bring.0 == number).expect("a refusal that is brought about").1
}

fn refused_with(case: &Words, number: u32) {
    let expected = Rated { answer: number, rating: 0, sheet: [0; 13] };
    assert_eq!(rate(case), expected, "{case:?}");
}

#[test]
fn every_base_is_rated() {
    for case in ALL {
        let rated = rate(&case);
        assert_eq!(rated.answer, 0, "{case:?}");
        assert!(rated.rating > 100_000);
    }
}

#[test]
fn each_refusal_by_itself() {
    for (number, changes) in BRINGS {
        refused_with(&with(&TREFOIL_SINGLE_POINT, changes), number);
    }
    for (number, changes) in COMMON_BRINGS {
        refused_with(&with(&COMMON_SHEATH, changes), number);
    }
    for (number, changes) in DIRECT_BRINGS {
        refused_with(&with(&FEEDER, changes), number);
    }
    refused_with(&with(&FEEDER, &[(29, 200_000)]), 10);
}

/// The pair 10 and 11 needs care, for the dielectric loss must leave enough of
/// the rise for 5000 A: the standard's formulas say that both do hold there.
#[test]
fn dielectric_and_current_hold_together() {
    let single_core = (TREFOIL_SINGLE_POINT, &BRINGS[..], 1.0);
    let three_cores = (COMMON_SHEATH, &COMMON_BRINGS[..], 3.0);
    for (case, brings, n) in [single_core, three_cores] {
        let [dielectric, current] = [10, 11].map(|number| changes_for(number, brings));
        let cable = Cable::from_fields(&with(&with(&case, current), dielectric));
        let rise = cable.theta_c - cable.theta_a;
        let dielectric_rise = cable.dielectric_loss() * (0.5 * 0.001 + n * 0.01);
        assert!(dielectric_rise > 0.9 * rise && dielectric_rise < rise, "{dielectric_rise}");
        assert!(cable.rating() > 5000.0, "{}", cable.rating());
    }
}

#[test]
fn arrangement_and_conductor_ends() {
    for arrangement in [0, 8, u32::MAX] {
        refused_with(&with(&TREFOIL, &[(0, arrangement)]), 1);
        refused_with(&with(&COMMON_SHEATH, &[(0, arrangement)]), 1);
    }
    for code in [0, 9, u32::MAX] {
        refused_with(&with(&TREFOIL, &[(1, code)]), 2);
    }
    refused_with(&[0; 30], 1);
    refused_with(&[u32::MAX; 30], 1);
}

/// Just outside each limit of fields 2 to 29 in the SL cable, as document 01's
/// table of fields and document 02 have them.
const JUST_OUTSIDE: [(usize, u32, u32); 28] = [
    (2, 999, 6501),
    (3, 3999, 25001),
    (4, TOO_COLD, 6001),
    (5, 4999, 20_000_001),
    (6, 99, 10001),
    (7, 99, 1_000_001),
    (8, 99, 20001),
    (9, 99, 30001),
    (10, u32::MAX, 300_001),
    (11, 99, 801),
    (12, 0, 10001),
    (13, 99, 50001),
    (14, 0, 7),
    (15, 999, 20_000_001),
    (16, TOO_COLD, 25001),
    (17, 0, 7),
    (18, 999, 20_000_001),
    (19, TOO_COLD, 25001),
    (20, 99, 50001),
    (21, 99, 50001),
    (22, 999, 10_000_001),
    (23, u32::MAX, 10_000_001),
    (24, u32::MAX, 10_000_001),
    (25, 9999, 20_000_001),
    (26, u32::MAX, 300_001),
    (27, 999, 5001),
    (28, TOO_COLD, 25001),
    (29, u32::MAX, 200_001),
];

fn limits_hold(cable: &Words, (field, below, above): (usize, u32, u32)) {
    refused_with(&with(cable, &[(field, below)]), 3);
    refused_with(&with(cable, &[(field, above)]), 3);
    for inside in [below.wrapping_add(1), above - 1] {
        assert_ne!(rate(&with(cable, &[(field, inside)])).answer, 3, "{field} {inside}");
    }
}

#[test]
fn limits_just_outside_and_at_the_ends() {
    for limits in JUST_OUTSIDE {
        limits_hold(&SL_TYPE, limits);
        if !matches!(limits.0, 17..=19 | 21) {
            limits_hold(&COMMON_SHEATH, limits);
        }
    }
}

#[test]
fn armour_fields_outside_the_sl_cable_are_stray() {
    for base in [TREFOIL, FLAT, TREFOIL_SINGLE_POINT, FLAT_SINGLE_POINT, COMMON_SHEATH] {
        for field in [17, 18, 19, 21] {
            // In or out of the SL cable's limits: stray either way.
            for word in [1, 6, 5000, COLD, u32::MAX] {
                refused_with(&with(&base, &[(field, word)]), 4);
            }
        }
    }
}

#[test]
fn c_is_stray_only_in_single_core_cables() {
    for base in [TREFOIL, FLAT, TREFOIL_SINGLE_POINT, FLAT_SINGLE_POINT] {
        for word in [1, 99, 100, 50000, 50001, u32::MAX] {
            refused_with(&with(&base, &[(20, word)]), 4);
        }
    }
    // In the others it has limits, and the upper is past what geometry allows.
    for base in [SL_TYPE, COMMON_SHEATH, COMMON_ALUMINIUM_SHEATH] {
        for (word, number) in [(0, 3), (99, 3), (100, 0), (50000, 5), (50001, 3), (u32::MAX, 3)] {
            assert_eq!(rate(&with(&base, &[(20, word)])).answer, number, "{word}");
        }
    }
}

#[test]
fn the_isotherm_has_a_meaning_only_with_a_v() {
    for base in ALL.into_iter().chain([LOW_VOLTAGE]) {
        for word in [1, 5000, 25000, COLD, u32::MAX] {
            refused_with(&with(&base, &[(28, word)]), 4);
        }
    }
}

/// The low-voltage cable bears 144 mA more where its loss does not count.
#[test]
fn the_loss_counts_from_its_voltage_on() {
    let with_loss = |volts, from| rate(&with(&LOW_VOLTAGE, &[(10, volts), (26, from)]));
    let [at_zero, at_own, above] = [0, 600, 601].map(|from| with_loss(600, from));
    assert_eq!(at_zero, at_own);
    assert!(at_own.sheet[10] > 0 && at_own.sheet[11] > 0);
    assert_eq!((above.sheet[10], above.sheet[11]), (0, 0));
    assert_eq!((at_own.rating, above.rating), (280_511, 280_655));
    // Without the loss it is the rating of a cable without a voltage.
    assert_eq!(above, with_loss(0, 0));
    assert_eq!(with_loss(600, 300_000), above);
    assert_eq!(with_loss(6000, 6000).sheet[10], with_loss(6000, 0).sheet[10]);
    assert_eq!(with_loss(5999, 6000), above);
}

#[test]
fn geometry_edges() {
    assert_eq!(rate(&with(&TREFOIL, &[(6, 2840)])).answer, 0);
    refused_with(&with(&TREFOIL, &[(6, 2841)]), 5);
    // 105 x 2840 = 100 x 2982.
    let low_voltage = with(&TREFOIL, &[(10, 0)]);
    assert_eq!(rate(&with(&low_voltage, &[(9, 2982)])).answer, 0);
    refused_with(&with(&low_voltage, &[(9, 2981)]), 5);
    assert_eq!(rate(&with(&TREFOIL, &[(13, 5640)])).answer, 0);
    refused_with(&with(&TREFOIL, &[(13, 5639)]), 5);
    assert_eq!(rate(&with(&TREFOIL, &[(7, 6100)])).answer, 0);
    refused_with(&with(&TREFOIL, &[(7, 6099)]), 5);
    assert_eq!(rate(&with(&SL_TYPE, &[(20, 5500)])).answer, 0);
    refused_with(&with(&SL_TYPE, &[(20, 5501)]), 5);
}

#[test]
fn geometry_edges_of_the_common_sheath() {
    let d = COMMON_SHEATH[13];
    // s down to dc, and of no account beside d.
    for spacing in [1850, d / 2, d / 2 + 1, d - 1, d, d + 1, 1_000_000] {
        assert_eq!(rate(&with(&COMMON_SHEATH, &[(7, spacing)])).answer, 0, "{spacing}");
    }
    refused_with(&with(&COMMON_SHEATH, &[(7, 1849)]), 5);
    refused_with(&with(&COMMON_SHEATH, &[(6, 1971)]), 5);
    // 2 x 3688 = 7376 = d - 1.
    assert_eq!(rate(&with(&COMMON_SHEATH, &[(20, 3688)])).answer, 0);
    assert_eq!(rate(&with(&COMMON_SHEATH, &[(13, 7376), (20, 3688)])).answer, 0);
    refused_with(&with(&COMMON_SHEATH, &[(13, 7375), (20, 3688)]), 5);
    refused_with(&with(&COMMON_SHEATH, &[(20, 3689)]), 5);
    // Di = d, with cores that would not fit: the rules ask no more.
    assert_eq!(rate(&with(&COMMON_SHEATH, &[(13, 3070), (20, 1535)])).answer, 0);
    refused_with(&with(&COMMON_SHEATH, &[(13, 3069), (20, 1534)]), 5);
}

#[test]
fn heat_edges() {
    assert_eq!(rate(&with(&TREFOIL, &[(16, 8500)])).answer, 0);
    refused_with(&with(&TREFOIL, &[(16, 8501)]), 6);
    assert_eq!(rate(&with(&SL_TYPE, &[(19, 8500)])).answer, 0);
    refused_with(&with(&SL_TYPE, &[(19, 8501)]), 6);
    // A sheath may be colder than the ambient, and below zero.
    assert_eq!(rate(&with(&TREFOIL, &[(16, COLD)])).answer, 0);
}

#[test]
fn metals_by_arrangement() {
    for metal in 2..=6 {
        for base in [TREFOIL, FLAT, COMMON_SHEATH] {
            assert_eq!(rate(&with(&base, &[(14, metal)])).answer, 0);
        }
        for base in [TREFOIL_SINGLE_POINT, FLAT_SINGLE_POINT, SL_TYPE] {
            refused_with(&with(&base, &[(14, metal)]), 7);
        }
    }
    for metal in 1..=5 {
        refused_with(&with(&SL_TYPE, &[(17, metal)]), 7);
    }
}

#[test]
fn skin_holds_with_either_coefficient() {
    // Copper at 85 degrees, ks 1: R' = R0 x 12554500 crosses at R0 12767.2.
    refused_with(&with(&TREFOIL, &[(5, 12767)]), 8);
    assert_eq!(rate(&with(&TREFOIL, &[(5, 12768)])).answer, 0);
    // Codes 6 to 8 have kp above ks, so there kp decides, and alike.
    for code in 6..=8 {
        // At 40 degrees R' = R0 x 10806000; kp 0.37 crosses at R0 5488.2.
        let cold = with(&TREFOIL, &[(1, code), (3, 4000), (10, 0), (16, 4000)]);
        refused_with(&with(&cold, &[(5, 5488)]), 8);
        assert_eq!(rate(&with(&cold, &[(5, 5489)])).answer, 0);
    }
}

#[test]
fn eddy_holds_only_where_bonded_at_one_point() {
    // Lead at 20 degrees: Rs = field x 10^7 against 3141592653600.
    let low = [(15, 314_159), (16, 2000)];
    let high = [(15, 314_160), (16, 2000)];
    for base in [TREFOIL_SINGLE_POINT, FLAT_SINGLE_POINT] {
        refused_with(&with(&base, &low), 9);
        assert_eq!(rate(&with(&base, &high)).answer, 0);
    }
    for base in [TREFOIL, FLAT, SL_TYPE, COMMON_SHEATH] {
        assert_eq!(rate(&with(&base, &low)).answer, 0);
    }
}

#[test]
fn current_edge() {
    // The R0 at which the rating of this cable falls to 5000 A: found by
    // walking, then both sides must stand as the limit says.
    let base = with(&TREFOIL, changes_for(11, &BRINGS));
    let first = (16000..2_000_000)
        .step_by(1000)
        .find(|&r0| rate(&with(&base, &[(5, r0)])).answer == 0)
        .unwrap_or(0);
    let rated = rate(&with(&base, &[(5, first)]));
    assert!(rated.rating <= 5_000_000 && rated.rating > 4_900_000, "{rated:?}");
    refused_with(&with(&base, &[(5, first - 1000)]), 11);
    assert!(!current_refused(5_000_000) && current_refused(5_000_001));
}
