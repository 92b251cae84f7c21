// The exact rise: it is the standard's in floating point, both bounds on the
// rating hold at the ends of pi, ln 2 and the logarithms and between them, the
// rounded E and dd are near the exact ones, and the figure shows the distances.

use std::fs;
use twin::dice::Dice;
use twin::drawn_cases::rated_case;
use twin::edge_cases::sun::{alone, together, SHADED_BRIDGE};
use twin::ends::Ends;
use twin::exact_rise::{permitted_rise, Heating};
use twin::figure::figure;
use twin::fraction::Fraction;
use twin::margins::{distance_under_line, margins, margins_at, Margins};
use twin::published::published;
use twin::rating::{dry_soil, in_the_sun, rate, Rated, Words};
use twin::sample_cables::{
    with, ALL, COMMON_SHEATH, DRY_SOIL, FEEDER, FEEDER_ALTERNATING, FLAT, IN_THE_SUN, LOW_VOLTAGE,
    ON_A_BRIDGE, SL_TYPE, TREFOIL, TREFOIL_SINGLE_POINT,
};
use twin::standard::Cable;

const FIGURE: &str = concat!(env!("CARGO_MANIFEST_DIR"), "/../docs/margins.svg");

fn drawn_cases(seed: u64, count: usize) -> impl Iterator<Item = (Words, Rated)> {
    let mut dice = Dice(seed);
    (0..count).map(move |_| rated_case(&mut dice))
}

#[test]
fn both_bounds_hold_at_every_combination_of_ends() {
    let mut all = Margins::none();
    let mut arrangements = [0; 7];
    let (mut dry, mut sunny) = (0, 0);
    for (case, rated) in drawn_cases(0x1e0c, 600) {
        let margins = margins(&case, &rated);
        all = all.join(&margins.unwrap_or_else(|| panic!("{case:?} {rated:?}")));
        arrangements[case[0] as usize - 1] += 1;
        dry += usize::from(dry_soil(&case));
        sunny += usize::from(in_the_sun(&case));
    }
    println!("600 drawn cases {arrangements:?}: {all:?}");
    println!("{dry} of them in dry soil, {sunny} in the sun");
    assert!(arrangements.iter().all(|&count| count > 50), "{arrangements:?}");
    assert!(dry > 200 && dry < 400, "{dry}");
    assert!(sunny > 100 && dry + sunny < 500, "{sunny}");
    assert!(all.under >= 0.0 && all.above > 0.0);
    // What the estimates by hand allow, stage by stage.
    assert!(all.e_error < 5e-8, "{all:?}");
    assert!(all.dd_error < 4.2e-9 && all.dd_error_of_rise_left < 2.4e-8, "{all:?}");
}

/// In an SL cable S rises and W falls with the logarithm of 2s/d, so that its
/// ends need not be the worst.
#[test]
fn both_bounds_hold_between_the_ends() {
    let mut dice = Dice(0x5ea);
    for (case, rated) in drawn_cases(0xbe7, 300) {
        let ends = Ends::of(&case);
        for _ in 0..4 {
            let steps = [0; 4].map(|_: u128| u128::from(dice.roll() % 1001));
            let chosen = ends.between(steps, 1000);
            assert!(margins_at(&case, &rated, &chosen).is_some(), "{case:?} {steps:?}");
        }
    }
}

#[test]
fn combinations_are_of_the_numbers_that_enter() {
    let counts = [
        (TREFOIL, 8),
        (FLAT, 16),
        (TREFOIL_SINGLE_POINT, 4),
        (SL_TYPE, 8),
        (COMMON_SHEATH, 4),
        (FEEDER, 1),
    ];
    for (case, count) in counts {
        let ends = Ends::of(&case);
        let combinations = ends.combinations();
        assert_eq!(combinations.len(), count);
        assert_eq!(combinations[0], ends.between([0; 4], 1));
        for (index, chosen) in combinations.iter().enumerate() {
            assert!(!combinations[..index].contains(chosen), "{case:?} {index} comes twice");
        }
    }
}

/// A rating 2 mA higher is over the line and one 2 mA lower is not close.
#[test]
fn a_rating_beside_the_right_one_breaks_a_bound() {
    for (case, rated) in drawn_cases(0xbad, 100).chain(ALL.map(|case| (case, rate(&case)))) {
        assert!(margins(&case, &rated).is_some());
        let low = Rated { rating: rated.rating.saturating_sub(2), ..rated };
        let high = Rated { rating: rated.rating + 2, ..rated };
        assert!(margins(&case, &high).is_none(), "{case:?}");
        assert!(margins(&case, &low).is_none() || rated.rating < 2, "{case:?}");
        let mut sheet = rated.sheet;
        sheet[12] -= 1 + sheet[12] / 100_000_000;
        assert!(margins(&case, &Rated { sheet, ..rated }).is_none(), "{case:?}");
    }
}

/// The exact limit current is the standard's, which shares no formula with it.
#[test]
fn the_limit_is_the_standards() {
    let mut widest = 0f64;
    for (case, _) in drawn_cases(0xf10a7, 600) {
        let chosen = Ends::of(&case).between([1; 4], 2);
        let limit_squared = Heating::of(&case, &chosen).limit_squared(&permitted_rise(&case));
        let limit = limit_squared.expect("a rated case").to_f64().sqrt() / 1000.0;
        let gap = (limit / Cable::from_fields(&case).rating() - 1.0).abs();
        // The ends of the logarithm of 1.05 differ by 10^-9 of it, and where dd
        // and the sun take nine tenths of the rise that counts up to nine times.
        assert!(gap < 5e-9, "{case:?}: {limit}");
        widest = widest.max(gap);
    }
    println!("widest gap of the exact limit and the standard's: {widest:e}");
}

/// The exact E and dd of each real-looking cable in thousandths of a unit,
/// rounded down, with pi, ln 2 and both logarithms at their lower ends. Worked
/// out apart from this package with fractions of any length.
const THOUSANDTHS: [(u128, u128); 7] = [
    (1_206_082_492_977_817, 2_370_886_469_412),
    (1_906_645_229_445_679, 445_449_695_947),
    (1_100_877_157_314_122, 2_370_886_469_412),
    (584_706_449_075_029, 1_827_897_835_451),
    (3_323_443_717_507_230, 557_941_516_015),
    (3_161_843_911_624_198, 167_999_415_358),
    (5_376_747_008_776_336, 168_887_414_975),
];

/// The same with T4 one larger in soil that dries out, v 2501 and θx 45 degrees.
const DRY_THOUSANDTHS: [(u128, u128); 7] = [
    (2_589_154_075_180_405, 5_351_527_029_847),
    (4_299_489_544_486_745, 992_858_529_358),
    (2_331_576_191_159_966, 5_351_527_029_847),
    (1_215_124_647_313_107, 4_050_191_678_372),
    (6_747_189_969_905_485, 1_177_442_325_447),
    (7_078_663_823_445_132, 389_849_704_975),
    (12_068_982_507_333_559, 391_997_889_066),
];

#[test]
fn each_real_looking_cable_to_the_thousandth() {
    let dry = ALL.map(|case| with(&case, &[(25, case[25] + 1), (27, 2501), (28, 4500)]));
    let moist_and_dry =
        ALL.into_iter().zip(THOUSANDTHS).chain(dry.into_iter().zip(DRY_THOUSANDTHS));
    for (case, (e, dd)) in moist_and_dry {
        let exact = Heating::of(&case, &Ends::of(&case).between([0; 4], 1));
        for (fraction, thousandths) in [(exact.e, e), (exact.dd, dd)] {
            let next = Fraction::new(thousandths + 1, 1000);
            assert!(Fraction::new(thousandths, 1000) <= fraction && fraction < next, "{case:?}");
        }
    }
}

/// The exact rise is held against what the dry zone adds too, and by its own T4.
#[test]
fn the_exact_rise_counts_dry_soil_as_the_rating_does() {
    // θc - θa is 70 K, and 1.5 times 35 K come to it.
    let added = permitted_rise(&DRY_SOIL);
    assert_eq!(added, Fraction::whole(70_000_000_000 + 52_500_000_000));
    // 0.001 times 35 K.
    let least = with(&DRY_SOIL, &[(27, 1001)]);
    assert_eq!(permitted_rise(&least), Fraction::whole(70_035_000_000));
    // At the ambient's temperature nothing comes to it, and without a v neither.
    let at_ambient = with(&DRY_SOIL, &[(28, 1500)]);
    for case in [at_ambient, with(&DRY_SOIL, &[(27, 1000)]), SL_TYPE] {
        assert_eq!(permitted_rise(&case), Fraction::whole(70_000_000_000));
    }
    for case in [DRY_SOIL, least, at_ambient, with(&DRY_SOIL, &[(27, 5000), (28, 8500)])] {
        assert!(margins(&case, &rate(&case)).is_some(), "{case:?}");
    }
    // Neither rating is one of the other soil: each breaks a bound there.
    assert!(margins(&DRY_SOIL, &rate(&SL_TYPE)).is_none());
    assert!(margins(&SL_TYPE, &rate(&DRY_SOIL)).is_none());
    assert!(margins(&at_ambient, &rate(&DRY_SOIL)).is_none());
}

/// The exact rise has the sun's heat times T4 in it, and no more.
#[test]
fn the_exact_rise_counts_the_sun_as_the_rating_does() {
    // 30 W/m by 0.45 K m/W, and 33.48 W/m by 0.307819 K m/W.
    let rises = [(SL_TYPE, 0), (IN_THE_SUN, 13_500_000_000), (ON_A_BRIDGE, 10_305_780_120)];
    for (case, rise) in rises {
        let exact = Heating::of(&case, &Ends::of(&case).between([0; 4], 1));
        assert_eq!(exact.d0, exact.dd.plus(&Fraction::whole(rise)));
        assert_eq!(exact.rise(0), exact.d0);
        assert_eq!(permitted_rise(&case), permitted_rise(&with(&case, &[(29, 0)])));
    }
    let shade = with(&ON_A_BRIDGE, &SHADED_BRIDGE);
    for case in [IN_THE_SUN, shade, ON_A_BRIDGE].into_iter().chain(alone(0)).chain(together(0)) {
        assert!(margins(&case, &rate(&case)).is_some(), "{case:?}");
    }
    // Neither rating is one of the other: each breaks a bound there.
    assert!(margins(&IN_THE_SUN, &rate(&SL_TYPE)).is_none());
    assert!(margins(&SL_TYPE, &rate(&IN_THE_SUN)).is_none());
}

/// Of direct current no fraction is chosen. E in tenths of a unit and in ten-thousandths
/// was worked out apart from this package.
#[test]
fn the_exact_rise_of_direct_current_rests_on_no_chosen_fraction() {
    let dry = with(&FEEDER, &[(27, 2500), (28, 3500)]);
    let sunny = with(&FEEDER, &[(25, 400_000), (29, 16_000)]);
    let bedded = with(&dry, &[(23, 40_001), (27, 2501)]);
    let exact = [
        (FEEDER, Fraction::new(9_318_069_997_704, 10), 0),
        (dry, Fraction::new(21_858_832_644_543, 10), 0),
        (sunny, Fraction::new(2_824_307_966_478, 10), 6_400_000_000),
        (bedded, Fraction::new(22_053_872_459_840_226, 10_000), 0),
    ];
    for (case, e, rise) in exact {
        let [chosen] = &Ends::of(&case).combinations()[..] else { panic!("{case:?}") };
        assert_eq!((&chosen.pi, &chosen.ln_2), (&None, &None));
        assert_eq!((&chosen.spacing_log, &chosen.insulation_log), (&None, &None));
        let heating = Heating::of(&case, chosen);
        assert_eq!(heating.e, e);
        assert!(heating.dd.is_zero());
        assert_eq!(heating.rise(0), Fraction::whole(rise));
        assert!(margins(&case, &rate(&case)).is_some(), "{case:?}");
    }
    assert_eq!(permitted_rise(&dry), Fraction::whole(92_500_000_000));
    assert!(margins(&FEEDER, &rate(&dry)).is_none());
    assert!(margins(&FEEDER, &rate(&FEEDER_ALTERNATING)).is_none());
}

/// Where the loss does not count the exact rise has none of it either.
#[test]
fn the_exact_rise_counts_the_loss_as_the_rating_does() {
    for case in ALL.into_iter().chain([LOW_VOLTAGE]) {
        let u0 = case[10];
        for (loss_voltage, counts) in [(0, true), (u0 - 1, true), (u0, true), (u0 + 1, false)] {
            let case = with(&case, &[(26, loss_voltage)]);
            let exact = Heating::of(&case, &Ends::of(&case).between([0; 4], 1));
            assert_eq!(exact.dd.is_zero(), !counts, "{case:?}");
            assert!(margins(&case, &rate(&case)).is_some(), "{case:?}");
        }
    }
    // A rating without the loss is above the limit where it counts.
    let higher = rate(&LOW_VOLTAGE);
    assert!(margins(&with(&LOW_VOLTAGE, &[(26, 0)]), &higher).is_none());
}

#[test]
fn published_ratings_lie_less_than_2_ma_under_the_line() {
    for cable in published() {
        let rating = rate(&cable.case).rating;
        let distance = distance_under_line(&cable.case, rating).expect("under the line");
        assert!(distance < 2.0, "{}: {distance}", cable.name);
        assert_eq!(distance_under_line(&cable.case, rating + 2), None, "{}", cable.name);
    }
}

#[test]
fn the_figure_in_docs_is_the_one_the_program_writes() {
    assert_eq!(fs::read_to_string(FIGURE).expect("docs/margins.svg"), figure());
}
