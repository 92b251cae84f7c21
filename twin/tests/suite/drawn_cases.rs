// What the cases reach that twin/check draws with seed 1: every answer, both
// sides of 5000 A, both sides of the skin effect's limit by ks and by kp, and what
// a common sheath and direct current alone have.

use twin::cable::Cable;
use twin::dice::Dice;
use twin::drawn_cases::drawn_case;
use twin::edge_cases::direct_current::ALWAYS_ZERO;
use twin::edge_cases::pairs::ORDER;
use twin::rating::{
    dry_soil, holds, in_the_sun, loss_counts, rate, value, Words, CURRENT_LIMIT, SKIN_LIMIT,
};
use twin::sample_cables::with;
use twin::stages::LARGEST_RS_OF_SUM;

const DRAWN: usize = 100_000;

/// The cases of twin/check's first seed; measure/compare.rs begins one higher,
/// as from 0 the dice would show nothing but 0.
fn drawn() -> Vec<(Words, u32)> {
    let mut dice = Dice(2);
    let cases = (0..DRAWN).map(|number| drawn_case(&mut dice, number));
    cases.map(|case| (case, rate(&case).answer)).collect()
}

/// The least distance of some numbers from a limit.
fn nearest(numbers: impl Iterator<Item = u128>, limit: u128) -> u128 {
    numbers.map(|number| number.abs_diff(limit)).min().expect("a number")
}

#[test]
fn every_answer_occurs() {
    let mut answers = [0; 34];
    for (_, answer) in drawn() {
        answers[answer as usize] += 1;
    }
    println!("answers 0 to 33 of {DRAWN} drawn cases: {answers:?}");
    let few = |answer: &u32| answers[*answer as usize] <= DRAWN / 1000;
    assert!(![0].iter().chain(&ORDER).any(few), "{answers:?}");
}

#[test]
fn currents_next_to_the_limit_occur() {
    let drawn = drawn();
    for answer in [0, 11] {
        let cases = drawn.iter().filter(|(_, given)| *given == answer);
        let currents = cases.filter_map(|(case, _)| Cable::of(case).current());
        let nearest = nearest(currents, CURRENT_LIMIT);
        println!("the nearest current of answer {answer} is {nearest} mA from the limit");
        assert!(nearest < 3, "{answer}: {nearest}");
    }
}

/// A name of values of a field, and whether a case has such a one.
type Place = (&'static str, fn(&Words) -> bool);

/// Of rated cases and of those refused for their dielectric, the loss voltage is 0,
/// U0 itself, one above or below it, and the highest; beyond its limits it is refused.
#[test]
fn loss_voltages_about_u0_and_their_limits_occur() {
    let drawn = drawn();
    let places: [Place; 5] = [
        ("0", |case| case[26] == 0 && case[10] > 0),
        ("U0", |case| case[26] == case[10] && case[10] > 0),
        ("one above U0", |case| case[26] == case[10] + 1),
        ("one below U0", |case| case[26] + 1 == case[10]),
        ("the highest", |case| case[26] == 300_000 && case[10] < 300_000),
    ];
    for (name, place) in places {
        let rated = count(&drawn, |case, answer| answer == 0 && place(case));
        let refused = count(&drawn, |case, answer| answer == 10 && place(case));
        println!("the loss voltage is {name} in {rated} rated cases, {refused} refused by 10");
        assert!(rated > DRAWN / 200, "{name}: {rated}");
    }
    // Without a loss only the sun can bring about 10.
    let lossless_in_shade = |case: &Words| !loss_counts(case) && !in_the_sun(case);
    assert_eq!(count(&drawn, |case, answer| answer == 10 && lossless_in_shade(case)), 0);
    let beyond = |voltage| count(&drawn, |case, answer| case[26] == voltage && answer == 3);
    assert!(beyond(300_001).min(beyond(u32::MAX)) > 20);
}

/// What v and the isotherm may be and may not: a share of the cases of each answer.
#[test]
fn dry_soils_about_their_limits_occur() {
    let drawn = drawn();
    let places: [Place; 8] = [
        ("no v", |case| case[27] == 0),
        ("v 1000", |case| case[27] == 1000),
        ("v between", |case| (1001..5000).contains(&case[27])),
        ("v 5000", |case| case[27] == 5000),
        ("θx at θa", |case| dry_soil(case) && case[28] == case[4]),
        ("θx between", |case| dry_soil(case) && case[28] != case[4] && case[28] != case[3]),
        ("θx at θc", |case| dry_soil(case) && case[28] == case[3]),
        ("θx below zero", |case| dry_soil(case) && value(case, 28) < 0),
    ];
    for (name, place) in places {
        for (answer, least) in [(0, DRAWN / 100), (10, DRAWN / 200), (11, DRAWN / 1000)] {
            let given = count(&drawn, |case, given| given == answer && place(case));
            println!("{name} in {given} cases of answer {answer}");
            assert!(given > least, "{name}, {answer}: {given}");
        }
    }
}

/// Refusals by v and the isotherm, at the least step beyond what passes.
#[test]
fn dry_soils_beyond_their_limits_occur() {
    let drawn = drawn();
    let beyond: [(u32, Place); 9] = [
        (3, ("v 999", |case| case[27] == 999)),
        (3, ("v 5001", |case| case[27] == 5001)),
        (3, ("θx -4001 with v", |case| dry_soil(case) && value(case, 28) == -4001)),
        (3, ("θx -4001 without", |case| !dry_soil(case) && value(case, 28) == -4001)),
        (3, ("θx 25001 with v", |case| dry_soil(case) && case[28] == 25001)),
        (3, ("θx 25001 without", |case| !dry_soil(case) && case[28] == 25001)),
        (4, ("θx without v", |case| !dry_soil(case) && case[28] != 0)),
        (31, ("θx below θa", |case| value(case, 28) + 1 == value(case, 4))),
        (31, ("θx above θc", |case| case[28] == case[3] + 1)),
    ];
    for (answer, (name, place)) in beyond {
        let given = count(&drawn, |case, given| given == answer && place(case));
        println!("{name} in {given} cases of answer {answer}");
        assert!(given > 20, "{name}, {answer}: {given}");
    }
    // Every refusal of a case is given in dry soil too.
    for refusal in ORDER {
        let given = count(&drawn, |case, given| given == refusal && dry_soil(case));
        assert!(given > 50, "{refusal}: {given}");
    }
}

/// d0 and the permitted rise.
fn without_current(case: &Words) -> (u128, u128) {
    let cable = Cable::of(case);
    (cable.rise_without_current(), cable.permitted_rise())
}

/// The sun's heat and T4 at their limits, rated and refused by 10; and 11 in the sun.
#[test]
fn suns_about_their_limits_occur() {
    let drawn = drawn();
    let places: [Place; 6] = [
        ("heat 1", |case| case[29] == 1),
        ("heat between", |case| (2..200_000).contains(&case[29])),
        ("heat 200000", |case| case[29] == 200_000),
        ("T4 10000", |case| in_the_sun(case) && case[25] == 10_000),
        ("T4 20000000", |case| in_the_sun(case) && case[25] == 20_000_000),
        ("a loss", |case| in_the_sun(case) && Cable::of(case).dielectric().1 > 0),
    ];
    for (name, place) in places {
        for (answer, least) in [(0, DRAWN / 200), (10, DRAWN / 1000)] {
            let given = count(&drawn, |case, given| given == answer && place(case));
            println!("{name} in {given} cases of answer {answer}");
            assert!(given > least, "{name}, {answer}: {given}");
        }
    }
    let sunny = count(&drawn, |case, answer| answer == 0 && in_the_sun(case));
    let rated = count(&drawn, |_, answer| answer == 0);
    println!("{sunny} of {rated} rated cases are in the sun");
    assert!(sunny > rated / 8 && sunny < rated / 2);
    let too_large = count(&drawn, |case, answer| answer == 11 && in_the_sun(case));
    assert!(too_large > DRAWN / 1000, "{too_large}");
}

/// On both sides of nine tenths of the permitted rise, with a dielectric loss and
/// without, and at it.
#[test]
fn suns_next_to_refusal_10_occur() {
    let drawn = drawn();
    let sunny = drawn.iter().filter(|(case, answer)| in_the_sun(case) && [0, 10].contains(answer));
    let mut sides = [[0; 2]; 2];
    let mut at = 0;
    for (case, answer) in sunny {
        let (d0, permitted) = without_current(case);
        // Within a hundredth of the permitted rise.
        if (10 * d0).abs_diff(9 * permitted) * 10 < permitted {
            let loss = Cable::of(case).dielectric().1 > 0;
            sides[usize::from(*answer == 10)][usize::from(loss)] += 1;
        }
        at += usize::from(10 * d0 == 9 * permitted);
    }
    println!(
        "rated and refused next to refusal 10, without a loss and with: {sides:?}; {at} at it"
    );
    assert!(sides.as_flattened().iter().all(|&count| count > DRAWN / 2000), "{sides:?}");
    assert!(at > 20, "{at}");
}

/// Refusals of the sun, and of dry soil and the sun together.
#[test]
fn suns_beyond_their_limits_occur() {
    let drawn = drawn();
    let beyond: [(u32, Place); 5] = [
        (3, ("heat 200001", |case| case[29] == 200_001)),
        (3, ("heat 4294967295", |case| case[29] == u32::MAX)),
        (32, ("the least v", |case| case[27] == 1000)),
        (32, ("the least heat", |case| case[29] == 1)),
        (31, ("the sun", |case| dry_soil(case) && in_the_sun(case))),
    ];
    for (answer, (name, place)) in beyond {
        let given = count(&drawn, |case, given| given == answer && place(case));
        println!("{name} in {given} cases of answer {answer}");
        assert!(given > 20, "{name}, {answer}: {given}");
    }
    // Every refusal of a case is given in the sun too.
    for refusal in ORDER {
        let given = count(&drawn, |case, given| given == refusal && in_the_sun(case));
        assert!(given > 20, "{refusal}: {given}");
    }
}

/// The z that decides.
fn larger_z(case: &Words) -> u128 {
    let [by_ks, by_kp] = Cable::of(case).skin_arguments();
    by_ks.max(by_kp)
}

#[test]
fn z_next_to_the_limit_occurs() {
    let drawn = drawn();
    for answer in [0, 8] {
        for (side, codes) in [("ks", 1..=5), ("kp", 6..=8)] {
            let cases = drawn.iter().filter(|(_, given)| *given == answer);
            let of_codes = cases.filter(|(case, _)| codes.contains(&case[1]));
            let nearest = nearest(of_codes.map(|(case, _)| larger_z(case)), SKIN_LIMIT);
            println!("the nearest z by {side} of answer {answer} is {nearest} from the limit");
            // A hundred-thousandth part of the limit.
            assert!(nearest < SKIN_LIMIT / 100_000, "{side} {answer}: {nearest}");
        }
    }
}

/// The cases of arrangement 6 with their answers.
fn drawn_common_sheaths() -> Vec<(Words, u32)> {
    drawn().into_iter().filter(|(case, _)| case[0] == 6).collect()
}

/// How many cases there are of which a test holds.
fn count(cases: &[(Words, u32)], test: impl Fn(&Words, u32) -> bool) -> usize {
    cases.iter().filter(|(case, answer)| test(case, *answer)).count()
}

#[test]
fn common_sheaths_get_every_answer_they_can() {
    let cases = drawn_common_sheaths();
    for answer in [0, 2, 3, 4, 5, 6, 31, 32, 8, 10, 11] {
        let given = count(&cases, |_, given| given == answer);
        println!("answer {answer}: {given} of {} common sheaths", cases.len());
        assert!(given > cases.len() / 500, "{answer}: {given}");
    }
    assert_eq!(count(&cases, |_, given| [1, 7, 9].contains(&given)), 0);
    let past_the_last = count(&drawn(), |case, answer| case[0] == 8 && answer == 1);
    assert!(past_the_last > 20, "{past_the_last}");
}

#[test]
fn common_sheaths_reach_what_only_they_ask() {
    let cases = drawn_common_sheaths();
    let rated: Vec<(Words, u32)> = cases.iter().filter(|(_, given)| *given == 0).copied().collect();
    let few = rated.len() / 20;
    assert!(count(&rated, |case, _| case[7] < case[13] && 2 * case[7] > case[13]) > few);
    assert!(count(&rated, |case, _| 2 * case[7] < case[13]) > few);
    assert!(count(&rated, |case, _| case[7] > case[13]) > few);
    assert!(count(&rated, |case, _| case[7] == case[6]) > few);
    assert!(count(&rated, |case, _| 2 * case[20] == case[13]) > few);
    assert!(count(&rated, |case, _| case[20] == 100) > few);
    for metal in 1..=6 {
        assert!(count(&rated, |case, _| case[14] == metal) > few, "{metal}");
    }
    for (c, answer) in [(99, 3), (100, 0), (50000, 5), (50001, 3)] {
        assert!(count(&cases, |case, given| case[20] == c && given == answer) > 3, "{c}");
    }
}

/// The cases of arrangement 7 with their answers.
fn drawn_direct_currents() -> Vec<(Words, u32)> {
    drawn().into_iter().filter(|(case, _)| case[0] == 7).collect()
}

#[test]
fn direct_currents_get_every_answer_they_can() {
    let cases = drawn_direct_currents();
    for answer in [0, 2, 3, 4, 5, 6, 31, 32, 33, 10, 11] {
        let given = count(&cases, |_, given| given == answer);
        println!("answer {answer}: {given} of {} of direct current", cases.len());
        assert!(given > cases.len() / 200, "{answer}: {given}");
    }
    assert_eq!(count(&cases, |_, given| [1, 7, 8, 9].contains(&given)), 0);
}

#[test]
fn direct_currents_about_their_limits_occur() {
    let cases = drawn_direct_currents();
    let places: [(u32, Place); 14] = [
        (0, ("U0 4999", |case| case[10] == 4999)),
        (0, ("U0 5000", |case| case[10] == 5000)),
        (33, ("U0 5001", |case| case[10] == 5001)),
        (33, ("U0 300000", |case| case[10] == 300_000)),
        (0, ("dc at ds", |case| case[6] == case[8])),
        (5, ("dc above ds", |case| case[6] == case[8] + 1)),
        (0, ("Di at its least", |case| case[9] == (105 * case[8]).div_ceil(100))),
        (5, ("Di one below", |case| case[9] + 1 == (105 * case[8]).div_ceil(100))),
        (0, ("a rise of 5 K", |case| value(case, 3) - value(case, 4) == 500)),
        (6, ("a rise of 4.99 K", |case| value(case, 3) - value(case, 4) == 499)),
        (0, ("U0 below the loss voltage", |case| case[10] < case[26])),
        (0, ("U0 above the loss voltage", |case| case[10] > case[26])),
        (0, ("the sun", in_the_sun)),
        (0, ("dry soil", dry_soil)),
    ];
    for (answer, (name, place)) in places {
        let given = count(&cases, |case, given| given == answer && place(case));
        println!("{name} in {given} cases of answer {answer}");
        assert!(given > 20, "{name}, {answer}: {given}");
    }
    // Only the sun can bring about 10.
    assert_eq!(count(&cases, |case, given| given == 10 && !in_the_sun(case)), 0);
}

/// Each field that direct current does not have is the only stray one in some.
#[test]
fn each_stray_field_of_direct_current_occurs_by_itself() {
    let cases = drawn_direct_currents();
    for field in ALWAYS_ZERO {
        let alone = |case: &Words| case[field] != 0 && !holds(4, &with(case, &[(field, 0)]));
        let given = count(&cases, |case, given| given == 4 && alone(case));
        println!("field {field} by itself in {given} cases of answer 4");
        assert!(given > 20, "{field}: {given}");
    }
}

#[test]
fn rs_next_to_the_change_of_formula_occurs() {
    let rated = drawn_common_sheaths().into_iter().filter(|(_, answer)| *answer == 0);
    let resistances: Vec<u128> = rated.map(|(case, _)| Cable::of(&case).rs).collect();
    let by_sum = resistances.iter().filter(|&&rs| rs <= LARGEST_RS_OF_SUM).count();
    let at = resistances.iter().filter(|&&rs| rs == LARGEST_RS_OF_SUM).count();
    let beyond = resistances.len() - by_sum;
    println!("{by_sum} common sheaths by the sum, {at} of them at its end, and {beyond} beyond");
    assert!(by_sum.min(beyond) > resistances.len() / 3 && at > resistances.len() / 200);
    let below = resistances.iter().copied().filter(|&rs| rs < LARGEST_RS_OF_SUM);
    let above = resistances.iter().copied().filter(|&rs| rs > LARGEST_RS_OF_SUM);
    let nearest = [nearest(below, LARGEST_RS_OF_SUM), nearest(above, LARGEST_RS_OF_SUM)];
    // The sheath's resistance moves it by some 10^7.
    println!("the nearest Rs on both sides are {nearest:?} away");
    assert!(nearest.iter().all(|&distance| distance < 1_000_000), "{nearest:?}");
}
