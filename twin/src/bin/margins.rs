// margins: draws rated cases, of any arrangement or of one, in any surroundings or only
// in soil that dries out or in the sun, and measures by exact fractions how far each
// is from the two bounds on its rating. A case that breaks a bound is printed as its
// numbers. The same seed gives the same cases.

use std::cmp::Ordering;
use std::process::ExitCode;
use twin::cable::Cable;
use twin::dice::Dice;
use twin::drawn_cases::{rated_case_of, Surroundings};
use twin::lines::case_line;
use twin::margins::{margins, Margins};
use twin::rating::{dry_soil, in_the_sun, limits, loss_counts, Rated, Words};
use twin::stages::LARGEST_RS_OF_SUM;

/// How many lines of progress a run writes on standard error.
const PROGRESS_LINES: u64 = 10;

/// Where the sheet keeps Rs.
const RS: usize = 1;

/// The arrangement whose loss has one formula up to some Rs and another above.
const OF_TWO_FORMULAS: i64 = 6;

/// What the words of the command line ask for.
struct Asked {
    seed: u32,
    count: u64,
    arrangement: Option<i64>,
    surroundings: Surroundings,
}

impl Asked {
    fn read(words: &[String]) -> Option<Asked> {
        let (words, surroundings) = match words {
            [words @ .., last] if last == "dry" => (words, Surroundings::DrySoil),
            [words @ .., last] if last == "sun" => (words, Surroundings::Sun),
            _ => (words, Surroundings::Any),
        };
        let (seed, count, arrangement) = match words {
            [seed, count] => (seed, count, None),
            [seed, count, arrangement] => (seed, count, Some(arrangement.parse().ok()?)),
            _ => return None,
        };
        let (first, last) = limits(0);
        let known = arrangement.is_none_or(|number| (first..=last).contains(&number));
        let (seed, count) = (seed.parse().ok()?, count.parse().ok()?);
        known.then_some(Asked { seed, count, arrangement, surroundings })
    }

    fn draw(&self, dice: &mut Dice) -> (Words, Rated) {
        rated_case_of(self.arrangement, self.surroundings, dice)
    }
}

fn report(count: u64, without_loss: u64, broken: u64, all: &Margins) {
    println!("{count} cases, {broken} broken; {} combinations of ends", all.combinations);
    println!("of {without_loss} the dielectric loss does not count");
    println!("least margin under the line at I: {:e} of the permitted rise", all.under);
    println!("least margin above it at I + 2: {:e} of the permitted rise", all.above);
    println!("largest relative error of E: {:e}", all.e_error);
    println!("largest relative error of a dd of at least 1 K: {:e}", all.dd_error);
    println!("largest error of any dd: {:e} of the rise it leaves", all.dd_error_of_rise_left);
}

/// Of cases in soil that dries out, how many there are at each end of what v and the
/// isotherm may be, and between.
#[derive(Default)]
struct Soils {
    ratios: [u64; 3],
    isotherms: [u64; 3],
}

/// 0 at the lower of two ends, 2 at the upper and 1 between.
fn third(word: u32, low: u32, high: u32) -> usize {
    match word {
        _ if word == low => 0,
        _ if word == high => 2,
        _ => 1,
    }
}

impl Soils {
    fn count(&mut self, case: &Words) {
        if dry_soil(case) {
            let (low, high) = limits(27);
            self.ratios[third(case[27], low as u32, high as u32)] += 1;
            self.isotherms[third(case[28], case[4], case[3])] += 1;
        }
    }

    fn report(&self) {
        let ([least, between, most], [ambient, inside, conductor]) = (self.ratios, self.isotherms);
        println!("the soil of {} dries out:", least + between + most);
        println!("  v is 1000 in {least}, 5000 in {most}, between in {between}");
        println!("  θx is θa in {ambient}, θc in {conductor}, between in {inside}");
    }
}

/// Of cases in the sun, how many there are at each end of what its heat may be and
/// between; and how many whose d0 is close to the nine tenths of the permitted rise that
/// refusal 10 lets pass, how many of these without a dielectric loss, and how many at it.
#[derive(Default)]
struct Suns {
    heats: [u64; 3],
    close: u64,
    close_alone: u64,
    at: u64,
}

impl Suns {
    fn count(&mut self, case: &Words) {
        if !in_the_sun(case) {
            return;
        }
        self.heats[third(case[29], 1, limits(29).1 as u32)] += 1;
        let cable = Cable::of(case);
        let (d0, permitted) = (cable.rise_without_current(), cable.permitted_rise());
        if 1000 * d0 >= 899 * permitted {
            self.close += 1;
            self.close_alone += u64::from(cable.dielectric().1 == 0);
            self.at += u64::from(10 * d0 == 9 * permitted);
        }
    }

    fn report(&self) {
        let Suns { heats: [least, between, most], close, close_alone, at } = self;
        println!("the sun heats {}:", least + between + most);
        println!("  Q is 1 in {least}, 200000 in {most}, between in {between}");
        println!("  d0 is 0.899 to 0.9 of P in {close}, 0.9 of it in {at}");
        println!("  without a dielectric loss in {close_alone} of these {close}");
    }
}

/// How many common sheaths took either formula, below and at the last Rs of the
/// first one or above it, and how near they came.
fn report_formulas(resistances: &[u64]) {
    let last = LARGEST_RS_OF_SUM as u64;
    let sides = [(Ordering::Less, "below"), (Ordering::Equal, "at"), (Ordering::Greater, "above")];
    for (side, word) in sides {
        let there = resistances.iter().filter(|rs| (*rs).cmp(&last) == side);
        let distances: Vec<u64> = there.map(|rs| rs.abs_diff(last)).collect();
        let nearest = distances.iter().min().unwrap_or(&0);
        println!("Rs {word} 10^12: {} cases, the nearest {nearest} away", distances.len());
    }
}

/// Measures the cases asked for and answers how many break a bound.
fn measure(asked: &Asked) -> u64 {
    // From 0 the dice would show nothing but 0, so no seed begins there.
    let mut dice = Dice(u64::from(asked.seed) + 1);
    let mut all = Margins::none();
    let (mut without_loss, mut broken) = (0, 0);
    let mut resistances = Vec::new();
    let (mut soils, mut suns) = (Soils::default(), Suns::default());
    for done in 1..=asked.count {
        let (case, rated) = asked.draw(&mut dice);
        resistances.push(rated.sheet[RS]);
        without_loss += u64::from(!loss_counts(&case));
        soils.count(&case);
        suns.count(&case);
        match margins(&case, &rated) {
            Some(margins) => all = all.join(&margins),
            None => {
                broken += 1;
                println!("{}", case_line(&case));
            }
        }
        if done.is_multiple_of(asked.count.div_ceil(PROGRESS_LINES)) {
            eprintln!("margins: {done} of {} cases", asked.count);
        }
    }
    report(asked.count, without_loss, broken, &all);
    soils.report();
    suns.report();
    if asked.arrangement == Some(OF_TWO_FORMULAS) {
        report_formulas(&resistances);
    }
    broken
}

fn main() -> ExitCode {
    let words: Vec<String> = std::env::args().skip(1).collect();
    let Some(asked) = Asked::read(&words) else {
        eprintln!("usage: margins SEED COUNT [ARRANGEMENT] [dry|sun]");
        return ExitCode::FAILURE;
    };
    if measure(&asked) == 0 {
        ExitCode::SUCCESS
    } else {
        ExitCode::FAILURE
    }
}
