// The rows of a rated case's numbers: the sheet, the rating, and what the rating implies.

use super::fields::field_value;
use super::row::{label, Decimal, Row};
use crate::implied::Implied;
use crate::rating::{dry_soil, Rated, Words};

/// Digits behind the point in the column of the numbers.
const DIGITS: usize = 16;

/// The arrangements that have a number.
type Having = &'static [u32];

const ALL: Having = &[1, 2, 3, 4, 5, 6, 7];
const ALTERNATING: Having = &[1, 2, 3, 4, 5, 6];
const CIRCULATING: Having = &[1, 2, 5];
const ARMOURED: Having = &[5];

const OHMS: &str = "uohm/m";
const WATTS: &str = "W/m";
const DEGREES: &str = "deg C";

/// Symbol, decimals, unit, words and arrangements of each number of the sheet.
const SHEET: [(&str, u32, &str, &str, Having); 13] = [
    ("R'", 10, OHMS, "conductor, d.c., at theta_c", ALL),
    ("Rs", 10, OHMS, "sheath, at theta_s", ALTERNATING),
    ("RA", 10, OHMS, "armour, a.c., at theta_A", ARMOURED),
    ("B", 10, OHMS, "4 pi f / 10^7", ALTERNATING),
    ("ys", 12, "", "skin effect factor", ALTERNATING),
    ("yp", 12, "", "proximity effect factor", ALTERNATING),
    ("R", 10, OHMS, "conductor, effective, at theta_c", ALL),
    ("X", 10, OHMS, "sheath reactance", CIRCULATING),
    ("S", 10, OHMS, "sheath loss / I^2", ALTERNATING),
    ("W", 10, OHMS, "armour loss / I^2", ARMOURED),
    ("Wd", 12, WATTS, "dielectric loss of a core", ALTERNATING),
    ("dd", 9, "K", "rise by the dielectric loss", ALTERNATING),
    ("E", 16, "K/A^2", "rise by the current / I^2", ALL),
];

const DRY_SOIL: &str =
    "  In soil that dries out the smaller counts of this rating and the one with rho and theta_x 0.\n";

fn number_line(symbol: &str, value: Decimal, unit: &str, words: &str) -> String {
    Row { label: label(false, symbol), value, unit, words }.line(DIGITS)
}

fn sheet_lines(arrangement: u32, rated: &Rated) -> String {
    let own =
        SHEET.iter().zip(rated.sheet).filter(|((.., having), _)| having.contains(&arrangement));
    own.map(|(&(symbol, decimals, unit, words, _), number)| {
        number_line(symbol, Decimal { number: number.into(), decimals }, unit, words)
    })
    .collect()
}

fn rating_lines(case: &Words, rated: &Rated) -> String {
    let value = Decimal { number: rated.rating.into(), decimals: 3 };
    let label = "RATING".to_string();
    let rating = Row { label, value, unit: "A", words: "largest continuous current" };
    rating.line(DIGITS) + if dry_soil(case) { DRY_SOIL } else { "" }
}

/// The loss factors and the losses.
fn loss_lines(arrangement: u32, implied: &Implied) -> String {
    let losses = implied.losses;
    let rows: [(&str, u128, &str, &str, Having); 6] = [
        ("lambda1", implied.sheath_factor, "", "sheath loss factor, S / R", ALTERNATING),
        ("lambda2", implied.armour_factor, "", "armour loss factor, W / R", ARMOURED),
        ("Pc", losses.conductor, WATTS, "conductor loss of a core", ALL),
        ("Ps", losses.sheath, WATTS, "sheath loss of a core", ALTERNATING),
        ("PA", losses.armour, WATTS, "armour loss of a core", ARMOURED),
        ("Pd", losses.insulation, WATTS, "dielectric loss of a core", ALTERNATING),
    ];
    let own = rows.iter().filter(|(.., having)| having.contains(&arrangement));
    own.map(|&(symbol, number, unit, words, _)| {
        let number = i128::try_from(number).expect("a loss of that size");
        number_line(symbol, Decimal { number, decimals: 6 }, unit, words)
    })
    .collect()
}

/// The temperatures, beside those that the case gives.
fn temperature_lines(case: &Words, implied: &Implied) -> String {
    let given = |part: &str, field| format!("{part}, given as {}", field_value(case, field).bare());
    let [sheath, armour, surface] = implied.temperatures;
    let rows: [(&str, i128, String, Having); 3] = [
        ("theta_s", sheath, given("sheath", 16), ALTERNATING),
        ("theta_A", armour, given("armour", 19), ARMOURED),
        ("theta_e", surface, "surface".to_string(), ALL),
    ];
    let own = rows.iter().filter(|(.., having)| having.contains(&case[0]));
    own.map(|(symbol, number, words, _)| {
        number_line(symbol, Decimal { number: *number, decimals: 2 }, DEGREES, words)
    })
    .collect()
}

/// All of them, of a case that is rated.
pub fn numbers(case: &Words, rated: &Rated) -> String {
    let implied = Implied::of(case, rated);
    let parts = [
        "SHEET\n".to_string(),
        sheet_lines(case[0], rated),
        rating_lines(case, rated),
        "AT THE RATING\n".to_string(),
        loss_lines(case[0], &implied),
        temperature_lines(case, &implied),
    ];
    parts.concat()
}
