// What a work sheet says of a refusal: its word, its rule, and the fields that it is about.

use crate::rating::{must_be_zero, outside_limits, Words};

/// Number, word and rule of each refusal.
const REFUSALS: [(u32, &str, &str); 14] = [
    (1, "arrangement", "The arrangement must be one of 1 to 7."),
    (2, "conductor", "The conductor's code must be one of 1 to 8."),
    (3, "limit", "A field marked > is outside its limits, which stand in brackets."),
    (
        4,
        "stray",
        "A field marked > must be 0: the arrangement does not have it, or, of theta_x, rho is 0.",
    ),
    (
        5,
        "geometry",
        "It must be that dc <= ds and 1.05 ds <= Di; also Di <= d in arrangements 1 to 6, d <= s in 1 to 5, \
         2 c <= dA in 5, dc <= s and 2 c <= d in 6.",
    ),
    (
        6,
        "heat",
        "The conductor must be 5 K or more above the ambient, and neither sheath nor armour above it.",
    ),
    (31, "isotherm", "Where rho is not 0 it must be that theta_a <= theta_x <= theta_c."),
    (32, "sun", "A cable in soil that dries out is not in the sun: rho or Q must be 0."),
    (7, "metal", "The sheath must be lead in arrangements 3, 4 and 5, and the armour steel in 5."),
    (33, "d.c. voltage", "In arrangement 7, direct current, U0 must be at most 5000 V."),
    (
        8,
        "skin",
        "The skin and proximity formulas end where 8 pi f k / (10^7 R') is 7.84, for k = ks and kp.",
    ),
    (
        9,
        "eddy",
        "In arrangements 3 and 4 the eddy formula ends where Rs is 5 B, with B = 4 pi f / 10^7.",
    ),
    (
        10,
        "dielectric",
        "The dielectric loss and the sun together take over nine tenths of the permitted rise.",
    ),
    (11, "current", "The rating would be over 5000 A."),
];

/// Whether the row of a field is marked. Refusals past 4 are about several fields together.
pub fn is_about(refusal: u32, case: &Words, field: usize) -> bool {
    match refusal {
        1 => field == 0,
        2 => field == 1,
        3 => outside_limits(case, field),
        4 => must_be_zero(case, field) && case[field] != 0,
        _ => false,
    }
}

pub fn refusal_lines(refusal: u32) -> String {
    let of_number = |&&(number, ..): &&(u32, &str, &str)| number == refusal;
    let (number, word, rule) = REFUSALS.iter().find(of_number).expect("a refusal of a case");
    format!("REFUSED  {number} {word}\n  {rule}\n")
}
