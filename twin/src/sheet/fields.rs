// The rows of a case's fields: with their limits, and with what a code stands for.

use super::row::{label, Decimal, Row};
use crate::rating::{has_field, value, Words, WIDTH};

/// Digits behind the point in the column of the fields.
const DIGITS: usize = 6;

const DEGREES: &str = "deg C";
const OHMS: &str = "uohm/m";
const MILLIMETRES: &str = "mm";
const VOLTS: &str = "V";
const THERMAL: &str = "K.m/W";

/// A field's words: its own, or those of what its code stands for.
enum Meaning {
    Quantity(&'static str),
    Arrangement,
    Conductor,
    Metal,
}

use Meaning::{Arrangement, Conductor, Metal, Quantity};

/// Symbol, decimals, unit and words of each field.
const FIELDS: [(&str, u32, &str, Meaning); WIDTH] = [
    ("arrangement", 0, "[1 to 7]", Arrangement),
    ("conductor", 0, "[1 to 8]", Conductor),
    ("f", 2, "Hz", Quantity("frequency [10 to 65]")),
    ("theta_c", 2, DEGREES, Quantity("conductor [40 to 250]")),
    ("theta_a", 2, DEGREES, Quantity("ambient [-40 to 60]")),
    ("R0", 3, OHMS, Quantity("conductor, d.c., at 20 deg C [5 to 20000]")),
    ("dc", 2, MILLIMETRES, Quantity("conductor diameter [1 to 100]")),
    ("s", 2, MILLIMETRES, Quantity("spacing of the axes [1 to 10000]")),
    ("ds", 2, MILLIMETRES, Quantity("diameter over conductor screen [1 to 200]")),
    ("Di", 2, MILLIMETRES, Quantity("diameter over insulation [1 to 300]")),
    ("U0", 0, VOLTS, Quantity("voltage to earth [0 to 300000]")),
    ("e", 2, "", Quantity("relative permittivity [1 to 8]")),
    ("t", 5, "", Quantity("loss factor [0.00001 to 0.1]")),
    ("d", 2, MILLIMETRES, Quantity("mean sheath diameter [1 to 500]")),
    ("sheath", 0, "[1 to 6]", Metal),
    ("Rs0", 3, OHMS, Quantity("sheath, at 20 deg C [1 to 20000]")),
    ("theta_s", 2, DEGREES, Quantity("sheath [-40 to 250]")),
    ("armour", 0, "[1 to 6]", Metal),
    ("RA0", 3, OHMS, Quantity("armour, a.c., at 20 deg C [1 to 20000]")),
    ("theta_A", 2, DEGREES, Quantity("armour [-40 to 250]")),
    ("c", 2, MILLIMETRES, Quantity("core axis to cable axis [1 to 500]")),
    ("dA", 2, MILLIMETRES, Quantity("mean armour diameter [1 to 500]")),
    ("T1", 6, THERMAL, Quantity("conductor to sheath [0.001 to 10]")),
    ("T2", 6, THERMAL, Quantity("sheath to armour [0 to 10]")),
    ("T3", 6, THERMAL, Quantity("outer covering [0 to 10]")),
    ("T4", 6, THERMAL, Quantity("surface to ambient [0.01 to 20]")),
    ("Ud", 0, VOLTS, Quantity("dielectric loss counts from [0 to 300000]")),
    ("rho", 3, "", Quantity("dry to moist soil resistivity [1 to 5, 0 for none]")),
    ("theta_x", 2, DEGREES, Quantity("critical isotherm, if rho is not 0 [-40 to 250]")),
    ("Q", 3, "W/m", Quantity("sun's heat taken up [0 to 200]")),
];

// What a code stands for, and nothing for a code that stands for nothing.

fn arrangement(code: u32) -> &'static str {
    match code {
        1 => "single-core, trefoil, bonded at both ends",
        2 => "single-core, flat, transposed, bonded at both ends",
        3 => "single-core, trefoil, bonded at one point",
        4 => "single-core, flat, bonded at one point, centre cable",
        5 => "three-core SL type, steel wire armour",
        6 => "three-core, common sheath",
        7 => "single-core, direct current",
        _ => "",
    }
}

fn conductor(code: u32) -> &'static str {
    match code {
        1 => "copper, round, dried",
        2 => "copper, round, not dried",
        3 => "copper, segmental",
        4 => "aluminium, round, dried",
        5 => "aluminium, round, not dried",
        6 => "aluminium, 4 segments",
        7 => "aluminium, 5 segments",
        8 => "aluminium, 6 segments",
        _ => "",
    }
}

fn metal(code: u32) -> &'static str {
    match code {
        0 => "none",
        1 => "lead",
        2 => "aluminium",
        3 => "copper",
        4 => "bronze",
        5 => "stainless steel",
        6 => "steel",
        _ => "",
    }
}

/// A field with its sign and its decimals.
pub fn field_value(case: &Words, field: usize) -> Decimal {
    Decimal { number: value(case, field).into(), decimals: FIELDS[field].1 }
}

fn field_line(case: &Words, field: usize, marked: bool) -> String {
    let (symbol, _, unit, ref meaning) = FIELDS[field];
    let words = match meaning {
        Quantity(words) => words,
        Arrangement => arrangement(case[field]),
        Conductor => conductor(case[field]),
        Metal => metal(case[field]),
    };
    let value = field_value(case, field);
    Row { label: label(marked, symbol), value, unit, words }.line(DIGITS)
}

/// The fields that the arrangement of a case has.
pub fn own_fields(case: &Words) -> String {
    let own = (0..WIDTH).filter(|&field| has_field(case, field));
    own.map(|field| field_line(case, field, false)).collect()
}

/// All fields, and a mark at some.
pub fn marked_fields(case: &Words, marked: impl Fn(usize) -> bool) -> String {
    (0..WIDTH).map(|field| field_line(case, field, marked(field))).collect()
}

#[cfg(test)]
mod tests {
    use super::*;
    use crate::rating::limits;

    /// A limit in the unit of the sheet, without zeros at its end.
    fn in_unit(limit: i64, decimals: u32) -> String {
        let (one, size) = (10_i64.pow(decimals), limit.abs());
        let digits = format!("{:0width$}", size % one, width = decimals as usize);
        let fraction = match decimals {
            0 => "",
            _ => digits.trim_end_matches('0'),
        };
        let sign = if limit < 0 { "-" } else { "" };
        let point = if fraction.is_empty() { "" } else { "." };
        format!("{sign}{}{point}{fraction}", size / one)
    }

    /// The limits in brackets are those of the refusals.
    #[test]
    fn brackets_have_the_limits() {
        for (field, (symbol, decimals, unit, meaning)) in FIELDS.iter().enumerate() {
            let (low, high) = limits(field);
            let bracket = format!("[{} to {}", in_unit(low, *decimals), in_unit(high, *decimals));
            let words = match meaning {
                Quantity(words) => words,
                _ => unit,
            };
            let ended = [']', ','].iter().any(|end| words.contains(&format!("{bracket}{end}")));
            assert!(ended, "{symbol}: {words} has not {bracket}");
        }
    }
}
