// The 36 cables whose rating IEC 60502-2 prints, from data/ratings.csv: each
// with its name, the printed amperes and the tolerance the file gives.

use crate::rating::{from_older, Words, OLDER_WIDTH};

const RATINGS: &str = include_str!("../data/ratings.csv");

pub struct Published {
    pub name: String,
    pub amperes: f64,
    pub tolerance: f64,
    pub case: Words,
}

/// A row: the name in quotes (it may hold commas), then 28 numbers.
fn read_row(row: &str) -> Published {
    let (name, numbers) = row[1..].split_once("\",").expect("a quoted name");
    let numbers: Vec<&str> = numbers.trim_end().split(',').collect();
    let older: Vec<u32> =
        numbers[2..].iter().map(|word| word.parse::<i64>().expect("a number") as u32).collect();
    let older: [u32; OLDER_WIDTH] = older.try_into().expect("an older case's fields");
    Published {
        name: name.to_string(),
        amperes: numbers[0].parse().expect("amperes"),
        tolerance: numbers[1].parse().expect("a tolerance"),
        case: from_older(&older),
    }
}

/// All rows but the first, which names the columns.
pub fn published() -> Vec<Published> {
    RATINGS.lines().skip(1).map(read_row).collect()
}
