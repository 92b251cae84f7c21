// The line reader of twin-rate: a line of 30 decimal numbers, or of an older
// case's 26, is a case and is answered by one line of 15 numbers; blank lines and
// comments are passed over; anything else is reported by its line number and the
// work goes on.

use crate::rating::{from_older, rate, Words, OLDER_WIDTH};
use std::io::{self, BufRead, Write};

/// The longest line read, in bytes, its line feed not counted.
pub const LONGEST_LINE: usize = 1023;

/// What a line turned out to be.
#[derive(Debug, PartialEq, Eq)]
pub enum Line {
    Passed,
    Unreadable,
    Case(Words),
}

/// One number: decimal digits, perhaps after a minus sign, in 32 bits.
fn read_number(word: &[u8]) -> Option<u32> {
    let (digits, limit, negative) = match word.strip_prefix(b"-") {
        Some(rest) => (rest, 1 << 31, true),
        None => (word, u64::from(u32::MAX), false),
    };
    if digits.is_empty() {
        return None;
    }
    let mut value: u64 = 0;
    for &digit in digits {
        if !digit.is_ascii_digit() {
            return None;
        }
        value = 10 * value + u64::from(digit - b'0');
        // Stopping here keeps the value small however many digits follow.
        if value > limit {
            return None;
        }
    }
    let word = value as u32;
    Some(if negative { word.wrapping_neg() } else { word })
}

/// The case of so many numbers, if that is how many a case has.
fn case_of(numbers: &[u32]) -> Option<Words> {
    match <&[u32; OLDER_WIDTH]>::try_from(numbers) {
        Ok(older) => Some(from_older(older)),
        Err(_) => numbers.try_into().ok(),
    }
}

/// Reads a line that has already lost its line feed.
pub fn read_line(line: &[u8]) -> Line {
    if line.len() > LONGEST_LINE {
        return Line::Unreadable;
    }
    let line = line.strip_suffix(b"\r").unwrap_or(line);
    if line.starts_with(b"#") {
        return Line::Passed;
    }
    let words: Vec<&[u8]> =
        line.split(|&byte| byte == b' ' || byte == b'\t').filter(|word| !word.is_empty()).collect();
    if words.is_empty() {
        return Line::Passed;
    }
    let numbers: Option<Vec<u32>> = words.into_iter().map(read_number).collect();
    match numbers.and_then(|numbers| case_of(&numbers)) {
        Some(case) => Line::Case(case),
        None => Line::Unreadable,
    }
}

/// A case as the line that read_line reads.
pub fn case_line(case: &Words) -> String {
    case.map(|word| word.to_string()).join(" ")
}

/// The first fields of a case as the line of an older one.
pub fn older_line(case: &Words) -> String {
    case[..OLDER_WIDTH].iter().map(u32::to_string).collect::<Vec<_>>().join(" ")
}

/// The answer, the rating and the sheet, separated by single blanks.
pub fn answer_line(case: &Words) -> String {
    let rated = rate(case);
    let mut text = format!("{} {}", rated.answer, rated.rating);
    for number in rated.sheet {
        text.push_str(&format!(" {number}"));
    }
    text
}

/// What is said of an unreadable line.
pub fn unreadable(number: u64, output: &mut impl Write) -> io::Result<()> {
    writeln!(output, "line {number}: unreadable")
}

/// Hands on each line of `input`, without its line feed, with its number from 1 on.
pub fn each_line(
    mut input: impl BufRead,
    mut take: impl FnMut(u64, &[u8]) -> io::Result<()>,
) -> io::Result<()> {
    let mut line = Vec::new();
    let mut number: u64 = 0;
    while input.read_until(b'\n', &mut line)? > 0 {
        number += 1;
        take(number, line.strip_suffix(b"\n").unwrap_or(&line))?;
        line.clear();
    }
    Ok(())
}

/// Answers every line of `input` on `output`.
pub fn answer_lines(input: impl BufRead, mut output: impl Write) -> io::Result<()> {
    each_line(input, |number, line| match read_line(line) {
        Line::Passed => Ok(()),
        Line::Unreadable => unreadable(number, &mut output),
        Line::Case(case) => writeln!(output, "{}", answer_line(&case)),
    })?;
    output.flush()
}
