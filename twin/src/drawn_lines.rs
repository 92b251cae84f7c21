// Lines made by dice, without their line feeds, for comparing another
// implementation's reading with the twin's: cases written in every way that is
// read, and lines that are passed over or cannot be read. The kinds take turns,
// so that each appears whatever the dice show, and comments stand between the
// cases, so that these get headings of every kind.

use crate::dice::Dice;
use crate::drawn_cases::{drawn_case, mixed_case};
use crate::drawn_comments::{comment, comment_too_long};
use crate::lines::{case_line, older_line, LONGEST_LINE};
use crate::rating::{OLDER_WIDTH, WIDTH};

type Kind = fn(&mut Dice) -> Vec<u8>;

/// What a kind of line is made to be read as.
#[derive(Clone, Copy, Debug, PartialEq, Eq)]
pub enum Made {
    Case,
    Passed,
    Unreadable,
    CaseOrNot,
}

pub const KINDS: [(Made, Kind); 31] = [
    (Made::Passed, comment),
    (Made::Case, plain),
    (Made::Case, any_words),
    (Made::Passed, comment),
    (Made::Passed, nothing),
    (Made::Case, older),
    (Made::Case, older_spread),
    (Made::Passed, comment),
    (Made::Unreadable, under_an_older_case),
    (Made::Case, signed),
    (Made::Unreadable, over_an_older_case),
    (Made::Case, tabs),
    (Made::Passed, comment),
    (Made::Unreadable, comment_too_long),
    (Made::Case, carriage_return),
    (Made::Passed, blanks),
    (Made::Case, signed_with_tabs_and_return),
    (Made::Passed, comment),
    (Made::Passed, comment),
    (Made::Case, spread),
    (Made::Case, zeros_in_front),
    (Made::Passed, comment),
    (Made::Case, greatest_length),
    (Made::Unreadable, one_number_less),
    (Made::Unreadable, one_number_more),
    (Made::Unreadable, number_too_large),
    (Made::Unreadable, number_too_small),
    (Made::Unreadable, no_number),
    (Made::Unreadable, two_returns),
    (Made::CaseOrNot, byte_changed),
    (Made::Unreadable, too_long),
];

/// The line of a number, counted from 0.
pub fn drawn_line(dice: &mut Dice, number: usize) -> Vec<u8> {
    let (_, kind) = KINDS[number % KINDS.len()];
    kind(dice)
}

/// A case's numbers, those past 2^31 with a minus sign.
fn signed_words(dice: &mut Dice) -> Vec<String> {
    let turn = dice.roll() as usize;
    drawn_case(dice, turn).map(|word| (word as i32).to_string()).to_vec()
}

fn unsigned_words(dice: &mut Dice) -> Vec<String> {
    mixed_case(dice).map(|word| word.to_string()).to_vec()
}

pub fn chosen(dice: &mut Dice, from: &[&str]) -> String {
    from[dice.roll() as usize % from.len()].to_string()
}

/// A case with one of its numbers written as another word.
fn with_word(dice: &mut Dice, word: &str) -> Vec<u8> {
    let mut words = signed_words(dice);
    let at = dice.roll() as usize % words.len();
    words[at] = word.to_string();
    words.join(" ").into_bytes()
}

// Cases.

fn plain(dice: &mut Dice) -> Vec<u8> {
    case_line(&mixed_case(dice)).into_bytes()
}

fn any_words(dice: &mut Dice) -> Vec<u8> {
    let words = [(); WIDTH].map(|()| dice.between(0, u32::MAX.into()) as u32);
    case_line(&words).into_bytes()
}

fn signed(dice: &mut Dice) -> Vec<u8> {
    signed_words(dice).join(" ").into_bytes()
}

fn tabs(dice: &mut Dice) -> Vec<u8> {
    unsigned_words(dice).join("\t").into_bytes()
}

fn carriage_return(dice: &mut Dice) -> Vec<u8> {
    (unsigned_words(dice).join(" ") + "\r").into_bytes()
}

fn signed_with_tabs_and_return(dice: &mut Dice) -> Vec<u8> {
    (signed_words(dice).join("\t") + "\r").into_bytes()
}

/// The numbers of an older case.
fn older(dice: &mut Dice) -> Vec<u8> {
    older_line(&mixed_case(dice)).into_bytes()
}

fn older_spread(dice: &mut Dice) -> Vec<u8> {
    let words = signed_words(dice);
    spread_words(dice, &words[..OLDER_WIDTH])
}

pub fn spread(dice: &mut Dice) -> Vec<u8> {
    let words = signed_words(dice);
    spread_words(dice, &words)
}

/// One blank or more before, between and after the numbers.
fn spread_words(dice: &mut Dice, words: &[String]) -> Vec<u8> {
    let mut line = chosen(dice, &["", " ", "\t ", "   "]);
    for word in words {
        line += word;
        line += &chosen(dice, &[" ", " ", "\t", "  ", " \t "]);
    }
    line += &chosen(dice, &["", "\r"]);
    line.into_bytes()
}

fn zeros_in_front(dice: &mut Dice) -> Vec<u8> {
    let word =
        chosen(dice, &["00", "-0", "0000000007", "00000000007", "04294967295", "-02147483648"]);
    with_word(dice, &word)
}

/// As long as a line may be, by blanks at its end.
fn greatest_length(dice: &mut Dice) -> Vec<u8> {
    let mut line = plain(dice);
    line.resize(LONGEST_LINE, b' ');
    line
}

// Lines that are passed over, beside comments.

fn nothing(_dice: &mut Dice) -> Vec<u8> {
    Vec::new()
}

fn blanks(dice: &mut Dice) -> Vec<u8> {
    chosen(dice, &[" ", "\t", " \t  ", "\r", "  \r"]).into_bytes()
}

// Lines that cannot be read.

fn under_an_older_case(dice: &mut Dice) -> Vec<u8> {
    let count = dice.between(1, OLDER_WIDTH as i64 - 1) as usize;
    unsigned_words(dice)[..count].join(" ").into_bytes()
}

/// More numbers than an older case has, and fewer than a case.
fn over_an_older_case(dice: &mut Dice) -> Vec<u8> {
    let count = dice.between(OLDER_WIDTH as i64 + 1, WIDTH as i64 - 1) as usize;
    unsigned_words(dice)[..count].join(" ").into_bytes()
}

fn one_number_less(dice: &mut Dice) -> Vec<u8> {
    unsigned_words(dice)[1..].join(" ").into_bytes()
}

fn one_number_more(dice: &mut Dice) -> Vec<u8> {
    let mut words = unsigned_words(dice);
    words.push("0".to_string());
    words.join(" ").into_bytes()
}

fn number_too_large(dice: &mut Dice) -> Vec<u8> {
    let word = chosen(dice, &["4294967296", "9999999999", "10000000000", "18446744073709551616"]);
    with_word(dice, &word)
}

fn number_too_small(dice: &mut Dice) -> Vec<u8> {
    let word = chosen(dice, &["-2147483649", "-4294967296", "-9999999999", "-10000000000"]);
    with_word(dice, &word)
}

fn no_number(dice: &mut Dice) -> Vec<u8> {
    let word = chosen(dice, &["-", "--1", "+1", "1-", "1.5", "0x1", "1,", "/", ":"]);
    with_word(dice, &word)
}

fn two_returns(dice: &mut Dice) -> Vec<u8> {
    (unsigned_words(dice).join(" ") + "\r\r").into_bytes()
}

/// Any byte but a line feed.
pub fn any_byte(dice: &mut Dice) -> u8 {
    match dice.roll() as u8 {
        b'\n' => b'\r',
        byte => byte,
    }
}

/// Any byte in place of one of the line's; the line may still be a case.
fn byte_changed(dice: &mut Dice) -> Vec<u8> {
    let mut line = spread(dice);
    let at = dice.roll() as usize % line.len();
    line[at] = any_byte(dice);
    line
}

fn too_long(dice: &mut Dice) -> Vec<u8> {
    let mut line = plain(dice);
    line.resize(LONGEST_LINE + dice.between(1, 3000) as usize, b' ');
    line
}
