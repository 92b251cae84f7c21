// Comment lines made by dice, without their line feeds: with text for a heading or without,
// in characters of one byte to four, and with bytes that are no characters.

use crate::dice::Dice;
use crate::drawn_lines::{any_byte, chosen, spread};
use crate::lines::LONGEST_LINE;

type Kind = fn(&mut Dice) -> Vec<u8>;

pub const COMMENTS: [Kind; 10] = [
    words,
    case_behind,
    no_text,
    characters,
    end_characters,
    no_characters,
    byte_changed,
    any_bytes,
    returns,
    greatest_length,
];

/// A comment of any kind.
pub fn comment(dice: &mut Dice) -> Vec<u8> {
    COMMENTS[dice.roll() as usize % COMMENTS.len()](dice)
}

/// The mark with text behind it.
fn with_text(dice: &mut Dice, text: &[u8]) -> Vec<u8> {
    let blanks = chosen(dice, &["", " ", " ", "\t", " \t  "]);
    let end = chosen(dice, &["", "", "\r", " ", "\t\r"]);
    [b"#", blanks.as_bytes(), text, end.as_bytes()].concat()
}

fn words(dice: &mut Dice) -> Vec<u8> {
    let text =
        chosen(dice, &["240 mm2 copper", "12/20 kV,  in ground", "a # b", "#", "x", "1: 2 %d"]);
    with_text(dice, text.as_bytes())
}

/// What would be a case without the mark.
fn case_behind(dice: &mut Dice) -> Vec<u8> {
    let case = spread(dice);
    with_text(dice, &case)
}

fn no_text(dice: &mut Dice) -> Vec<u8> {
    chosen(dice, &["#", "#\r", "# ", "#\t", "# \t\r"]).into_bytes()
}

/// Of one byte to four.
fn characters(dice: &mut Dice) -> Vec<u8> {
    let text = chosen(
        dice,
        &["20 °C, 1.5 K·m/W", "Käbel für θc", "電纜 3×240", "\u{1f50c} 20 kV", "\u{a0}x"],
    );
    with_text(dice, text.as_bytes())
}

/// The first and the last of each number of bytes, and beside those that are left out.
fn end_characters(dice: &mut Dice) -> Vec<u8> {
    let first = ["\0", "\u{80}", "\u{800}", "\u{e000}", "\u{10000}"];
    let last = ["\u{7f}", "\u{7ff}", "\u{d7ff}", "\u{ffff}", "\u{10ffff}"];
    let text = chosen(dice, &first) + &chosen(dice, &last);
    with_text(dice, text.as_bytes())
}

/// Longer than need be, surrogates, past the last character, and parts of characters.
fn no_characters(dice: &mut Dice) -> Vec<u8> {
    let bytes: [&[u8]; 12] = [
        b"\xc0\x80",
        b"\xc1\xbf",
        b"\xe0\x9f\xbf",
        b"\xf0\x8f\xbf\xbf",
        b"\xed\xa0\x80",
        b"\xed\xbf\xbf",
        b"\xf4\x90\x80\x80",
        b"\xf5\x80\x80\x80",
        b"\x80",
        b"\xc3",
        b"\xe2\x82",
        b"\xf0\x9f\x94",
    ];
    let text = [b"20 ", bytes[dice.roll() as usize % bytes.len()], b"C"].concat();
    let length = text.len() - dice.roll() as usize % 2;
    with_text(dice, &text[..length])
}

/// Any byte in place of one of a comment's but its mark.
fn byte_changed(dice: &mut Dice) -> Vec<u8> {
    let mut line = characters(dice);
    let at = 1 + dice.roll() as usize % (line.len() - 1);
    line[at] = any_byte(dice);
    line
}

fn any_bytes(dice: &mut Dice) -> Vec<u8> {
    let count = dice.between(0, 6);
    let text: Vec<u8> = (0..count).map(|_| any_byte(dice)).collect();
    with_text(dice, &text)
}

/// Of carriage returns only the last is no part of the text.
fn returns(dice: &mut Dice) -> Vec<u8> {
    chosen(dice, &["# x\r\r", "#\r\r", "# \r \r", "#\rx", "# a\rb\r"]).into_bytes()
}

/// As long as a line may be.
fn greatest_length(dice: &mut Dice) -> Vec<u8> {
    let mut line = words(dice);
    line.resize(LONGEST_LINE, dice.between(b' '.into(), b'~'.into()) as u8);
    line
}

/// No comment but an unreadable line, which sets no heading.
pub fn comment_too_long(dice: &mut Dice) -> Vec<u8> {
    let mut line = words(dice);
    line.resize(LONGEST_LINE + dice.between(1, 3000) as usize, b'x');
    line
}
