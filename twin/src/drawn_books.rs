// Books made by dice, sound and faulty, of either mark, for comparing another
// implementation's listing with the twin's. The kinds take turns, so that each
// appears whatever the dice show; these choose the mark.

use crate::book::{put_word, word_at, Layout, LAYOUTS, RBK1, RBK2, TRAILER_LENGTH};
use crate::dice::Dice;
use crate::drawn_cases::{mixed_case, rated_case_of, Surroundings};
use crate::listing::LONGEST_BOOK;
use crate::rating::{Words, DIRECT_CURRENT};
use crate::sound_books::{kept, sound_book_of, trailer};

/// Makes a book of one kind; the last argument is how many of its kind were made
/// before, for kinds that go through a range one by one.
type Kind = fn(&mut Dice, Layout, usize) -> Vec<u8>;

pub const KINDS: [Kind; 24] = [
    sound,
    sound,
    empty,
    empty_after_note,
    long_note,
    note_with_mark,
    note_with_book,
    greatest_count,
    greatest_length,
    cut_at_the_end,
    cut_at_the_front,
    trailer_byte_changed,
    field_changed,
    several_disagree,
    direct_current_by_other_rule,
    other_mark,
    other_trailer,
    too_long,
    random,
    random_after_mark,
    nothing,
    under_a_trailer,
    count_too_large,
    distance_too_large,
];

/// The book of a number, counted from 0.
pub fn drawn_book(dice: &mut Dice, number: usize) -> Vec<u8> {
    let layout = either_layout(dice);
    KINDS[number % KINDS.len()](dice, layout, number / KINDS.len())
}

fn either_layout(dice: &mut Dice) -> Layout {
    LAYOUTS[dice.roll() as usize % LAYOUTS.len()]
}

fn number_between(dice: &mut Dice, low: usize, high: usize) -> usize {
    dice.between(low as i64, high as i64) as usize
}

fn bytes(dice: &mut Dice, length: usize) -> Vec<u8> {
    (0..length).map(|_| dice.roll() as u8).collect()
}

fn note(dice: &mut Dice, longest: usize) -> Vec<u8> {
    let length = number_between(dice, 0, longest);
    bytes(dice, length)
}

fn book_after(note: &[u8], layout: Layout, count: usize, dice: &mut Dice) -> Vec<u8> {
    let cases: Vec<Words> = (0..count).map(|_| mixed_case(dice)).collect();
    sound_book_of(layout, note, &cases)
}

fn book_with_records(dice: &mut Dice, layout: Layout) -> Vec<u8> {
    let note = note(dice, 200);
    let count = number_between(dice, 1, 40);
    book_after(&note, layout, count, dice)
}

/// A sound book of a given length, with up to 40 records.
fn book_of_length(dice: &mut Dice, layout: Layout, length: usize) -> Vec<u8> {
    let count = number_between(dice, 0, 40);
    let note = bytes(dice, length - TRAILER_LENGTH - layout.record_length() * count);
    book_after(&note, layout, count, dice)
}

/// Where the trailer of a book begins.
fn trailer_at(book: &[u8]) -> usize {
    book.len() - TRAILER_LENGTH
}

// Sound books.

fn sound(dice: &mut Dice, layout: Layout, _turn: usize) -> Vec<u8> {
    book_with_records(dice, layout)
}

fn empty(_dice: &mut Dice, layout: Layout, _turn: usize) -> Vec<u8> {
    sound_book_of(layout, &[], &[])
}

fn empty_after_note(dice: &mut Dice, layout: Layout, _turn: usize) -> Vec<u8> {
    let length = number_between(dice, 1, 500);
    sound_book_of(layout, &bytes(dice, length), &[])
}

fn long_note(dice: &mut Dice, layout: Layout, _turn: usize) -> Vec<u8> {
    let length = number_between(dice, 6000, LONGEST_BOOK);
    book_of_length(dice, layout, length)
}

/// Either mark at the front, in the middle or at the end of the note.
fn note_with_mark(dice: &mut Dice, layout: Layout, turn: usize) -> Vec<u8> {
    let mut note = bytes(dice, 100);
    let at = [0, 50, 96][turn % 3];
    note[at..at + 4].copy_from_slice(&either_layout(dice).mark);
    let count = number_between(dice, 0, 5);
    book_after(&note, layout, count, dice)
}

/// A whole book of either mark as note, its trailer being the end of the note in
/// every second of these.
fn note_with_book(dice: &mut Dice, layout: Layout, turn: usize) -> Vec<u8> {
    let count = number_between(dice, 0, 5);
    let mut note = book_after(&[], either_layout(dice), count, dice);
    if turn % 2 == 1 {
        let further = number_between(dice, 1, 300);
        note.extend(bytes(dice, further));
    }
    let count = number_between(dice, 0, 5);
    book_after(&note, layout, count, dice)
}

/// As many records as the listing program can take, without a note: 585 of RBK1,
/// which fill it to the last byte, and 511 of RBK2.
fn greatest_count(dice: &mut Dice, layout: Layout, _turn: usize) -> Vec<u8> {
    book_after(&[], layout, (LONGEST_BOOK - TRAILER_LENGTH) / layout.record_length(), dice)
}

fn greatest_length(dice: &mut Dice, layout: Layout, _turn: usize) -> Vec<u8> {
    book_of_length(dice, layout, LONGEST_BOOK)
}

// Faulty books.

/// Without its last 1 to 150 bytes: less than a trailer up to more than a
/// record and a trailer.
fn cut_at_the_end(dice: &mut Dice, layout: Layout, turn: usize) -> Vec<u8> {
    let count = number_between(dice, 2, 40);
    let mut book = book_after(&[], layout, count, dice);
    book.truncate(book.len() - 1 - turn % 150);
    book
}

/// Without its first 1 to 150 bytes, so that the records are longer than what
/// precedes the trailer.
fn cut_at_the_front(dice: &mut Dice, layout: Layout, turn: usize) -> Vec<u8> {
    let count = number_between(dice, 2, 40);
    book_after(&[], layout, count, dice).split_off(1 + turn % 150)
}

fn trailer_byte_changed(dice: &mut Dice, layout: Layout, turn: usize) -> Vec<u8> {
    let mut book = book_with_records(dice, layout);
    let at = trailer_at(&book) + turn % TRAILER_LENGTH;
    book[at] ^= dice.between(1, 255) as u8;
    book
}

/// An input, the answer or the rating of one record, by turns; a change by 1
/// is as likely as a large one.
fn field_changed(dice: &mut Dice, layout: Layout, turn: usize) -> Vec<u8> {
    let mut book = book_with_records(dice, layout);
    let count = word_at(&book, trailer_at(&book) + 4) as usize;
    let record = trailer_at(&book) - layout.record_length() * number_between(dice, 1, count);
    let field = match turn % 3 {
        0 => number_between(dice, 0, layout.inputs - 1),
        other => layout.inputs - 1 + other,
    };
    change_word(dice, &mut book, record + 4 * field);
    book
}

/// Makes a word another one.
fn change_word(dice: &mut Dice, book: &mut [u8], at: usize) {
    let change = match dice.roll() % 4 {
        0 => 1,
        1 => u32::MAX,
        _ => dice.between(1, u32::MAX.into()) as u32,
    };
    let changed = word_at(book, at).wrapping_add(change);
    put_word(book, at, changed);
}

/// Two or more records with another answer or rating: the first and the last,
/// the first two, the last two, two neighbours, two anywhere, and all, by turns.
fn several_disagree(dice: &mut Dice, layout: Layout, turn: usize) -> Vec<u8> {
    let note = note(dice, 200);
    let count = number_between(dice, 2, 40);
    let mut book = book_after(&note, layout, count, dice);
    let neighbour = number_between(dice, 0, count - 2);
    let anywhere = number_between(dice, 0, count - 1);
    let indices = match turn % 6 {
        0 => vec![0, count - 1],
        1 => vec![0, 1],
        2 => vec![count - 2, count - 1],
        3 => vec![neighbour, neighbour + 1],
        4 => vec![anywhere, (anywhere + number_between(dice, 1, count - 1)) % count],
        _ => (0..count).collect(),
    };
    for index in indices {
        let field = layout.inputs + dice.roll() as usize % 2;
        change_word(dice, &mut book, note.len() + layout.record_length() * index + 4 * field);
    }
    book
}

/// One record is of a rated cable of direct current, with the answer and the rating of
/// the other mark's rule: rated in RBK1, where refusal 1 is its answer, and refused by 1
/// in RBK2.
fn direct_current_by_other_rule(dice: &mut Dice, layout: Layout, _turn: usize) -> Vec<u8> {
    let note = note(dice, 200);
    let count = number_between(dice, 1, 40);
    let mut cases: Vec<Words> = (0..count).map(|_| mixed_case(dice)).collect();
    let index = number_between(dice, 0, count - 1);
    (cases[index], _) = rated_case_of(Some(DIRECT_CURRENT.into()), Surroundings::Any, dice);
    let mut book = sound_book_of(layout, &note, &cases);
    let rated = other(layout).rate(&kept(layout, &cases[index]));
    let answer = note.len() + layout.record_length() * index + 4 * layout.inputs;
    put_word(&mut book, answer, rated.answer);
    put_word(&mut book, answer + 4, rated.rating);
    book
}

fn other(layout: Layout) -> Layout {
    if layout == RBK1 {
        RBK2
    } else {
        RBK1
    }
}

/// With the other mark written over its own.
fn other_mark(dice: &mut Dice, layout: Layout, _turn: usize) -> Vec<u8> {
    let mut book = book_with_records(dice, layout);
    let at = trailer_at(&book);
    book[at..at + 4].copy_from_slice(&other(layout).mark);
    book
}

/// With the whole trailer of a book of the other mark: of the same count, of as
/// many records as there is room for, and of none, by turns.
fn other_trailer(dice: &mut Dice, layout: Layout, turn: usize) -> Vec<u8> {
    let mut book = book_with_records(dice, layout);
    let at = trailer_at(&book);
    let other = other(layout);
    let count = match turn % 3 {
        0 => word_at(&book, at + 4) as usize,
        1 => at / other.record_length(),
        _ => 0,
    };
    book.truncate(at);
    book.extend(trailer(other, count));
    book
}

/// Sound but for its length, or a book of the greatest length with more bytes
/// after it.
fn too_long(dice: &mut Dice, layout: Layout, turn: usize) -> Vec<u8> {
    let further = number_between(dice, 1, 5000);
    match turn % 3 {
        0 => book_of_length(dice, layout, LONGEST_BOOK + 1),
        1 => book_of_length(dice, layout, LONGEST_BOOK + further),
        _ => {
            let mut book = book_of_length(dice, layout, LONGEST_BOOK);
            book.extend(bytes(dice, further));
            book
        }
    }
}

// Other bytes, and trailers whose count or distance is too large.

fn random(dice: &mut Dice, _layout: Layout, _turn: usize) -> Vec<u8> {
    note(dice, 3000)
}

/// Random bytes but for a mark where a trailer has its mark.
fn random_after_mark(dice: &mut Dice, layout: Layout, _turn: usize) -> Vec<u8> {
    let mut book = note(dice, 3000);
    book.extend(layout.mark);
    book.extend(bytes(dice, TRAILER_LENGTH - layout.mark.len()));
    book
}

fn nothing(_dice: &mut Dice, _layout: Layout, _turn: usize) -> Vec<u8> {
    Vec::new()
}

/// The first 1 to 15 bytes of an empty book's trailer.
fn under_a_trailer(_dice: &mut Dice, layout: Layout, turn: usize) -> Vec<u8> {
    let mut book = sound_book_of(layout, &[], &[]);
    book.truncate(1 + turn % (TRAILER_LENGTH - 1));
    book
}

/// A count that goes with its distance but is over the limit or over what a
/// book of this length can hold. The last one's distance is 0 in 32 bits.
fn count_too_large(dice: &mut Dice, layout: Layout, turn: usize) -> Vec<u8> {
    let mut book = book_with_records(dice, layout);
    let count: u32 = [100_001, 100_000, u32::MAX, 1 << 28][turn % 4];
    let trailer = trailer_at(&book);
    put_word(&mut book, trailer + 4, count);
    put_word(&mut book, trailer + 8, count.wrapping_mul(layout.record_length() as u32));
    book
}

/// A distance that reaches before the first byte; in every second of these
/// the count goes with it.
fn distance_too_large(dice: &mut Dice, layout: Layout, turn: usize) -> Vec<u8> {
    let mut book = book_with_records(dice, layout);
    let trailer = trailer_at(&book);
    let count = trailer / layout.record_length() + number_between(dice, 1, 3);
    put_word(&mut book, trailer + 8, (layout.record_length() * count) as u32);
    if turn % 2 == 1 {
        put_word(&mut book, trailer + 4, count as u32);
    }
    book
}
