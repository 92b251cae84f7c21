// Sound books of either mark, written byte by byte, and those that start and
// append make. A test sees that these are the same.

use crate::book::{append, start, Layout, RECORD_LENGTH, TRAILER_LENGTH};
use crate::rating::Words;

/// Words one after the other, as a book has them.
pub fn big_endian(words: &[u32]) -> Vec<u8> {
    words.iter().flat_map(|word| word.to_be_bytes()).collect()
}

/// The trailer of a book of so many records.
pub fn trailer(layout: Layout, count: usize) -> Vec<u8> {
    let length = layout.record_length();
    let numbers = [count, length * count, length].map(|number| number as u32);
    [&layout.mark[..], &big_endian(&numbers)].concat()
}

/// The case that a record of a layout keeps of another: the inputs that it has room for,
/// the others being zero.
pub fn kept(layout: Layout, case: &Words) -> Words {
    let mut kept = *case;
    kept[layout.inputs..].fill(0);
    kept
}

/// The record of a case: the inputs that are kept of it, and what these get there.
fn record(layout: Layout, case: &Words) -> Vec<u8> {
    let kept = kept(layout, case);
    let rated = layout.rate(&kept);
    [big_endian(&kept[..layout.inputs]), big_endian(&[rated.answer, rated.rating])].concat()
}

/// The book of a note and cases.
pub fn sound_book_of(layout: Layout, note: &[u8], cases: &[Words]) -> Vec<u8> {
    let mut book = note.to_vec();
    for case in cases {
        book.extend(record(layout, case));
    }
    book.extend(trailer(layout, cases.len()));
    book
}

/// The book that start and append make, in a buffer of just its length.
pub fn sound_book(note: &[u8], cases: &[Words]) -> Vec<u8> {
    let mut buffer = note.to_vec();
    buffer.resize(note.len() + TRAILER_LENGTH + RECORD_LENGTH * cases.len(), 0);
    let mut used = start(&mut buffer, note.len()).expect("the buffer has room");
    for case in cases {
        used = append(&mut buffer, used, case).expect("the buffer has room");
    }
    buffer
}
