// The book: note bytes, then records, then a trailer, in a buffer the caller
// lends together with the length used. Each operation tries its refusals
// before it writes anything, so a refused one changes no byte.

use crate::rating::{rate, Rated, Words, DIRECT_CURRENT, OLDER_WIDTH, WIDTH};

pub const TRAILER_LENGTH: usize = 16;
pub const GREATEST_COUNT: usize = 100_000;

/// What a book's mark says of its records: each is the first inputs of its case,
/// then the answer and the rating; and up to which arrangement a case is rated.
#[derive(Clone, Copy, Debug, PartialEq, Eq)]
pub struct Layout {
    pub mark: [u8; 4],
    pub inputs: usize,
    pub last_arrangement: u32,
}

impl Layout {
    pub const fn record_length(&self) -> usize {
        4 * (self.inputs + 2)
    }

    /// What a case gets by the rule of the books of this mark.
    pub fn rate(&self, case: &Words) -> Rated {
        if case[0] > self.last_arrangement {
            Rated::refused(1)
        } else {
            rate(case)
        }
    }
}

/// Of books that are read and accepted, but no longer written. Direct current came
/// after them.
pub const RBK1: Layout =
    Layout { mark: *b"RBK1", inputs: OLDER_WIDTH, last_arrangement: DIRECT_CURRENT - 1 };
/// Of those that start and append write.
pub const RBK2: Layout = Layout { mark: *b"RBK2", inputs: WIDTH, last_arrangement: DIRECT_CURRENT };

pub const LAYOUTS: [Layout; 2] = [RBK1, RBK2];

/// How much longer a book becomes by a record.
pub const RECORD_LENGTH: usize = RBK2.record_length();

/// What read answers of a record: the inputs of its case, those that its book has
/// no room for being 0, then the answer and the rating.
pub type Record = [u32; WIDTH + 2];

pub const ANSWER: usize = WIDTH;
pub const RATING: usize = WIDTH + 1;

/// The refusals of a book, in the order of their numbers.
#[derive(Clone, Copy, Debug, PartialEq, Eq)]
pub enum Refusal {
    Length,
    Mark,
    Trailer,
    /// The first record, counted from 1, that differs from its case's rating.
    Disagrees(usize),
    Space,
    Full,
    Index,
}

impl Refusal {
    pub fn number(self) -> u32 {
        match self {
            Refusal::Length => 20,
            Refusal::Mark => 21,
            Refusal::Trailer => 22,
            Refusal::Disagrees(_) => 23,
            Refusal::Space => 24,
            Refusal::Full => 25,
            Refusal::Index => 26,
        }
    }
}

/// How many records a book has, and how many note bytes stand before them.
#[derive(Clone, Copy, Debug, PartialEq, Eq)]
pub struct Parts {
    pub count: usize,
    pub note: usize,
}

/// The big-endian word that begins at a byte.
pub fn word_at(bytes: &[u8], at: usize) -> u32 {
    u32::from_be_bytes([bytes[at], bytes[at + 1], bytes[at + 2], bytes[at + 3]])
}

/// Writes a word so that it begins at a byte.
pub fn put_word(bytes: &mut [u8], at: usize, word: u32) {
    bytes[at..at + 4].copy_from_slice(&word.to_be_bytes());
}

/// The layout of a book, of those that an operation takes, and its parts, or
/// refusal 20, 21 or 22, which append, read and accept try before their own.
fn parts(buffer: &[u8], used: usize, taken: &[Layout]) -> Result<(Layout, Parts), Refusal> {
    let book = buffer.get(..used).ok_or(Refusal::Length)?;
    let before = used.checked_sub(TRAILER_LENGTH).ok_or(Refusal::Mark)?;
    let trailer = &book[before..];
    let marked = |layout: &&Layout| trailer[..4] == layout.mark;
    let layout = *taken.iter().find(marked).ok_or(Refusal::Mark)?;
    // The count is tried first: in its limit, so many records' length fits a word.
    let count = word_at(trailer, 4) as usize;
    if count > GREATEST_COUNT {
        return Err(Refusal::Trailer);
    }
    let length = layout.record_length();
    let records = length * count;
    if word_at(trailer, 8) as usize != records || word_at(trailer, 12) as usize != length {
        return Err(Refusal::Trailer);
    }
    let note = before.checked_sub(records).ok_or(Refusal::Trailer)?;
    Ok((layout, Parts { count, note }))
}

/// Writes the trailer of a book of `count` records, at most 100000.
fn put_trailer(buffer: &mut [u8], at: usize, count: usize) {
    buffer[at..at + 4].copy_from_slice(&RBK2.mark);
    put_word(buffer, at + 4, count as u32);
    put_word(buffer, at + 8, (RECORD_LENGTH * count) as u32);
    put_word(buffer, at + 12, RECORD_LENGTH as u32);
}

/// The record that a case gets in a book of a layout.
fn record_of(layout: Layout, case: &Words) -> Record {
    let rated = layout.rate(case);
    let mut record = [0; WIDTH + 2];
    record[..WIDTH].copy_from_slice(case);
    record[ANSWER] = rated.answer;
    record[RATING] = rated.rating;
    record
}

/// The case of a record.
pub fn case_of(record: &Record) -> Words {
    std::array::from_fn(|field| record[field])
}

/// The record of an index below the count, as it is written.
fn record_at(buffer: &[u8], layout: Layout, parts: Parts, index: usize) -> Record {
    let first_byte = parts.note + layout.record_length() * index;
    let stored = &buffer[first_byte..first_byte + layout.record_length()];
    let fields = (0..layout.inputs).chain([ANSWER, RATING]);
    let mut record = [0; WIDTH + 2];
    for (field, bytes) in fields.zip(stored.chunks_exact(4)) {
        record[field] = word_at(bytes, 0);
    }
    record
}

/// Begins a book after a note whose bytes already stand at the front of the
/// buffer. Answers the used length.
pub fn start(buffer: &mut [u8], note: usize) -> Result<usize, Refusal> {
    // A note so long that the sum is no usize is over every buffer too.
    let used = note.checked_add(TRAILER_LENGTH).ok_or(Refusal::Space)?;
    if used > buffer.len() {
        return Err(Refusal::Space);
    }
    put_trailer(buffer, note, 0);
    Ok(used)
}

/// Rates a case and writes its record, refused case or not, where the trailer
/// was, and the new trailer after it. Only a book of the mark that is written can
/// be appended to. Answers the new used length.
pub fn append(buffer: &mut [u8], used: usize, case: &Words) -> Result<usize, Refusal> {
    let (_, Parts { count, .. }) = parts(buffer, used, &[RBK2])?;
    if count == GREATEST_COUNT {
        return Err(Refusal::Full);
    }
    if buffer.len() - used < RECORD_LENGTH {
        return Err(Refusal::Space);
    }
    let first_byte = used - TRAILER_LENGTH;
    for (field, word) in record_of(RBK2, case).into_iter().enumerate() {
        put_word(buffer, first_byte + 4 * field, word);
    }
    put_trailer(buffer, first_byte + RECORD_LENGTH, count + 1);
    Ok(used + RECORD_LENGTH)
}

/// The record of an index from 0, as it is written: no rating is worked out.
pub fn read(buffer: &[u8], used: usize, index: usize) -> Result<Record, Refusal> {
    let (layout, parts) = parts(buffer, used, &LAYOUTS)?;
    if index >= parts.count {
        return Err(Refusal::Index);
    }
    Ok(record_at(buffer, layout, parts, index))
}

/// Rates every record's case again and answers the parts when all agree, or else
/// the first record that does not.
pub fn accept(buffer: &[u8], used: usize) -> Result<Parts, Refusal> {
    let (layout, parts) = parts(buffer, used, &LAYOUTS)?;
    for index in 0..parts.count {
        let record = record_at(buffer, layout, parts, index);
        if record != record_of(layout, &case_of(&record)) {
            return Err(Refusal::Disagrees(index + 1));
        }
    }
    Ok(parts)
}
