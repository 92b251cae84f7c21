// The listing of a book as text: `book` with the count and one line a record
// where accept gives no refusal, otherwise the refusal alone. Every line ends
// in a line feed.

use crate::book::{accept, read, Refusal, ANSWER, RATING};

/// The buffer of the listing program, in bytes.
pub const LONGEST_BOOK: usize = 65536;

fn refusal_line(refusal: Refusal) -> String {
    match refusal {
        Refusal::Disagrees(record) => format!("refused {} at {record}\n", refusal.number()),
        _ => format!("refused {}\n", refusal.number()),
    }
}

/// The lines of an accepted book: the count, then each record's number from 1,
/// its answer and its rating.
fn book_lines(buffer: &[u8], used: usize) -> Result<String, Refusal> {
    let count = accept(buffer, used)?.count;
    let mut text = format!("book {count}\n");
    for index in 0..count {
        let record = read(buffer, used, index)?;
        text.push_str(&format!("{} {} {}\n", index + 1, record[ANSWER], record[RATING]));
    }
    Ok(text)
}

/// The listing of the bytes of standard input.
pub fn listing(input: &[u8]) -> Vec<u8> {
    // An over-long input keeps its length and loses the bytes past the buffer,
    // so accept itself gives refusal 20.
    let buffer = &input[..input.len().min(LONGEST_BOOK)];
    book_lines(buffer, input.len()).unwrap_or_else(refusal_line).into_bytes()
}
