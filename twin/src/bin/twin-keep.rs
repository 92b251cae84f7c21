// twin-keep: writes a book of the cases on standard input to standard output,
// with the arguments, joined by blanks, as its note. Where a line cannot be
// read or the book would pass 65536 bytes, that is said on standard error, and
// no book is written.

use std::io::{self, BufRead, Write};
use std::os::unix::ffi::OsStringExt;
use std::process::ExitCode;
use twin::book;
use twin::lines::{read_line, Line};

const LONGEST_BOOK: usize = 65536;

/// The arguments joined by blanks.
fn note() -> Vec<u8> {
    let words: Vec<Vec<u8>> = std::env::args_os().skip(1).map(OsStringExt::into_vec).collect();
    words.join(&b' ')
}

/// The buffer with the empty book that has this note, and its used length.
fn begin(note: &[u8]) -> Option<(Vec<u8>, usize)> {
    let mut buffer = vec![0; LONGEST_BOOK];
    buffer.get_mut(..note.len())?.copy_from_slice(note);
    let used = book::start(&mut buffer, note.len()).ok()?;
    Some((buffer, used))
}

/// Whether every line could be read and kept; then the book is written.
fn keep(mut buffer: Vec<u8>, mut used: usize) -> io::Result<bool> {
    let mut whole = true;
    for (number, line) in (1..).zip(io::stdin().lock().split(b'\n')) {
        match read_line(&line?) {
            Line::Passed => {}
            Line::Unreadable => {
                eprintln!("line {number}: unreadable");
                whole = false;
            }
            Line::Case(case) => match book::append(&mut buffer, used, &case) {
                Ok(longer) => used = longer,
                Err(_) => {
                    eprintln!("line {number}: the book would pass {LONGEST_BOOK} bytes");
                    return Ok(false);
                }
            },
        }
    }
    if whole {
        io::stdout().lock().write_all(&buffer[..used])?;
    }
    Ok(whole)
}

fn main() -> ExitCode {
    let Some((buffer, used)) = begin(&note()) else {
        eprintln!("the note leaves no room in a book of {LONGEST_BOOK} bytes");
        return ExitCode::FAILURE;
    };
    match keep(buffer, used) {
        Ok(true) => ExitCode::SUCCESS,
        Ok(false) => ExitCode::FAILURE,
        Err(error) => {
            eprintln!("twin-keep: {error}");
            ExitCode::FAILURE
        }
    }
}
