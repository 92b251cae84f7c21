// One operation of the proved library or of the twin, so many times over the
// same seeded rated cases: twin/bench-instructions runs it under valgrind with
// two counts, and takes the difference, so that drawing the cases and making the
// book, which do not depend on the count, do not count. accept checks a whole
// book of CASES records at a time, so its counts are multiples of that.
// usage: instructions OPERATION SIDE COUNT [SEED]
//   OPERATION is rate, append, accept or read; SIDE is proved or twin

#[path = "../../crates/sheafdawn/rust/sheafdawn.rs"]
mod sheafdawn;

use std::hint::black_box;
use std::process::ExitCode;
use twin::book;
use twin::dice::Dice;
use twin::drawn_cases::rated_case;
use twin::rating::{rate, Words};
use twin::sound_books::sound_book;

const CASES: usize = 500;

/// What an operation is done to: the cases, and the book of all of them.
struct Inputs {
    cases: Vec<Words>,
    book: Vec<u8>,
    count: usize,
}

impl Inputs {
    fn drawn(seed: u32, count: usize) -> Inputs {
        let mut dice = Dice(u64::from(seed) + 1);
        let cases: Vec<Words> = (0..CASES).map(|_| rated_case(&mut dice).0).collect();
        let book = sound_book(&[], &cases);
        Inputs { cases, book, count }
    }

    // Each hides what it passes and what it gets from the compiler, so that no
    // work is left out.

    fn each_case<T>(&self, mut work: impl FnMut(&Words) -> T) {
        for case in self.cases.iter().cycle().take(self.count) {
            let _ = black_box(work(black_box(case)));
        }
    }

    fn each_book<T>(&self, work: impl Fn(&[u8]) -> T) {
        for _ in 0..self.count / CASES {
            let _ = black_box(work(black_box(&self.book)));
        }
    }

    fn each_index<T>(&self, work: impl Fn(&[u8], usize) -> T) {
        for number in 0..self.count {
            let _ = black_box(work(&self.book, black_box(number % CASES)));
        }
    }

    /// Room for a book of as many records as are to be appended.
    fn room(&self) -> Vec<u8> {
        vec![0; book::RECORD_LENGTH * self.count + book::TRAILER_LENGTH]
    }
}

fn proved_append(inputs: &Inputs) {
    let mut buffer = inputs.room();
    let mut used = sheafdawn::start(&mut buffer, 0).expect("room for a trailer");
    inputs.each_case(|case| {
        used = sheafdawn::append(&mut buffer, used, case).expect("room for a record");
    });
}

fn twins_append(inputs: &Inputs) {
    let mut buffer = inputs.room();
    let mut used = book::start(&mut buffer, 0).expect("room for a trailer");
    inputs.each_case(|case| {
        used = book::append(&mut buffer, used, case).expect("room for a record");
    });
}

/// Does the operation, if the words name one.
fn work(operation: &str, side: &str, inputs: &Inputs) -> Option<()> {
    match (operation, side) {
        ("rate", "proved") => inputs.each_case(sheafdawn::rate),
        ("rate", "twin") => inputs.each_case(rate),
        ("append", "proved") => proved_append(inputs),
        ("append", "twin") => twins_append(inputs),
        ("accept", "proved") => {
            inputs.each_book(|book| sheafdawn::accept(book, book.len()).expect("sound"))
        }
        ("accept", "twin") => {
            inputs.each_book(|book| book::accept(book, book.len()).expect("sound"))
        }
        ("read", "proved") => inputs
            .each_index(|book, index| sheafdawn::read(book, book.len(), index).expect("a record")),
        ("read", "twin") => {
            inputs.each_index(|book, index| book::read(book, book.len(), index).expect("a record"))
        }
        _ => return None,
    }
    Some(())
}

/// The words of the command line, if they ask for something.
fn run(words: &[String]) -> Option<()> {
    let (operation, side, count, seed) = match words {
        [operation, side, count] => (operation, side, count, 1),
        [operation, side, count, seed] => (operation, side, count, seed.parse().ok()?),
        _ => return None,
    };
    work(operation, side, &Inputs::drawn(seed, count.parse().ok()?))
}

fn main() -> ExitCode {
    let words: Vec<String> = std::env::args().skip(1).collect();
    match run(&words) {
        Some(()) => ExitCode::SUCCESS,
        None => {
            eprintln!("usage: instructions rate|append|accept|read proved|twin COUNT [SEED]");
            ExitCode::FAILURE
        }
    }
}
