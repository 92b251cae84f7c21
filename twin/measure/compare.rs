// The proved library beside the twin on drawn cases and books: every answer,
// sheet number and refusal, and every byte of a buffer afterwards, must be the
// same, and f64 must agree with each rating within 1 mA and 10^-8 of it together. A
// difference is printed, a case in the form that the program rate reads,
// and the exit status is then not 0.
// usage: compare SEED CASES BOOKS

#[path = "../../crates/sheafdawn/rust/sheafdawn.rs"]
mod sheafdawn;

use std::process::ExitCode;
use twin::book;
use twin::dice::Dice;
use twin::drawn_books::drawn_book;
use twin::drawn_cases::{drawn_case, mixed_case};
use twin::lines::case_line;
use twin::rating::{rate, Words, WIDTH};
use twin::sound_books::{sound_book_of, trailer};
use twin::standard::Cable;

/// How many items pass between two lines of progress.
const STRIDE: usize = 100_000;

fn case_differs(case: &Words) -> Option<String> {
    let (proved, twins) = (sheafdawn::rate(case), rate(case));
    let same = proved.answer == twins.answer
        && proved.rating == u64::from(twins.rating)
        && proved.sheet == twins.sheet;
    (!same).then(|| format!("{proved:?} and {twins:?} for the case\n{}", case_line(case)))
}

/// How far the standard's formulas in f64 lie above a rating, as a part of what
/// is allowed: 1 mA and 10^-8 of the rating together.
fn float_distance(case: &Words, rating: u64) -> f64 {
    let milliamperes = 1000.0 * Cable::from_fields(case).rating();
    (milliamperes - rating as f64).abs() / (1.0 + 1e-8 * rating as f64)
}

/// As case_differs, and that f64 agrees with a rated case; `largest` keeps the
/// largest distance.
fn case_or_float_differs(case: &Words, largest: &mut f64) -> Option<String> {
    let rated = sheafdawn::rate(case);
    let distance = if rated.answer == 0 { float_distance(case, rated.rating) } else { 0.0 };
    *largest = largest.max(distance);
    case_differs(case).or_else(|| {
        (distance > 1.0).then(|| format!("f64 is {distance} off for the case\n{}", case_line(case)))
    })
}

fn refused(refusal: book::Refusal) -> sheafdawn::Refused {
    let record = match refusal {
        book::Refusal::Disagrees(record) => record,
        _ => 0,
    };
    sheafdawn::Refused { number: refusal.number(), record }
}

fn accept_differs(buffer: &[u8], used: usize) -> Option<String> {
    let proved = sheafdawn::accept(buffer, used);
    let twins = book::accept(buffer, used)
        .map(|parts| sheafdawn::Accepted { count: parts.count, note: parts.note })
        .map_err(refused);
    (proved != twins).then(|| format!("accept: {proved:?} and {twins:?}"))
}

fn read_differs(buffer: &[u8], used: usize, index: usize) -> Option<String> {
    let proved = sheafdawn::read(buffer, used, index);
    let twins = book::read(buffer, used, index).map_err(refused);
    (proved != twins).then(|| format!("read of {index}: {proved:?} and {twins:?}"))
}

fn append_differs(buffer: &[u8], used: usize, case: &Words) -> Option<String> {
    let (mut ours, mut theirs) = (buffer.to_vec(), buffer.to_vec());
    let proved = sheafdawn::append(&mut ours, used, case);
    let twins = book::append(&mut theirs, used, case).map_err(refused);
    (proved != twins || ours != theirs).then(|| {
        format!(
            "append: {proved:?} and {twins:?}, or the bytes differ, for the case\n{}",
            case_line(case)
        )
    })
}

fn start_differs(buffer: &[u8], note: usize) -> Option<String> {
    let (mut ours, mut theirs) = (buffer.to_vec(), buffer.to_vec());
    let proved = sheafdawn::start(&mut ours, note);
    let twins = book::start(&mut theirs, note).map_err(refused);
    (proved != twins || ours != theirs)
        .then(|| format!("start after {note}: {proved:?} and {twins:?}, or the bytes differ"))
}

/// A used length: mostly the book's own, sometimes one beside it or none at all.
fn drawn_used(dice: &mut Dice, length: usize) -> usize {
    match dice.roll() % 8 {
        0 => length + 1,
        1 => length.saturating_sub(1),
        2 => (dice.roll() as usize) % (length + 200),
        3 => usize::MAX,
        _ => length,
    }
}

/// A drawn book, in a buffer with up to 250 bytes behind it.
fn book_differs(dice: &mut Dice, number: usize) -> Option<String> {
    let mut buffer = drawn_book(dice, number);
    let used = drawn_used(dice, buffer.len());
    buffer.resize(buffer.len() + dice.roll() as usize % 251, dice.roll() as u8);
    let index = match dice.roll() % 4 {
        0 => usize::MAX,
        _ => dice.roll() as usize % 700,
    };
    let note = match dice.roll() % 8 {
        0 => usize::MAX - dice.roll() as usize % 20,
        _ => dice.roll() as usize % (buffer.len() + 20),
    };
    accept_differs(&buffer, used)
        .or_else(|| read_differs(&buffer, used, index))
        .or_else(|| read_differs(&buffer, used, index % 3))
        .or_else(|| append_differs(&buffer, used, &mixed_case(dice)))
        .or_else(|| start_differs(&buffer, note))
}

/// A book of the greatest count, appended to, and a book of one record more.
fn greatest_differ(layout: book::Layout) -> Option<String> {
    let cases = vec![[0; WIDTH]; book::GREATEST_COUNT];
    let full = sound_book_of(layout, &[], &cases);
    let used = full.len();
    let roomy = [&full[..], &[0; book::RECORD_LENGTH]].concat();
    let records = &full[..used - book::TRAILER_LENGTH];
    let more = trailer(layout, book::GREATEST_COUNT + 1);
    let larger = [&full[..layout.record_length()], records, &more].concat();
    accept_differs(&full, used)
        .or_else(|| append_differs(&full, used, &cases[0]))
        .or_else(|| append_differs(&roomy, used, &cases[0]))
        .or_else(|| accept_differs(&larger, larger.len()))
}

/// Runs all items of one kind, with a line of progress now and then.
fn run(what: &str, count: usize, mut differs: impl FnMut(usize) -> Option<String>) -> bool {
    for number in 0..count {
        if number > 0 && number % STRIDE == 0 {
            eprintln!("compare: {number} {what}");
        }
        if let Some(difference) = differs(number) {
            println!("compare: {what}, number {number}: {difference}");
            return false;
        }
    }
    println!("compare: {count} {what}, no difference");
    true
}

fn main() -> ExitCode {
    let words: Vec<u32> = std::env::args().skip(1).filter_map(|word| word.parse().ok()).collect();
    let [seed, cases, books] = words[..] else {
        eprintln!("usage: compare SEED CASES BOOKS");
        return ExitCode::FAILURE;
    };
    let mut dice = Dice(u64::from(seed) + 1);
    let mut largest = 0.0;
    let same_cases = run("cases", cases as usize, |number| {
        case_or_float_differs(&drawn_case(&mut dice, number), &mut largest)
    });
    println!("compare: f64 is at most {largest} of 1 mA and 10^-8 of the rating together off");
    let same_greatest = run("pairs of books of the greatest count", 2, |number| {
        greatest_differ(book::LAYOUTS[number])
    });
    let mut dice = Dice(u64::from(seed) + 1);
    let same_books = run("books", books as usize, |number| book_differs(&mut dice, number));
    if same_cases && same_greatest && same_books {
        ExitCode::SUCCESS
    } else {
        ExitCode::FAILURE
    }
}
