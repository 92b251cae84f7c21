// The proved library beside the twin on the same seeded inputs, in alternating
// rounds: first that their results are equal, then the medians of both times.
// A line for each operation: its name, the ratio of throughputs (proved over
// twin), and the nanoseconds per item of both. f64 stands beside rate.
// usage: library [SEED]

#[path = "../../crates/sheafdawn/rust/sheafdawn.rs"]
mod sheafdawn;
mod timing;

use std::hint::black_box;
use timing::{keep, median, seconds};
use twin::book;
use twin::dice::Dice;
use twin::drawn_cases::rated_case;
use twin::rating::{rate, Words};
use twin::standard::Cable;

const ROUNDS: usize = 11;
const CASES: usize = 20_000;
const RECORDS: usize = 100_000;

/// Both sides in turn, so that a busy machine slows both; then the line.
fn compare(name: &str, items: usize, mut proved: impl FnMut(), mut other: impl FnMut()) {
    let (mut proved_times, mut other_times) = (Vec::new(), Vec::new());
    for _ in 0..ROUNDS {
        proved_times.push(seconds(&mut proved));
        other_times.push(seconds(&mut other));
    }
    let per_item = |times| median(times) * 1e9 / items as f64;
    let (proved, other) = (per_item(proved_times), per_item(other_times));
    println!("{name} {:.2} {proved:.1} {other:.1}", other / proved);
}

fn compare_rate(cases: &[Words]) {
    for case in cases {
        let (ours, twins) = (sheafdawn::rate(case), rate(case));
        assert_eq!((ours.answer, ours.rating), (twins.answer, u64::from(twins.rating)));
        assert_eq!(ours.sheet, twins.sheet);
    }
    let proved = || cases.iter().for_each(|case| keep(sheafdawn::rate(black_box(case))));
    let twins = || cases.iter().for_each(|case| keep(rate(black_box(case))));
    compare("rate", cases.len(), proved, twins);
    let float = || cases.iter().for_each(|case| keep(Cable::from_fields(black_box(case)).rating()));
    compare("f64", cases.len(), proved, float);
}

fn proved_book(buffer: &mut [u8], cases: &[Words]) {
    let mut used = sheafdawn::start(buffer, 0).expect("room for a trailer");
    for case in cases.iter().cycle().take(RECORDS) {
        used = sheafdawn::append(buffer, used, case).expect("room for a record");
    }
}

fn twins_book(buffer: &mut [u8], cases: &[Words]) {
    let mut used = book::start(buffer, 0).expect("room for a trailer");
    for case in cases.iter().cycle().take(RECORDS) {
        used = book::append(buffer, used, case).expect("room for a record");
    }
}

fn compare_append(cases: &[Words]) -> Vec<u8> {
    let length = book::RECORD_LENGTH * RECORDS + book::TRAILER_LENGTH;
    let (mut ours, mut twins) = (vec![0; length], vec![0; length]);
    compare("append", RECORDS, || proved_book(&mut ours, cases), || twins_book(&mut twins, cases));
    assert!(ours == twins, "the books differ");
    ours
}

fn compare_accept(buffer: &[u8]) {
    let used = buffer.len();
    assert_eq!(sheafdawn::accept(buffer, used).expect("sound").count, RECORDS);
    assert_eq!(book::accept(buffer, used).expect("sound").count, RECORDS);
    let proved = || keep(sheafdawn::accept(black_box(buffer), used));
    let twins = || keep(book::accept(black_box(buffer), used));
    compare("accept", RECORDS, proved, twins);
}

fn compare_read(buffer: &[u8]) {
    let used = buffer.len();
    for index in 0..RECORDS {
        assert_eq!(
            sheafdawn::read(buffer, used, index),
            Ok(book::read(buffer, used, index).expect("a record"))
        );
    }
    let proved =
        || (0..RECORDS).for_each(|index| keep(sheafdawn::read(buffer, used, black_box(index))));
    let twins = || (0..RECORDS).for_each(|index| keep(book::read(buffer, used, black_box(index))));
    compare("read", RECORDS, proved, twins);
}

fn main() {
    let seed: u32 = std::env::args().nth(1).map_or(1, |word| word.parse().expect("a seed"));
    let mut dice = Dice(u64::from(seed) + 1);
    let cases: Vec<Words> = (0..CASES).map(|_| rated_case(&mut dice).0).collect();
    compare_rate(&cases);
    let buffer = compare_append(&cases);
    compare_accept(&buffer);
    compare_read(&buffer);
}
