// make-books: writes books made by dice, sound and faulty, as the files
// 00000.book, 00001.book, ... of a folder. The same seed gives the same books.

use std::fs;
use std::io;
use std::path::Path;
use std::process::ExitCode;
use twin::dice::Dice;
use twin::drawn_books::drawn_book;

fn write_books(seed: u32, count: usize, folder: &Path) -> io::Result<()> {
    fs::create_dir_all(folder)?;
    // From 0 the dice would show nothing but 0, so no seed begins there.
    let mut dice = Dice(u64::from(seed) + 1);
    for number in 0..count {
        let book = drawn_book(&mut dice, number);
        fs::write(folder.join(format!("{number:05}.book")), book)?;
    }
    Ok(())
}

/// Writes the books the words ask for, or says what is wrong.
fn run(words: &[String]) -> Result<(), String> {
    let usage = || "usage: make-books SEED COUNT DIR".to_string();
    let [seed, count, folder] = words else {
        return Err(usage());
    };
    let seed = seed.parse().map_err(|_| usage())?;
    let count = count.parse().map_err(|_| usage())?;
    write_books(seed, count, Path::new(folder)).map_err(|error| format!("make-books: {error}"))
}

fn main() -> ExitCode {
    let words: Vec<String> = std::env::args().skip(1).collect();
    match run(&words) {
        Ok(()) => ExitCode::SUCCESS,
        Err(message) => {
            eprintln!("{message}");
            ExitCode::FAILURE
        }
    }
}
