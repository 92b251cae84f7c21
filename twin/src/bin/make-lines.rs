// make-lines: writes lines made by dice, cases and others, to standard output;
// the last has no line feed. The same seed gives the same lines.

use std::io::{self, Write};
use twin::dice::Dice;
use twin::drawn_lines::drawn_line;

fn write_lines(seed: u32, count: usize) -> io::Result<()> {
    // From 0 the dice would show nothing but 0, so no seed begins there.
    let mut dice = Dice(u64::from(seed) + 1);
    let lines: Vec<Vec<u8>> = (0..count).map(|number| drawn_line(&mut dice, number)).collect();
    io::stdout().write_all(&lines.join(&b'\n'))
}

fn main() -> Result<(), String> {
    let usage = || "usage: make-lines SEED COUNT".to_string();
    let words: Vec<String> = std::env::args().skip(1).collect();
    let [seed, count] = words.as_slice() else {
        return Err(usage());
    };
    let seed = seed.parse().map_err(|_| usage())?;
    let count = count.parse().map_err(|_| usage())?;
    write_lines(seed, count).map_err(|error| error.to_string())
}
