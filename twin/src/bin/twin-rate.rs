// twin-rate: rates the cases on standard input, one line of numbers each, and
// writes answer, rating and sheet for each on standard output.

use std::io::{self, BufWriter};
use std::process::ExitCode;
use twin::lines::answer_lines;

fn main() -> ExitCode {
    let output = BufWriter::new(io::stdout().lock());
    match answer_lines(io::stdin().lock(), output) {
        Ok(()) => ExitCode::SUCCESS,
        Err(error) => {
            eprintln!("twin-rate: {error}");
            ExitCode::FAILURE
        }
    }
}
