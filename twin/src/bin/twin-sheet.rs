// twin-sheet: a work sheet on standard output of each case on standard input, which has
// one line of numbers each.

use std::io::{self, BufWriter};
use std::process::ExitCode;
use twin::sheet::work_sheets;

fn main() -> ExitCode {
    let output = BufWriter::new(io::stdout().lock());
    match work_sheets(io::stdin().lock(), output) {
        Ok(()) => ExitCode::SUCCESS,
        Err(error) => {
            eprintln!("twin-sheet: {error}");
            ExitCode::FAILURE
        }
    }
}
