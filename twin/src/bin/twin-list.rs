// twin-list: reads a book on standard input and writes its listing on standard
// output.

use std::io::{self, Read, Write};
use std::process::ExitCode;
use twin::listing::listing;

fn list() -> io::Result<()> {
    let mut input = Vec::new();
    io::stdin().lock().read_to_end(&mut input)?;
    io::stdout().lock().write_all(&listing(&input))
}

fn main() -> ExitCode {
    match list() {
        Ok(()) => ExitCode::SUCCESS,
        Err(error) => {
            eprintln!("twin-list: {error}");
            ExitCode::FAILURE
        }
    }
}
