// figure: writes the figure of docs/margins.svg on standard output.

use std::io::{self, Write};
use std::process::ExitCode;
use twin::figure::figure;

fn main() -> ExitCode {
    match io::stdout().lock().write_all(figure().as_bytes()) {
        Ok(()) => ExitCode::SUCCESS,
        Err(error) => {
            eprintln!("figure: {error}");
            ExitCode::FAILURE
        }
    }
}
