// The work sheet: what twin-sheet writes for each line of its input. A comment sets the
// heading of the cases under it, a case prints its sheet, and an unreadable line what
// twin-rate prints for it.

mod fields;
mod numbers;
mod refusals;
mod row;

use crate::lines::{each_line, read_line, unreadable, Line};
use crate::rating::{rate, Words};
use std::io::{self, BufRead, Write};

/// The heading that a comment sets, from its line without the line feed; none where the
/// comment has no text, and none where it is not UTF-8.
pub fn heading_of(comment: &[u8]) -> Option<String> {
    let comment = std::str::from_utf8(comment).ok()?;
    let text = comment.strip_prefix('#')?;
    let text = text.strip_suffix('\r').unwrap_or(text).trim_start_matches([' ', '\t']);
    (!text.is_empty()).then(|| text.to_string())
}

/// What a case prints, with an empty line at its end.
pub fn work_sheet(case: &Words, number: u64, heading: Option<&str>) -> String {
    let heading = heading.map_or(String::new(), |text| format!(": {text}"));
    let rated = rate(case);
    let (fields, found) = match rated.answer {
        0 => (fields::own_fields(case), numbers::numbers(case, &rated)),
        refusal => (
            fields::marked_fields(case, |field| refusals::is_about(refusal, case, field)),
            refusals::refusal_lines(refusal),
        ),
    };
    format!("CASE on line {number}{heading}\n{fields}{found}\n")
}

/// The work sheets of every line of `input` on `output`.
pub fn work_sheets(input: impl BufRead, mut output: impl Write) -> io::Result<()> {
    let mut heading = None;
    each_line(input, |number, line| match read_line(line) {
        Line::Passed if line.starts_with(b"#") => {
            heading = heading_of(line);
            Ok(())
        }
        Line::Passed => Ok(()),
        Line::Unreadable => unreadable(number, &mut output),
        Line::Case(case) => {
            output.write_all(work_sheet(&case, number, heading.as_deref()).as_bytes())
        }
    })?;
    output.flush()
}
