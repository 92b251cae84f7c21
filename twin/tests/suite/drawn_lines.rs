// The lines of make-lines: what each kind is made for, it must bring about.

use twin::dice::Dice;
use twin::drawn_comments::COMMENTS;
use twin::drawn_lines::{drawn_line, Made, KINDS};
use twin::lines::{read_line, Line};
use twin::sheet::heading_of;

const TURNS: usize = 200;

#[test]
fn each_kind_is_read_as_what_it_is_made_for() {
    let mut dice = Dice(1);
    for number in 0..TURNS * KINDS.len() {
        let line = drawn_line(&mut dice, number);
        assert!(!line.contains(&b'\n'), "{number}");
        let as_made = match (KINDS[number % KINDS.len()].0, read_line(&line)) {
            (Made::Case, said) => matches!(said, Line::Case(_)),
            (Made::Passed, said) => said == Line::Passed,
            (Made::Unreadable, said) => said == Line::Unreadable,
            (Made::CaseOrNot, _) => true,
        };
        assert!(as_made, "{number}: {}", line.escape_ascii());
    }
}

#[test]
fn a_changed_byte_leaves_some_lines_cases_and_not_others() {
    let mut dice = Dice(2);
    let (_, changed) = KINDS.into_iter().find(|(made, _)| *made == Made::CaseOrNot).unwrap();
    let said: Vec<Line> = (0..TURNS).map(|_| read_line(&changed(&mut dice))).collect();
    assert!(said.iter().any(|line| matches!(line, Line::Case(_))));
    assert!(said.contains(&Line::Unreadable));
}

/// Comments of every kind are no longer than a line may be, and some give a heading, some have
/// no text, and some are not UTF-8.
#[test]
fn comments_give_headings_and_none() {
    let mut dice = Dice(3);
    let (mut headings, mut no_text, mut no_characters) = (0, 0, 0);
    for number in 0..TURNS * COMMENTS.len() {
        let line = COMMENTS[number % COMMENTS.len()](&mut dice);
        assert!(line.starts_with(b"#") && !line.contains(&b'\n'), "{number}");
        assert_eq!(read_line(&line), Line::Passed, "{number}: {}", line.escape_ascii());
        match heading_of(&line) {
            Some(_) => headings += 1,
            None if line.is_ascii() => no_text += 1,
            None => no_characters += 1,
        }
    }
    assert!(headings > 5 * TURNS, "{headings}");
    assert!(no_text > TURNS, "{no_text}");
    assert!(no_characters > TURNS, "{no_characters}");
}
