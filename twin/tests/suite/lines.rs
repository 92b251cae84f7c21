// The line reader's edge cases, through the same function the program uses.

use twin::lines::{answer_lines, read_line, Line};
use twin::rating::{rate, Words};
use twin::sample_cables::{with, LOW_VOLTAGE, SL_TYPE};

fn answers(input: &[u8]) -> String {
    let mut output = Vec::new();
    answer_lines(input, &mut output).expect("memory takes every byte");
    String::from_utf8(output).expect("answers are ASCII")
}

fn joined(case: &Words, separator: &str) -> String {
    case.map(|word| word.to_string()).join(separator)
}

fn zeros_with(last: &str) -> String {
    "0 ".repeat(29) + last
}

#[test]
fn a_case_is_answered_by_fifteen_numbers() {
    let rated = rate(&SL_TYPE);
    let sheet = rated.sheet.map(|number| number.to_string()).join(" ");
    let expected = format!("0 {} {sheet}\n", rated.rating);
    let line = joined(&SL_TYPE, " ");
    assert_eq!(answers(format!("{line}\n").as_bytes()), expected);
    assert_eq!(answers(line.as_bytes()), expected, "no line feed at the end");
    assert_eq!(answers(format!("{line}\r\n").as_bytes()), expected);
    assert_eq!(answers(format!("{line}\r").as_bytes()), expected);
    let spread = format!(" \t {}\t \r\n", joined(&SL_TYPE, "\t  "));
    assert_eq!(answers(spread.as_bytes()), expected);
    let zeros = format!("1{}\n", " 0".repeat(14));
    assert_eq!(answers(b"0 0 0 0 0 0 0 0 0 0 0 0 0 0 0 0 0 0 0 0 0 0 0 0 0 0 0 0 0 0\n"), zeros);
}

#[test]
fn blank_lines_and_comments_are_passed_over() {
    assert_eq!(answers(b""), "");
    assert_eq!(answers(b"\n\r\n \t \n  \t\r\n# a word\n#\n#\r\n##"), "");
    assert_eq!(read_line(b"\r"), Line::Passed);
    assert_eq!(read_line(b"# \xff\x00"), Line::Passed);
    assert_eq!(read_line(b" # not at the beginning"), Line::Unreadable);
    assert_eq!(read_line(b"\r\r"), Line::Unreadable);
}

#[test]
fn lines_are_counted_from_one_whatever_they_are() {
    let zeros = zeros_with("0");
    let answer = format!("1{}\n", " 0".repeat(14));
    let input = format!("x\n\n# y\n{zeros}\n1 2\n\nz");
    let expected = format!("line 1: unreadable\n{answer}line 5: unreadable\nline 7: unreadable\n");
    assert_eq!(answers(input.as_bytes()), expected);
}

#[test]
fn numbers_at_their_ends() {
    let readable = [
        ("4294967295", u32::MAX),
        ("-2147483648", 1 << 31),
        ("-1", u32::MAX),
        ("-0", 0),
        ("-000", 0),
        ("0000000000000000000000004294967295", u32::MAX),
        ("-0000000000000000000000002147483648", 1 << 31),
        ("007", 7),
    ];
    for (text, word) in readable {
        let mut case = [0; 30];
        case[29] = word;
        assert_eq!(read_line(zeros_with(text).as_bytes()), Line::Case(case), "{text}");
    }
    let unreadable = [
        "4294967296",
        "-2147483649",
        "-",
        "--1",
        "+1",
        "1-",
        "1.0",
        "1,",
        "0x1",
        "1e3",
        "- 1",
        "18446744073709551616",
        "340282366920938463463374607431768211456",
        "\u{661}",
        "1\r1",
        "1\u{b}",
        "1\u{c}",
        "1\0",
    ];
    for text in unreadable {
        assert_eq!(read_line(zeros_with(text).as_bytes()), Line::Unreadable, "{text:?}");
    }
    assert_eq!(read_line(&[b'0', 0xff]), Line::Unreadable);
}

#[test]
fn too_few_and_too_many_numbers() {
    for count in (0..100).filter(|count| ![0, 26, 30].contains(count)) {
        assert_eq!(read_line("0 ".repeat(count).as_bytes()), Line::Unreadable, "{count}");
    }
    for count in [26, 30] {
        assert_eq!(read_line("0 ".repeat(count).as_bytes()), Line::Case([0; 30]));
    }
}

/// A line of an older case is one of 30 numbers whose last four are zero.
#[test]
fn older_cases() {
    let older = LOW_VOLTAGE[..26].iter().map(|word| word.to_string()).collect::<Vec<_>>();
    assert_eq!(read_line(older.join(" ").as_bytes()), Line::Case(with(&LOW_VOLTAGE, &[(26, 0)])));
    let zeros = older.join("\t") + " 0 0 0 0";
    let lines = format!("{}\n{zeros}\n{}\n", older.join(" "), joined(&LOW_VOLTAGE, " "));
    let said = answers(lines.as_bytes());
    let said: Vec<&str> = said.lines().collect();
    assert_eq!(said[0], said[1]);
    assert_ne!(said[0], said[2]);
}

#[test]
fn the_longest_line() {
    let case = zeros_with("0");
    let padded = |length: usize| format!("{case}{}", " ".repeat(length - case.len()));
    assert_eq!(read_line(padded(1023).as_bytes()), Line::Case([0; 30]));
    assert_eq!(read_line(padded(1024).as_bytes()), Line::Unreadable);
    // A carriage return is a byte of its line; only the line feed is not.
    assert_eq!(read_line(format!("{}\r", padded(1022)).as_bytes()), Line::Case([0; 30]));
    assert_eq!(read_line(format!("{}\r", padded(1023)).as_bytes()), Line::Unreadable);
    // The length is tried first, for comments and blank lines too.
    assert_eq!(read_line(&[b'#'; 1023]), Line::Passed);
    assert_eq!(read_line(&[b'#'; 1024]), Line::Unreadable);
    assert_eq!(read_line(&[b' '; 1023]), Line::Passed);
    assert_eq!(read_line(&[b' '; 1024]), Line::Unreadable);
    let long = format!("{}\n{case}\n", "9".repeat(5000));
    assert_eq!(answers(long.as_bytes()), format!("line 1: unreadable\n1{}\n", " 0".repeat(14)));
}
