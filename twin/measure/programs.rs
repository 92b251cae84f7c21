// The proved programs beside the proved library, on the same seeded rated cases
// and in alternating rounds: first that a program writes what the twin does,
// then its time. The time per case is that of a run on many cases less that of
// a run on few, over the difference of the counts, so that starting the process
// does not count. Lines `rate-program` and `list-program`: the program's time
// per case over the library's, then both in ns; the library's `rate` stands
// beside the program rate, its `accept` beside list. Line `rate-memory`: the
// most memory, in KiB, that rate has held after 1,000 and after 1,000,000 lines.
// usage, from the repository's root, with the programs in crates/NAME/out: programs [SEED]

// Only `rate` and `accept` are called here.
#[allow(dead_code)]
#[path = "../../crates/sheafdawn/rust/sheafdawn.rs"]
mod sheafdawn;
mod timing;

use std::fs::{self, File};
use std::hint::black_box;
use std::io::Write;
use std::path::{Path, PathBuf};
use std::process::{Child, ChildStdin, Command, Stdio};
use std::thread;
use std::time::Duration;
use timing::{keep, median, seconds};
use twin::book;
use twin::dice::Dice;
use twin::drawn_cases::rated_case;
use twin::lines::{answer_line, case_line};
use twin::listing::listing;
use twin::rating::Words;
use twin::sound_books::sound_book;

const RATE: &str = "crates/rate/out/rate";
const LIST: &str = "crates/list/out/list";
const INPUTS: &str = "target/bench";

const ROUNDS: usize = 31;
const MANY: usize = 100_000;
const FEW: usize = 1_000;

/// A book that `list` reads has at most so many bytes.
const LONGEST_BOOK: usize = 65_536;
/// A run on a book takes less than a millisecond, so there are more of them.
const BOOK_ROUNDS: usize = 1_001;

/// The counts of lines after which the memory is read.
const LINES: [usize; 2] = [1_000, 1_000_000];

/// A file for a program's standard input.
fn stored(name: &str, bytes: &[u8]) -> PathBuf {
    let path = Path::new(INPUTS).join(name);
    fs::write(&path, bytes).expect("an input can be written");
    path
}

fn on(program: &str, input: &Path) -> Command {
    let mut command = Command::new(program);
    command.stdin(File::open(input).expect("an input can be opened"));
    command
}

fn expect_output(program: &str, input: &Path, expected: &[u8]) {
    let output = on(program, input).output().expect("the program can be run");
    assert!(
        output.status.success() && output.stdout == expected,
        "{program} writes something else"
    );
}

fn run(program: &str, input: &Path) {
    let status = on(program, input).stdout(Stdio::null()).status().expect("the program can be run");
    assert!(status.success(), "{program} failed");
}

/// A program's inputs of many and of few items, and how many more the first has.
struct Inputs {
    many: PathBuf,
    few: PathBuf,
    difference: usize,
}

/// The program and the library in turn, so that a busy machine slows both; then
/// the line.
fn compare(program: &str, inputs: &Inputs, rounds: usize, items: usize, mut library: impl FnMut()) {
    let [mut many, mut few, mut ours] = [const { Vec::new() }; 3];
    for _ in 0..rounds {
        many.push(seconds(|| run(program, &inputs.many)));
        few.push(seconds(|| run(program, &inputs.few)));
        ours.push(seconds(&mut library));
    }
    let whole = (median(many) - median(few)) * 1e9 / inputs.difference as f64;
    let part = median(ours) * 1e9 / items as f64;
    let name = Path::new(program).file_name().expect("a name").display();
    println!("{name}-program {:.2} {whole:.1} {part:.1}", whole / part);
}

fn lines(cases: &[Words], line: impl Fn(&Words) -> String) -> Vec<u8> {
    cases.iter().map(|case| line(case) + "\n").collect::<String>().into_bytes()
}

fn compare_rate(cases: &[Words]) {
    let inputs = Inputs {
        many: stored("many-lines", &lines(cases, case_line)),
        few: stored("few-lines", &lines(&cases[..FEW], case_line)),
        difference: cases.len() - FEW,
    };
    expect_output(RATE, &inputs.many, &lines(cases, answer_line));
    compare(RATE, &inputs, ROUNDS, cases.len(), || {
        cases.iter().for_each(|case| keep(sheafdawn::rate(black_box(case))))
    });
}

fn compare_list(cases: &[Words]) {
    let records = (LONGEST_BOOK - book::TRAILER_LENGTH) / book::RECORD_LENGTH;
    let [full, empty] = [&cases[..records], &[]].map(|cases| sound_book(&[], cases));
    let inputs = Inputs {
        many: stored("full-book", &full),
        few: stored("empty-book", &empty),
        difference: records,
    };
    expect_output(LIST, &inputs.many, &listing(&full));
    assert_eq!(sheafdawn::accept(&full, full.len()).expect("sound").count, records);
    compare(LIST, &inputs, BOOK_ROUNDS, records, || {
        keep(sheafdawn::accept(black_box(&full), full.len()))
    });
}

/// What Linux says of a process under a name, as `State` or `VmHWM`.
fn status_of(child: &Child, name: &str) -> String {
    let status = fs::read_to_string(format!("/proc/{}/status", child.id())).expect("a status");
    let line = status.lines().find_map(|line| line.strip_prefix(name)).expect("the name");
    line.trim_start_matches(':').trim().to_string()
}

/// The most memory that a process has held, in KiB, once it has read all that was
/// written to it: it then sleeps, since its input may go on.
fn peak(child: &Child) -> String {
    while !status_of(child, "State").starts_with('S') {
        thread::sleep(Duration::from_millis(1));
    }
    status_of(child, "VmHWM").trim_end_matches(" kB").to_string()
}

fn write_lines(input: &mut ChildStdin, cases: &[Words], count: usize) {
    let text = lines(cases, case_line);
    let few = lines(&cases[..count % cases.len()], case_line);
    for _ in 0..count / cases.len() {
        input.write_all(&text).expect("the program reads");
    }
    input.write_all(&few).expect("the program reads");
}

fn print_memory(cases: &[Words]) {
    let peaks = LINES.map(|count| {
        let mut command = Command::new(RATE);
        command.stdin(Stdio::piped()).stdout(Stdio::null());
        let mut child = command.spawn().expect("the program can be run");
        let mut input = child.stdin.take().expect("a pipe");
        write_lines(&mut input, cases, count);
        let peak = peak(&child);
        drop(input);
        assert!(child.wait().expect("the program ends").success());
        peak
    });
    println!("rate-memory {}", peaks.join(" "));
}

fn main() {
    let seed: u32 = std::env::args().nth(1).map_or(1, |word| word.parse().expect("a seed"));
    let mut dice = Dice(u64::from(seed) + 1);
    let cases: Vec<Words> = (0..MANY).map(|_| rated_case(&mut dice).0).collect();
    compare_rate(&cases);
    compare_list(&cases);
    print_memory(&cases);
}
