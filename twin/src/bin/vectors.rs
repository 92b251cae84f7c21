// vectors: writes the input of the program check_vectors (crates/check_vectors/stdin): cases
// with what they must get, each a line that rate reads and a line that it must
// print, or a range of the rating in mA. They are the edge cases, drawn ones and
// the published cables, the same in every run.

use twin::dice::Dice;
use twin::drawn_cases::drawn_case;
use twin::edge_cases::groups;
use twin::lines::{answer_line, case_line, older_line};
use twin::published::published;
use twin::rating::Words;

/// How many cases are drawn.
const DRAWN: usize = 2200;

fn print_vector(case: &Words) {
    println!("{}\n{}", case_line(case), answer_line(case));
}

fn print_edges() {
    for group in groups() {
        println!("# {}", group.remark);
        for edge in group.edges {
            print_vector(&edge.case);
        }
    }
}

fn print_published() {
    println!(
        "# The published cables as older cases, with their rating less and plus the tolerance."
    );
    for cable in published() {
        let low = 10.0 * cable.amperes * (100.0 - cable.tolerance);
        let high = 10.0 * cable.amperes * (100.0 + cable.tolerance);
        println!("{}\nr {} {}", older_line(&cable.case), low.ceil(), high.floor());
    }
}

fn main() {
    print_edges();
    println!("# Drawn cases of every kind.");
    let mut dice = Dice(2026);
    for number in 0..DRAWN {
        print_vector(&drawn_case(&mut dice, number));
    }
    print_published();
}
