// The books of make-books: what each kind is made for, it must bring about.

use twin::book::{accept, append, case_of, read, Refusal, ANSWER, LAYOUTS, RATING, RBK2};
use twin::dice::Dice;
use twin::drawn_books::{drawn_book, KINDS};
use twin::edge_cases::pairs::ORDER;
use twin::listing::listing;

/// The first kinds are sound books.
const SOUND_KINDS: usize = 9;
/// The place of the kind in which direct current has the other mark's answer.
const BY_OTHER_RULE: usize = 14;
const TURNS: usize = 48;

fn drawn_books(seed: u64) -> Vec<Vec<u8>> {
    let mut dice = Dice(seed);
    (0..TURNS * KINDS.len()).map(|number| drawn_book(&mut dice, number)).collect()
}

/// Which mark a book has where a trailer has its mark, 0 or 1, if any.
fn mark_of(book: &[u8]) -> Option<usize> {
    let trailer = book.get(book.len().checked_sub(16)?..)?;
    LAYOUTS.iter().position(|layout| trailer.starts_with(&layout.mark))
}

/// The number after `refused`, or 0 for an accepted book.
fn refusal_listed(book: &[u8]) -> u32 {
    let text = String::from_utf8(listing(book)).expect("listings are ASCII");
    let mut words = text.split_whitespace();
    match words.next() {
        Some("refused") => words.next().and_then(|word| word.parse().ok()).expect("a number"),
        _ => 0,
    }
}

#[test]
fn sound_kinds_are_accepted_and_all_refusals_appear() {
    let mut refusals = [0; 27];
    for (number, book) in drawn_books(1).iter().enumerate() {
        let refusal = refusal_listed(book);
        assert!(number % KINDS.len() >= SOUND_KINDS || refusal == 0, "{number}: {refusal}");
        refusals[refusal as usize] += 1;
    }
    println!("accepted {}, refused 20 to 23 {:?}", refusals[0], &refusals[20..=23]);
    assert!(refusals[20..=23].iter().all(|&count| count > TURNS / 4));
}

#[test]
fn every_kind_of_book_has_either_mark() {
    let mut marks = vec![[0; 2]; KINDS.len()];
    for (number, book) in drawn_books(7).iter().enumerate() {
        if let Some(mark) = mark_of(book) {
            marks[number % KINDS.len()][mark] += 1;
        }
    }
    println!("books of either mark by kind: {marks:?}");
    let sound = &marks[..SOUND_KINDS];
    assert!(sound
        .iter()
        .all(|marks| marks[0].min(marks[1]) > TURNS / 5 && marks[0] + marks[1] == TURNS));
    let both = marks.iter().filter(|marks| marks[0].min(marks[1]) > TURNS / 8);
    // All but those cut at their end, of random bytes, of none, and under a trailer.
    assert_eq!(both.count(), KINDS.len() - 4);
}

/// Books of each mark are refused by each number, and accepted; of those that are
/// not longer than their buffer, append takes the sound ones of one mark.
#[test]
fn either_mark_gets_every_refusal() {
    let mut refusals = [[0; 27]; 2];
    for book in drawn_books(8) {
        let Some(mark) = mark_of(&book) else { continue };
        let refusal = refusal_listed(&book);
        refusals[mark][refusal as usize] += 1;
        let mut buffer = [&book[..], &[0; 128]].concat();
        let taken = append(&mut buffer, book.len(), &[0; 30]).map_err(Refusal::number);
        let expected = match (mark, refusal) {
            (0, _) => Err(21),
            (_, 22) => Err(22),
            _ => Ok(book.len() + 128),
        };
        if refusal != 20 {
            assert_eq!(taken, expected, "{mark} {refusal}");
        }
    }
    println!("accepted and refused of either mark {refusals:?}");
    for number in [0, 20, 22, 23] {
        assert!(refusals.iter().all(|refusals| refusals[number] > 5), "{number} {refusals:?}");
    }
}

#[test]
fn records_of_every_answer_appear() {
    let mut answers = [0; 34];
    let (mut rated_in_dry_soil, mut rated_in_the_sun) = (0, 0);
    for book in drawn_books(2) {
        let Ok(parts) = accept(&book, book.len()) else { continue };
        for index in 0..parts.count {
            let record = read(&book, book.len(), index).expect("below the count");
            answers[record[ANSWER] as usize] += 1;
            rated_in_dry_soil += usize::from(record[ANSWER] == 0 && record[27] != 0);
            rated_in_the_sun += usize::from(record[ANSWER] == 0 && record[29] != 0);
        }
    }
    println!("answers 0 to 33 {answers:?}");
    println!("{rated_in_dry_soil} rated in dry soil, {rated_in_the_sun} in the sun");
    assert!(answers[0] > 0 && ORDER.iter().all(|&number| answers[number as usize] > 0));
    // Half of the books are older and have none, and a good half of the others' cases
    // are in moist soil, of which half are in the sun.
    assert!(rated_in_dry_soil > answers[0] / 8);
    assert!(rated_in_the_sun > answers[0] / 16);
}

/// Direct current in accepted books: in RBK1 refused by 1, though it could be rated, in
/// RBK2 rated and refused by its own refusal; and a common sheath is rated in both.
#[test]
fn direct_current_appears_by_each_marks_rule() {
    let mut answers = [[0; 34]; 2];
    let mut could_be_rated = 0;
    let mut common_sheaths_rated = [0; 2];
    for book in drawn_books(9) {
        let Ok(parts) = accept(&book, book.len()) else { continue };
        let mark = mark_of(&book).expect("a mark");
        for index in 0..parts.count {
            let record = read(&book, book.len(), index).expect("below the count");
            let answer = record[ANSWER];
            match record[0] {
                6 => common_sheaths_rated[mark] += usize::from(answer == 0),
                7 => {
                    answers[mark][answer as usize] += 1;
                    could_be_rated +=
                        usize::from(answer == 1 && RBK2.rate(&case_of(&record)).answer == 0);
                }
                _ => {}
            }
        }
    }
    println!("of direct current in either mark {answers:?}, {could_be_rated} of RBK1 can be rated");
    let [older, newer] = answers;
    assert_eq!(older[1], older.iter().sum());
    assert!(older[1] > 500 && could_be_rated > 200);
    assert_eq!(newer[1], 0);
    assert!(newer[0] > 200 && newer[33] > 20, "{newer:?}");
    assert!(common_sheaths_rated.iter().all(|&count| count > 100), "{common_sheaths_rated:?}");
}

/// Books of direct current are refused where a record has the other mark's answer: in
/// RBK1 it claims a rating, and in RBK2 that it is refused by 1.
#[test]
fn direct_current_by_the_other_rule_disagrees() {
    let mut claims = [[0; 2]; 2];
    for (number, book) in drawn_books(10).iter().enumerate() {
        if number % KINDS.len() != BY_OTHER_RULE {
            continue;
        }
        let Err(Refusal::Disagrees(named)) = accept(book, book.len()) else {
            panic!("{number} is accepted")
        };
        let record = read(book, book.len(), named - 1).expect("below the count");
        let mark = mark_of(book).expect("a mark");
        assert_eq!((record[0], record[ANSWER] == 1), (7, mark == 1), "{number}");
        claims[mark][usize::from(record[RATING] > 0)] += 1;
    }
    println!("of either mark, without a rating and with one: {claims:?}");
    assert!(
        claims[0][1] > TURNS / 5 && claims[1][0] > TURNS / 5 && claims[1][1] == 0,
        "{claims:?}"
    );
}

#[test]
fn the_same_seed_gives_the_same_books() {
    assert_eq!(drawn_books(3), drawn_books(3));
    assert_ne!(drawn_books(3), drawn_books(4));
}

#[test]
fn every_record_of_a_book_can_be_the_one_that_disagrees() {
    let books = drawn_books(5);
    let named = |book: &Vec<u8>| match accept(book, book.len()) {
        Err(Refusal::Disagrees(record)) => Some(record),
        _ => None,
    };
    let mut records: Vec<usize> = books.iter().filter_map(named).collect();
    records.sort_unstable();
    records.dedup();
    assert!(records.len() > 5 && records[0] == 1, "{records:?}");
}

/// Of the books in which several records disagree, as the mark's rule says of each
/// record by itself, every one is refused at the first of these.
#[test]
fn the_first_of_several_is_named() {
    let mut several = 0;
    for book in drawn_books(6) {
        let Err(Refusal::Disagrees(named)) = accept(&book, book.len()) else { continue };
        let layout = LAYOUTS[mark_of(&book).expect("a mark")];
        let disagrees = |index: &usize| {
            let record = read(&book, book.len(), *index).expect("below the count");
            let rated = layout.rate(&case_of(&record));
            (record[ANSWER], record[RATING]) != (rated.answer, rated.rating)
        };
        let count = (0..).take_while(|&index| read(&book, book.len(), index).is_ok()).count();
        let indices: Vec<usize> = (0..count).filter(disagrees).collect();
        assert_eq!(named, indices[0] + 1);
        several += usize::from(indices.len() > 1);
    }
    assert!(several >= TURNS, "{several}");
}
