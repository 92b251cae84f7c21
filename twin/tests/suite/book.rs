// The book's four operations and its listing, for books of both marks: the bytes
// that they write and what they read.

use twin::book::{
    accept, append, case_of, put_word, read, start, Parts, ANSWER, LAYOUTS, RATING, RBK1, RBK2,
    RECORD_LENGTH, TRAILER_LENGTH,
};
use twin::dice::Dice;
use twin::drawn_books::{drawn_book, KINDS};
use twin::listing::{listing, LONGEST_BOOK};
use twin::rating::{rate, Words};
use twin::sample_cables::{
    with, ALL, COMMON_SHEATH, DRY_SOIL, FEEDER, IN_THE_SUN, LOW_VOLTAGE, SL_TYPE, TREFOIL,
};
use twin::sound_books::{big_endian, kept, sound_book, sound_book_of};

pub const ZEROS: Words = [0; 30];
pub const NOTE: &[u8] = b"RBK1 and RBK2 of the harbour line";

/// Where the trailer of a book of just the buffer's length begins.
pub fn trailer_at(book: &[u8]) -> usize {
    book.len() - TRAILER_LENGTH
}

pub fn listed(book: &[u8]) -> String {
    String::from_utf8(listing(book)).expect("listings are ASCII")
}

// The bytes.

/// Document 01's, and the same of the other mark.
#[test]
fn the_documents_listing() {
    let mut older = vec![0; 104];
    older.extend(big_endian(&[1, 0]));
    older.extend(b"RBK1");
    older.extend(big_endian(&[1, 112, 112]));
    assert_eq!(sound_book_of(RBK1, &[], &[ZEROS]), older);
    let mut book = vec![0; 120];
    book.extend(big_endian(&[1, 0]));
    book.extend(b"RBK2");
    book.extend(big_endian(&[1, 128, 128]));
    assert_eq!(sound_book(&[], &[ZEROS]), book);
    for book in [older, book] {
        assert_eq!(listing(&book), b"book 1\n1 1 0\n");
    }
}

#[test]
fn a_book_of_two_byte_for_byte() {
    let rating = rate(&LOW_VOLTAGE).rating;
    let mut book = NOTE.to_vec();
    book.extend(big_endian(&LOW_VOLTAGE));
    book.extend(big_endian(&[0, rating]));
    book.extend(big_endian(&ZEROS));
    book.extend(big_endian(&[1, 0]));
    book.extend(b"RBK2\0\0\0\x02\0\0\x01\0\0\0\0\x80");
    assert_eq!(sound_book(NOTE, &[LOW_VOLTAGE, ZEROS]), book);
    assert_eq!(accept(&book, book.len()), Ok(Parts { count: 2, note: NOTE.len() }));
    assert_eq!(listed(&book), format!("book 2\n1 0 {rating}\n2 1 0\n"));
}

/// Of an older record the loss counts at every voltage, so that its rating is less.
#[test]
fn an_older_book_of_two_byte_for_byte() {
    let with_loss = with(&LOW_VOLTAGE, &[(26, 0)]);
    let rating = rate(&with_loss).rating;
    assert!(rating < rate(&LOW_VOLTAGE).rating);
    let mut book = NOTE.to_vec();
    book.extend(big_endian(&LOW_VOLTAGE[..26]));
    book.extend(big_endian(&[0, rating]));
    book.extend(big_endian(&ZEROS[..26]));
    book.extend(big_endian(&[1, 0]));
    book.extend(b"RBK1\0\0\0\x02\0\0\0\xe0\0\0\0\x70");
    assert_eq!(sound_book_of(RBK1, NOTE, &[LOW_VOLTAGE, ZEROS]), book);
    assert_eq!(accept(&book, book.len()), Ok(Parts { count: 2, note: NOTE.len() }));
    assert_eq!(listed(&book), format!("book 2\n1 0 {rating}\n2 1 0\n"));
    let record = [&with_loss[..], &[0, rating]].concat();
    assert_eq!(read(&book, book.len(), 0).expect("a record")[..], record);
}

/// Direct current came after RBK1, so that it is refused by 1 there; a common sheath is
/// rated there.
#[test]
fn books_of_direct_current_byte_for_byte() {
    let mut older = big_endian(&FEEDER[..26]);
    older.extend(big_endian(&[1, 0]));
    older.extend(big_endian(&COMMON_SHEATH[..26]));
    older.extend(big_endian(&[0, 469_955]));
    older.extend(b"RBK1\0\0\0\x02\0\0\0\xe0\0\0\0\x70");
    assert_eq!(sound_book_of(RBK1, &[], &[FEEDER, COMMON_SHEATH]), older);
    assert_eq!(listed(&older), "book 2\n1 1 0\n2 0 469955\n");
    let mut book = big_endian(&FEEDER);
    book.extend(big_endian(&[0, 866_734]));
    book.extend(b"RBK2\0\0\0\x01\0\0\0\x80\0\0\0\x80");
    assert_eq!(sound_book(&[], &[FEEDER]), book);
    assert_eq!(listed(&book), "book 1\n1 0 866734\n");
}

/// The rating of the other mark's rule is what a record of direct current must not have.
#[test]
fn direct_current_has_each_marks_own_answer() {
    for (layout, answer, rating) in [(RBK1, 0, 866_734), (RBK2, 1, 0)] {
        for cases in [vec![FEEDER], vec![SL_TYPE, FEEDER, COMMON_SHEATH]] {
            let mut book = sound_book_of(layout, NOTE, &cases);
            let index = cases.iter().position(|case| *case == FEEDER).expect("the feeder");
            let record = NOTE.len() + layout.record_length() * index;
            put_word(&mut book, record + 4 * layout.inputs, answer);
            put_word(&mut book, record + 4 * layout.inputs + 4, rating);
            assert_eq!(listed(&book), format!("refused 23 at {}\n", index + 1));
            let read = read(&book, book.len(), index).expect("a record");
            assert_eq!((read[ANSWER], read[RATING]), (answer, rating));
        }
    }
}

/// Whatever else a record of direct current has in an older book, the answer is 1, and
/// what comes after arrangement 7 has it in either.
#[test]
fn older_books_have_direct_current_refused_by_its_arrangement() {
    let changes: [&[(usize, u32)]; 5] = [&[], &[(1, 9)], &[(2, 5000)], &[(10, 5001)], &[(0, 8)]];
    for changes in changes {
        let case = with(&FEEDER, changes);
        let book = sound_book_of(RBK1, &[], &[case]);
        let record = read(&book, book.len(), 0).expect("a record");
        assert_eq!((case_of(&record), record[ANSWER], record[RATING]), (case, 1, 0));
        assert!(accept(&book, book.len()).is_ok());
    }
    assert_eq!(RBK2.rate(&with(&FEEDER, &[(0, 8)])).answer, 1);
    for layout in LAYOUTS {
        for case in ALL {
            assert_eq!(layout.rate(&case), rate(&case));
        }
    }
}

#[test]
fn start_writes_sixteen_bytes_after_the_note() {
    let mut buffer = [0xaa; 40];
    assert_eq!(start(&mut buffer, 20), Ok(36));
    assert_eq!(buffer[..20], [0xaa; 20]);
    assert_eq!(&buffer[20..36], b"RBK2\0\0\0\0\0\0\0\0\0\0\0\x80");
    assert_eq!(buffer[36..], [0xaa; 4]);
    assert_eq!(accept(&buffer, 36), Ok(Parts { count: 0, note: 20 }));
    assert_eq!(listing(&buffer[..36]), b"book 0\n");
}

/// The cases of most tests: one of every arrangement, some that are refused, one whose
/// loss does not count, one in dry soil, and one in the sun.
fn cases() -> Vec<Words> {
    let soil_and_sun = [with(&DRY_SOIL, &[(28, 8501)]), with(&DRY_SOIL, &[(29, 1)])];
    let refused = [with(&TREFOIL, &[(14, 7)]), ZEROS, [u32::MAX; 30]];
    let others = [FEEDER, LOW_VOLTAGE, DRY_SOIL, IN_THE_SUN];
    [ALL.as_slice(), &soil_and_sun, &refused, &others].concat()
}

#[test]
fn append_writes_what_the_layout_says() {
    assert_eq!(sound_book(NOTE, &cases()), sound_book_of(RBK2, NOTE, &cases()));
    assert_eq!(sound_book(&[], &[]), sound_book_of(RBK2, &[], &[]));
}

#[test]
fn append_writes_a_record_and_a_trailer() {
    let mut buffer = sound_book(NOTE, &[TREFOIL]);
    let used = buffer.len();
    buffer.resize(used + RECORD_LENGTH + 50, 0xaa);
    let before = buffer.clone();
    assert_eq!(append(&mut buffer, used, &SL_TYPE), Ok(used + RECORD_LENGTH));
    assert_eq!(buffer[..used + RECORD_LENGTH], sound_book(NOTE, &[TREFOIL, SL_TYPE]));
    assert_eq!(buffer[..used - TRAILER_LENGTH], before[..used - TRAILER_LENGTH]);
    assert_eq!(buffer[used + RECORD_LENGTH..], before[used + RECORD_LENGTH..]);
}

#[test]
fn cases_read_back() {
    for layout in LAYOUTS {
        let book = sound_book_of(layout, NOTE, &cases());
        for (index, case) in cases().iter().enumerate() {
            let case = kept(layout, case);
            let record = read(&book, book.len(), index).expect("below the count");
            let rated = layout.rate(&case);
            assert_eq!(case_of(&record), case);
            assert_eq!((record[ANSWER], record[RATING]), (rated.answer, rated.rating));
        }
        let parts = Parts { count: cases().len(), note: NOTE.len() };
        assert_eq!(accept(&book, book.len()), Ok(parts));
    }
}

/// Whether a drawn book has the mark that is written where a trailer has its mark.
fn is_written(book: &[u8]) -> bool {
    book[trailer_at(book)..].starts_with(&RBK2.mark)
}

#[test]
fn an_accepted_book_built_again_has_the_same_bytes() {
    let mut dice = Dice(112);
    let mut accepted = [0; 2];
    for number in 0..20 * KINDS.len() {
        let book = drawn_book(&mut dice, number);
        let Ok(parts) = accept(&book, book.len()) else { continue };
        let case = |index| case_of(&read(&book, book.len(), index).expect("below the count"));
        let cases: Vec<Words> = (0..parts.count).map(case).collect();
        let again = sound_book(&book[..parts.note], &cases);
        // An older book becomes another one, which is accepted with the same count.
        assert_eq!(again == book, is_written(&book));
        assert_eq!(accept(&again, again.len()), Ok(parts));
        accepted[usize::from(is_written(&book))] += 1;
    }
    assert!(accepted.iter().all(|&count| count > 2 * KINDS.len()), "{accepted:?}");
}

// The listing.

#[test]
fn listings_of_refused_books() {
    assert_eq!(listing(b""), b"refused 21\n");
    for mark in [b"RBK1", b"RBK2"] {
        assert_eq!(listing(mark), b"refused 21\n");
    }
    assert_eq!(listing(b"RBK1\0\0\0\x01\0\0\0\x70\0\0\0\x70"), b"refused 22\n");
    assert_eq!(listing(b"RBK2\0\0\0\x01\0\0\0\x80\0\0\0\x80"), b"refused 22\n");
    for layout in LAYOUTS {
        let mut book = sound_book_of(layout, NOTE, &[ZEROS; 12]);
        let last_rating = trailer_at(&book) - 4;
        put_word(&mut book, last_rating, 1);
        assert_eq!(listing(&book), b"refused 23 at 12\n");
    }
}

#[test]
fn the_longest_book_listed() {
    for (layout, count, note) in [(RBK1, 585, 0), (RBK2, 511, 112)] {
        let mut book = sound_book_of(layout, &vec![0; note], &vec![ZEROS; count]);
        assert_eq!(book.len(), LONGEST_BOOK);
        let lines: String = (1..=count).map(|record| format!("{record} 1 0\n")).collect();
        assert_eq!(listed(&book), format!("book {count}\n{lines}"));
        book.push(0);
        assert_eq!(listing(&book), b"refused 20\n");
        let sound = sound_book_of(layout, &vec![0; note + 1], &vec![ZEROS; count]);
        assert_eq!(accept(&sound, sound.len()), Ok(Parts { count, note: note + 1 }));
        assert_eq!(listing(&sound), b"refused 20\n");
    }
}
