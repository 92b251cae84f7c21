// The refusals 20 to 26 of books of both marks: each by itself, in pairs, where the
// one that is tried first must be given, and at the edges of its condition.

use crate::book::{listed, trailer_at, NOTE, ZEROS};
use twin::book::{
    accept, append, case_of, put_word, read, start, Layout, Parts, Refusal, ANSWER, GREATEST_COUNT,
    LAYOUTS, RATING, RBK1, RBK2, RECORD_LENGTH, TRAILER_LENGTH,
};
use twin::rating::rate;
use twin::sample_cables::{with, DRY_SOIL, IN_THE_SUN, SL_TYPE, TREFOIL};
use twin::sound_books::{big_endian, sound_book, sound_book_of, trailer};

/// What an operation is tried on. Sound, it is a book of three records after a
/// note so long that a changed trailer can make 100000 records of it.
struct Trial {
    layout: Layout,
    buffer: Vec<u8>,
    used: usize,
    index: usize,
}

impl Trial {
    fn sound(layout: Layout) -> Trial {
        let note = vec![0; layout.record_length() * GREATEST_COUNT];
        let mut buffer = sound_book_of(layout, &note, &[SL_TYPE, TREFOIL, ZEROS]);
        let used = buffer.len();
        buffer.resize(used + RECORD_LENGTH, 0xaa);
        Trial { layout, buffer, used, index: 2 }
    }

    fn trailer(&self) -> usize {
        self.used - TRAILER_LENGTH
    }
}

/// The number of a refusal, and what brings it about. Each leaves the bytes
/// that another one is about, so that two can hold together: even 20 only takes
/// the trailer's last byte, after the mark, the count and the distance.
type Fault = (u32, fn(&mut Trial));

const LENGTH: Fault = (20, |trial| trial.buffer.truncate(trial.used - 1));
const MARK: Fault = (21, |trial| {
    let trailer = trial.trailer();
    trial.buffer[trailer + 3] = b'3';
});
const TRAILER: Fault = (22, |trial| {
    let trailer = trial.trailer();
    put_word(&mut trial.buffer, trailer + 8, 1);
});
const DISAGREES: Fault = (23, |trial| {
    let second_rating = trial.trailer() - trial.layout.record_length() - 4;
    put_word(&mut trial.buffer, second_rating, 1);
});
const SPACE: Fault = (24, |trial| trial.buffer.truncate(trial.used + RECORD_LENGTH - 1));
const FULL: Fault = (25, |trial| {
    let trailer = trial.trailer();
    let length = trial.layout.record_length();
    put_word(&mut trial.buffer, trailer + 4, GREATEST_COUNT as u32);
    put_word(&mut trial.buffer, trailer + 8, (length * GREATEST_COUNT) as u32);
});
const INDEX: Fault = (26, |trial| trial.index = 3);

/// Tries an operation on the sound trial, on one with each fault, and on one
/// with each two, of which the fault that stands first in the order is to be
/// given. The later fault is brought about first, since 20 takes bytes away.
fn try_in_order(layout: Layout, order: &[Fault], operation: fn(&mut Trial) -> Option<Refusal>) {
    assert_eq!(operation(&mut Trial::sound(layout)), None);
    for (position, (number, first)) in order.iter().enumerate() {
        for (other, second) in &order[position..] {
            let mut trial = Trial::sound(layout);
            second(&mut trial);
            first(&mut trial);
            let before = trial.buffer.clone();
            let refusal = operation(&mut trial).map(Refusal::number);
            assert_eq!(refusal, Some(*number), "{number} with {other}");
            assert!(trial.buffer == before, "{number} with {other} changes a byte");
        }
    }
}

fn append_to(trial: &mut Trial) -> Option<Refusal> {
    append(&mut trial.buffer, trial.used, &SL_TYPE).err()
}

#[test]
fn append_refuses_in_order() {
    try_in_order(RBK2, &[LENGTH, MARK, TRAILER, FULL, SPACE], append_to);
}

/// An older book is refused by its mark, whatever else is wrong but a used length
/// over the buffer.
#[test]
fn append_refuses_older_books() {
    assert_eq!(append_to(&mut Trial::sound(RBK1)), Some(Refusal::Mark));
    for (number, fault) in [LENGTH, MARK, TRAILER, FULL, SPACE] {
        let mut trial = Trial::sound(RBK1);
        fault(&mut trial);
        let before = trial.buffer.clone();
        let expected = if number == 20 { Refusal::Length } else { Refusal::Mark };
        assert_eq!(append_to(&mut trial), Some(expected), "{number}");
        assert!(trial.buffer == before, "{number} changes a byte");
    }
}

#[test]
fn read_refuses_in_order() {
    for layout in LAYOUTS {
        try_in_order(layout, &[LENGTH, MARK, TRAILER, INDEX], |trial| {
            read(&trial.buffer, trial.used, trial.index).err()
        });
    }
}

#[test]
fn accept_refuses_in_order() {
    for layout in LAYOUTS {
        try_in_order(layout, &[LENGTH, MARK, TRAILER, DISAGREES], |trial| {
            accept(&trial.buffer, trial.used).err()
        });
    }
}

/// Append and read take a book with a record that disagrees.
#[test]
fn only_accept_judges() {
    for layout in LAYOUTS {
        let mut trial = Trial::sound(layout);
        DISAGREES.1(&mut trial);
        let record = read(&trial.buffer, trial.used, 1).expect("below the count");
        assert_eq!((case_of(&record), record[ANSWER], record[RATING]), (TREFOIL, 0, 1));
    }
    let mut trial = Trial::sound(RBK2);
    DISAGREES.1(&mut trial);
    let used = append(&mut trial.buffer, trial.used, &ZEROS).expect("there is room");
    assert_eq!(accept(&trial.buffer, used), Err(Refusal::Disagrees(2)));
}

// The refusals at the edges of their conditions.

/// All three operations that try 20, 21 and 22 first refuse alike; but append gives
/// 21 for an older book where the others give 22.
fn refused_by_all(layout: Layout, buffer: &[u8], used: usize, refusal: Refusal) {
    let mut appended = buffer.to_vec();
    let at_append = match (layout, refusal) {
        (RBK1, Refusal::Trailer) => Refusal::Mark,
        _ => refusal,
    };
    assert_eq!(append(&mut appended, used, &ZEROS), Err(at_append));
    assert_eq!(appended, buffer);
    assert_eq!(read(buffer, used, usize::MAX), Err(refusal));
    assert_eq!(accept(buffer, used), Err(refusal));
}

#[test]
fn used_length_over_the_buffer() {
    for layout in LAYOUTS {
        let book = sound_book_of(layout, NOTE, &[TREFOIL]);
        for used in [book.len() + 1, usize::MAX - 15, usize::MAX] {
            refused_by_all(layout, &book, used, Refusal::Length);
        }
        // Under 16 bytes as well.
        refused_by_all(layout, &book[..5], 6, Refusal::Length);
        refused_by_all(layout, &[], 1, Refusal::Length);
    }
}

#[test]
fn under_sixteen_bytes_or_no_mark() {
    for layout in LAYOUTS {
        let book = sound_book_of(layout, &[], &[]);
        for used in 0..TRAILER_LENGTH {
            refused_by_all(layout, &book, used, Refusal::Mark);
            refused_by_all(layout, &book[..used], used, Refusal::Mark);
        }
        for byte in 0..4 {
            let mut unmarked = book.clone();
            unmarked[byte] ^= 0x20;
            refused_by_all(layout, &unmarked, book.len(), Refusal::Mark);
        }
        for digit in [b'0', b'3', 1, 2] {
            let mut unmarked = book.clone();
            unmarked[3] = digit;
            refused_by_all(layout, &unmarked, book.len(), Refusal::Mark);
        }
    }
}

/// Count, distance and record length that cannot stand after two records without a
/// note. So many records as 2^28 are 0 bytes in 32 bits.
fn wrong_trailers(layout: Layout) -> [[u32; 3]; 12] {
    let length = layout.record_length() as u32;
    let other = if layout == RBK1 { 128 } else { 112 };
    [
        [0, 2 * length, length],
        [1, 2 * length, length],
        [3, 2 * length, length],
        [2, 2 * length - 1, length],
        [2, 2 * length + 1, length],
        [2, 2 * length, 0],
        [2, 2 * length, length - 1],
        [2, 2 * length, length + 1],
        [2, 2 * length, other],
        [2, 2 * other, other],
        [3, 3 * length, length],
        [1 << 28, 0, length],
    ]
}

#[test]
fn trailer_fields_just_wrong() {
    for layout in LAYOUTS {
        let book = sound_book_of(layout, &[], &[TREFOIL, SL_TYPE]);
        for fields in wrong_trailers(layout) {
            let mut faulty = book.clone();
            faulty.truncate(trailer_at(&book) + 4);
            faulty.extend(big_endian(&fields));
            refused_by_all(layout, &faulty, faulty.len(), Refusal::Trailer);
        }
        // One byte less than the records need.
        refused_by_all(layout, &book[1..], book.len() - 1, Refusal::Trailer);
    }
}

#[test]
fn count_over_its_limit() {
    for layout in LAYOUTS {
        let records = layout.record_length() * (GREATEST_COUNT + 1);
        let mut book = vec![0; records];
        book.extend(trailer(layout, GREATEST_COUNT + 1));
        refused_by_all(layout, &book, book.len(), Refusal::Trailer);
        let trailer_at = trailer_at(&book);
        book.truncate(trailer_at);
        book.extend(trailer(layout, GREATEST_COUNT));
        assert_eq!(read(&book, book.len(), GREATEST_COUNT - 1), Ok([0; 32]));
    }
}

#[test]
fn each_record_can_be_the_one_that_disagrees() {
    for layout in LAYOUTS {
        let book = sound_book_of(layout, NOTE, &[SL_TYPE, ZEROS, TREFOIL]);
        for (index, field) in (0..3).flat_map(|index| [(index, 0), (index, 1)]) {
            let at = NOTE.len() + layout.record_length() * index + 4 * (layout.inputs + field);
            for bit in 0..32 {
                let mut faulty = book.clone();
                faulty[at + bit / 8] ^= 1 << (bit % 8);
                assert_eq!(accept(&faulty, book.len()), Err(Refusal::Disagrees(index + 1)));
                // A later record that disagrees as well is not named.
                put_word(&mut faulty, trailer_at(&book) - 4, 7);
                assert_eq!(listed(&faulty), format!("refused 23 at {}\n", index + 1));
            }
        }
    }
}

/// A changed input makes a record disagree where it changes what the case gets.
#[test]
fn changed_inputs_are_rated_again() {
    for layout in LAYOUTS {
        for field in 0..layout.inputs {
            let changed = with(&SL_TYPE, &[(field, SL_TYPE[field] + 1)]);
            let mut book = sound_book_of(layout, &[], &[SL_TYPE]);
            put_word(&mut book, 4 * field, changed[field]);
            let same = rate(&changed).answer == 0 && rate(&changed).rating == rate(&SL_TYPE).rating;
            assert_eq!(accept(&book, book.len()).is_ok(), same, "field {field}");
        }
    }
}

#[test]
fn changed_surroundings_are_rated_again() {
    let dry = [(27, 2501), (27, 0), (28, 5001), (28, 8501), (29, 1)];
    let sunny = [(29, 30_001), (29, 29_999), (29, 0), (29, 200_001), (27, 1000)];
    for (case, changes) in [(DRY_SOIL, dry), (IN_THE_SUN, sunny)] {
        for (field, word) in changes {
            let mut book = sound_book_of(RBK2, &[], &[case]);
            assert!(accept(&book, book.len()).is_ok());
            put_word(&mut book, 4 * field, word);
            assert_eq!(accept(&book, book.len()), Err(Refusal::Disagrees(1)), "{field} {word}");
        }
    }
}

/// An older record has none of these fields, so that its soil is moist and it is in
/// the shade.
#[test]
fn older_records_are_of_moist_soil_in_the_shade() {
    for case in [DRY_SOIL, IN_THE_SUN] {
        let book = sound_book_of(RBK1, &[], &[case]);
        let record = read(&book, book.len(), 0).expect("a record");
        assert_eq!(case_of(&record), SL_TYPE);
        assert_eq!((record[ANSWER], record[RATING]), (0, rate(&SL_TYPE).rating));
        assert!(accept(&book, book.len()).is_ok());
    }
}

/// Records of one mark under the trailer of the other: with no record the rest is
/// the note, and with as many as there is room for some disagrees.
#[test]
fn the_mark_alone_says_how_records_are_read() {
    for (layout, other) in [(RBK1, RBK2), (RBK2, RBK1)] {
        let book = sound_book_of(layout, &[], &[SL_TYPE; 8]);
        let records = trailer_at(&book);
        let under = |count| [&book[..records], &trailer(other, count)].concat();
        let empty = under(0);
        assert_eq!(accept(&empty, empty.len()), Ok(Parts { count: 0, note: records }));
        let full = under(records / other.record_length());
        assert!(matches!(accept(&full, full.len()), Err(Refusal::Disagrees(_))));
        let mut marked = book.clone();
        marked[records..records + 4].copy_from_slice(&other.mark);
        refused_by_all(other, &marked, marked.len(), Refusal::Trailer);
    }
}

#[test]
fn room_for_a_note_and_its_trailer() {
    let mut buffer = [0xaa; 40];
    for note in [25, 40, 41, usize::MAX - 16, usize::MAX - 15, usize::MAX] {
        assert_eq!(start(&mut buffer, note), Err(Refusal::Space));
    }
    assert_eq!(buffer, [0xaa; 40]);
    assert_eq!(start(&mut buffer, 24), Ok(40));
    assert_eq!(start(&mut [], 0), Err(Refusal::Space));
    assert_eq!(start(&mut [0; 15], 0), Err(Refusal::Space));
    assert_eq!(start(&mut [0; 16], 0), Ok(16));
}

/// Counted up by append alone, the book of 100000 refuses one more as full,
/// whether there is room for it or not, and is accepted.
#[test]
fn a_full_book() {
    let mut buffer = sound_book(&[], &vec![ZEROS; GREATEST_COUNT]);
    let used = buffer.len();
    assert_eq!(accept(&buffer, used), Ok(Parts { count: GREATEST_COUNT, note: 0 }));
    for room in [0, RECORD_LENGTH - 1, RECORD_LENGTH] {
        buffer.resize(used + room, 0xaa);
        let before = buffer.clone();
        assert_eq!(append(&mut buffer, used, &ZEROS), Err(Refusal::Full));
        assert!(buffer == before);
    }
}

#[test]
fn an_older_full_book_is_accepted() {
    let book = sound_book_of(RBK1, &[], &vec![ZEROS; GREATEST_COUNT]);
    assert_eq!(accept(&book, book.len()), Ok(Parts { count: GREATEST_COUNT, note: 0 }));
}
