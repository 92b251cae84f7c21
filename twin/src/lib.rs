// The twin: a second, independent working of the cable rating and the book of
// document 01 with document 02's requests A1, A2 and A4 to A7, written from the
// documents alone so that another implementation can be compared with it, number for
// number; and its work sheet, from docs/SHEET.md and docs/RATING.md alone.

pub mod big;
pub mod book;
pub mod cable;
pub mod dice;
pub mod drawn_books;
pub mod drawn_cases;
pub mod drawn_comments;
pub mod drawn_lines;
pub mod edge_cases;
pub mod ends;
pub mod exact_rise;
pub mod figure;
pub mod fraction;
pub mod implied;
pub mod lines;
pub mod listing;
pub mod margins;
pub mod published;
pub mod rating;
pub mod sample_cables;
pub mod sheet;
pub mod sound_books;
pub mod stages;
pub mod standard;
pub mod tables;
pub mod turning;
pub mod whole;
