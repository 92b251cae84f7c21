// The twin's tests as one program: document 01's edge values, the refusals and
// the cases at their edges, agreement with the standard in floating point and
// with the published ratings, the bounds by exact fractions, the line reader, the work sheet,
// the book with its listing, and what is drawn.

mod agreement;
mod book;
mod book_refusals;
mod direct_current;
mod drawn_books;
mod drawn_cases;
mod drawn_lines;
mod dry_soil;
mod edge_cases;
mod edges;
mod exact;
mod lines;
mod published;
mod refusals;
mod sheet;
mod sun;
