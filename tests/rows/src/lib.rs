//! Rows of the tables of tests, each a line of JSON, and what a test checks in them.

mod asked;
mod checks;
mod line;
mod row;

pub use asked::{holds, is_text, rows_hold, same, templates_hold};
pub use line::Line;
pub use row::Row;
