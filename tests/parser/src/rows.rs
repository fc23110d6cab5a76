//! Rows of a table, and what a test checks in each.
use rows::{Line, rows_hold};
use std::alloc::Global;
use std::test::Fail;

/// Returns the texts at two places, or `None` for a row without them.
pub(crate) fn texts_at(row: &Line, one: usize, other: usize) -> Option<(&str, &str)> {
    match (row.text(one), row.text(other)) {
        (Some(one), Some(other)) => Some((one, other)),
        _ => None,
    }
}

/// Returns `true` if a row has this text at a place.
pub(crate) fn has_text(row: &Line, place: usize, text: &str) -> bool {
    match row.text(place) {
        Some(found) => found == text,
        None => false,
    }
}

/// Fails for the first row of a table of pairs of texts that does not pass the test or is not such a pair.
pub(crate) fn pairs_hold<F: Fn(Global, &str, &str) -> bool>(
    alloc: Global,
    rows: &str,
    holds: F,
) -> Result<(), Fail> {
    rows_hold(alloc, rows, |alloc, row| match texts_at(row, 0, 1) {
        Some((one, other)) => holds(alloc, one, other),
        None => false,
    })
}
