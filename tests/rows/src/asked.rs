//! What a test checks in what it found.

use crate::line::Line;
use crate::row::Row;
use std::alloc::{AllocError, Global};
use std::test::Fail;

/// Fails for a text that isn't the one wanted, and shows both.
pub fn same(found: &str, wanted: &str) -> Result<(), Fail> {
    if found == wanted {
        Ok(())
    } else {
        Err(Fail::new(format_args!("{found:?} was found in place of {wanted:?}")))
    }
}

/// Fails for a condition that is not true, with its name.
pub fn holds(is_so: bool, what: &str) -> Result<(), Fail> {
    if is_so { Ok(()) } else { Err(Fail::new(what)) }
}

/// Returns `true` if a text was made and is the one wanted, and `false` if memory ran out.
pub fn is_text(found: Result<String, AllocError>, wanted: &str) -> bool {
    match found {
        Ok(text) => text.as_str() == wanted,
        Err(_) => false,
    }
}

/// Fails for the first row of a table that does not pass the test or is not JSON, and shows its line.
pub fn rows_hold<F: Fn(Global, &Line) -> bool>(
    alloc: Global,
    rows: &str,
    holds: F,
) -> Result<(), Fail> {
    for line in rows.lines() {
        let is_so = match Line::of(alloc, line) {
            Some(row) => holds(alloc, &row),
            None => false,
        };
        if !is_so {
            return Err(Fail::new(format_args!("this row doesn't hold: {line}")));
        }
    }
    Ok(())
}

/// Fails for the first row of a table of templates that does not pass the test or is no such row, and shows its line.
pub fn templates_hold<F: Fn(Global, &Row) -> bool>(
    alloc: Global,
    rows: &str,
    holds: F,
) -> Result<(), Fail> {
    for line in rows.lines() {
        let is_so = match Row::of(alloc, line) {
            Some(row) => holds(alloc, &row),
            None => false,
        };
        if !is_so {
            return Err(Fail::new(format_args!("this row doesn't hold: {line}")));
        }
    }
    Ok(())
}
