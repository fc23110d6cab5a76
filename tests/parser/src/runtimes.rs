//! What tests check over a runtime.
use crate::chains::{chain_has_results, entry_is_tried};
use crate::expressions::path_is_tried;
use liquid_core::Leniency;
use liquid_core::model::{Object, to_object};
use liquid_core::runtime::{BuiltRuntime, Runtime, RuntimeBuilder};
use rows::{Line, holds};
use serde_json::Value as Json;
use std::alloc::Global;
use std::test::Fail;

/// What a test checks in each row of a table.
#[derive(Clone, Copy)]
pub(crate) enum Check {
    Chain,
    Entry,
    Path,
}

/// Returns `true` if a row passes a check over a runtime.
fn row_holds<R: Runtime>(alloc: Global, check: Check, row: &Line, runtime: &R) -> bool {
    match check {
        Check::Chain => chain_has_results(alloc, row, runtime),
        Check::Entry => entry_is_tried(alloc, row, runtime),
        Check::Path => path_is_tried(alloc, row, runtime),
    }
}

/// Returns `true` if the row of a line passes a check over a runtime.
fn line_holds<R: Runtime>(alloc: Global, check: Check, line: &str, runtime: &R) -> bool {
    match Line::of(alloc, line) {
        Some(row) => row_holds(alloc, check, &row, runtime),
        None => false,
    }
}

/// Fails for the first row of a table that does not pass a check over a runtime.
fn rows_hold_in<R: Runtime>(
    alloc: Global,
    check: Check,
    rows: &str,
    runtime: &R,
) -> Result<(), Fail> {
    for line in rows.lines() {
        holds(line_holds(alloc, check, line, runtime), line)?;
    }
    Ok(())
}

/// The globals of the rows.
const GLOBALS: &str =
    r#"{"list": [0, 1, 2, 3, 4, 5, 6, 7, 8, 9], "one": [1], "word": "part", "box": {"part": 7}}"#;

/// Returns the globals of the rows, or `None` if memory runs out.
fn globals(alloc: Global) -> Option<Object> {
    match Json::from_str(alloc, GLOBALS) {
        Ok(json) => to_object(alloc, &json).ok(),
        Err(_) => None,
    }
}

/// Returns a runtime of this leniency with these globals.
fn runtime(alloc: Global, globals: Object, leniency: Leniency) -> BuiltRuntime<(), ()> {
    RuntimeBuilder::new(alloc)
        .set_globals(globals)
        .set_leniency(leniency)
        .build()
}

/// Fails for the first row of a table that does not pass a check over a runtime of this leniency with the globals. No other function here names its type in a call that is generic in the runtime: each that does is checked
/// against all that a runtime promises.
pub(crate) fn rows_hold_over(
    alloc: Global,
    check: Check,
    rows: &str,
    leniency: Leniency,
) -> Result<(), Fail> {
    match globals(alloc) {
        Some(globals) => rows_hold_in(alloc, check, rows, &runtime(alloc, globals, leniency)),
        None => Err(Fail::from("the globals are not made")),
    }
}

/// Fails for the first row of a table that does not pass a check with strict names, with lenient names, and then with
/// lenient indexes.
pub(crate) fn rows_hold_over_all(alloc: Global, check: Check, rows: &str) -> Result<(), Fail> {
    rows_hold_over(alloc, check, rows, Leniency::Strict)?;
    rows_hold_over(alloc, check, rows, Leniency::Paths)?;
    rows_hold_over(alloc, check, rows, Leniency::Indexes)
}
