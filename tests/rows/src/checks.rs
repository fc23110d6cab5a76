//! What the checks refuse. A failure of a test can't be ignored, so its report is looked at.
use crate::{Line, Row, holds, is_text, rows_hold, same, templates_hold};
use std::alloc::Global;
use std::process::{ExitCode, Termination};
use std::test::Fail;

/// Returns `true` if a check failed. Its message goes to standard error.
fn fails(rt: &HostRuntime, checked: Result<(), Fail>) -> bool {
    checked.report(rt) == ExitCode::FAILURE
}

/// Returns `true` if a row is a pair of one number.
fn is_pair(row: &Line) -> bool {
    match (row.number(0), row.number(1)) {
        (Some(first), Some(second)) => first == second,
        _ => false,
    }
}

#[test]
fn checks_fail(rt: HostRuntime) -> Result<(), Fail> {
    let alloc = rt.alloc();
    let texts = fails(&rt, same("ab", "ba"));
    let truth = fails(&rt, holds(false, ""));
    let pairs = fails(
        &rt,
        rows_hold(alloc, "[1, 1]\n[2, 3]\n[4, 4]", |_, row| is_pair(row)),
    );
    let null = fails(&rt, rows_hold(alloc, "nul", |_, _| true));
    let page = fails(
        &rt,
        templates_hold(alloc, r#"{"template": "a"}"#, |_, _| true),
    );
    holds(texts && truth && pairs && null && page, "each check fails")
}

/// Returns `true` if a text was made and is compared as a whole.
fn text_is_compared(alloc: Global) -> bool {
    is_text(String::from_str(alloc, "ab"), "ab") && !is_text(String::from_str(alloc, "ab"), "a")
}

/// Returns `true` if a row has what its line says at each place, and nothing else.
fn has_its_members(row: &Line) -> bool {
    row.text(0) == Some("a")
        && row.number(1) == Some(2)
        && row.truth(2) == Some(true)
        && row.list(3).is_some_and(|list| list.len() == 2)
        && row.text(1).is_none()
        && row.member(4).is_none()
}

/// Returns `true` if a row was made, and has its members.
fn line_is_read(row: Option<Line>) -> bool {
    match row {
        Some(row) => has_its_members(&row),
        None => false,
    }
}

/// Returns `true` if a row of a template was made, and has its answers, strict and lenient.
fn row_is_read(row: Option<Row>) -> bool {
    match row {
        Some(row) => {
            let strict = row.template() == "a" && row.written() == "b" && row.error() == "";
            let lenient = row.leniently();
            strict && lenient.written() == "c" && lenient.is_whole("c")
        }
        None => false,
    }
}

#[test]
fn rows_are_read(rt: HostRuntime) -> Result<(), Fail> {
    let alloc = rt.alloc();
    let row = r#"{"template": "a", "written": "b", "lenient": {"written": "c"}}"#;
    holds(text_is_compared(alloc), "a text is compared")?;
    holds(
        line_is_read(Line::of(alloc, r#"["a", 2, true, [3, 4]]"#)),
        "a line is read",
    )?;
    holds(row_is_read(Row::of(alloc, row)), "a row is read")
}
