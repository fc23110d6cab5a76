//! Rows of texts with typographic signs in place of plain ones.
use liquid_jekyll::text::smartify;
use rows::{Line, rows_hold};
use std::alloc::Global;
use std::test::Fail;

/// A text, and what Jekyll's `smartify` makes of it.
const ROWS: &str = r#"["\"[x]\"", "“[x]”"]
["x>>y", "x»y"]
["'_x_'", "‘_x_’"]
["'\"x", "‘“x"]
["O'Hare", "O’Hare"]
["x='y'", "x=’y’"]
["O'Hare \" a \" a\n", "O’Hare “ a “ a"]
[" \"x\" ", " “x” "]
["", ""]"#;

/// Returns `true` if a text becomes what the row says.
fn is_set(alloc: Global, row: &Line) -> bool {
    match (row.text(0), row.text(1)) {
        (Some(text), Some(wanted)) => match smartify(alloc, text) {
            Ok(Some(found)) => found.as_str() == wanted,
            _ => false,
        },
        _ => false,
    }
}

#[test]
fn plain_signs_become_typographic_ones(rt: HostRuntime) -> Result<(), Fail> {
    rows_hold(rt.alloc(), ROWS, is_set)
}
