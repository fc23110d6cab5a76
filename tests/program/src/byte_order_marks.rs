//! Texts that begin with a byte order mark: a template's is written, as the rest of its text is, and globals are no JSON.
use crate::runs::row_holds;
use rows::rows_hold;
use std::test::Fail;

/// Rows as `runs` describes them.
const ROWS: &str = r#"["render t g.json", "\ufeffx", "{}", 0, "\ufeffx", ""]
["render t g.json", "x", "\ufeff{}", 3, "", "liquid: bad JSON in g.json\n"]
["render --explain t g.json", "x", "\ufeff{}", 3, "", "liquid: bad JSON in g.json\n  invalid JSON at line 1 column 1: the text begins with a byte order mark\n"]
["render --explain t g.json", "x", "{\ufeff}", 3, "", "liquid: bad JSON in g.json\n  invalid JSON at line 1 column 2\n"]"#;

#[test]
fn a_mark_is_written_or_named(rt: HostRuntime) -> Result<(), Fail> {
    rows_hold(rt.alloc(), ROWS, row_holds)
}
