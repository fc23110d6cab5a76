//! The globals as the data of a sandbox, and as the runtime's own.
use crate::runs::row_holds;
use rows::rows_hold;
use std::test::Fail;

/// Rows as `runs` describes them.
const ROWS: &str =
    r#"["render --sandboxed t g.json", "{{ x.y }}", "{\"x\": {\"z\": 1}}", 1, "", "liquid: Unknown variable\n  with:\n    requested variable=x\n"]
["render t g.json", "{{ x.y }}", "{\"x\": {\"z\": 1}}", 1, "", "liquid: Unknown index\n  with:\n    variable=x\n    requested index=y\n    available indexes=z\n"]
["render --sandboxed t g.json", "{% assign x = 2 %}{{ x }}", "{\"x\": 1}", 0, "1", ""]
["render t g.json", "{% assign x = 2 %}{{ x }}", "{\"x\": 1}", 0, "2", ""]
["render --sandboxed t g.json", "{{ x.z }}", "{\"x\": {\"z\": 1}}", 0, "1", ""]
["render --sandboxed t g.json", "a{{ x }}", "{}", 1, "a", "liquid: Unknown variable\n  with:\n    requested variable=x\n"]
["render --sandboxed t g.json", "{{ ! }}", "{}", 1, "", "liquid: Invalid liquid (line 1, column 1)\n"]
["render --sandboxed t g.json", "{{ x }}", "[]", 3, "", "liquid: Object cannot be an array.\n"]"#;

#[test]
fn globals_are_data_of_a_sandbox(rt: HostRuntime) -> Result<(), Fail> {
    rows_hold(rt.alloc(), ROWS, row_holds)
}
