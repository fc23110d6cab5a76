//! What `--explain` adds to faults.
use crate::runs::row_holds;
use rows::rows_hold;
use std::test::Fail;

/// Rows as `runs` describes them.
const ROWS: &str = r#"["render --explain t g.json", "x", "{}", 0, "x", ""]
["render none g.json --explain --lenient", "x", "{}", 3, "", "liquid: cannot read none\n  there is no such file\n"]
["render --explain t g.json", [255], "{}", 3, "", "liquid: cannot read t\n  it is not UTF-8\n"]
["render --explain t g.json", "x", [255], 3, "", "liquid: cannot read g.json\n  it is not UTF-8\n"]
["render --explain t g.json d", "x", "{}", 3, "", "liquid: cannot read d\n  there is no such file\n"]
["render --explain t g.json u", "x", "{}", 3, "", "liquid: cannot read u\n  it is not a folder\n"]
["render --explain t g.json", "x", "{\n  \"x\": }", 3, "", "liquid: bad JSON in g.json\n  invalid JSON at line 2 column 8\n"]
["render --explain t g.json", "x{{ y | }}", "[]", 3, "", "liquid: Object cannot be an array.\n  in g.json\n"]
["render --explain t g.json", "a{{ x }}", "{}", 1, "a", "liquid: Unknown variable\n  with:\n    requested variable=x\n  at t, line 1, column 5\n  1 | a{{ x }}\n    |     ^\n"]
["render --explain t g.json", "x{{ y | append }}", "{}", 1, "", "liquid: Unexpected arguments\nfrom: Filter parsing error\n  with:\n    filter=append\n  at t, line 1, column 9\n  1 | x{{ y | append }}\n    |         ^^^^^^\n"]
["render --explain t g.json", "x\n{{ y |", "{}", 1, "", "liquid: Invalid liquid (line 2, column 1)\n  at t, line 2, column 7\n  2 | {{ y |\n    |       ^ expected the name of a filter here\n"]
["render --explain", "x", "{}", 2, "", "USAGE"]
["render --explain --explain t g.json", "x", "{}", 2, "", "USAGE"]"#;

#[test]
fn faults_are_explained(rt: HostRuntime) -> Result<(), Fail> {
    rows_hold(rt.alloc(), ROWS, row_holds)
}

/// The line of a name of 400 characters has 423 of them.
const LONG_LINE: &str =
    r#"["render --explain t g.json", ["{{ ", ["x", 400], " }}"], "{}", 1, "", ["liquid: Unknown variable\n  with:\n    requested variable=", ["x", 277], " .. (123 more characters)\n  at t, line 1, column 4\n  1 | {{ ", ["x", 97], "..\n    |    ", ["^", 97], "\n"]]"#;

#[test]
fn long_lines_are_cut(rt: HostRuntime) -> Result<(), Fail> {
    rows_hold(rt.alloc(), LONG_LINE, row_holds)
}
