//! Templates over globals.
use crate::runs::row_holds;
use rows::rows_hold;
use std::test::Fail;

/// Rows as `runs` describes them.
const RENDERED: &str =
    r#"["render t g.json", "Hello {{ name }}!", "{\"name\": \"World\"}", 0, "Hello World!", ""]
["render t g.json", "", "{}", 0, "", ""]
["render t g.json", "{{ x }}", " {\"x\": 1, \"x\": [2, null, 3]}\n", 0, "23", ""]
["render t g.json", "{{ x.y }}", "{\"x\": {\"y\": \"\\u00fc\"}}", 0, "ü", ""]
["render t g.json", "[{{ x }}]", "{\"x\": null}", 0, "[]", ""]
["render t g.json", "é{{ x }}", "{\"x\": \"€\"}", 0, "é€", ""]
["render t g.json", "{{ x }}", "{\"x\": 9223372036854775807}", 0, "9223372036854775807", ""]
["render t g.json", "a{{ x }}b", "{}", 1, "a", "liquid: Unknown variable\n  with:\n    requested variable=x\n"]
["render t g.json", "{{ ! }}", "{}", 1, "", "liquid: Invalid liquid (line 1, column 1)\n"]
["render t g.json", "a \n {{- ! }}", "{}", 1, "", "liquid: Invalid liquid (line 2, column 2)\n"]
["render t g.json", "{% include \"p\" %}", "{}", 1, "", "liquid: Partial does not exist\n  with:\n    name=p\nfrom: include p\n"]"#;

#[test]
fn templates_are_rendered(rt: HostRuntime) -> Result<(), Fail> {
    rows_hold(rt.alloc(), RENDERED, row_holds)
}
