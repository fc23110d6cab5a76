//! Names without a value, as errors and as nil.
use crate::runs::row_holds;
use rows::rows_hold;
use std::test::Fail;

/// Rows as `runs` describes them, each template with and without a sandbox.
const ROWS: &str = r#"["render --lenient t g.json", "a{{ x }}b", "{}", 0, "ab", ""]
["render --lenient --sandboxed t g.json", "a{{ x }}b", "{}", 0, "ab", ""]
["render --lenient t g.json", "{{ x | append: \"y\" }}", "{}", 0, "y", ""]
["render --lenient --sandboxed t g.json", "{{ x | append: \"y\" }}", "{}", 0, "y", ""]
["render --lenient t g.json", "{{ x.y }}", "{\"x\": {\"z\": 1}}", 0, "", ""]
["render --lenient --sandboxed t g.json", "{{ x.y }}", "{\"x\": {\"z\": 1}}", 0, "", ""]
["render --lenient t g.json", "{{ x.z }}", "{\"x\": {\"z\": 1}}", 0, "1", ""]
["render --lenient --sandboxed t g.json", "{{ x.z }}", "{\"x\": {\"z\": 1}}", 0, "1", ""]
["render --lenient t g.json", "{{ x[b] }}", "{\"x\": {\"z\": 1}}", 1, "", "liquid: Expected scalar\n  with:\n    found=nil\n"]
["render --lenient --sandboxed t g.json", "{{ x[b] }}", "{\"x\": {\"z\": 1}}", 1, "", "liquid: Expected scalar\n  with:\n    found=nil\n"]
["render --lenient t g.json", "{% if x %}a{% else %}b{% endif %}{% if x == nil %}c{% endif %}", "{}", 0, "bc", ""]
["render --lenient --sandboxed t g.json", "{% if x %}a{% else %}b{% endif %}{% if x == nil %}c{% endif %}", "{}", 0, "bc", ""]
["render --lenient t g.json", "{% for i in x %}a{% else %}b{% endfor %}", "{}", 0, "b", ""]
["render --lenient --sandboxed t g.json", "{% for i in x %}a{% else %}b{% endfor %}", "{}", 0, "b", ""]"#;

#[test]
fn unknown_names_are_nil(rt: HostRuntime) -> Result<(), Fail> {
    rows_hold(rt.alloc(), ROWS, row_holds)
}
