//! Templates of standard Liquid.
use crate::runs::row_holds;
use rows::rows_hold;
use std::test::Fail;

/// Tags and blocks of standard Liquid, as ruby-liquid renders them, each template with lenient names and in a
/// sandbox.
const TAGS: &str =
    r#"["render --standard --lenient t g.json", "{% case x %}{% when 1 %}a{% when 2, 3 %}b{% else %}c{% endcase %}", "{\"x\": 3}", 0, "b", ""]
["render --standard --sandboxed t g.json", "{% case x %}{% when 1 %}a{% when 2, 3 %}b{% else %}c{% endcase %}", "{\"x\": 3}", 0, "b", ""]
["render --standard --lenient t g.json", "{% unless x %}a{% endunless %}", "{\"x\": false}", 0, "a", ""]
["render --standard --sandboxed t g.json", "{% unless x %}a{% endunless %}", "{\"x\": false}", 0, "a", ""]
["render --standard --lenient t g.json", "{% for i in (1..4) %}{% cycle \"a\", \"b\" %}{% endfor %}", "{}", 0, "abab", ""]
["render --standard --sandboxed t g.json", "{% for i in (1..4) %}{% cycle \"a\", \"b\" %}{% endfor %}", "{}", 0, "abab", ""]
["render --standard --lenient t g.json", "{% capture y %}v{% endcapture %}[{{ y }}]", "{}", 0, "[v]", ""]
["render --standard --sandboxed t g.json", "{% capture y %}v{% endcapture %}[{{ y }}]", "{}", 0, "[v]", ""]
["render --standard --lenient t g.json", "{% for x in l reversed limit: 2 %}{{ x }}{% endfor %}", "{\"l\": [1, 2, 3]}", 0, "21", ""]
["render --standard --sandboxed t g.json", "{% for x in l reversed limit: 2 %}{{ x }}{% endfor %}", "{\"l\": [1, 2, 3]}", 0, "21", ""]
["render --standard --lenient t g.json", "{% assign y = 1 %}{{ y }}{% if x and y == 1 %}{{ x }}{% endif %}", "{\"x\": 7}", 0, "17", ""]
["render --standard --sandboxed t g.json", "{% assign y = 1 %}{{ y }}{% if x and y == 1 %}{{ x }}{% endif %}", "{\"x\": 7}", 0, "17", ""]"#;

/// Filters of standard Liquid.
const ROWS: &str =
    r#"["render --standard t g.json", "{{ x | upcase | append: \"!\" }}", "{\"x\": \"rain\"}", 0, "RAIN!", ""]
["render --standard t g.json", "{{ x | sort | join: \", \" }}{{ x | size }}", "{\"x\": [3, null, 1]}", 0, "1, 3, 3", ""]
["render --standard t g.json", "{{ 1 | divided_by: 0 }}", "{}", 1, "", "liquid: Divided by zero\nfrom: Filter error\n  with:\n    filter=divided_by\n    input=1\n"]"#;

#[test]
fn standard_filters_are_there(rt: HostRuntime) -> Result<(), Fail> {
    rows_hold(rt.alloc(), ROWS, row_holds)
}

/// A template sees what it assigns, and its data, in isolation too.
#[test]
fn standard_tags_are_there(rt: HostRuntime) -> Result<(), Fail> {
    rows_hold(rt.alloc(), TAGS, row_holds)
}
