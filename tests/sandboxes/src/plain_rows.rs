//! Rows in the language of the test plug-ins, over strict names.

/// Names of the sandbox, frames in it, and partials.
pub(crate) static ROWS: &str =
    r#"{"template": "{{ b }}{% set g 5 %}", "data": {"b": 2}, "written": "2", "assigned": {"g": "5"}}
{"template": "a{{ s }}", "written": "a", "error": "liquid: Unknown variable\n  with:\n    requested variable=s\n"}
{"template": "{% set s 9 %}{{ s }}", "written": "", "error": "liquid: Unknown variable\n  with:\n    requested variable=s\n", "assigned": {"s": "9"}}
{"template": "{% set x 2 %}{{ x }}", "data": {"x": 1}, "written": "1", "assigned": {"x": "2"}}
{"template": "{{ x.y }}", "data": {"x": {"b": 2, "a": "x"}}, "written": "", "error": "liquid: Unknown variable\n  with:\n    requested variable=x\n"}
{"template": "{{ n }}", "written": "", "error": "liquid: Unknown variable\n  with:\n    requested variable=n\n"}
{"template": "{{ t }}", "written": "", "error": "liquid: Unknown variable\n  with:\n    requested variable=t\n"}
{"template": "a{% brk %}b", "written": "a"}
{"template": "a{% box %}b{% brk %}c{% endbox %}d", "written": "a[b]"}
{"template": "{% glob %}{% set g 1 %}{{ g }}{% endglob %}{{ g }}", "written": "1", "error": "liquid: Unknown variable\n  with:\n    requested variable=g\n"}
{"template": "{% with x 1 %}{% sbox %}{{ x }}{% endsbox %}{% endwith %}", "written": "", "error": "liquid: Unknown variable\n  with:\n    requested variable=x\n"}
{"template": "{% sbox %}{% set g 1 %}{% endsbox %}{% with g 2 %}{{ g }}{% endwith %}", "written": "2", "assigned": {"g": "1"}}
{"template": "{% inc p %}{% set g 8 %}", "data": {"b": 2}, "partials": [["p", "p{{ b }}{% set x 7 %}"]], "written": "p2", "assigned": {"g": "8", "x": "7"}}
{"template": "{% inc p %}{% set g 8 %}", "data": {"s": 2}, "partials": [["p", "p{{ b }}{% set x 7 %}"]], "written": "p", "error": "liquid: Unknown variable\n  with:\n    requested variable=b\n"}
{"template": "{% inc q %}", "partials": [["p", "p{{ b }}{% set x 7 %}"]], "written": "", "error": "liquid: Unknown partial-template\n  with:\n    requested partial=q\n    available partials=p\n"}
{"template": "{{ 5 | fail }}", "written": "", "error": "liquid: bad\nfrom: Filter error\n  with:\n    filter=fail\n    input=5\n"}"#;
