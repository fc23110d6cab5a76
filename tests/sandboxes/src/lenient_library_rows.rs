//! Rows in the language of the tag library. A name or an index without a value is nil in a sandbox over a lenient
//! parent, whatever frames are open in between, and whatever the parent knows of it.

/// Names of the sandbox, and names that are around it alone.
pub(crate) static NAMES: &str =
    r#"{"template": "{{ b }}{% assign g = 5 %}", "data": {"b": 2}, "written": "2", "assigned": {"g": "5"}}
{"template": "a{{ s }}", "written": "a"}
{"template": "{% assign s = 9 %}{{ s }}", "written": "", "assigned": {"s": "9"}}
{"template": "{% assign x = 2 %}{{ x }}", "data": {"x": 1}, "written": "1", "assigned": {"x": "2"}}
{"template": "{{ x.y }}{{ n }}{{ t }}", "data": {"x": {"b": 2, "a": "x"}}, "written": ""}
{"template": "{% increment c %}{{ c }}", "written": "0", "counted": {"c": "1"}}
{"template": "{{ x | append: \"y\" }}", "written": "y"}
{"template": "{% assign g = y %}{{ g }}", "written": "", "assigned": {"g": "nil"}}
{"template": "{% assign g = y | append: \"a\" %}", "written": "", "assigned": {"g": "\"a\""}}
{"template": "{{ \"a\" | fail }}", "written": "", "error": "liquid: bad\nfrom: Filter error\n  with:\n    filter=fail\n    input=\"a\"\n"}"#;

/// Conditions and loops: nil is equal to nil and to a state, has no order, is not truthy and has no items, and is not a
/// integer.
pub(crate) static BLOCKS: &str =
    r#"{"template": "{% if y == nil %}a{% endif %}{% if y == blank %}b{% endif %}{% if y < 1 %}c{% else %}d{% endif %}{% if y %}e{% endif %}", "written": "abd"}
{"template": "{% if x.y != 1 %}a{% endif %}{% if false == x.z %}b{% endif %}{% if x.z %}c{% elsif x.a %}d{% endif %}", "data": {"x": {"a": 1}}, "written": "abd"}
{"template": "{% for i in y %}a{% else %}b{% endfor %}", "written": "b"}
{"template": "{% for i in (1..y) %}a{% endfor %}", "written": "", "error": "liquid: Whole number expected\n  with:\n    found=nil\n"}
{"template": "{% for i in (1..2) %}{{ i.y }}{{ forloop.y }}{{ y[0] }}{% endfor %}c", "written": "c"}
{"template": "{% for i in (1..2) %}{{ i }}{{ y }}{% break %}{% endfor %}{{ i }}", "written": "1"}
{"template": "{% if x[y] %}a{% else %}b{% endif %}", "data": {"x": {"z": 1}}, "written": "b"}
{"template": "{% if x[y] == 1 %}a{% endif %}", "data": {"x": {"z": 1}}, "written": "", "error": "liquid: Expected scalar\n  with:\n    found=nil\n"}
{"template": "a{{ x[y] }}", "data": {"x": {"z": 1}}, "written": "a", "error": "liquid: Expected scalar\n  with:\n    found=nil\n"}
{"template": "{% for i in x %}{{ i }}{{ i[y] }}{% endfor %}", "data": {"x": [1]}, "written": "1", "error": "liquid: Expected scalar\n  with:\n    found=nil\n"}"#;

/// Partials.
pub(crate) static PARTIALS: &str =
    r#"{"template": "{% include \"p\" %}", "data": {"b": 2}, "partials": [["k", "{{ i }}{% assign h = i %}{% increment c %}{{ t }}"], ["p", "p{{ b }}{% assign x = 7 %}"], ["r", "{{ y }}r{{ x[y] }}"]], "written": "p2", "assigned": {"x": "7"}}
{"template": "{% include \"p\" %}", "partials": [["k", "{{ i }}{% assign h = i %}{% increment c %}{{ t }}"], ["p", "p{{ b }}{% assign x = 7 %}"], ["r", "{{ y }}r{{ x[y] }}"]], "written": "p", "assigned": {"x": "7"}}
{"template": "{% render \"p\" %}", "data": {"b": 2}, "partials": [["k", "{{ i }}{% assign h = i %}{% increment c %}{{ t }}"], ["p", "p{{ b }}{% assign x = 7 %}"], ["r", "{{ y }}r{{ x[y] }}"]], "written": "p", "assigned": {"x": "7"}}
{"template": "{% render \"p\", b: y %}{% include \"p\", b: 4 %}", "partials": [["k", "{{ i }}{% assign h = i %}{% increment c %}{{ t }}"], ["p", "p{{ b }}{% assign x = 7 %}"], ["r", "{{ y }}r{{ x[y] }}"]], "written": "pp4", "assigned": {"x": "7"}}
{"template": "{% for i in (1..2) %}{% include \"k\" %}{% endfor %}{% assign g = s %}", "data": {"s": 3}, "partials": [["k", "{{ i }}{% assign h = i %}{% increment c %}{{ t }}"], ["p", "p{{ b }}{% assign x = 7 %}"], ["r", "{{ y }}r{{ x[y] }}"]], "written": "1021", "assigned": {"h": "2", "g": "3"}, "counted": {"c": "2"}}
{"template": "{% include y %}", "partials": [["k", "{{ i }}{% assign h = i %}{% increment c %}{{ t }}"], ["p", "p{{ b }}{% assign x = 7 %}"], ["r", "{{ y }}r{{ x[y] }}"]], "written": "", "error": "liquid: Partial name expected\n  with:\n    found=nil\n"}
{"template": "a{% include \"q\" %}", "partials": [["k", "{{ i }}{% assign h = i %}{% increment c %}{{ t }}"], ["p", "p{{ b }}{% assign x = 7 %}"], ["r", "{{ y }}r{{ x[y] }}"]], "written": "a", "error": "liquid: Unknown partial-template\n  with:\n    requested partial=q\n    available partials=k, p, r\nfrom: include q\n"}
{"template": "{% include \"r\" %}", "data": {"x": {"z": 1}}, "partials": [["k", "{{ i }}{% assign h = i %}{% increment c %}{{ t }}"], ["p", "p{{ b }}{% assign x = 7 %}"], ["r", "{{ y }}r{{ x[y] }}"]], "written": "r", "error": "liquid: Expected scalar\n  with:\n    found=nil\nfrom: include r\n"}
{"template": "{% include \"r\", y: \"z\" %}", "data": {"x": {"z": 1}}, "partials": [["k", "{{ i }}{% assign h = i %}{% increment c %}{{ t }}"], ["p", "p{{ b }}{% assign x = 7 %}"], ["r", "{{ y }}r{{ x[y] }}"]], "written": "zr1"}
{"template": "{% render \"r\", y: \"z\" %}", "data": {"x": {"z": 1}}, "partials": [["k", "{{ i }}{% assign h = i %}{% increment c %}{{ t }}"], ["p", "p{{ b }}{% assign x = 7 %}"], ["r", "{{ y }}r{{ x[y] }}"]], "written": "zr"}
{"template": "{% render \"p\", b: x[y] %}", "data": {"x": {"z": 1}}, "partials": [["k", "{{ i }}{% assign h = i %}{% increment c %}{{ t }}"], ["p", "p{{ b }}{% assign x = 7 %}"], ["r", "{{ y }}r{{ x[y] }}"]], "written": "", "error": "liquid: Expected scalar\n  with:\n    found=nil\n"}"#;
