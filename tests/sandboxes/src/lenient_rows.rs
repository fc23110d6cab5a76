//! Rows in the language of the test plug-ins. A name or an index without a value is nil in a sandbox over a lenient
//! parent, whatever frames are open in between, and whatever the parent knows of it.

/// Names of the sandbox, and names that are around it alone.
pub(crate) static NAMES: &str =
    r#"{"template": "{{ b }}{% set g 5 %}", "data": {"b": 2}, "written": "2", "assigned": {"g": "5"}}
{"template": "a{{ s }}", "written": "a"}
{"template": "{% set s 9 %}{{ s }}", "written": "", "assigned": {"s": "9"}}
{"template": "{% set x 2 %}{{ x }}", "data": {"x": 1}, "written": "1", "assigned": {"x": "2"}}
{"template": "{% set x 2 %}{{ x }}", "written": "", "assigned": {"x": "2"}}
{"template": "{{ x.y }}", "data": {"x": {"b": 2, "a": "x"}}, "written": ""}
{"template": "{{ n }}", "written": ""}
{"template": "{{ t }}", "written": ""}
{"template": "a{% brk %}b", "written": "a"}
{"template": "a{% box %}b{% brk %}c{% endbox %}d", "written": "a[b]"}
{"template": "{{ x.y.z }}{{ x.size }}", "data": {"x": [1, 2]}, "written": "2"}
{"template": "{{ x[0].y[1] }}a", "data": {"x": []}, "written": "a"}
{"template": "{{ x | append: \"y\" }}", "written": "y"}
{"template": "{{ \"a\" | append: y }}", "written": "a"}
{"template": "{{ 5 | fail }}", "written": "", "error": "liquid: bad\nfrom: Filter error\n  with:\n    filter=fail\n    input=5\n"}
{"template": "{% set g y %}{{ g }}", "written": "", "assigned": {"g": "nil"}}"#;

/// An unknown index is nil, which is not a scalar.
pub(crate) static INDEXES: &str =
    r#"{"template": "{{ x[y] }}", "data": {"x": {"z": 1}}, "written": "", "error": "liquid: Expected scalar\n  with:\n    found=nil\n"}
{"template": "{{ x[y] }}", "written": "", "error": "liquid: Expected scalar\n  with:\n    found=nil\n"}
{"template": "a{{ x[t] }}", "data": {"x": {"T": 1}}, "written": "a", "error": "liquid: Expected scalar\n  with:\n    found=nil\n"}
{"template": "{{ x[x.y] }}", "data": {"x": {"z": 1}}, "written": "", "error": "liquid: Expected scalar\n  with:\n    found=nil\n"}
{"template": "{{ x[b] }}", "data": {"x": {"z": 1}, "b": "z"}, "written": "1"}
{"template": "{{ x[b] }}", "data": {"x": {"z": 1}, "b": "y"}, "written": ""}
{"template": "{% set g x[y] %}", "written": "", "error": "liquid: Expected scalar\n  with:\n    found=nil\n"}
{"template": "{% with x 1 %}{{ x[y] }}{% endwith %}", "written": "", "error": "liquid: Expected scalar\n  with:\n    found=nil\n"}
{"template": "{% sbox %}{{ x[b] }}{% endsbox %}", "data": {"b": 1}, "written": "", "error": "liquid: Expected scalar\n  with:\n    found=nil\n"}
{"template": "a{% glob %}{{ x[s] }}{% endglob %}", "data": {"x": [1]}, "written": "a", "error": "liquid: Expected scalar\n  with:\n    found=nil\n"}
{"template": "{% set g 1 %}{% inc r %}", "data": {"x": {"z": 1}}, "partials": [["p", "p{{ b }}{% set x 7 %}"], ["r", "{{ y }}r{{ x[y] }}"]], "written": "r", "error": "liquid: Expected scalar\n  with:\n    found=nil\n", "assigned": {"g": "1"}}
{"template": "{{ \"a\" | append: x[y] }}", "written": "", "error": "liquid: Expected scalar\n  with:\n    found=nil\nfrom: Filter error\n  with:\n    filter=append\n    input=\"a\"\n"}"#;

/// Frames inside the sandbox, and partials.
pub(crate) static FRAMES: &str =
    r#"{"template": "{% glob %}{% set g 1 %}{{ g }}{% endglob %}{{ g }}", "written": "1"}
{"template": "{% with x 1 %}{% sbox %}{{ x }}{% endsbox %}{% endwith %}", "written": ""}
{"template": "{% sbox %}{% set g 1 %}{% endsbox %}{% with g 2 %}{{ g }}{% endwith %}", "written": "2", "assigned": {"g": "1"}}
{"template": "{% inc p %}{% set g 8 %}", "data": {"b": 2}, "partials": [["p", "p{{ b }}{% set x 7 %}"], ["r", "{{ y }}r{{ x[y] }}"]], "written": "p2", "assigned": {"g": "8", "x": "7"}}
{"template": "{% inc p %}{% set g 8 %}", "data": {"s": 2}, "partials": [["p", "p{{ b }}{% set x 7 %}"], ["r", "{{ y }}r{{ x[y] }}"]], "written": "p", "assigned": {"g": "8", "x": "7"}}
{"template": "{% inc q %}", "partials": [["p", "p{{ b }}{% set x 7 %}"], ["r", "{{ y }}r{{ x[y] }}"]], "written": "", "error": "liquid: Unknown partial-template\n  with:\n    requested partial=q\n    available partials=p, r\n"}
{"template": "{% with g 1 %}{{ y }}{{ g.y }}{{ g[0] }}{% endwith %}a", "written": "a"}
{"template": "{% glob %}{{ y }}{{ s }}{% endglob %}a", "written": "a"}
{"template": "{% sbox %}{{ y }}{% with x 1 %}{{ x.y }}{{ x }}{% endwith %}{% sbox %}{{ b }}{% endsbox %}{% endsbox %}a", "data": {"b": 2}, "written": "1a"}
{"template": "{% swap %}{{ y }}a{% mid %}{{ b }}{{ s }}{% endswap %}", "data": {"b": 2}, "written": "2a"}
{"template": "{% with g y %}[{{ g }}]{% endwith %}", "written": "[]"}
{"template": "{% box %}{{ y }}{% brk %}{{ y[0] }}b{% endbox %}", "written": "[]"}
{"template": "{% sbox %}{% inc p %}{% endsbox %}", "data": {"b": 2}, "partials": [["p", "p{{ b }}{% set x 7 %}"], ["r", "{{ y }}r{{ x[y] }}"]], "written": "p", "assigned": {"x": "7"}}
{"template": "{% with b 3 %}{% inc p %}{% endwith %}{% inc p %}", "partials": [["p", "p{{ b }}{% set x 7 %}"], ["r", "{{ y }}r{{ x[y] }}"]], "written": "p3p", "assigned": {"x": "7"}}"#;
