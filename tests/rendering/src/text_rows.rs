//! Templates of the test plug-ins with their results.

/// Texts and names.
pub(crate) const NAMES: &str =
    r#"{"template": "Hello {{ name }}!", "globals": {"name": "World"}, "written": "Hello World!"}
{"template": "", "written": ""}
{"template": "    \n    {{ exp }}    \n    ", "globals": {"exp": 5}, "written": "    \n    5    \n    "}
{"template": "    \n    {{- exp }}    \n    ", "globals": {"exp": 5}, "written": "5    \n    "}
{"template": "    \n    {{ exp -}}    \n    ", "globals": {"exp": 5}, "written": "    \n    5"}
{"template": "    \n    {{- exp -}}    \n    ", "globals": {"exp": 5}, "written": "5"}
{"template": "a{{ x }}b", "written": "a", "error": "liquid: Unknown variable\n  with:\n    requested variable=x\n", "lenient": {"written": "ab"}}
{"template": "{{ ! }}", "written": "", "error": "liquid: Invalid liquid (line 1, column 1)\n"}
{"template": "a \n {{- ! }}", "written": "", "error": "liquid: Invalid liquid (line 2, column 2)\n"}
{"template": "é€😀{{ ! }}", "written": "", "error": "liquid: Invalid liquid (line 1, column 4)\n"}
{"template": "é{{ x }}😀\n{{ x }}", "globals": {"x": "ü€"}, "written": "éü€😀\nü€"}
{"template": "[{{ x }}]", "globals": {"x": null}, "written": "[]"}
{"template": "{{ x }} {{ y }}", "globals": {"x": -9223372036854775808, "y": 9223372036854775807}, "written": "-9223372036854775808 9223372036854775807"}
{"template": "{{ post-title }}{{post_title}}", "globals": {"post-title": "a", "post_title": "b"}, "written": "ab"}
{"template": "{ {{ x }} }} } {", "globals": {"x": "y"}, "written": "{ y }} } {"}
{"template": "{{ items }} {{ pairs }}", "globals": {"items": [1, "a", null], "pairs": {"b": 2, "a": "x"}}, "written": "1a axb2"}
{"template": "{{ nil }}", "written": ""}"#;

/// Expressions, paths and filters.
pub(crate) const EXPRESSIONS: &str = r#"{"template": "a {{-5}} b", "written": "a5 b"}
{"template": "{{ 4.5 }}", "written": "", "error": "liquid: Decimal not supported (line 1, column 4)\n"}
{"template": "{{ 9223372036854775808 }}", "written": "", "error": "liquid: Integer out of range (line 1, column 4)\n"}
{"template": "{{ -9223372036854775808 }}", "written": "-9223372036854775808"}
{"template": "{{ a.size.size }}", "globals": {"a": [0, 1, 2, 3, 4, 5, 6, 7, 8, 9]}, "written": "2"}
{"template": "{{ a[-11] }}", "globals": {"a": [0, 1, 2, 3, 4, 5, 6, 7, 8, 9]}, "written": "", "error": "liquid: Unknown index\n  with:\n    variable=a\n    requested index=-11\n    available indexes=0..9, first, last\n", "lenient": {"written": ""}}
{"template": "{{ a[-1] }}{{ a.first }}{{ a['last'] }}", "globals": {"a": [0, 1, 2, 3, 4, 5, 6, 7, 8, 9]}, "written": "909"}
{"template": "{{ 5 | fail }}", "written": "", "error": "liquid: bad\nfrom: Filter error\n  with:\n    filter=fail\n    input=5\n"}
{"template": "{{ a | nope }}", "written": "", "error": "liquid: Unknown filter (line 1, column 8)\n  with:\n    requested filter=nope\n    available filters=append, fail\n"}
{"template": "{{ \"a\" | append: \"b\" | append: 1 }}", "written": "ab1"}
{"template": "{{ a[b] }}", "globals": {"a": {"b": 2, "a": "x"}, "b": [1, "a", null]}, "written": "", "error": "liquid: Expected scalar\n  with:\n    found=[1, a, , ]\n"}
{"template": "{{ x[y] }}", "written": "", "error": "liquid: Unknown variable\n  with:\n    requested variable=y\n", "lenient": {"written": "", "error": "liquid: Expected scalar\n  with:\n    found=nil\n"}}
{"template": "{{ x | append: \"y\" }}", "written": "", "error": "liquid: Unknown variable\n  with:\n    requested variable=x\n", "lenient": {"written": "y"}}
{"template": "{{ x.y }}", "globals": {"x": {"z": 1}}, "written": "", "error": "liquid: Unknown index\n  with:\n    variable=x\n    requested index=y\n    available indexes=z\n", "lenient": {"written": ""}}
{"template": "{{ x[b] }}", "globals": {"x": {"z": 1}}, "written": "", "error": "liquid: Unknown variable\n  with:\n    requested variable=b\n", "lenient": {"written": "", "error": "liquid: Expected scalar\n  with:\n    found=nil\n"}}
{"template": "{{ 5 | append }}", "written": "", "error": "liquid: Unexpected arguments\nfrom: Filter parsing error\n  with:\n    filter=append\n"}
{"template": "a {{ p.a | append: p['b'] }}{{ p.c }}", "globals": {"p": {"b": 2, "a": "x"}}, "written": "a x2", "error": "liquid: Unknown index\n  with:\n    variable=p\n    requested index=c\n    available indexes=a, b\n", "lenient": {"written": "a x2"}}"#;

/// Tags and blocks.
pub(crate) const BLOCKS: &str =
    r#"{"template": "{% raw %}{{ a }}{{% endraw %}", "written": "{{ a }}{"}
{"template": "{% raw %} x {%- endraw %}", "written": " x"}
{"template": "{% box %}a{% endbox 1 %}", "written": "", "error": "liquid: Unexpected token (line 1, column 21)\n"}
{"template": "{% box %}a", "written": "", "error": "liquid: Unclosed block. {% endbox %} tag expected. (line 1, column 11)\n"}
{"template": "{% sbox %}x{% brk %}y{% endsbox %}z", "written": "xz"}
{"template": "{% box %}x{% brk %}y{% endbox %}z", "written": "[x]"}
{"template": "{% swap %}a{% mid %}b{% endswap %}", "written": "ba"}
{"template": "{% mid %}", "written": "", "error": "liquid: Unknown tag. (line 1, column 4)\n  with:\n    requested=mid\n    available tags=brk, inc, set\n    available blocks=box, glob, raw, sbox, swap, with\n"}
{"template": "{% box %}{% endbox %}", "written": "[]"}
{"template": "{% raw %}{% endraw 1 %}{% endraw %}", "written": "{% endraw 1 %}"}
{"template": "{% raw %}{% raw %}a{% endraw %}", "written": "{% raw %}a"}
{"template": "{% raw %}{{ 4.5 }}{% endraw %}", "written": "{{ 4.5 }}"}
{"template": "{% box 1 %}a{% endbox %}", "written": "", "error": "liquid: Unexpected token (line 1, column 8)\n"}
{"template": "{% box %}{% endbox 4.5 %}", "written": "", "error": "liquid: Decimal not supported (line 1, column 20)\n"}"#;

/// Frames, globals and sandboxes.
pub(crate) const FRAMES: &str =
    r#"{"template": "{% with x 1 %}{% set x 2 %}{{ x }}{% endwith %}{{ x }}", "written": "12"}
{"template": "{% set g 1 %}{% glob %}{{ g }}{% set g 5 %}{{ g }}{% endglob %}{{ g }}", "written": "151"}
{"template": "{% glob %}{% set g 5 %}{{ g }}{% endglob %}{{ g }}", "written": "5", "error": "liquid: Unknown variable\n  with:\n    requested variable=g\n", "lenient": {"written": "5"}}
{"template": "{% inc p %}", "written": "", "error": "liquid: Partial does not exist\n  with:\n    name=p\n"}
{"template": "{% sbox %}{{ x }}{% endsbox %}", "globals": {"x": 1}, "written": "", "error": "liquid: Unknown variable\n  with:\n    requested variable=x\n", "lenient": {"written": ""}}
{"template": "{% sbox %}{% set x 2 %}{% endsbox %}{{ x }}", "globals": {"x": 1}, "written": "2"}
{"template": "{% set %}", "written": "", "error": "liquid: Token expected (line 1, column 7)\n"}
{"template": "{% set x 2 %}{{ x }}", "globals": {"x": 1}, "written": "2"}
{"template": "a{% inc p %}", "written": "a", "error": "liquid: Partial does not exist\n  with:\n    name=p\n"}"#;
