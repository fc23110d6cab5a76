//! Blocks that escape, with starts in their bodies that nest and that do not.
use crate::languages::plain_tables_hold;
use crate::nested::nested_language;
use crate::pages::tables_hold;
use std::test::Fail;

/// Bodies with starts that don't nest: the first end ends the block.
const FLAT: &str = r#"{"template": "{% raw %}{% raw %}a{% endraw %}b", "written": "{% raw %}ab"}
{"template": "{% raw %}a{% raw %}b{% endraw %}c{% endraw %}", "written": "", "error": "liquid: Unknown tag. (line 1, column 37)\n  with:\n    requested=endraw\n    available tags=brk, inc, set\n    available blocks=box, glob, raw, sbox, swap, with\n"}
{"template": "{% raw %} a {%- endraw -%} b", "written": " ab"}
{"template": "{% raw -%} a {% endraw %} b", "written": "a  b"}
{"template": "{% raw %}{{ 4.5 }}{{% endraw %}", "written": "{{ 4.5 }}{"}
{"template": "{% box %}{% raw %}{% endbox %}{% endraw %}{% endbox %}", "written": "[{% endbox %}]"}
{"template": "{% raw %}{% endraw %}{% raw %}{% endraw %}a", "written": "a"}"#;

/// Bodies with starts that nest: each has its own end.
const NESTED: &str = r#"{"template": "{% raw %}a{% endraw %}b", "written": "ab"}
{"template": "{% raw %}{% raw %}a{% endraw %}b{% endraw %}c", "written": "{% raw %}a{% endraw %}bc"}
{"template": "{% raw %}{% raw %}{% raw %}a{% endraw %}{% endraw %}{% endraw %}b", "written": "{% raw %}{% raw %}a{% endraw %}{% endraw %}b"}
{"template": "{% raw %}{%- raw x -%}a{% endraw %}b{% endraw %}c", "written": "{%- raw x -%}a{% endraw %}bc"}
{"template": "{% raw %}a{% endraw 1 %}b{% endraw %}c", "written": "a{% endraw 1 %}bc"}
{"template": "{% raw %}{{ raw }}{{% endraw %}c", "written": "{{ raw }}{c"}
{"template": "{% raw %}{% raw %}a{% endraw %}b", "written": "", "error": "liquid: Unclosed block. {% endraw %} tag expected. (line 1, column 33)\n"}
{"template": "é\n{% raw %}{% raw %}{% raw %}{% endraw %}{% endraw %}\n", "written": "", "error": "liquid: Unclosed block. {% endraw %} tag expected. (line 3, column 1)\n"}
{"template": "{% raw 1 %}a{% endraw %}", "written": "", "error": "liquid: Unexpected token (line 1, column 8)\n"}
{"template": "{% raw %}{% raw %}a{% endraw %}{% endraw %}{% raw %}b{% endraw %}", "written": "{% raw %}a{% endraw %}b"}"#;

#[test]
fn bodies_are_escaped(rt: HostRuntime) -> Result<(), Fail> {
    let alloc = rt.alloc();
    plain_tables_hold(alloc, &[(FLAT, 7)], false)?;
    tables_hold(alloc, &[(NESTED, 10)], false, nested_language(alloc))
}
