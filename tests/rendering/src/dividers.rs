//! Dividers with tokens, and dividers where none is allowed.
use crate::languages::plain_tables_hold;
use crate::library_language::library_tables_hold;
use std::test::Fail;

/// A divider of the test plug-ins takes no token.
const PLAIN: &str = r#"{"template": "{% swap %}a{% mid %}b{% endswap %}", "written": "ba"}
{"template": "{% swap %}a{%-mid-%} b{% endswap %}", "written": "ba"}
{"template": "{% swap %}a{% mid 1 %}b{% endswap %}", "written": "", "error": "liquid: Unexpected token (line 1, column 19)\n"}
{"template": "{% swap %}a\n{% mid  x | append: 1 %}b{% endswap %}", "written": "", "error": "liquid: Unexpected token (line 2, column 9)\n"}
{"template": "{% swap %}a{% mid 4.5 %}b{% endswap %}", "written": "", "error": "liquid: Decimal not supported (line 1, column 19)\n"}
{"template": "{% swap %}a{% mid %}b{% mid == %}c{% endswap %}", "written": "", "error": "liquid: Unexpected token (line 1, column 29)\n"}
{"template": "{% box %}a{% mid %}b{% endbox %}", "written": "", "error": "liquid: Unknown tag. (line 1, column 14)\n  with:\n    requested=mid\n    available tags=brk, inc, set\n    available blocks=box, glob, raw, sbox, swap, with\n"}
{"template": "{% swap %}{% box %}{% mid %}{% endbox %}{% endswap %}", "written": "", "error": "liquid: Unknown tag. (line 1, column 23)\n  with:\n    requested=mid\n    available tags=brk, inc, set\n    available blocks=box, glob, raw, sbox, swap, with\n"}
{"template": "{% swap %}{% swap %}a{% mid %}b{% endswap %}{% mid %}c{% endswap %}", "written": "cba"}"#;

/// Dividers of the tag library: `elsif` takes a condition, `else` nothing.
const LIBRARY: &str =
    r#"{"template": "{% if x == 1 %}a{% elsif x == 2 %}b{% elsif x %}c{% else %}d{% endif %}", "globals": {"x": 2}, "written": "b"}
{"template": "{% if x == 1 %}a{% elsif x == 2 %}b{% elsif x %}c{% else %}d{% endif %}", "globals": {"x": 3}, "written": "c"}
{"template": "{% if x == 1 %}a{% elsif x == 2 %}b{% elsif x %}c{% else %}d{% endif %}", "globals": {"x": null}, "written": "d"}
{"template": "{% if 1 %}{% elsif %}{% endif %}", "written": "", "error": "liquid: Token expected (line 1, column 19)\n"}
{"template": "{% if 1 %}{% elsif x y %}{% endif %}", "written": "", "error": "liquid: Unexpected token (line 1, column 22)\n"}
{"template": "{% if 1 %}{% elsif x == %}{% endif %}", "written": "", "error": "liquid: Token expected (line 1, column 24)\n"}
{"template": "{% if 1 %}{% elsif == 1 %}{% endif %}", "written": "", "error": "liquid: Unexpected token (line 1, column 20)\n"}
{"template": "{% if 1 %}\n{% else 1 %}{% endif %}", "written": "", "error": "liquid: Unexpected token (line 2, column 9)\n"}
{"template": "{% for i in (1..2) %}{{ i }}{% else x %}{% endfor %}", "written": "", "error": "liquid: Unexpected token (line 1, column 37)\n"}
{"template": "{% for i in (1..2) %}{{ i }}{% elsif x %}{% endfor %}", "written": "", "error": "liquid: Unknown tag. (line 1, column 32)\n  with:\n    requested=elsif\n    available tags=assign, break, continue, include, increment, render\n    available blocks=for, if, raw\n"}
{"template": "{% if 1 %}{% else %}{% elsif 4.5 %}{% endif %}", "written": "", "error": "liquid: Decimal not supported (line 1, column 30)\n"}"#;

#[test]
fn dividers_are_asked_with_their_tokens(rt: HostRuntime) -> Result<(), Fail> {
    let alloc = rt.alloc();
    plain_tables_hold(alloc, &[(PLAIN, 9)], false)?;
    library_tables_hold(alloc, &[(LIBRARY, 11)], false)
}
