//! Malicious texts: plug-ins that don't end, openers that are not liquid, and more open blocks or brackets than
//! allowed.
use crate::languages::{hostile_table_holds, plain_tables_hold};
use std::alloc::Global;
use std::test::Fail;
use test_plugins::languages::hostile_language;

/// Texts in the language with malicious plug-ins.
const HOSTILE: &str = r#"{"template": "{% spin %}.", "written": "sss."}
{"template": "{% mute %}.", "written": "."}
{"template": "{% far %}a{% endfar %}.", "written": "."}
{"template": "{% b %}x{% endbox %}", "written": "[x]"}
{"template": "{{% box %}a{% endbox %}", "written": "", "error": "liquid: Invalid liquid (line 1, column 1)\n"}
{"template": "{% raw %}{{ a", "written": "", "error": "liquid: Unclosed block. {% endraw %} tag expected. (line 1, column 14)\n"}
{"template": "{% box %}{% sbox %}", "written": "", "error": "liquid: Unclosed block. {% endsbox %} tag expected. (line 1, column 20)\n"}
{"template": "{% endbox %}", "written": "", "error": "liquid: Unknown tag. (line 1, column 4)\n  with:\n    requested=endbox\n    available tags=brk, inc, mute, set, spin\n    available blocks=b, box, far, glob, raw, sbox, swap, with\n"}
{"template": "a \n {{- ! }}", "written": "", "error": "liquid: Invalid liquid (line 2, column 2)\n"}
{"template": "a\n  {{ 4.5 }}", "written": "", "error": "liquid: Decimal not supported (line 2, column 6)\n"}
{"template": "é{{ 4.5 }}", "written": "", "error": "liquid: Decimal not supported (line 1, column 5)\n"}
{"template": "{{ +9223372036854775807 }}", "written": "9223372036854775807"}
{"template": "{{ -9223372036854775809 }}", "written": "", "error": "liquid: Integer out of range (line 1, column 4)\n"}
{"template": "{{ a[-9223372036854775808] }}", "globals": {"a": [0]}, "written": "", "error": "liquid: Unknown index\n  with:\n    variable=a\n    requested index=-9223372036854775808\n    available indexes=0..0, first, last\n", "lenient": {"written": ""}}
{"template": "{{ a[-9223372036854775808] }}", "globals": {"a": [1]}, "written": "", "error": "liquid: Unknown index\n  with:\n    variable=a\n    requested index=-9223372036854775808\n    available indexes=0..0, first, last\n", "lenient": {"written": ""}}"#;

#[test]
fn malicious_templates_are_rendered(rt: HostRuntime) -> Result<(), Fail> {
    let alloc = rt.alloc();
    hostile_table_holds(alloc, (HOSTILE, 15), hostile_language(alloc))
}

/// Returns texts one after another, each repeated that many times, or `None` if memory runs out.
fn repeated(alloc: Global, texts: &[(&str, usize)]) -> Option<String> {
    let mut all = String::new(alloc);
    for (text, count) in texts {
        for _ in 0..*count {
            if all.push_str(text).is_err() {
                return None;
            }
        }
    }
    Some(all)
}

/// Fails for a row, given as texts that are repeated, that does not pass with each of the calls that render.
fn row_holds(alloc: Global, texts: &[(&str, usize)]) -> Result<(), Fail> {
    match repeated(alloc, texts) {
        Some(line) => plain_tables_hold(alloc, &[(line.as_str(), 1)], false),
        None => Err(Fail::from("a row runs out of memory")),
    }
}

#[test]
fn a_hundred_blocks_may_be_open(rt: HostRuntime) -> Result<(), Fail> {
    let hundred = [
        (r#"{"template": ""#, 1),
        ("{% box %}", 100),
        ("{% endbox %}", 100),
        (r#"", "written": ""#, 1),
        ("[", 100),
        ("]", 100),
        (r#""}"#, 1),
    ];
    row_holds(rt.alloc(), &hundred)?;
    let one_more = [
        (r#"{"template": ""#, 1),
        ("{% box %}", 101),
        ("{% endbox %}", 101),
        (
            r#"", "written": "", "error": "liquid: Nested too deep (line 1, column 904)\n"}"#,
            1,
        ),
    ];
    row_holds(rt.alloc(), &one_more)
}

#[test]
fn a_hundred_and_one_brackets_are_refused(rt: HostRuntime) -> Result<(), Fail> {
    let row = [
        (r#"{"template": "{{ "#, 1),
        ("a[", 101),
        ("0", 1),
        ("]", 101),
        (
            r#" }}", "written": "", "error": "liquid: Nested too deep (line 1, column 205)\n"}"#,
            1,
        ),
    ];
    row_holds(rt.alloc(), &row)
}
