//! Templates with the tags and blocks of the library.
use crate::kinds::source;
use crate::library_language::library_tables_hold;
use crate::pages::{globals, is_row_result};
use liquid_core::TextSink;
use liquid_core::parser::PluginRegistry;
use liquid_tags::render_page;
use rows::{Row, templates_hold};
use std::alloc::Global;
use std::test::Fail;
use test_plugins::Filters;
use test_plugins::languages::filters;

/// `assign`, `increment`, `raw`, and an interrupt without a loop.
const PLAIN: &str = r#"{"template": "{% increment n %}{% increment n %}{{ n }}", "written": "012"}
{"template": "{% assign n = 7 %}{% increment n %}{{ n }}", "written": "07"}
{"template": "{% assign x = 1 | nope %}", "written": "", "error": "liquid: Unexpected token (line 1, column 15)\n"}
{"template": "{% assign x = \"a\" | append: \"b\" %}{{ x }}", "written": "ab"}
{"template": "a{% break %}b", "written": "a"}
{"template": "{% raw %}{{ a }}{% raw %}{% endraw %}", "written": "{{ a }}{% raw %}"}
{"template": "{% increment n %}{% assign n = 1 %}", "written": "0"}
{"template": "{% assign x = 1 %}{{ x }}{% assign x = \"b\" %}{{ x }}", "written": "1b"}
{"template": "{% assign x = y %}", "written": "", "error": "liquid: Unknown variable\n  with:\n    requested variable=y\n", "lenient": {"written": ""}}
{"template": "{% assign x %}", "written": "", "error": "liquid: Token expected (line 1, column 12)\n"}
{"template": "{% assign %}", "written": "", "error": "liquid: Token expected (line 1, column 10)\n"}
{"template": "{% assign x = 1 2 %}", "written": "", "error": "liquid: Unexpected token (line 1, column 17)\n"}
{"template": "{% increment %}", "written": "", "error": "liquid: Token expected (line 1, column 13)\n"}
{"template": "{% increment a b %}", "written": "", "error": "liquid: Unexpected token (line 1, column 16)\n"}
{"template": "{% break 1 %}", "written": "", "error": "liquid: Unexpected token (line 1, column 10)\n"}
{"template": "a{% continue %}b", "written": "a"}
{"template": "{% raw 1 %}{% endraw %}", "written": "", "error": "liquid: Unexpected token (line 1, column 8)\n"}
{"template": "{% raw %} {{ a }} {%- endraw -%} b", "written": " {{ a }}b"}"#;

/// `if`.
const CONDITIONS: &str =
    r#"{"template": "{% if 1 < \"2\" %}a{% else %}b{% endif %}", "written": "b"}
{"template": "{% if x %}a{% elsif true %}b{% endif %}", "written": "b"}
{"template": "{% if false %}a{% endif %}c", "written": "c"}
{"template": "{% if 1 <> 2 %}a{% endif %}{% if 1 != 1 %}b{% endif %}{% if 2 >= 2 %}c{% endif %}{% if 2 <= 1 %}d{% endif %}{% if 2 > 1 %}e{% endif %}", "written": "ace"}
{"template": "{% if 1 %}{% else %}{% else %}{% endif %}", "written": "", "error": "liquid: Divider after else (line 1, column 28)\n"}
{"template": "{% if 1 %}{% else %}{% elsif 1 %}{% endif %}", "written": "", "error": "liquid: Divider after else (line 1, column 29)\n"}
{"template": "{% if %}{% endif %}", "written": "", "error": "liquid: Token expected (line 1, column 6)\n"}
{"template": "{% if x and y %}{% endif %}", "written": "", "error": "liquid: Unexpected token (line 1, column 9)\n"}
{"template": "{% if x == 1 2 %}{% endif %}", "written": "", "error": "liquid: Unexpected token (line 1, column 14)\n"}
{"template": "{% if true %}a{% elsif x == 1 %}b{% endif %}", "written": "a"}
{"template": "{% if false %}a{% elsif x == 1 %}b{% endif %}", "written": "", "error": "liquid: Unknown variable\n  with:\n    requested variable=x\n", "lenient": {"written": ""}}
{"template": "{% if false %}a{% elsif true %}b{% elsif x == 1 %}c{% else %}d{% endif %}", "written": "b"}
{"template": "{% if x < y %}{% endif %}", "written": "", "error": "liquid: Unknown variable\n  with:\n    requested variable=x\n", "lenient": {"written": ""}}
{"template": "{% if 1 < y %}{% endif %}", "written": "", "error": "liquid: Unknown variable\n  with:\n    requested variable=y\n", "lenient": {"written": ""}}
{"template": "{% if a.b %}y{% else %}n{% endif %}{% if a.c %}y{% else %}n{% endif %}", "globals": {"a": {"b": 1}}, "written": "yn"}
{"template": "{% if nil %}a{% elsif false %}b{% elsif 0 %}c{% endif %}", "written": "c"}
{"template": "{% if 1 == 1 %}a{% if 2 == 3 %}b{% else %}c{% endif %}{% endif %}", "written": "ac"}
{"template": "{% if \"a\" < \"b\" %}y{% endif %}{% if 2 > 10 %}n{% endif %}", "written": "y"}"#;

/// `for`.
const LOOPS: &str = r#"{"template": "{% for i in (1..3) %}{{ i }}{% endfor %}", "written": "123"}
{"template": "{% for x in a %}{% if x == 2 %}{% continue %}{% endif %}{{ x }}{% if x == 3 %}{% break %}{% endif %}{% else %}none{% endfor %}", "globals": {"a": [1, 2, 3, 4]}, "written": "13"}
{"template": "{% for x in a %}{% if x == 2 %}{% continue %}{% endif %}{{ x }}{% if x == 3 %}{% break %}{% endif %}{% else %}none{% endfor %}", "globals": {"a": []}, "written": "none"}
{"template": "{% for i in (3..1) %}x{% else %}e{% endfor %}", "written": "e"}
{"template": "{% for i in (1..1000001) %}{% endfor %}", "written": "", "error": "liquid: Range too long\n  with:\n    start=1\n    stop=1000001\n"}
{"template": "{% for i in (-9223372036854775808..9223372036854775807) %}{% endfor %}", "written": "", "error": "liquid: Range too long\n  with:\n    start=-9223372036854775808\n    stop=9223372036854775807\n"}
{"template": "{% for i in (9223372036854775806..9223372036854775807) %}{{ i }} {% endfor %}", "written": "9223372036854775806 9223372036854775807 "}
{"template": "{% for x in a %}{% else %}{% else %}{% endfor %}", "written": "", "error": "liquid: Divider after else (line 1, column 34)\n"}
{"template": "{% for i in 5 %}{% endfor %}", "written": "", "error": "liquid: Array expected\n  with:\n    found=5\n"}
{"template": "{% for i in nil %}a{% else %}b{% endfor %}", "written": "b"}
{"template": "{% for i in (\"a\"..x) %}{% endfor %}", "written": "", "error": "liquid: Whole number expected\n  with:\n    found=\"a\"\n"}
{"template": "{% for p in o %}{{ p[0] }}={{ p[1] }};{% endfor %}", "globals": {"o": {"b": 2, "a": "x"}}, "written": "a=x;b=2;"}
{"template": "{% for x in a %}{{ forloop.index }}{{ forloop.index0 }}{{ forloop.rindex }}{{ forloop.rindex0 }}{{ forloop.first }}{{ forloop.last }}{{ forloop.length }} {% endfor %}", "globals": {"a": [7, 8, 9]}, "written": "1032truefalse3 2121falsefalse3 3210falsetrue3 "}
{"template": "{% for forloop in (1..2) %}{{ forloop }}{% endfor %}", "written": "12"}
{"template": "{% for a in (1..3) %}{{ a }}{{ forloop.index0 }}{{ forloop.last }} {% endfor %}", "written": "10false 21false 32true "}
{"template": "{% for i in (1..3) %}{% if i == 2 %}{% assign f = forloop %}{% endif %}{% endfor %}{{ f.index }}{{ f.first }}{{ f.last }}", "written": "2falsefalse"}
{"template": "{% for i in (1..3) %}{% assign g = f %}{% assign f = forloop %}{{ g.index }}{{ f.index }} {% endfor %}", "globals": {"f": {"index": 0}}, "written": "01 12 23 "}
{"template": "{% for x in a %}{% if forloop.first %}{% assign y = x %}{% endif %}{% endfor %}{{ y.n }}", "globals": {"a": [{"n": 1}, {"n": 2}, {"n": 3}]}, "written": "1"}
{"template": "{% for x in a %}{% assign a = x %}{{ a }}{% endfor %}{{ a }}", "globals": {"a": [1, 2, 3]}, "written": "1233"}
{"template": "{% for i in (1..2) %}{% for i in (3..4) %}{{ i }}{{ forloop.index }}{% endfor %}{{ i }}{{ forloop.index }};{% endfor %}", "written": "314211;314222;"}
{"template": "{% assign b = a %}{% for x in a %}{% for y in b %}{{ x }}{{ y }} {% endfor %}{% endfor %}", "globals": {"a": [1, 2]}, "written": "11 12 21 22 "}
{"template": "{% for p in o %}{{ p[0] }}{{ p[1].n }}{% endfor %}{{ o.a.n }}", "globals": {"o": {"a": {"n": 1}, "b": {"n": 2}}}, "written": "a1b21"}
{"template": "{% for x in a %}{% for y in (1..2) %}{% if y == 2 %}{% break %}{% endif %}{{ x }}{{ y }}{% endfor %}-{% endfor %}", "globals": {"a": [1, 2]}, "written": "11-21-"}
{"template": "{% for x in a %}{{ x }}{% break %}{% endfor %}c", "globals": {"a": [1]}, "written": "1c"}
{"template": "{% for x in a %}{% else %}e{% break %}f{% endfor %}g", "globals": {"a": []}, "written": "e"}
{"template": "{% for i in empty %}a{% else %}b{% endfor %}", "written": "b"}
{"template": "{% for c in \"abc\" %}{% endfor %}", "written": "", "error": "liquid: Array expected\n  with:\n    found=\"abc\"\n"}
{"template": "{% for i in (x..y) %}{% endfor %}", "written": "", "error": "liquid: Unknown variable\n  with:\n    requested variable=x\n", "lenient": {"written": "", "error": "liquid: Whole number expected\n  with:\n    found=nil\n"}}
{"template": "{% for i in (\"a\"..y) %}{% endfor %}", "written": "", "error": "liquid: Whole number expected\n  with:\n    found=\"a\"\n"}
{"template": "{% for i in (1..y) %}{% endfor %}", "written": "", "error": "liquid: Unknown variable\n  with:\n    requested variable=y\n", "lenient": {"written": "", "error": "liquid: Whole number expected\n  with:\n    found=nil\n"}}
{"template": "{% for i in (1..a) %}{% endfor %}", "globals": {"a": [1]}, "written": "", "error": "liquid: Whole number expected\n  with:\n    found=[1, ]\n"}
{"template": "{% for i in (x..y) %}{{ i }}{% endfor %}", "globals": {"x": 2, "y": 4}, "written": "234"}
{"template": "{% for i in (-1..1) %}{{ i }} {% endfor %}", "written": "-1 0 1 "}
{"template": "{% for i in (1..1000000) %}{{ i }}{% break %}{% endfor %}{{ \"b\" }}", "written": "1b"}
{"template": "{% for i in (2..2) %}{{ i }}{{ forloop.first }}{{ forloop.last }}{% endfor %}", "written": "2truetrue"}
{"template": "{% for x in (1..2) %}{% for y in (1..2) %}{{ forloop.index }}{% endfor %}{{ forloop.index }};{% endfor %}", "written": "121;122;"}
{"template": "{% for x in (1..2) %}{% assign y = x %}{% endfor %}{{ y }}", "written": "2"}
{"template": "{% for x in (1..2) %}{% assign x = 9 %}{{ x }}{% endfor %}{{ x }}", "written": "129"}
{"template": "{% for x in a %}{% if x == 1 %}{% continue %}{% endif %}{{ x }}{% endfor %}c", "globals": {"a": [1]}, "written": "c"}
{"template": "{% for p in o %}{{ p }};{% endfor %}", "globals": {"o": {"b": 2, "a": "x"}}, "written": "ax;b2;"}
{"template": "{% for p in o %}{{ p }}{% else %}e{% endfor %}", "globals": {"o": {}}, "written": "e"}
{"template": "{% for x in a %}{% for y in x %}{{ y }}{% endfor %}.{% endfor %}", "globals": {"a": [[1, 2], [3]]}, "written": "12.3."}
{"template": "{% for x in a %}{% endfor %}{{ x }}", "globals": {"a": [1]}, "written": "", "error": "liquid: Unknown variable\n  with:\n    requested variable=x\n", "lenient": {"written": ""}}
{"template": "{% for x %}{% endfor %}", "written": "", "error": "liquid: Token expected (line 1, column 9)\n"}
{"template": "{% for x of a %}{% endfor %}", "written": "", "error": "liquid: Unexpected token (line 1, column 10)\n"}
{"template": "{% for x in %}{% endfor %}", "written": "", "error": "liquid: Token expected (line 1, column 12)\n"}
{"template": "{% for x in a b %}{% endfor %}", "written": "", "error": "liquid: Unexpected token (line 1, column 15)\n"}
{"template": "{% for x in a %}{{ x }}{{ b }}{% endfor %}", "globals": {"a": [1, 2]}, "written": "1", "error": "liquid: Unknown variable\n  with:\n    requested variable=b\n", "lenient": {"written": "12"}}
{"template": "{% for x in a %}{{ x }}{% else %}none{% endfor %}", "globals": {"a": [1, 2]}, "written": "12"}
{"template": "{% for x in a %}{{ x }}{% else %}none{% endfor %}", "globals": {"a": []}, "written": "none"}
{"template": "{% for x in a %}{{ forloop.index }}{{ forloop.rindex }} {% endfor %}", "globals": {"a": [7, 8, 9]}, "written": "13 22 31 "}
{"template": "{% for x in a %}{% if x == 2 %}{% continue %}{% endif %}{{ x }}{% if x == 3 %}{% break %}{% endif %}{% endfor %}", "globals": {"a": [1, 2, 3, 4]}, "written": "13"}
{"template": "{% for i in (\"1\"..\"3\") %}{{ i }}{% endfor %}", "written": "123"}"#;

/// `include` and `render`.
const PARTIALS: &str =
    r#"{"partials": [["p", "{{ x }}{% assign g = 1 %}{% increment c %}"]], "template": "{% assign x = 9 %}{% render \"p\", x: 2 %}{{ g }}{{ c }}", "written": "2011"}
{"partials": [["p", "{{ y }}"]], "template": "{% render \"p\" %}", "globals": {"y": 1}, "written": "", "error": "liquid: Unknown variable\n  with:\n    requested variable=y\nfrom: render p\n", "lenient": {"written": ""}}
{"partials": [["p", "{{ y }}"]], "template": "{% include \"p\" %}", "globals": {"y": 1}, "written": "1"}
{"partials": [["p", "{{ x }}"]], "template": "{% include \"p\", x: 1, x: 2 %}", "written": "2"}
{"partials": [["p", "a"]], "template": "{% include a %}", "globals": {"a": [1]}, "written": "", "error": "liquid: Partial name expected\n  with:\n    found=[1, ]\n"}
{"partials": [], "template": "{% include \"p\" x: 1 %}", "written": "", "error": "liquid: Unexpected token (line 1, column 16)\n"}
{"partials": [], "template": "{% include \"p\", %}", "written": "", "error": "liquid: Token expected (line 1, column 16)\n"}
{"partials": [], "template": "{% include \"p\", x %}", "written": "", "error": "liquid: Token expected (line 1, column 18)\n"}
{"partials": [], "template": "{% include \"p\", x: %}", "written": "", "error": "liquid: Token expected (line 1, column 19)\n"}
{"partials": [], "template": "{% include x, y: z %}", "written": "", "error": "liquid: Unknown variable\n  with:\n    requested variable=x\n", "lenient": {"written": "", "error": "liquid: Partial name expected\n  with:\n    found=nil\n"}}
{"partials": [], "template": "{% include a, y: z %}", "globals": {"a": [1]}, "written": "", "error": "liquid: Partial name expected\n  with:\n    found=[1, ]\n"}
{"partials": [["p", "a"]], "template": "{% include \"p\", x: u, y: w %}", "written": "", "error": "liquid: Unknown variable\n  with:\n    requested variable=u\n", "lenient": {"written": "a"}}
{"partials": [["p", "a"]], "template": "{% include \"q\" %}", "written": "", "error": "liquid: Unknown partial-template\n  with:\n    requested partial=q\n    available partials=p\nfrom: include q\n"}
{"partials": [["1", "a"]], "template": "{% include 1 %}", "written": "a"}
{"partials": [["b", "{% break %}"]], "template": "{% for x in (1..3) %}{% include \"b\" %}{{ x }}{% endfor %}z", "written": "z"}
{"partials": [["b", "{% break %}"]], "template": "{% for x in (1..3) %}{% render \"b\" %}{{ x }}{% endfor %}z", "written": "123z"}
{"partials": [["p", "{{ x }}"]], "template": "{% assign x = 1 %}{% include \"p\", x: 2 %}{{ x }}", "written": "21"}
{"partials": [["p", "{% assign y = 5 %}"]], "template": "{% include \"p\" %}{{ y }}", "written": "5"}
{"partials": [["p", "{{ x }}{{ forloop.index }}"]], "template": "{% for x in (1..2) %}{% include \"p\" %}{% endfor %}", "written": "1122"}
{"partials": [["p", "{{ forloop.index }}"]], "template": "{% for x in (1..2) %}{% render \"p\" %}{% endfor %}", "written": "", "error": "liquid: Unknown variable\n  with:\n    requested variable=forloop\nfrom: render p\n", "lenient": {"written": ""}}
{"partials": [["a", "x{% render \"b\" %}"], ["b", "{{ y }}"]], "template": "{% include \"a\" %}", "written": "x", "error": "liquid: Unknown variable\n  with:\n    requested variable=y\nfrom: render b\nfrom: include a\n", "lenient": {"written": "x"}}"#;

/// Returns `true` if a row passes with `render_page` and these filters.
fn is_page_with(alloc: Global, row: &Row, filters: PluginRegistry<Filters>) -> bool {
    match globals(alloc, row).zip(source(alloc, row)) {
        Some((globals, source)) => {
            let mut sink = TextSink::new(alloc);
            let answer = render_page(alloc, row.template(), globals, source, filters, &mut sink);
            is_row_result(alloc, row, &sink, &answer)
        }
        None => false,
    }
}

/// Returns `true` if a row passes with `render_page`.
fn is_page(alloc: Global, row: &Row) -> bool {
    match filters(alloc) {
        Ok(filters) => is_page_with(alloc, row, filters),
        Err(_) => false,
    }
}

/// Fails for the first row of a table that does not pass with `render_page`.
fn are_pages(alloc: Global, rows: &str) -> Result<(), Fail> {
    templates_hold(alloc, rows, is_page)
}

#[test]
fn pages_come_to_what_they_mean(rt: HostRuntime) -> Result<(), Fail> {
    let alloc = rt.alloc();
    are_pages(alloc, PLAIN)?;
    are_pages(alloc, CONDITIONS)?;
    are_pages(alloc, LOOPS)?;
    are_pages(alloc, PARTIALS)
}

#[test]
fn templates_of_the_library_come_to_what_they_mean(rt: HostRuntime) -> Result<(), Fail> {
    let tables = [(PLAIN, 18), (CONDITIONS, 18), (LOOPS, 53)];
    library_tables_hold(rt.alloc(), &tables, false)
}

#[test]
fn partials_of_the_library_are_the_same_from_each_store(rt: HostRuntime) -> Result<(), Fail> {
    library_tables_hold(rt.alloc(), &[(PARTIALS, 21)], true)
}
