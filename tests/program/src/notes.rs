//! What `--explain` says of the cause of an error.
use crate::runs::{add_names, add_pages, holds_over};
use liquid_files::InMemoryFolder;
use rows::{Line, rows_hold};
use std::alloc::Global;
use std::test::Fail;

/// Names like an unknown one, in rows as `runs` describes them, over the files of the folder `d` too.
const NAMES: &str =
    r#"["render --explain t g.json", "a{{ titel }}", "{\"title\": 1, \"titles\": 2, \"tite\": 3, \"site\": 4}", 1, "a", "liquid: Unknown variable\n  with:\n    requested variable=titel\n  at t, line 1, column 5\n  1 | a{{ titel }}\n    |     ^^^^^\n  similar names: tite, title\n"]
["render --explain t g.json", "{{ ab }}", "{\"b\": 1, \"abc\": 2, \"xab\": 3, \"ac\": 4, \"ba\": 5, \"abcd\": 6, \"\": 7}", 1, "", "liquid: Unknown variable\n  with:\n    requested variable=ab\n  at t, line 1, column 4\n  1 | {{ ab }}\n    |    ^^\n"]
["render --explain t g.json", "{{ x }}", "{\"title\": 1}", 1, "", "liquid: Unknown variable\n  with:\n    requested variable=x\n  at t, line 1, column 4\n  1 | {{ x }}\n    |    ^\n"]
["render --explain --sandboxed t g.json", "{{ titel }}", "{\"title\": 1}", 1, "", "liquid: Unknown variable\n  with:\n    requested variable=titel\n  at t, line 1, column 4\n  1 | {{ titel }}\n    |    ^^^^^\n"]
["render --explain t g.json d", "{% include \"own\" %}", "{\"title\": 1}", 1, "", "liquid: Unknown variable\n  with:\n    requested variable=titel\nfrom: include own\n  at partial own, line 1, column 4\n  1 | {{ titel }}\n    |    ^^^^^\n  called at t, line 1, column 4\n  similar names: title\n"]
["render --explain t g.json d", "{% render \"own\" %}", "{\"title\": 1}", 1, "", "liquid: Unknown variable\n  with:\n    requested variable=titel\nfrom: render own\n  at partial own, line 1, column 4\n  1 | {{ titel }}\n    |    ^^^^^\n  called at t, line 1, column 4\n"]
["render --explain t g.json", "{{ title.x }}", "{\"title\": {}}", 1, "", "liquid: Unknown index\n  with:\n    variable=title\n    requested index=x\n    available indexes=\n  at t, line 1, column 4\n  1 | {{ title.x }}\n    |    ^^^^^^^\n"]"#;

/// What an error is about, in rows of the same places.
const PLACES: &str =
    r#"["render --explain t g.json", "{% if a and b %}x{% endif %}", "{}", 1, "", "liquid: Unexpected token (line 1, column 9)\n  at t, line 1, column 9\n  1 | {% if a and b %}x{% endif %}\n    |         ^^^ not expected here\n"]
["render --explain t g.json", "x\n{% increment  \"a b\" %}", "{}", 1, "", "liquid: Unexpected token (line 2, column 15)\n  at t, line 2, column 15\n  2 | {% increment  \"a b\" %}\n    |               ^^^^^ not expected here\n"]
["render --explain t g.json", "{% for i in l %}x", "{}", 1, "", "liquid: Unclosed block. {% endfor %} tag expected. (line 1, column 18)\n  at t, line 1, column 18\n  {% endfor %} ends the block that begins at line 1, column 4\n  1 | {% for i in l %}x\n    |    ^^^^^^^^^^ this block has no end\n"]
["render --explain t g.json", "{% if a %}{% endif %}\n é{%- if b %}{% else %}{% for i in l %}{% endfor %}", "{}", 1, "", "liquid: Unclosed block. {% endif %} tag expected. (line 2, column 52)\n  at t, line 2, column 52\n  {% endif %} ends the block that begins at line 2, column 7\n  2 |  é{%- if b %}{% else %}{% for i in l %}{% endfor %}\n    |       ^^^^ this block has no end\n"]
["render --explain t g.json", "{% if a %}{% raw %}{% endif %}", "{}", 1, "", "liquid: Unclosed block. {% endraw %} tag expected. (line 1, column 31)\n  at t, line 1, column 31\n  {% endraw %} ends the block that begins at line 1, column 14\n  1 | {% if a %}{% raw %}{% endif %}\n    |              ^^^ this block has no end\n"]
["render --explain --standard t g.json", "{% case x %}{% raw %}{% endcase %}{% endraw %}{% comment %}{% comment %}{% endcomment %}", "{}", 1, "", "liquid: Unclosed block. {% endcomment %} tag expected. (line 1, column 89)\n  at t, line 1, column 89\n  {% endcomment %} ends the block that begins at line 1, column 50\n  1 | {% case x %}{% raw %}{% endcase %}{% endraw %}{% comment %}{% comment %}{% endcomment %}\n    |                                                  ^^^^^^^ this block has no end\n"]
["render --explain t g.json", "a{% endif %}", "{}", 1, "", "liquid: Unknown tag. (line 1, column 5)\n  with:\n    requested=endif\n    available tags=assign, break, continue, include, increment, render\n    available blocks=for, if, raw\n  at t, line 1, column 5\n  1 | a{% endif %}\n    |     ^^^^^\n  no block is open here\n"]
["render --explain t g.json", "{% if a %}{% for i in l %}{% endif %}", "{}", 1, "", "liquid: Unknown tag. (line 1, column 30)\n  with:\n    requested=endif\n    available tags=assign, break, continue, include, increment, render\n    available blocks=for, if, raw\n  at t, line 1, column 30\n  1 | {% if a %}{% for i in l %}{% endif %}\n    |                              ^^^^^\n  {% endfor %} ends the block that begins at line 1, column 14\n"]
["render --explain t g.json d", "{% include \"open\" %}{% for i in l %}{% endfor %}", "{\"x\": 1}", 1, "", "liquid: Unclosed block. {% endfor %} tag expected. (line 2, column 28)\nfrom: include open\n  at partial open, line 2, column 28\n  called at t, line 1, column 4\n  {% endfor %} ends the block that begins at line 2, column 14\n  2 | {% if x %}{% for i in x %}b\n    |              ^^^^^^^^^^ this block has no end\n"]"#;

/// Faults of the globals, in rows of the same places.
const GLOBALS: &str =
    r#"["render --explain t g.json", "x", "{\"b\": 1.5, \"a\": {\"c\": [1, {\"d\": 2.5}]}}", 3, "", "liquid: Fractional number\n  at a.c[1].d\n  in g.json\n"]
["render --explain t g.json", "x", "{\"a\": 1.5, \"a\": 9223372036854775808}", 3, "", "liquid: Cannot fit number\n  at a\n  in g.json\n"]
["render --explain t g.json", "x", "[1.5]", 3, "", "liquid: Object cannot be an array.\n  in g.json\n"]
["render --explain t g.json", "x", "{\"a\": 1e999, \"b\": [}", 3, "", "liquid: bad JSON in g.json\n  number out of range at line 1 column 14\n"]
["render --explain t g.json", "x", "{\"x\": 1", 3, "", "liquid: bad JSON in g.json\n  EOF while parsing at line 1 column 7\n"]"#;

/// Globals of nested arrays that are closed wrongly. There is no folder.
const NESTED: &str =
    r#"["render --explain t g.json", "x", ["{\"a\": 1, \"x\": [{}, ", ["[", 126], "1]"], 3, "", "liquid: bad JSON in g.json\n  invalid JSON at line 1 column 146: more than 127 arrays and objects are nested\n"]
["render --explain t g.json", "x", ["{\"a\": 1, \"x\": [{}, ", ["[", 130], "}"], 3, "", "liquid: bad JSON in g.json\n  invalid JSON at line 1 column 146: more than 127 arrays and objects are nested\n"]
["render --explain t g.json", "x", ["{\"a\": 1, \"x\": [{}, ", ["[", 125], "} "], 3, "", "liquid: bad JSON in g.json\n  invalid JSON at line 1 column 146\n"]"#;

/// Adds the files of the folder `d`. Returns `false` if memory runs out.
fn add_folder(alloc: Global, files: &mut InMemoryFolder) -> bool {
    files
        .add(alloc, "d/open", b"a\n{% if x %}{% for i in x %}b")
        .is_ok()
        && files.add(alloc, "d/word", b"{% if x or %}").is_ok()
        && files.add(alloc, "d/own", b"{{ titel }}").is_ok()
        && add_names(alloc, files, "open own word")
}

/// Returns `true` if the words of a row have its answer.
fn row_holds(alloc: Global, row: &Line) -> bool {
    let mut files = InMemoryFolder::new(alloc);
    add_pages(alloc, &mut files, row)
        && add_folder(alloc, &mut files)
        && holds_over(alloc, row, &mut files)
}

#[test]
fn names_like_an_unknown_one_are_listed(rt: HostRuntime) -> Result<(), Fail> {
    rows_hold(rt.alloc(), NAMES, row_holds)
}

#[test]
fn what_an_error_is_about_is_shown(rt: HostRuntime) -> Result<(), Fail> {
    rows_hold(rt.alloc(), PLACES, row_holds)
}

#[test]
fn faults_of_globals_have_their_place(rt: HostRuntime) -> Result<(), Fail> {
    rows_hold(rt.alloc(), GLOBALS, row_holds)
}

#[test]
fn globals_that_are_nested_too_deep_are_told_apart(rt: HostRuntime) -> Result<(), Fail> {
    rows_hold(rt.alloc(), NESTED, crate::runs::row_holds)
}
