//! Pages of the standard tags and blocks.
use crate::page_rows::{render_standard, rows_write};
use rows::holds;
use std::test::Fail;

/// A name and a text for each partial.
const PARTIALS: [(&str, &str); 2] = [
    ("p", "{% assign y = 1 %}{{ y }}{{ z }}"),
    ("c", "{% cycle 1, 2 %}{% ifchanged %}a{% endifchanged %}"),
];

/// A text, its globals, and what it writes.
static ROWS: &str =
    r#"["{% if true or false and false %}a{% endif %}{% if false and false or true %}b{% endif %}", "{}", "a"]
["{% if x == 1 and y %}a{% elsif x == 1 or z == 2 %}b{% else %}c{% endif %}", "{\"x\": 1}", "b"]
["{% if x == 1 or y == 2 %}a{% endif %}{% if x == 2 and y == 2 %}b{% endif %}", "{\"x\": 1}", "a"]
["{% if x == 2 or y == 2 %}a{% endif %}", "{\"x\": 1}", "liquid: Unknown variable\n  with:\n    requested variable=y\n"]
["{% if and and or or %}a{% else %}b{% endif %}", "{}", "liquid: Token expected (line 1, column 20)\n"]
["{% if and and or %}a{% else %}b{% endif %}", "{\"and\": 1, \"or\": 1}", "a"]
["{% if 1 == 1 2 %}{% endif %}", "{}", "liquid: Unexpected token (line 1, column 14)\n"]
["{% if 'abc' contains 'bc' %}a{% endif %}{% if 'abc' contains 'd' %}b{% endif %}{% if 12 contains 1 %}c{% endif %}", "{}", "a"]
["{% if l contains 2 %}a{% endif %}{% if l contains '2' %}b{% endif %}{% if l contains nil %}c{% endif %}", "{\"l\": [1, 2, null]}", "a"]
["{% if o contains 'k' %}a{% endif %}{% if o contains 'v' %}b{% endif %}{% if 'x' contains '' %}c{% endif %}", "{\"o\": {\"k\": 1}}", "ac"]
["{% if 'false' contains false %}a{% endif %}{% if 'true' contains true %}b{% endif %}{% if 'a1' contains 1 %}c{% endif %}", "{}", "bc"]
["{% unless x %}a{% elsif y %}b{% else %}c{% endunless %}", "{\"x\": 1}", "c"]
["{% unless x %}a{% elsif y %}b{% else %}c{% endunless %}", "{\"x\": 1, \"y\": 1}", "b"]
["{% unless x %}a{% elsif z == 1 %}b{% endunless %}", "{\"x\": false}", "a"]
["{% case 2 %}x{% when 1 or 2 %}a{% when 2 %}b{% endcase %}", "{}", "a"]
["{% case 3 %}x{% when 1, 2 %}a{% else %}b{% endcase %}{% case 3 %}x{% when 1 %}a{% endcase %}", "{}", "b"]
["{% case x %}{% when 1, y %}a{% endcase %}", "{\"x\": 1}", "a"]
["{% case x %}{% when y, 1 %}a{% endcase %}", "{\"x\": 1}", "liquid: Unknown variable\n  with:\n    requested variable=y\n"]
["{% case 1 %}{% when 1 2 %}{% endcase %}", "{}", "liquid: Unexpected token (line 1, column 23)\n"]
["{% case 1 %}{% when 1, %}{% endcase %}", "{}", "liquid: Token expected (line 1, column 23)\n"]
["{% case 1 %}{% else %}{% when 1 %}{% endcase %}", "{}", "liquid: Divider after else (line 1, column 30)\n"]
["a{% comment %}{{ x }}{% if %}{% comment %}b{% endcomment %}c{% endcomment %}d", "{}", "ad"]
["{% raw %}{{ a }}{% endraw %}{% echo x %}{% echo 'y' %}", "{\"x\": [1, 2]}", "{{ a }}12y"]
["{% decrement c %}{% decrement c %}{% increment c %}", "{}", "-1-2-2"]
["{% for i in (1..5) reversed limit: 2 offset: 1 %}{{ i }}{% endfor %}", "{}", "32"]
["{% for a in (1..3) reversed %}{{ a }}{{ forloop.index0 }}{{ forloop.last }} {% endfor %}", "{}", "30false 21false 12true "]
["{% for i in l limit: 2 %}{{ i }}{{ forloop.length }}{% endfor %}{% for i in l offset: 2 %}{{ i }}{% endfor %}", "{\"l\": [7, 8, 9]}", "72829"]
["{% for i in l limit: 3 offset: -1 %}{{ i }}{% else %}n{% endfor %}{% for i in l limit: 0 %}{{ i }}{% else %}n{% endfor %}", "{\"l\": [7, 8, 9]}", "78n"]
["{% for i in l limit: nil offset: 1 reversed %}{{ i }}{% endfor %}{% for i in l limit: 9223372036854775807 offset: 9223372036854775807 %}x{% else %}n{% endfor %}", "{\"l\": [7, 8, 9]}", "98n"]
["{% for i in l reversed %}{% if i == 2 %}{% continue %}{% endif %}{{ i }}{% if i == 1 %}{% break %}{% endif %}{% endfor %}", "{\"l\": [0, 1, 2, 3]}", "31"]
["{% for i in l limit: 'x' %}{% endfor %}", "{\"l\": []}", "liquid: Whole number expected\n  with:\n    found=\"x\"\n"]
["{% for i in l limit: 1 limit: 2 %}{% endfor %}", "{}", "liquid: Unexpected token (line 1, column 24)\n"]
["{% for i in l offset: continue %}{% endfor %}", "{}", "liquid: Unexpected token (line 1, column 23)\n"]
["{% for i in l offset 1 %}{% endfor %}", "{}", "liquid: Unexpected token (line 1, column 22)\n"]
["{% capture x %}a{{ 1 }}{% endcapture %}[{{ x }}]", "{}", "[a1]"]
["{% capture x %}{% assign y = 2 %}{% endcapture %}{{ y }}", "{}", "2"]
["{% for i in (1..3) %}{% capture x %}{{ i }}{% break %}{% endcapture %}{% endfor %}{{ x }}", "{}", "1"]
["{% capture x %}a{{ nope }}{% endcapture %}", "{}", "liquid: Unknown variable\n  with:\n    requested variable=nope\n"]
["{% capture x %}a{% capture y %}b{% endcapture %}{{ y }}{% endcapture %}{{ x }}", "{}", "ab"]
["{% for i in (1..3) %}{% capture x %}{{ x }}{{ i }}{% endcapture %}{% endfor %}{{ x }}", "{\"x\": \"\"}", "123"]
["{% render 'p', z: 2 %}{{ y }}", "{}", "12liquid: Unknown variable\n  with:\n    requested variable=y\n"]
["{% assign z = 3 %}{% render 'p' %}", "{}", "1liquid: Unknown variable\n  with:\n    requested variable=z\nfrom: render p\n"]
["{% assign z = 3 %}{% include 'p' %}{{ y }}", "{}", "131"]
["{% capture x %}{% render 'p', z: 2 %}{% endcapture %}{{ x }}", "{}", "12"]
["{% tablerow i in l cols: 2 offset: a %}{{ tablerowloop.rindex }}{{ tablerowloop.last }}{% endtablerow %}", "{\"a\": 1, \"l\": [3, 0, 5, 2]}", "<tr class=\"row1\">\n<td class=\"col1\">3false</td><td class=\"col2\">2false</td></tr>\n<tr class=\"row2\"><td class=\"col1\">1true</td></tr>\n"]
["{% tablerow i in (1..2) cols: '1' %}{{ tablerowloop.col_last }}{{ tablerowloop.row }}{{ i }}{% endtablerow %}", "{}", "<tr class=\"row1\">\n<td class=\"col1\">true11</td></tr>\n<tr class=\"row2\"><td class=\"col1\">true22</td></tr>\n"]
["{% tablerow i in l limit: a cols: -1 %}{{ tablerowloop.col0 }}{{ tablerowloop.col_first }}{% if i == 7 %}{% break %}{% endif %}.{% endtablerow %}!", "{\"a\": 3, \"l\": [8, 7, 6]}", "<tr class=\"row1\">\n<td class=\"col1\">0true.</td><td class=\"col2\">1false</td></tr>\n!"]
["{% tablerow i in x limit: y cols: z %}a{% endtablerow %}{% tablerow i in e %}a{% endtablerow %}", "{\"x\": null, \"e\": []}", "<tr class=\"row1\">\n</tr>\n"]
["{% tablerow i in x cols: p %}{{ i }}{% endtablerow %}", "{\"x\": [3, 6], \"p\": []}", "liquid: Whole number expected\n  with:\n    found=[]\n"]
["{% cycle 1, 2 %}{% cycle 'g': 1, 2 %}{% cycle 1, 2 %}{% render 'c' %}{% include 'c' %}{% include 'c' %}", "{}", "1121a1a2"]
["{% for i in (1..5) %}{% cycle 'odd', 'even' %} {% endfor %}", "{}", "odd even odd even odd "]
["{% cycle x: 1, 2, 3 %}{% cycle 'a': 4, 5, 6 %}{% cycle x: 7 %}{% cycle 'a': 8, 9 %}", "{\"x\": \"a\"}", "158"]
["{% cycle x, 2 %}{% cycle y, 2 %}{% cycle x, 2 %}", "{\"x\": 1, \"y\": 1}", "112"]
["{% cycle 'a', 'b' %}{% cycle '\"a\", \"b\"' %}{% cycle 'a', 'b' %}", "{}", "a\"a\", \"b\"b"]
["{% cycle 1, nope %}{% cycle 2, 3 %}{% cycle 1, nope %}", "{}", "12liquid: Unknown variable\n  with:\n    requested variable=nope\n"]
["{% cycle l: 1, 2 %}", "{\"l\": [1]}", "liquid: Group name expected\n  with:\n    found=[1, ]\n"]
["{% cycle nil: 1, 2 %}", "{}", "liquid: Group name expected\n  with:\n    found=nil\n"]
["{% cycle %}", "{}", "liquid: Token expected (line 1, column 9)\n"]
["{% cycle 1 2 %}", "{}", "liquid: Unexpected token (line 1, column 12)\n"]
["{% cycle a: b: c %}", "{}", "liquid: Unexpected token (line 1, column 14)\n"]
["{% cycle a | upcase: 1, 2 %}", "{}", "liquid: Unexpected token (line 1, column 10)\n"]
["{% for i in l %}{% ifchanged %}{{ i }}{% endifchanged %}{% endfor %}", "{\"l\": [1, 1, 2, 2, 1]}", "121"]
["{% ifchanged %}a{% endifchanged %}{% ifchanged %}b{% endifchanged %}{% ifchanged %}b{% endifchanged %}{% ifchanged %}a{% endifchanged %}", "{}", "aba"]
["{% ifchanged %}{% endifchanged %}[{% ifchanged %}a{% ifchanged %}b{% endifchanged %}{% endifchanged %}]{% ifchanged %}ab{% endifchanged %}", "{}", "[ab]"]
["{% for i in (1..3) %}{% ifchanged %}{{ i }}{% break %}{% endifchanged %}{% endfor %}", "{}", "1"]
["{% ifchanged x %}{% endifchanged %}", "{}", "liquid: Unexpected token (line 1, column 14)\n"]
["{% tablerow i in x reversed %}{% endtablerow %}", "{}", "liquid: Unexpected token (line 1, column 20)\n"]
["{% for i in x cols: 2 %}{% endfor %}", "{}", "liquid: Unexpected token (line 1, column 15)\n"]"#;

#[test]
fn rows_of_pages(rt: HostRuntime) -> Result<(), Fail> {
    rows_write(rt.alloc(), ROWS, |alloc, text, globals, sink| {
        render_standard(alloc, text, globals, &PARTIALS, sink)
    })?;
    holds(ROWS.lines().count() == 68, "a table has all its rows")
}
