//! Pages with calls of partials that pass a value, and with commas between pairs and options.
use crate::page_rows::{render_standard, rows_write};
use rows::holds;
use std::test::Fail;

/// A name and a text for each partial.
const PARTIALS: [(&str, &str); 13] = [
    ("product", "Product: {{ product.title }} "),
    ("item", "{{ n }};"),
    ("card", "[{{ card }}]"),
    ("nav/entry", "<{{ entry }}>"),
    (
        "loop",
        "{{ forloop.index }}{{ forloop.index0 }}{{ forloop.rindex }}{{ forloop.rindex0 }}{{ forloop.length }}{% if forloop.first %}f{% endif %}{% if forloop.last %}l{% endif %}{{ loop }} ",
    ),
    (
        "alone",
        "{% if forloop %}loop{% else %}{{ alone }}{% endif %}.",
    ),
    ("pair", "{{ x }}{{ y }}"),
    ("entry", "{{ e[0] }}={{ e[1] }};"),
    ("kept", "{% if s %}s{% endif %}{% assign s = 1 %}{{ kept }}"),
    ("stop", "a{{ x }}{% break %}b"),
    ("with", "{{ with }}{{ for }}{{ as }}"),
    ("sees", "{% if outer %}{{ outer }}{% endif %}{{ sees }}"),
    ("grows", "{{ t }}{% assign t = x %}"),
];

/// A text, its globals, and what it writes.
static ROWS: &str =
    r#"["{% include 'product' with products[0] %}", "{\"products\": [{\"title\": \"Draft 151cm\"}, {\"title\": \"Element 155cm\"}]}", "Product: Draft 151cm "]
["{% include 'product' with products[1] as product %}", "{\"products\": [{\"title\": \"Draft 151cm\"}, {\"title\": \"Element 155cm\"}]}", "Product: Element 155cm "]
["{% include 'product' for products %}", "{\"products\": [{\"title\": \"Draft 151cm\"}, {\"title\": \"Element 155cm\"}]}", "Product: Draft 151cm Product: Element 155cm "]
["{% include 'item' for l as n %}", "{\"l\": [1, 2]}", "1;2;"]
["{% include 'item' with l as n %}", "{\"l\": [1, 2]}", "1;2;"]
["{% render 'product' with products[0] %}", "{\"products\": [{\"title\": \"Draft 151cm\"}, {\"title\": \"Element 155cm\"}]}", "Product: Draft 151cm "]
["{% render 'product' for products %}", "{\"products\": [{\"title\": \"Draft 151cm\"}, {\"title\": \"Element 155cm\"}]}", "Product: Draft 151cm Product: Element 155cm "]
["{% render 'item' with 3 as n %}{% render 'item' for l as n %}", "{\"l\": [1, 2]}", "3;1;2;"]
["{% render 'card' with l %}{% render 'card' for l %}", "{\"l\": [1, 2]}", "[12][1][2]"]
["{% include 'card' with o.k %}{% include 'card' for 'x' %}", "{\"o\": {\"k\": 7}}", "[7][x]"]
["{% render 'nav/entry' with 3 %}{% include 'nav/entry' for l %}", "{\"l\": [4, 5]}", "<3><4><5>"]
["{% render 'loop' for l %}", "{\"l\": [\"a\", \"b\", \"c\"]}", "10323fa 21213b 32103lc "]
["{% render 'alone' for 7 %}{% render 'alone' with 8 %}{% include 'alone' for l %}{% render 'alone' for l %}", "{\"l\": [9]}", "7.8.9.loop."]
["{% render 'item' for (1..3) as n %}", "{}", "1;2;3;"]
["{% render 'entry' for o as e %}", "{\"o\": {\"a\": 1, \"b\": 2}}", "a=1;b=2;"]
["{% render 'card' for e %}{% include 'card' for e %}.", "{\"e\": []}", "."]
["{% render 'pair' for l as x, y: 9 %}", "{\"l\": [1, 2]}", "1929"]
["{% include 'pair' for l as x, y: z %}", "{\"l\": [1, 2], \"z\": 3}", "1323"]
["{% render 'pair' with 1 as x, x: 5, y: 6 %}", "{}", "16"]
["{% render 'pair' with nil as x, x: 5, y: 6 %}", "{}", "56"]
["{% include 'pair' with nil as x, x: 5, y: 6 %}", "{}", "6"]
["{% render 'item' with nil as n %}", "{}", "liquid: Unknown variable\n  with:\n    requested variable=n\nfrom: render item\n"]
["{% render 'kept' for l %}{{ s }}", "{\"l\": [1, 2], \"s\": 0}", "120"]
["{% include 'kept' for l %}", "{\"l\": [1, 2]}", "1s2"]
["{% assign outer = 1 %}{% render 'sees' for l %}{% include 'sees' for l %}", "{\"l\": [7, 8]}", "781718"]
["{% for i in l %}{% render 'stop' for l as x %}{{ i }}{% endfor %}", "{\"l\": [1, 2]}", "a1a21a1a22"]
["{% for i in l %}{% include 'stop' with 7 as x %}{{ i }}{% endfor %}c", "{\"l\": [1, 2]}", "a7c"]
["{% include 'grows' for l as x, t: t %}{{ t }}", "{\"l\": [1, 2], \"t\": 0}", "002"]
["{% for p in l %}{% render 'card' for p %}-{% endfor %}", "{\"l\": [[1, 2], [], [3]]}", "[1][2]--[3]-"]
["{% capture c %}{% render 'card' for l %}{% endcapture %}({{ c }})", "{\"l\": [1, 2]}", "([1][2])"]
["{% render 'pair' x: 1, y: 2 %}{% include 'pair' x: 3 y: 4 %}", "{}", "1234"]
["{% render 'pair', x: 1 y: 2 %}{% include 'pair', x: 3, y: 4, %}", "{}", "1234"]
["{% render 'pair', %}", "{}", "liquid: Unknown variable\n  with:\n    requested variable=x\nfrom: render pair\n"]
["{% render 'pair' with 1 as x y: 2 %}{% include 'pair' with 3 as y x: 4, %}", "{}", "1243"]
["{% include 'with' with: 1, for: 2, as: 3 %}{% include 'with', with: 4, for: 5, as: 6 %}", "{}", "123456"]
["{% include 'with' for: 1 as: 2 with: 3 %}{% render 'with' with 4 as: 5, for: 6 %}", "{}", "312465"]
["{% for i in l, limit: 2, offset: 1 %}{{ i }}{% endfor %}", "{\"l\": [7, 8, 9, 10]}", "89"]
["{% for i in l, reversed, limit: 2 %}{{ i }}{% endfor %}{% for i in (1..4) limit: 2, %}{{ i }}{% endfor %}", "{\"l\": [7, 8, 9]}", "8712"]
["{% for i in l limit: 1, offset: 1 %}{{ i }}{% endfor %}{% for i in l, %}{{ i }}{% endfor %}", "{\"l\": [7, 8]}", "878"]
["{% tablerow i in l, cols: 2, limit: 2 %}{{ i }}{% endtablerow %}", "{\"l\": [7, 8, 9]}", "<tr class=\"row1\">\n<td class=\"col1\">7</td><td class=\"col2\">8</td></tr>\n"]
["{% include 'card' with %}", "{}", "liquid: Token expected (line 1, column 23)\n"]
["{% render 'card' for %}", "{}", "liquid: Token expected (line 1, column 21)\n"]
["{% render 'card' with 1 as %}", "{}", "liquid: Token expected (line 1, column 27)\n"]
["{% render 'card' with 1 as 2 %}", "{}", "liquid: Unexpected token (line 1, column 28)\n"]
["{% include 'card' for (1..2) %}", "{}", "liquid: Unexpected token (line 1, column 23)\n"]
["{% render 'card' with (1..2) %}", "{}", "liquid: Unexpected token (line 1, column 23)\n"]
["{% include 'card' as x %}", "{}", "liquid: Unexpected token (line 1, column 22)\n"]
["{% include 'card', with 1 %}", "{}", "liquid: Unexpected token (line 1, column 25)\n"]
["{% render 'pair' x: 1 2 %}", "{}", "liquid: Unexpected token (line 1, column 23)\n"]
["{% include 'pair' x 1 %}", "{}", "liquid: Unexpected token (line 1, column 21)\n"]
["{% include 'pair' x: , %}", "{}", "liquid: Unexpected token (line 1, column 22)\n"]
["{% for i in l, limit: , 2 %}{% endfor %}", "{}", "liquid: Unexpected token (line 1, column 23)\n"]
["{% render 'card' for nope %}", "{}", "liquid: Unknown variable\n  with:\n    requested variable=nope\n"]
["{% render l with 1 %}", "{\"l\": []}", "liquid: Partial name expected\n  with:\n    found=[]\n"]"#;

#[test]
fn rows_of_calls(rt: HostRuntime) -> Result<(), Fail> {
    rows_write(rt.alloc(), ROWS, |alloc, text, globals, sink| {
        render_standard(alloc, text, globals, &PARTIALS, sink)
    })?;
    holds(ROWS.lines().count() == 54, "a table has all its rows")
}
