//! Where an error is, what was expected there and what may help.
use crate::runs::{add_file, add_split, add_words, bytes_of};
use liquid_files::InMemoryFolder;
use liquid_program::in_memory::run_in_memory;
use rows::{Line, rows_hold};
use serde_json::Value as Json;
use std::alloc::Global;
use std::test::Fail;

/// Rows of five places: the words of the command, the template, its globals, the partials with their texts, and the last
/// lines of the error stream. The lines were written before the program could write them.
const ROWS: &str =
    r##"["render --explain --standard page.liquid g.json d", "{{ nope }}", "{}", [], "  at page.liquid, line 1, column 4\n  1 | {{ nope }}\n    |    ^^^^\n"]
["render --explain --standard page.liquid g.json d", "a\n{{ titel }}", "{\"title\": \"t\"}", [], "  at page.liquid, line 2, column 4\n  2 | {{ titel }}\n    |    ^^^^^\n  similar names: title\n"]
["render --explain --standard page.liquid g.json d", [["\n", 200], "<h1>{{ page.titel }}</h1>\n"], "{\"page\": {\"title\": \"t\"}}", [], "  at page.liquid, line 201, column 8\n  201 | <h1>{{ page.titel }}</h1>\n      |        ^^^^^^^^^^\n  similar names: title\n"]
["render --explain --standard page.liquid g.json d", "a\n\n  {{ page.titel | upcase }}", "{\"page\": {\"title\": \"t\"}}", [], "  at page.liquid, line 3, column 6\n  3 |   {{ page.titel | upcase }}\n    |      ^^^^^^^^^^\n  similar names: title\n"]
["render --explain --standard page.liquid g.json d", "{{- nope -}}", "{}", [], "  at page.liquid, line 1, column 5\n  1 | {{- nope -}}\n    |     ^^^^\n"]
["render --explain --standard page.liquid g.json d", "x\n   {{-   nope }}", "{}", [], "  at page.liquid, line 2, column 10\n  2 |    {{-   nope }}\n    |          ^^^^\n"]
["render --explain --standard page.liquid g.json d", "{{\n\n nope }}", "{}", [], "  at page.liquid, line 3, column 2\n  3 |  nope }}\n    |  ^^^^\n"]
["render --explain --standard page.liquid g.json d", "a\r\nb\r\n{{ nope }}\r\nc", "{}", [], "  at page.liquid, line 3, column 4\n  3 | {{ nope }}\n    |    ^^^^\n"]
["render --explain --standard page.liquid g.json d", "é\n é{{ nope }}", "{}", [], "  at page.liquid, line 2, column 6\n  2 |  é{{ nope }}\n    |      ^^^^\n"]
["render --explain --standard page.liquid g.json d", "\t\t{{ nope }}", "{}", [], "  at page.liquid, line 1, column 6\n  1 | \t\t{{ nope }}\n    | \t\t   ^^^^\n"]
["render --explain --standard page.liquid g.json d", "日本{{ nope.x }}", "{}", [], "  at page.liquid, line 1, column 6\n  1 | 日本{{ nope.x }}\n    |      ^^^^^^\n"]
["render --explain --standard page.liquid g.json d", "{{ a }}{{ a }}{{ b }}", "{\"a\": 1}", [], "  at page.liquid, line 1, column 18\n  1 | {{ a }}{{ a }}{{ b }}\n    |                  ^\n"]
["render --explain --standard page.liquid g.json d", "{{ a | append: nope }}", "{\"a\": 1}", [], "  at page.liquid, line 1, column 16\n  1 | {{ a | append: nope }}\n    |                ^^^^\n"]
["render --explain --standard page.liquid g.json d", "{{ \"nope\" | append: nope }}", "{}", [], "  at page.liquid, line 1, column 21\n  1 | {{ \"nope\" | append: nope }}\n    |                     ^^^^\n"]
["render --explain --standard page.liquid g.json d", "{{ a[nope] }}", "{\"a\": [1]}", [], "  at page.liquid, line 1, column 6\n  1 | {{ a[nope] }}\n    |      ^^^^\n"]
["render --explain --standard page.liquid g.json d", "{{ a[b.c] }}", "{\"a\": [1], \"b\": {\"d\": 1}}", [], "  at page.liquid, line 1, column 6\n  1 | {{ a[b.c] }}\n    |      ^^^\n"]
["render --explain --standard page.liquid g.json d", "{{ a[\"x\"].nme }}", "{\"a\": {\"x\": {\"name\": 1}}}", [], "  at page.liquid, line 1, column 4\n  1 | {{ a[\"x\"].nme }}\n    |    ^^^^^^^^^^\n  similar names: name\n"]
["render --explain --standard page.liquid g.json d", "{{ a[\"x\"].c }}", "{\"a\": {\"x\": {\"name\": 1}}}", [], "  at page.liquid, line 1, column 4\n  1 | {{ a[\"x\"].c }}\n    |    ^^^^^^^^\n"]
["render --explain --standard page.liquid g.json d", "{{ posts.length }}", "{\"posts\": [1, 2]}", [], "  at page.liquid, line 1, column 4\n  1 | {{ posts.length }}\n    |    ^^^^^^^^^^^^\n  similar names: size\n"]
["render --explain --standard page.liquid g.json d", "{{ user.firstName }}", "{\"user\": {\"first_name\": \"A\"}}", [], "  at page.liquid, line 1, column 4\n  1 | {{ user.firstName }}\n    |    ^^^^^^^^^^^^^^\n  similar names: first_name\n"]
["render --explain --standard page.liquid g.json d", "{{ x[0] }}", "{\"x\": []}", [], "  at page.liquid, line 1, column 4\n  1 | {{ x[0] }}\n    |    ^^^^\n"]
["render --explain --standard page.liquid g.json d", "{{ x[5].y }}", "{\"x\": [1, 2]}", [], "  at page.liquid, line 1, column 4\n  1 | {{ x[5].y }}\n    |    ^^^^^^\n"]
["render --explain --standard page.liquid g.json d", "{{ 5 | divided_by: 0 }}", "{}", [], "  at page.liquid, line 1, column 8\n  1 | {{ 5 | divided_by: 0 }}\n    |        ^^^^^^^^^^^^^\n"]
["render --explain --standard page.liquid g.json d", "{{ x | plus: 1 | divided_by: 0 | plus: 2 }}", "{\"x\": 1}", [], "  at page.liquid, line 1, column 18\n  1 | {{ x | plus: 1 | divided_by: 0 | plus: 2 }}\n    |                  ^^^^^^^^^^^^^\n"]
["render --explain --standard page.liquid g.json d", "{{ '|' | append: '| divided_by: 1' | append: 'x' | divided_by: 0 }}", "{}", [], "  at page.liquid, line 1, column 52\n  1 | {{ '|' | append: '| divided_by: 1' | append: 'x' | divided_by: 0 }}\n    |                                                    ^^^^^^^^^^^^^\n"]
["render --explain --standard page.liquid g.json d", "{{ x | sort }}", "{\"x\": [1, \"a\"]}", [], "  at page.liquid, line 1, column 8\n  1 | {{ x | sort }}\n    |        ^^^^\n"]
["render --explain --standard page.liquid g.json d", "{{ x | date: \"%\" }}", "{\"x\": \"2020-01-01\"}", [], "  at page.liquid, line 1, column 8\n  1 | {{ x | date: \"%\" }}\n    |        ^^^^^^^^^\n"]
["render --explain --standard page.liquid g.json d", "{% assign y = nope %}", "{}", [], "  at page.liquid, line 1, column 15\n  1 | {% assign y = nope %}\n    |               ^^^^\n"]
["render --explain --standard page.liquid g.json d", "{% assign y = 1 | divided_by: 0 %}", "{}", [], "  at page.liquid, line 1, column 19\n  1 | {% assign y = 1 | divided_by: 0 %}\n    |                   ^^^^^^^^^^^^^\n"]
["render --explain --standard page.liquid g.json d", "{%\n\n assign x = nope.b.c %}", "{}", [], "  at page.liquid, line 3, column 13\n  3 |  assign x = nope.b.c %}\n    |             ^^^^^^^^\n"]
["render --explain --standard page.liquid g.json d", "{% echo nope %}", "{}", [], "  at page.liquid, line 1, column 9\n  1 | {% echo nope %}\n    |         ^^^^\n"]
["render --explain --standard page.liquid g.json d", "{%- echo nope -%}", "{}", [], "  at page.liquid, line 1, column 10\n  1 | {%- echo nope -%}\n    |          ^^^^\n"]
["render --explain --standard page.liquid g.json d", "a\n{% if nope == 1 %}x{% endif %}", "{}", [], "  at page.liquid, line 2, column 7\n  2 | {% if nope == 1 %}x{% endif %}\n    |       ^^^^\n"]
["render --explain --standard page.liquid g.json d", "a\n{% if 1 == page.titel %}x{% endif %}", "{\"page\": {\"title\": \"t\"}}", [], "  at page.liquid, line 2, column 12\n  2 | {% if 1 == page.titel %}x{% endif %}\n    |            ^^^^^^^^^^\n  similar names: title\n"]
["render --explain --standard page.liquid g.json d", "{% if a == 1 %}\nx\n{% elsif page.titel == 2 %}\ny\n{% endif %}", "{\"a\": 2, \"page\": {\"title\": 1}}", [], "  at page.liquid, line 3, column 10\n  3 | {% elsif page.titel == 2 %}\n    |          ^^^^^^^^^^\n  similar names: title\n"]
["render --explain --standard page.liquid g.json d", "{% if a == 1 %}{% if b %}{% elsif nope == 1 %}{% endif %}{% elsif nope == 2 %}{% endif %}", "{\"a\": 2}", [], "  at page.liquid, line 1, column 67\n  1 | ..a == 1 %}{% if b %}{% elsif nope == 1 %}{% endif %}{% elsif nope == 2 %}{% endif %}\n    |                                                               ^^^^\n"]
["render --explain --standard page.liquid g.json d", "{% unless nope.x == 1 %}x{% endunless %}", "{}", [], "  at page.liquid, line 1, column 11\n  1 | {% unless nope.x == 1 %}x{% endunless %}\n    |           ^^^^^^\n"]
["render --explain --standard page.liquid g.json d", "{% case v %}\n{% when 1 %}\n{% when nope %}x{% endcase %}", "{\"v\": 2}", [], "  at page.liquid, line 3, column 9\n  3 | {% when nope %}x{% endcase %}\n    |         ^^^^\n"]
["render --explain --standard page.liquid g.json d", "{% case nope.a %}{% when 1 %}x{% endcase %}", "{}", [], "  at page.liquid, line 1, column 9\n  1 | {% case nope.a %}{% when 1 %}x{% endcase %}\n    |         ^^^^^^\n"]
["render --explain --standard page.liquid g.json d", "{% if true %}\n  {{ nope }}\n{% endif %}", "{}", [], "  at page.liquid, line 2, column 6\n  2 |   {{ nope }}\n    |      ^^^^\n"]
["render --explain --standard page.liquid g.json d", "{% if true %}{% if true %}{% if true %}\n\n{{ nope }}{% endif %}{% endif %}{% endif %}", "{}", [], "  at page.liquid, line 3, column 4\n  3 | {{ nope }}{% endif %}{% endif %}{% endif %}\n    |    ^^^^\n"]
["render --explain --standard page.liquid g.json d", "{% for x in y %}\n{{ x.b }}\n{% endfor %}", "{\"y\": [{\"b\": 1}, {\"c\": 2}]}", [], "  at page.liquid, line 2, column 4\n  2 | {{ x.b }}\n    |    ^^^\n"]
["render --explain --standard page.liquid g.json d", "{% for x in nope %}{{ x }}{% endfor %}", "{}", [], "  at page.liquid, line 1, column 13\n  1 | {% for x in nope %}{{ x }}{% endfor %}\n    |             ^^^^\n"]
["render --explain --standard page.liquid g.json d", "{% for x in 5 %}{{ x }}{% endfor %}", "{}", [], "  at page.liquid, line 1, column 4\n  1 | {% for x in 5 %}{{ x }}{% endfor %}\n    |    ^^^^^^^^^^\n"]
["render --explain --standard page.liquid g.json d", "{% for x in (1..\"t\") %}{{ x }}{% endfor %}", "{}", [], "  at page.liquid, line 1, column 4\n  1 | {% for x in (1..\"t\") %}{{ x }}{% endfor %}\n    |    ^^^^^^^^^^^^^^^^^\n"]
["render --explain --standard page.liquid g.json d", "{% for x in (1..2000000) %}{% endfor %}", "{}", [], "  at page.liquid, line 1, column 4\n  1 | {% for x in (1..2000000) %}{% endfor %}\n    |    ^^^^^^^^^^^^^^^^^^^^^\n"]
["render --explain --standard page.liquid g.json d", "{% for i in (1..2) %}{{ i }}{% else %}none{% endfor %}\n{% for i in (1..2) %}{{ forlop.index }}{% endfor %}", "{}", [], "  at page.liquid, line 2, column 25\n  2 | {% for i in (1..2) %}{{ forlop.index }}{% endfor %}\n    |                         ^^^^^^^^^^^^\n"]
["render --explain --standard page.liquid g.json d", "{% tablerow i in nope %}x{% endtablerow %}", "{}", [], "  at page.liquid, line 1, column 18\n  1 | {% tablerow i in nope %}x{% endtablerow %}\n    |                  ^^^^\n"]
["render --explain --standard page.liquid g.json d", "{% tablerow i in (1..2) %}\n{{ nope }}{% endtablerow %}", "{}", [], "  at page.liquid, line 2, column 4\n  2 | {{ nope }}{% endtablerow %}\n    |    ^^^^\n"]
["render --explain --standard page.liquid g.json d", "{% capture x %}\n{{ nope }}\n{% endcapture %}", "{}", [], "  at page.liquid, line 2, column 4\n  2 | {{ nope }}\n    |    ^^^^\n"]
["render --explain --standard page.liquid g.json d", "{% capture x %}{% for i in (1..3) %}\n{{ i | plus: i }}{{ nope.b }}{% endfor %}{% endcapture %}", "{}", [], "  at page.liquid, line 2, column 21\n  2 | {{ i | plus: i }}{{ nope.b }}{% endfor %}{% endcapture %}\n    |                     ^^^^^^\n"]
["render --explain --standard page.liquid g.json d", "{% ifchanged %}\n{{ nope }}{% endifchanged %}", "{}", [], "  at page.liquid, line 2, column 4\n  2 | {{ nope }}{% endifchanged %}\n    |    ^^^^\n"]
["render --explain --standard page.liquid g.json d", "{% comment %}\n{{ nope }}\n{% endcomment %}\n{% raw %}{{ nope }}{% endraw %}{{ nope }}", "{}", [], "  at page.liquid, line 4, column 35\n  4 | {% raw %}{{ nope }}{% endraw %}{{ nope }}\n    |                                   ^^^^\n"]
["render --explain --standard page.liquid g.json d", "{% cycle 1, nope %}{% cycle 1, nope %}", "{}", [], "  at page.liquid, line 1, column 32\n  1 | {% cycle 1, nope %}{% cycle 1, nope %}\n    |                                ^^^^\n"]
["render --explain --standard page.liquid g.json d", "{% include nothing %}", "{}", [["card", "x"]], "  at page.liquid, line 1, column 12\n  1 | {% include nothing %}\n    |            ^^^^^^^\n"]
["render --explain --standard page.liquid g.json d", "a\n{% include 'crad' %}", "{}", [["card", "x"], ["cart", "y"]], "  at page.liquid, line 2, column 4\n  2 | {% include 'crad' %}\n    |    ^^^^^^^^^^^^^^\n  similar names: card\n"]
["render --explain --standard page.liquid g.json d", "{% include \"old/card\" %}", "{}", [["card", "x"]], "  at page.liquid, line 1, column 4\n  1 | {% include \"old/card\" %}\n    |    ^^^^^^^^^^^^^^^^^^\n"]
["render --explain --standard page.liquid g.json", "{% include 'x' %}", "{}", [], "  at page.liquid, line 1, column 4\n  1 | {% include 'x' %}\n    |    ^^^^^^^^^^^\n"]
["render --explain --standard page.liquid g.json d", "{% include x %}", "{\"x\": [1]}", [["card", "x"]], "  at page.liquid, line 1, column 4\n  1 | {% include x %}\n    |    ^^^^^^^^^\n"]
["render --explain --standard page.liquid g.json d", "a\n\n\n{% render 'card', t: nope %}", "{}", [["card", "{{ t }}"]], "  at page.liquid, line 4, column 22\n  4 | {% render 'card', t: nope %}\n    |                      ^^^^\n"]
["render --explain --standard page.liquid g.json d", "{% include 'card' %}", "{}", [["card", "x\ny\n{{ nope }}"]], "  at partial card, line 3, column 4\n  3 | {{ nope }}\n    |    ^^^^\n  called at page.liquid, line 1, column 4\n"]
["render --explain --standard page.liquid g.json d", "a\n  {% include 'card' %}", "{}", [["card", "{{ nope }}"]], "  at partial card, line 1, column 4\n  1 | {{ nope }}\n    |    ^^^^\n  called at page.liquid, line 2, column 6\n"]
["render --explain --standard page.liquid g.json d", "a\n{% render 'card', titel: 1 %}", "{}", [["card", "<b>\n{{ title }}"]], "  at partial card, line 2, column 4\n  2 | {{ title }}\n    |    ^^^^^\n  called at page.liquid, line 2, column 4\n  similar names: titel\n"]
["render --explain --standard page.liquid g.json d", "a\n{% render 'card' %}", "{\"title\": 1}", [["card", "<b>\n{{ titel }}"]], "  at partial card, line 2, column 4\n  2 | {{ titel }}\n    |    ^^^^^\n  called at page.liquid, line 2, column 4\n"]
["render --explain --standard page.liquid g.json d", "{% include 'a' %}", "{}", [["a", "x\n {% include 'b' %}"], ["b", "{% if true %}\n\n{{ q | append: nope }}{% endif %}"]], "  at partial b, line 3, column 4\n  3 | {{ q | append: nope }}{% endif %}\n    |    ^\n  called at partial a, line 2, column 5\n  called at page.liquid, line 1, column 4\n"]
["render --explain --standard page.liquid g.json d", "{% for i in (1..2) %}\n{% include 'a' %}{% endfor %}", "{}", [["a", "{% capture z %}{% render 'b', q: 1 %}{% endcapture %}"], ["b", "{{ q }}{{ r.s }}"]], "  at partial b, line 1, column 11\n  1 | {{ q }}{{ r.s }}\n    |           ^^^\n  called at partial a, line 1, column 19\n  called at page.liquid, line 2, column 4\n"]
["render --explain --standard page.liquid g.json d", "{% include 'a' %}", "{}", [["a", "x\n {{ title }"]], "  at partial a, line 2, column 11\n  2 |  {{ title }\n    |           ^ expected `|` or `}}`, found `}`\n  one `}` is missing\n  called at page.liquid, line 1, column 4\n"]
["render --explain --standard page.liquid g.json d", "{% include 'a' %}", "{}", [["a", "x\n{% nop %}"]], "  at partial a, line 2, column 4\n  2 | {% nop %}\n    |    ^^^\n  called at page.liquid, line 1, column 4\n"]
["render --explain --standard page.liquid g.json d", "{% include 'a' %}", "{}", [["a", "x\n{{ 1 | upcas }}"]], "  at partial a, line 2, column 8\n  2 | {{ 1 | upcas }}\n    |        ^^^^^\n  called at page.liquid, line 1, column 4\n  similar names: upcase\n"]
["render --explain --standard page.liquid g.json d", "{% include 'a' %}", "{}", [["a", "x\n{{ 1.5 }}"]], "  at partial a, line 2, column 4\n  2 | {{ 1.5 }}\n    |    ^^^\n  called at page.liquid, line 1, column 4\n"]
["render --explain --standard page.liquid g.json d", "{% include 'a' %}", "{}", [["a", "x{% include 'a' %}"]], "  at partial a, line 1, column 5\n  1 | x{% include 'a' %}\n    |     ^^^^^^^^^^^\n  called at partial a, line 1, column 5\n  called at partial a, line 1, column 5\n  .. (29 more calls)\n  called at page.liquid, line 1, column 4\n"]
["render --explain --standard page.liquid g.json d", "{% include 'a' %}\n{% include 'a' %}", "{}", [["a", "{{ x.y }}"]], "  at partial a, line 1, column 4\n  1 | {{ x.y }}\n    |    ^^^\n  called at page.liquid, line 1, column 4\n"]
["render --explain --standard page.liquid g.json d", "{% include 'a', v: 1 %}", "{}", [["a", "{{ v }}\n{{ w }}"]], "  at partial a, line 2, column 4\n  2 | {{ w }}\n    |    ^\n  called at page.liquid, line 1, column 4\n"]
["render --explain --standard page.liquid g.json d", "{% assign total = 1 %}{{ totl }}", "{}", [], "  at page.liquid, line 1, column 26\n  1 | {% assign total = 1 %}{{ totl }}\n    |                          ^^^^\n  similar names: total\n"]
["render --explain --standard page.liquid g.json d", "{% capture header %}x{% endcapture %}{{ haeder }}", "{\"footer\": 1}", [], "  at page.liquid, line 1, column 41\n  1 | {% capture header %}x{% endcapture %}{{ haeder }}\n    |                                         ^^^^^^\n  similar names: header\n"]
["render --explain --standard page.liquid g.json d", "{% for item in list %}{{ itm }}{% endfor %}", "{\"list\": [1]}", [], "  at page.liquid, line 1, column 26\n  1 | {% for item in list %}{{ itm }}{% endfor %}\n    |                          ^^^\n  similar names: item\n"]
["render --explain --standard page.liquid g.json d", "{{ True }}", "{}", [], "  at page.liquid, line 1, column 4\n  1 | {{ True }}\n    |    ^^^^\n  similar names: true\n"]
["render --explain --standard page.liquid g.json d", "{{ loop.index }}", "{}", [], "  at page.liquid, line 1, column 4\n  1 | {{ loop.index }}\n    |    ^^^^^^^^^^\n  similar names: forloop\n"]
["render --explain --standard page.liquid g.json d", "{{ a }}", "{\"b\": 1}", [], "  at page.liquid, line 1, column 4\n  1 | {{ a }}\n    |    ^\n"]
["render --explain --standard page.liquid g.json d", "{{ abc }}", "{\"abd\": 1, \"ab\": 1, \"bac\": 1, \"acb\": 1, \"xabc\": 1}", [], "  at page.liquid, line 1, column 4\n  1 | {{ abc }}\n    |    ^^^\n  similar names: ab, abd, acb\n"]
["render --explain --standard page.liquid g.json d", "{{ TITLE }}", "{\"title\": 1}", [], "  at page.liquid, line 1, column 4\n  1 | {{ TITLE }}\n    |    ^^^^^\n  similar names: title\n"]
["render --explain --standard page.liquid g.json d", "{{ nave }}", "{\"naive\": 1, \"nävé\": 1}", [], "  at page.liquid, line 1, column 4\n  1 | {{ nave }}\n    |    ^^^^\n  similar names: naive\n"]
["render --explain --standard page.liquid g.json d", "{{ pagetitle }}", "{\"page_title\": 1}", [], "  at page.liquid, line 1, column 4\n  1 | {{ pagetitle }}\n    |    ^^^^^^^^^\n  similar names: page_title\n"]
["render --explain --standard page.liquid g.json d", "{{ descriptoin }}", "{\"description\": 1, \"descriptions\": 2}", [], "  at page.liquid, line 1, column 4\n  1 | {{ descriptoin }}\n    |    ^^^^^^^^^^^\n  similar names: description, descriptions\n"]
["render --explain --standard --sandboxed page.liquid g.json d", "{{ nope }}", "{\"nopes\": 1}", [], "  at page.liquid, line 1, column 4\n  1 | {{ nope }}\n    |    ^^^^\n"]
["render --explain --standard --sandboxed page.liquid g.json d", "{{ x.y }}", "{\"x\": {\"yy\": 1}}", [], "  at page.liquid, line 1, column 4\n  1 | {{ x.y }}\n    |    ^^^\n"]
["render --explain --standard --turns 5 page.liquid g.json d", "{% for i in (1..9) %}\n{% for j in (1..9) %}.{% endfor %}{% endfor %}", "{}", [], "  at page.liquid, line 2, column 4\n  2 | {% for j in (1..9) %}.{% endfor %}{% endfor %}\n    |    ^^^^^^^^^^^^^^^\n"]
["render --explain --standard --bytes 5 page.liquid g.json d", "ab\n{{ x }}", "{\"x\": \"longer\"}", [], "  at page.liquid, line 2, column 4\n  2 | {{ x }}\n    |    ^\n"]
["render --explain page.liquid g.json d", "{% if a and b %}both{% endif %}", "{\"a\": 1, \"b\": 1}", [], "  at page.liquid, line 1, column 9\n  1 | {% if a and b %}both{% endif %}\n    |         ^^^ not expected here\n"]
["render --explain page.liquid g.json d", "{{ 5 | fail }}", "{}", [], "  at page.liquid, line 1, column 8\n  1 | {{ 5 | fail }}\n    |        ^^^^\n"]
["render --explain --standard page.liquid g.json d", "012345678901234567890123456789012345678901234567890123456789012345678901234567890123456789{{ nope }}012345678901234567890123456789012345678901234567890123456789012345678901234567890123456789", "{}", [], "  at page.liquid, line 1, column 94\n  1 | ..345678901234567890123456789012345678901234567890123456789{{ nope }}012345678901234567890123456789012..\n    |                                                               ^^^^\n"]
["render --explain --standard page.liquid g.json d", "{{ nope }}éééééééééééééééééééééééééééééééééééééééééééééééééééééééééééééééééééééééééééééééééééééééééééééééééééééééééééééééééééééééééééééééééééééééééééééééééééééééééééééééééééééééééééééééééééééééééééééééééééééééé", "{}", [], "  at page.liquid, line 1, column 4\n  1 | {{ nope }}éééééééééééééééééééééééééééééééééééééééééééééééééééééééééééééééééééééééééééééééééééééééééé..\n    |    ^^^^\n"]
["render --explain --standard page.liquid g.json d", "a\u001b[31m{{ nope }}", "{}", [], "  at page.liquid, line 1, column 10\n  1 | a?[31m{{ nope }}\n    |          ^^^^\n"]
["render --explain --standard page.liquid g.json d", "{{ post title }}", "{}", [], "  at page.liquid, line 1, column 9\n  1 | {{ post title }}\n    |         ^^^^^ expected `|` or `}}`, found `title`\n  two values stand side by side: join names by `.`, or put a filter after `|`\n"]
["render --explain --standard page.liquid g.json d", "a\n{{ title", "{}", [], "  at page.liquid, line 2, column 9\n  2 | {{ title\n    |         ^ expected `|` or `}}` here\n"]
["render --explain --standard page.liquid g.json d", "{{ title\n<p>\n{{ x }}", "{}", [], "  at page.liquid, line 1, column 9\n  1 | {{ title\n    |         ^ expected `|` or `}}` here\n"]
["render --explain --standard page.liquid g.json d", "{{ title | append \"x\" }}", "{}", [], "  at page.liquid, line 1, column 19\n  1 | {{ title | append \"x\" }}\n    |                   ^^^ expected `:`, `|` or `}}`, found `\"x\"`\n  the arguments of a filter come after `:`\n"]
["render --explain --standard page.liquid g.json d", "{{ price | round 2 }}", "{}", [], "  at page.liquid, line 1, column 18\n  1 | {{ price | round 2 }}\n    |                  ^ expected `:`, `|` or `}}`, found `2`\n  the arguments of a filter come after `:`\n"]
["render --explain --standard page.liquid g.json d", "{{ title | append: }}", "{}", [], "  at page.liquid, line 1, column 20\n  1 | {{ title | append: }}\n    |                    ^^ expected a value, found `}}`\n"]
["render --explain --standard page.liquid g.json d", "{{ title | replace: \"a\", }}", "{}", [], "  at page.liquid, line 1, column 26\n  1 | {{ title | replace: \"a\", }}\n    |                          ^^ expected a value, found `}}`\n"]
["render --explain --standard page.liquid g.json d", "{{ title | replace: \"a\" \"b\" }}", "{}", [], "  at page.liquid, line 1, column 25\n  1 | {{ title | replace: \"a\" \"b\" }}\n    |                         ^^^ expected `,`, `|` or `}}`, found `\"b\"`\n  arguments are separated by `,`\n"]
["render --explain --standard page.liquid g.json d", "{{ 1 + 2 }}", "{}", [], "  at page.liquid, line 1, column 6\n  1 | {{ 1 + 2 }}\n    |      ^ expected `|` or `}}`, found `+`\n  there is no arithmetic: use filters such as `plus`, `minus`, `times` and `divided_by`\n"]
["render --explain --standard page.liquid g.json d", "{{ x++ }}", "{}", [], "  at page.liquid, line 1, column 5\n  1 | {{ x++ }}\n    |     ^^ expected `|` or `}}`, found `++`\n  there is no arithmetic: use filters such as `plus`, `minus`, `times` and `divided_by`\n"]
["render --explain --standard page.liquid g.json d", "{{ a * b }}", "{}", [], "  at page.liquid, line 1, column 6\n  1 | {{ a * b }}\n    |      ^ expected `|` or `}}`, found `*`\n  there is no arithmetic: use filters such as `plus`, `minus`, `times` and `divided_by`\n"]
["render --explain --standard page.liquid g.json d", "{% if a && b %}x{% endif %}", "{}", [], "  at page.liquid, line 1, column 9\n  1 | {% if a && b %}x{% endif %}\n    |         ^^ expected an operator, `|` or `%}`, found `&&`\n  write `and`\n"]
["render --explain --standard page.liquid g.json d", "{% if a || b %}x{% endif %}", "{}", [], "  at page.liquid, line 1, column 10\n  1 | {% if a || b %}x{% endif %}\n    |          ^ expected the name of a filter, found `|`\n  write `or`\n"]
["render --explain --standard page.liquid g.json d", "{{ a || b }}", "{}", [], "  at page.liquid, line 1, column 7\n  1 | {{ a || b }}\n    |       ^ expected the name of a filter, found `|`\n  there is no `||`: for another value write `| default:`\n"]
["render --explain --standard page.liquid g.json d", "{% if !a %}x{% endif %}", "{}", [], "  at page.liquid, line 1, column 7\n  1 | {% if !a %}x{% endif %}\n    |       ^ expected a value or `%}`, found `!`\n  there is no `!`: use the block `unless`\n"]
["render --explain --standard page.liquid g.json d", "{{ !a }}", "{}", [], "  at page.liquid, line 1, column 4\n  1 | {{ !a }}\n    |    ^ expected a value, found `!`\n  there is no `!`: use the block `unless`\n"]
["render --explain --standard page.liquid g.json d", "{{ -title }}", "{}", [], "  at page.liquid, line 1, column 4\n  1 | {{ -title }}\n    |    ^ expected a value, found `-`\n"]
["render --explain --standard page.liquid g.json d", "{% # a note %}", "{}", [], "  at page.liquid, line 1, column 4\n  1 | {% # a note %}\n    |    ^ expected the name of a tag, found `#`\n  a comment is written `{% comment %}..{% endcomment %}`\n"]
["render --explain --standard page.liquid g.json d", "{% %}", "{}", [], "  at page.liquid, line 1, column 4\n  1 | {% %}\n    |    ^^ expected the name of a tag, found `%}`\n"]
["render --explain --standard page.liquid g.json d", "{{ }}", "{}", [], "  at page.liquid, line 1, column 4\n  1 | {{ }}\n    |    ^^ expected a value, found `}}`\n"]
["render --explain --standard page.liquid g.json d", "{{ user[\"name\" }}", "{}", [], "  at page.liquid, line 1, column 16\n  1 | {{ user[\"name\" }}\n    |                ^^ expected `]`, found `}}`\n"]
["render --explain --standard page.liquid g.json d", "{{ user[] }}", "{}", [], "  at page.liquid, line 1, column 9\n  1 | {{ user[] }}\n    |         ^ expected a value, found `]`\n"]
["render --explain --standard page.liquid g.json d", "{{ posts.0 }}", "{}", [], "  at page.liquid, line 1, column 10\n  1 | {{ posts.0 }}\n    |          ^ expected a name, found `0`\n  an item is taken by its number in brackets, such as posts[0]\n"]
["render --explain --standard page.liquid g.json d", "{{ post.title.}}", "{}", [], "  at page.liquid, line 1, column 15\n  1 | {{ post.title.}}\n    |               ^^ expected a name, found `}}`\n"]
["render --explain --standard page.liquid g.json d", "{{ post. title }}", "{}", [], "  at page.liquid, line 1, column 9\n  1 | {{ post. title }}\n    |         ^ expected a name, found ` `\n"]
["render --explain --standard page.liquid g.json d", "{{ 'it's' }}", "{}", [], "  at page.liquid, line 1, column 8\n  1 | {{ 'it's' }}\n    |        ^ expected `|` or `}}`, found `s`\n  the text ends at this quote: to have a quote in it, use the other kind around it\n"]
["render --explain --standard page.liquid g.json d", "{{ \"unclosed }}", "{}", [], "  at page.liquid, line 1, column 4\n  1 | {{ \"unclosed }}\n    |    ^ this quote has no end\n"]
["render --explain --standard page.liquid g.json d", "{{ x | default: 'a }}", "{}", [], "  at page.liquid, line 1, column 17\n  1 | {{ x | default: 'a }}\n    |                 ^ this quote has no end\n"]
["render --explain --standard page.liquid g.json d", "{{ “x” | upcase }}", "{}", [], "  at page.liquid, line 1, column 4\n  1 | {{ “x” | upcase }}\n    |    ^ expected a value, found `“`\n  a text has straight quotes, \" or '\n"]
["render --explain --standard page.liquid g.json d", "{{ title | upcase }}", "{}", [], "  at page.liquid, line 1, column 9\n  1 | {{ title | upcase }}\n    |         ^ expected `|` or `}}`, found a no-break space\n  write a plain space\n"]
["render --explain --standard page.liquid g.json d", "{{ größe }}", "{}", [], "  at page.liquid, line 1, column 6\n  1 | {{ größe }}\n    |      ^ expected `|` or `}}`, found `ö`\n  a name has letters a to z, digits, _ and -; write user[\"naïve\"] for another key\n"]
["render --explain --standard page.liquid g.json d", "{{ title }", "{}", [], "  at page.liquid, line 1, column 10\n  1 | {{ title }\n    |          ^ expected `|` or `}}`, found `}`\n  one `}` is missing\n"]
["render --explain --standard page.liquid g.json d", "{{ title %}", "{}", [], "  at page.liquid, line 1, column 10\n  1 | {{ title %}\n    |          ^^ expected `|` or `}}`, found `%}`\n  an expression ends with `}}`\n"]
["render --explain --standard page.liquid g.json d", "{% render 'card' }}", "{}", [], "  at page.liquid, line 1, column 18\n  1 | {% render 'card' }}\n    |                  ^^ expected an operator, `|` or `%}`, found `}}`\n  a tag ends with `%}`\n"]
["render --explain --standard page.liquid g.json d", "{% assign x = 5 }", "{}", [], "  at page.liquid, line 1, column 17\n  1 | {% assign x = 5 }\n    |                 ^ expected an operator, `|` or `%}`, found `}`\n  a tag ends with `%}`\n"]
["render --explain --standard page.liquid g.json d", "{%- assign x = 5 -}", "{}", [], "  at page.liquid, line 1, column 18\n  1 | {%- assign x = 5 -}\n    |                  ^^ expected an operator, `|` or `%}`, found `-}`\n  a tag ends with `-%}`\n"]
["render --explain --standard page.liquid g.json d", "{{ title | }}", "{}", [], "  at page.liquid, line 1, column 12\n  1 | {{ title | }}\n    |            ^^ expected the name of a filter, found `}}`\n"]
["render --explain --standard page.liquid g.json d", "{{ | upcase }}", "{}", [], "  at page.liquid, line 1, column 4\n  1 | {{ | upcase }}\n    |    ^ expected a value, found `|`\n"]
["render --explain --standard page.liquid g.json d", "{{ a ? b : c }}", "{}", [], "  at page.liquid, line 1, column 6\n  1 | {{ a ? b : c }}\n    |      ^ expected `|` or `}}`, found `?`\n  there is no `?`: use the block `if`, or the filter `default`\n"]
["render --explain --standard page.liquid g.json d", "{{ a == b }}", "{}", [], "  at page.liquid, line 1, column 6\n  1 | {{ a == b }}\n    |      ^^ expected `|` or `}}`, found `==`\n  a condition belongs in a tag, such as `if`\n"]
["render --explain --standard page.liquid g.json d", "{{ a and b }}", "{}", [], "  at page.liquid, line 1, column 6\n  1 | {{ a and b }}\n    |      ^^^ expected `|` or `}}`, found `and`\n  a condition belongs in a tag, such as `if`\n"]
["render --explain --standard page.liquid g.json d", "{{ foo() }}", "{}", [], "  at page.liquid, line 1, column 7\n  1 | {{ foo() }}\n    |       ^ expected `|` or `}}`, found `(`\n  nothing is called with parentheses: arguments of a filter come after `:`\n"]
["render --explain --standard page.liquid g.json d", "{{ x | append(\"a\") }}", "{}", [], "  at page.liquid, line 1, column 14\n  1 | {{ x | append(\"a\") }}\n    |              ^ expected `:`, `|` or `}}`, found `(`\n  nothing is called with parentheses: arguments of a filter come after `:`\n"]
["render --explain --standard page.liquid g.json d", "{% if (a or b) and c %}x{% endif %}", "{}", [], "  at page.liquid, line 1, column 10\n  1 | {% if (a or b) and c %}x{% endif %}\n    |          ^^ expected `..`, found `or`\n  parentheses are for ranges, such as (1..3)\n"]
["render --explain --standard page.liquid g.json d", "{% for i in 1..3 %}{% endfor %}", "{}", [], "  at page.liquid, line 1, column 14\n  1 | {% for i in 1..3 %}{% endfor %}\n    |              ^^ expected an operator, `|` or `%}`, found `..`\n  a range is written in parentheses, such as (1..3)\n"]
["render --explain --standard page.liquid g.json d", "{% for i in (1..3%}{% endfor %}", "{}", [], "  at page.liquid, line 1, column 18\n  1 | {% for i in (1..3%}{% endfor %}\n    |                  ^^ expected `)`, found `%}`\n"]
["render --explain --standard page.liquid g.json d", "{% assign x = [1, 2] %}", "{}", [], "  at page.liquid, line 1, column 15\n  1 | {% assign x = [1, 2] %}\n    |               ^ expected a value or `%}`, found `[`\n  there are no lists in a template: use the filter `split`\n"]
["render --explain --standard page.liquid g.json d", "{{ x | where: a=\"b\" }}", "{}", [], "  at page.liquid, line 1, column 16\n  1 | {{ x | where: a=\"b\" }}\n    |                ^ expected `,`, `|` or `}}`, found `=`\n  an argument's name is followed by `:`\n"]
["render --explain --standard page.liquid g.json d", "{{ x | date: %Y }}", "{}", [], "  at page.liquid, line 1, column 14\n  1 | {{ x | date: %Y }}\n    |              ^ expected a value, found `%`\n"]
["render --explain --standard page.liquid g.json d", "{{ {{ x }} }}", "{}", [], "  at page.liquid, line 1, column 4\n  1 | {{ {{ x }} }}\n    |    ^^ expected a value, found `{{`\n  there are no braces inside braces\n"]
["render --explain --standard page.liquid g.json d", "{{ a {{ x }}", "{}", [], "  at page.liquid, line 1, column 6\n  1 | {{ a {{ x }}\n    |      ^^ expected `|` or `}}`, found `{{`\n  the braces before this are not closed\n"]
["render --explain --standard page.liquid g.json d", "{{ x; }}", "{}", [], "  at page.liquid, line 1, column 5\n  1 | {{ x; }}\n    |     ^ expected `|` or `}}`, found `;`\n"]
["render --explain --standard page.liquid g.json d", "{{ 5px }}", "{}", [], "  at page.liquid, line 1, column 4\n  1 | {{ 5px }}\n    |    ^^^ expected a value, found `5px`\n"]
["render --explain --standard page.liquid g.json d", "a\n\t{{ a\tb }}", "{}", [], "  at page.liquid, line 2, column 7\n  2 | \t{{ a\tb }}\n    | \t    \t^ expected `|` or `}}`, found `b`\n  two values stand side by side: join names by `.`, or put a filter after `|`\n"]
["render --explain --standard page.liquid g.json d", "{{ '{{ ' | upcase x }}", "{}", [], "  at page.liquid, line 1, column 19\n  1 | {{ '{{ ' | upcase x }}\n    |                   ^ expected `:`, `|` or `}}`, found `x`\n  the arguments of a filter come after `:`\n"]
["render --explain --standard page.liquid g.json d", "{{ a[b[\"c\" }}", "{}", [], "  at page.liquid, line 1, column 12\n  1 | {{ a[b[\"c\" }}\n    |            ^^ expected `]`, found `}}`\n"]
["render --explain --standard page.liquid g.json d", "{{ a[b[\"c\"] }}", "{}", [], "  at page.liquid, line 1, column 13\n  1 | {{ a[b[\"c\"] }}\n    |             ^^ expected `]`, found `}}`\n"]
["render --explain --standard page.liquid g.json d", "{{ 1.5 }}", "{}", [], "  at page.liquid, line 1, column 4\n  1 | {{ 1.5 }}\n    |    ^^^\n"]
["render --explain --standard page.liquid g.json d", "{{ 9223372036854775808 }}", "{}", [], "  at page.liquid, line 1, column 4\n  1 | {{ 9223372036854775808 }}\n    |    ^^^^^^^^^^^^^^^^^^^\n"]
["render --explain --standard page.liquid g.json d", "x\n{{ a | append: -2.50 }}", "{}", [], "  at page.liquid, line 2, column 16\n  2 | {{ a | append: -2.50 }}\n    |                ^^^^^\n"]
["render --explain --standard page.liquid g.json d", "{% if a = 1 %}x{% endif %}", "{}", [], "  at page.liquid, line 1, column 9\n  1 | {% if a = 1 %}x{% endif %}\n    |         ^ not expected here\n"]
["render --explain --standard page.liquid g.json d", "{% assign x 1 %}", "{}", [], "  at page.liquid, line 1, column 13\n  1 | {% assign x 1 %}\n    |             ^ not expected here\n"]
["render --explain --standard page.liquid g.json d", "{% for post of posts %}{% endfor %}", "{}", [], "  at page.liquid, line 1, column 13\n  1 | {% for post of posts %}{% endfor %}\n    |             ^^ not expected here\n"]
["render --explain --standard page.liquid g.json d", "{% if not a %}x{% endif %}", "{}", [], "  at page.liquid, line 1, column 11\n  1 | {% if not a %}x{% endif %}\n    |           ^ not expected here\n"]
["render --explain --standard page.liquid g.json d", "{% if a %}{% else b %}{% endif %}", "{}", [], "  at page.liquid, line 1, column 19\n  1 | {% if a %}{% else b %}{% endif %}\n    |                   ^ not expected here\n"]
["render --explain --standard page.liquid g.json d", "{% if a %}{% endif a %}", "{}", [], "  at page.liquid, line 1, column 20\n  1 | {% if a %}{% endif a %}\n    |                    ^ not expected here\n"]
["render --explain --standard page.liquid g.json d", "{{ x | upcse }}", "{\"x\": 1}", [], "  at page.liquid, line 1, column 8\n  1 | {{ x | upcse }}\n    |        ^^^^^\n  similar names: upcase\n"]
["render --explain --standard page.liquid g.json d", "{{ x | capitalise }}", "{\"x\": 1}", [], "  at page.liquid, line 1, column 8\n  1 | {{ x | capitalise }}\n    |        ^^^^^^^^^^\n  similar names: capitalize\n"]
["render --explain --standard page.liquid g.json d", "{{ x | lower }}", "{\"x\": 1}", [], "  at page.liquid, line 1, column 8\n  1 | {{ x | lower }}\n    |        ^^^^^\n  similar names: downcase\n"]
["render --explain --standard page.liquid g.json d", "{{ x | zzzz }}", "{\"x\": 1}", [], "  at page.liquid, line 1, column 8\n  1 | {{ x | zzzz }}\n    |        ^^^^\n"]
["render --explain --standard page.liquid g.json d", "a\n{% asign x = 1 %}", "{}", [], "  at page.liquid, line 2, column 4\n  2 | {% asign x = 1 %}\n    |    ^^^^^\n  similar names: assign\n"]
["render --explain --standard page.liquid g.json d", "{% set x = 1 %}", "{}", [], "  at page.liquid, line 1, column 4\n  1 | {% set x = 1 %}\n    |    ^^^\n  similar names: assign\n"]
["render --explain --standard page.liquid g.json d", "{% fro x in y %}{% endfor %}", "{}", [], "  at page.liquid, line 1, column 4\n  1 | {% fro x in y %}{% endfor %}\n    |    ^^^\n  similar names: for\n"]
["render --explain --standard page.liquid g.json d", "{% if a %}\n{% elseif b %}\n{% endif %}", "{}", [], "  at page.liquid, line 2, column 4\n  2 | {% elseif b %}\n    |    ^^^^^^\n  similar names: elsif, else\n"]
["render --explain --standard page.liquid g.json d", "{% if a %}{% elif b %}{% endif %}", "{}", [], "  at page.liquid, line 1, column 14\n  1 | {% if a %}{% elif b %}{% endif %}\n    |              ^^^^\n  similar names: elsif\n"]
["render --explain --standard page.liquid g.json d", "{% if a %}x{% enidf %}", "{}", [], "  at page.liquid, line 1, column 15\n  1 | {% if a %}x{% enidf %}\n    |               ^^^^^\n  similar names: endif\n"]
["render --explain --standard page.liquid g.json d", "{% else %}", "{}", [], "  at page.liquid, line 1, column 4\n  1 | {% else %}\n    |    ^^^^\n"]
["render --explain --standard page.liquid g.json d", "{% endif %}", "{}", [], "  at page.liquid, line 1, column 4\n  1 | {% endif %}\n    |    ^^^^^\n  no block is open here\n"]
["render --explain --standard page.liquid g.json d", "{% if a %}{% for x in y %}{% endif %}{% endfor %}", "{}", [], "  at page.liquid, line 1, column 30\n  1 | {% if a %}{% for x in y %}{% endif %}{% endfor %}\n    |                              ^^^^^\n  {% endfor %} ends the block that begins at line 1, column 14\n"]
["render --explain --standard page.liquid g.json d", "a\n{% if a == 1 %}\nx\n", "{}", [], "  at page.liquid, line 4, column 1\n  {% endif %} ends the block that begins at line 2, column 4\n  2 | {% if a == 1 %}\n    |    ^^^^^^^^^ this block has no end\n"]
["render --explain --standard page.liquid g.json d", "{% comment %} {{ x }}", "{}", [], "  at page.liquid, line 1, column 22\n  {% endcomment %} ends the block that begins at line 1, column 4\n  1 | {% comment %} {{ x }}\n    |    ^^^^^^^ this block has no end\n"]
["render --explain --standard page.liquid g.json d", "{% if x %}{% else %}{% elsif y %}{% endif %}", "{}", [], "  at page.liquid, line 1, column 29\n  1 | {% if x %}{% else %}{% elsif y %}{% endif %}\n    |                             ^\n"]
["render --explain --standard page.liquid g.json d", "{{ x | append }}", "{\"x\": 1}", [], "  at page.liquid, line 1, column 8\n  1 | {{ x | append }}\n    |        ^^^^^^\n"]
["render --explain --standard page.liquid g.json d", "{{ x | append: 1, 2 }}", "{\"x\": 1}", [], "  at page.liquid, line 1, column 8\n  1 | {{ x | append: 1, 2 }}\n    |        ^^^^^^^^^^^^\n"]
["render --explain --standard page.liquid g.json d", "{{ x | default: 1, allow_fals: true }}", "{\"x\": 1}", [], "  at page.liquid, line 1, column 8\n  1 | {{ x | default: 1, allow_fals: true }}\n    |        ^^^^^^^^^^^^^^^^^^^^^^^^^^^^\n"]
["render --explain --standard page.liquid g.json d", "{{ a[a[a[a[a[a[a[a[a[a[a[a[a[a[a[a[a[a[a[a[a[a[a[a[a[a[a[a[a[a[a[a[a[a[a[a[a[a[a[a[a[a[a[a[a[a[a[a[a[a[a[a[a[a[a[a[a[a[a[a[a[a[a[a[a[a[a[a[a[a[a[a[a[a[a[a[a[a[a[a[a[a[a[a[a[a[a[a[a[a[a[a[a[a[a[a[a[a[a[a[a[0]]]]]]]]]]]]]]]]]]]]]]]]]]]]]]]]]]]]]]]]]]]]]]]]]]]]]]]]]]]]]]]]]]]]]]]]]]]]]]]]]]]]]]]]]]]]]]]]]]]]] }}", "{}", [], "  at page.liquid, line 1, column 205\n  1 | ..[a[a[a[a[a[a[a[a[a[a[a[a[a[a[a[a[a[a[a[a[a[a[a[a[a[a[a[a[a[a[0]]]]]]]]]]]]]]]]]]]]]]]]]]]]]]]]]]]]]]..\n    |                                                               ^\n"]"##;

/// Adds a partial in the folder `d`. Returns `false` if it is not a name with a text, or if memory runs out.
fn add_partial(
    alloc: Global,
    files: &mut InMemoryFolder,
    names: &mut Vec<String>,
    partial: &Json,
) -> bool {
    let Some(name) = partial.get(0).and_then(Json::as_str) else {
        return false;
    };
    match format!(in alloc; "d/{name}") {
        Ok(path) => add_split(alloc, names, name)
            && add_file(alloc, files, path.as_str(), partial.get(1)),
        Err(_) => false,
    }
}

/// Adds the partials of a row. Returns `false` if one of them could not be added.
fn add_partials(alloc: Global, files: &mut InMemoryFolder, row: &Line) -> bool {
    let mut names = Vec::new(alloc);
    let Some(partials) = row.list(3) else {
        return false;
    };
    for partial in partials {
        if !add_partial(alloc, files, &mut names, partial) {
            return false;
        }
    }
    files.add_list(alloc, "d", names).is_ok()
}

/// Returns `true` if the words of a row end with status 1, and the error stream with the lines of the row.
fn row_holds(alloc: Global, row: &Line) -> bool {
    let mut files = InMemoryFolder::new(alloc);
    let mut words = Vec::new(alloc);
    let is_set = add_file(alloc, &mut files, "page.liquid", row.member(1))
        && add_file(alloc, &mut files, "g.json", row.member(2))
        && add_partials(alloc, &mut files, row)
        && add_words(alloc, &mut words, row.member(0));
    if !is_set {
        return false;
    }
    let ran = run_in_memory(alloc, words.as_slice(), &mut files);
    match bytes_of(alloc, row.member(4)) {
        Some(lines) => ran.status == 1 && ends_with(ran.err.as_slice(), lines.as_slice()),
        None => false,
    }
}

/// Returns `true` if some bytes end with others.
fn ends_with(bytes: &[u8], end: &[u8]) -> bool {
    match bytes.len().checked_sub(end.len()) {
        Some(front) => bytes.get(front..) == Some(end),
        None => false,
    }
}

#[test]
fn errors_have_their_places(rt: HostRuntime) -> Result<(), Fail> {
    rows_hold(rt.alloc(), ROWS, row_holds)
}
