//! Rows of the shop's language.
use crate::sources::is_whole;
use example_shop::languages::language;
use liquid_core::model::{Object, Value};
use liquid_core::partials::InMemorySource;
use liquid_core::{Error, TextSink, render_page_in};
use rows::{Line, holds, rows_hold};
use std::alloc::{AllocError, Global};
use std::test::Fail;

/// Returns globals with this value of `left`.
fn globals(alloc: Global, left: i64) -> Result<Object, AllocError> {
    let mut globals = Object::new(alloc);
    globals.insert(String::from_str(alloc, "left")?, Value::scalar(left))?;
    Ok(globals)
}

/// Renders a text in the shop's language over this value of `left`.
fn render(alloc: Global, text: &str, left: i64, sink: &mut TextSink) -> Result<(), Error> {
    let globals = globals(alloc, left)?;
    let language = language(alloc)?;
    let partials = InMemorySource::new(alloc);
    render_page_in::<(), _, _, _, _, _>(alloc, text, language, globals, partials, sink)
}

/// Returns `true` if this is what a text writes over this value of `left`, and the error after it.
fn writes(alloc: Global, text: &str, left: i64, wanted: &str) -> bool {
    let mut sink = TextSink::new(alloc);
    let answer = render(alloc, text, left, &mut sink);
    is_whole(alloc, sink, answer, wanted)
}

/// Returns `true` if a text writes what its row says.
fn row_holds(alloc: Global, row: &Line) -> bool {
    match (row.text(0), row.number(1), row.text(2)) {
        (Some(text), Some(left), Some(wanted)) => writes(alloc, text, left, wanted),
        _ => false,
    }
}

/// A text, the value of `left`, and what is written.
static ROWS: &str = r#"["{{ 'rain' | upcase }}", 1, "RAIN"]
["{{ left | quoted }}", 12, "\"12\""]
["{{ 'a' | quoted | size }}", 1, "3"]
["{% badge 'new' %}", 1, "[new]"]
["{% badge left %}", -1, "[-1]"]
["{% badge %}", 1, "liquid: Value expected (line 1, column 9)\n"]
["{% badge 1 2 %}", 1, "liquid: Unexpected token (line 1, column 12)\n"]
["{% badge x %}", 1, "liquid: Unknown variable\n  with:\n    requested variable=x\n"]
["{% stock left %}a{% soldout %}b{% endstock %}", 1, "a"]
["{% stock left %}a{% soldout %}b{% endstock %}", 0, "b"]
["{% stock left %}a{% soldout %}b{% endstock %}", -1, "b"]
["{% stock 'x' %}a{% soldout %}b{% endstock %}", 1, "b"]
["{% stock left %}a{% endstock %}", 0, ""]
["{% stock left %}a{% soldout 1 %}b{% endstock %}", 1, "liquid: Unexpected token (line 1, column 29)\n"]
["{% stock left %}a", 1, "liquid: Unclosed block. {% endstock %} tag expected. (line 1, column 18)\n"]
["{% if left > 1 %}a{% elsif left == 1 %}b{% else %}c{% endif %}", 1, "b"]
["{% if left > 1 %}a{% else %}b{% elsif 1 %}c{% endif %}", 1, "liquid: Divider after else (line 1, column 38)\n"]
["{% for i in (1..left) %}{% stock i %}{% badge i %}{% endstock %}{% endfor %}", 3, "[1][2][3]"]
["{% assign left = 'a' | upcase %}{{ left }}", 1, "A"]
["{% twice %}a{{ left }}{% endtwice %}", 1, "a1a1"]
["{% twice %}a{% twice %}b{% endtwice %}{% endtwice %}c", 1, "abbabbc"]
["{% twice %}{{ left }}{% assign left = 5 %}{% endtwice %}{{ left }}", 1, "115"]
["{% twice %}{% assign left = 7 %}{% endtwice %}{{ left }}", 1, "7"]
["{% for i in (1..3) %}{% twice %}{{ i }}{% endtwice %}{% endfor %}c", 1, "112233c"]
["a{% twice %}b{{ none }}{% endtwice %}c", 1, "aliquid: Unknown variable\n  with:\n    requested variable=none\n"]
["{% twice %}{% endtwice %}c", 1, "c"]
["{% twice 1 %}{% endtwice %}", 1, "liquid: Unexpected token (line 1, column 10)\n"]"#;

#[test]
fn rows_of_the_language(rt: HostRuntime) -> Result<(), Fail> {
    rows_hold(rt.alloc(), ROWS, row_holds)?;
    holds(ROWS.lines().count() == 27, "a table has all its rows")
}
