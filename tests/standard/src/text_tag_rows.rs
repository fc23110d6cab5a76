//! Pages of a tag that writes a text.

use crate::page_rows::{globals_of, rows_write};
use liquid_core::parser::{Language, NoPlugin};
use liquid_core::partials::InMemorySource;
use liquid_core::{Error, TextSink, render_page_in};
use liquid_extend::TextTagPlugin;
use rows::holds;
use std::alloc::Global;
use std::test::Fail;
use test_calls::Link;

/// Renders a text over these globals.
fn render(alloc: Global, text: &str, globals: &str, sink: &mut TextSink) -> Result<(), Error> {
    let mut language: Language<NoPlugin, TextTagPlugin<Link>, NoPlugin> = Language::empty(alloc);
    language.add_tag(alloc, TextTagPlugin { kind: Link })?;
    let globals = globals_of(alloc, globals)?;
    let partials = InMemorySource::new(alloc);
    render_page_in::<(), _, _, _, _, _>(alloc, text, language, globals, partials, sink)
}

/// A text, its globals, and what it writes.
static ROWS: &str = r#"["{% link '/a' %}{% link x.y %}", "{\"x\": {\"y\": [1, 2]}}", "</a|><12|>"]
["{% link '/a', title: 'b' %}{% link '/a' title: 'b' %}{% link title: 'b', '/a' %}", "{}", "</a|b></a|b></a|b>"]
["{% link a, b, title: c %}{% link a b title: c %}", "{\"a\": 1, \"b\": 2, \"c\": 3}", "<1|3><1|3>"]
["{% link '/a', title: nope %}", "{}", "liquid: Unknown variable\n  with:\n    requested variable=nope\n"]
["{% link %}", "{}", "liquid: Unexpected arguments\n"]
["{% link 1, 2, 3 %}", "{}", "liquid: Unexpected arguments\n"]
["{% link 1, name: 2 %}", "{}", "liquid: Unexpected arguments\n"]
["{% link 1, title: 2, title: 3 %}", "{}", "liquid: Unexpected arguments\n"]
["{% link 1, %}", "{}", "liquid: Token expected (line 1, column 11)\n"]
["{% link 1,, 2 %}", "{}", "liquid: Unexpected token (line 1, column 11)\n"]
["{% link title: %}", "{}", "liquid: Token expected (line 1, column 15)\n"]
["{% link 1: 2 %}", "{}", "liquid: Unexpected token (line 1, column 9)\n"]
["{% link (1..2) %}", "{}", "liquid: Unexpected token (line 1, column 9)\n"]"#;

#[test]
fn rows_of_text_tags(rt: HostRuntime) -> Result<(), Fail> {
    rows_write(rt.alloc(), ROWS, render)?;
    holds(ROWS.lines().count() == 13, "a table has all its rows")
}
