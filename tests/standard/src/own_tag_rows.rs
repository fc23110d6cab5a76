//! Pages of the standard language with a tag of a host's own.
use crate::page_rows::{globals_of, rows_write};
use liquid_beside::language_beside;
use liquid_core::parser::{NoPlugin, PluginRegistry};
use liquid_core::partials::InMemorySource;
use liquid_core::{Error, TextSink, render_page_in};
use liquid_extend::TextTagPlugin;
use liquid_std::marks::Marks;
use rows::holds;
use std::alloc::Global;
use std::test::Fail;
use test_calls::Link;

/// Renders a text over these globals, in the standard language with the tag `link`.
fn render(alloc: Global, text: &str, globals: &str, sink: &mut TextSink) -> Result<(), Error> {
    let filters: PluginRegistry<NoPlugin> = PluginRegistry::new(alloc);
    let tags = [TextTagPlugin { kind: Link }];
    let blocks: [NoPlugin; 0] = [];
    let language = language_beside(alloc, filters, &tags, &blocks)?;
    let globals = globals_of(alloc, globals)?;
    let partials = InMemorySource::new(alloc);
    render_page_in::<Marks, _, _, _, _, _>(alloc, text, language, globals, partials, sink)
}

/// A text, its globals, and what it writes.
static ROWS: &str = r#"["{% link '/a' %}{% link x, title: 'b' %}", "{\"x\": 1}", "</a|><1|b>"]
["{% for i in (1..3) %}{% cycle 'a', 'b' %}{% link i %}{% endfor %}", "{}", "a<1|>b<2|>a<3|>"]
["{% if x == 1 and true %}{% assign y = 2 %}{% link y %}{% endif %}{% decrement n %}", "{\"x\": 1}", "<2|>-1"]
["{% capture t %}{% link 1 %}{% endcapture %}{% echo t %}", "{}", "<1|>"]
["{% unless x %}{% link %}{% endunless %}", "{\"x\": false}", "liquid: Unexpected arguments\n"]"#;

#[test]
fn rows_of_an_own_tag(rt: HostRuntime) -> Result<(), Fail> {
    rows_write(rt.alloc(), ROWS, render)?;
    holds(ROWS.lines().count() == 5, "a table has all its rows")
}
