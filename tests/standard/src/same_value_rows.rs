//! Pages of the standard tags and blocks, where conditions compare by the same value and loops go over texts.
use crate::page_rows::{globals_of, rows_write};
use liquid_core::parser::{Language, PluginRegistry};
use liquid_core::partials::InMemorySource;
use liquid_core::{Error, NoPlugin, TextSink, render_page_in};
use liquid_std::conditions::Equality;
use liquid_std::iteration::OverScalar;
use liquid_std::marks::Marks;
use liquid_std::{StdBlocks, StdTags, language};
use std::alloc::{AllocError, Global};
use std::test::Fail;

/// A text, its globals, and what it writes.
const ROWS: &str =
    r#"["{% if x == false %}a{% endif %}{% if x != false %}b{% endif %}{% if e == empty %}c{% endif %}", "{\"x\": null, \"e\": \"\"}", "bc"]
["{% if nil == false %}a{% endif %}{% if true == 'x' %}b{% endif %}{% if 1 == '1' %}c{% endif %}{% if 1 == 1 %}d{% endif %}", "{}", "d"]
["{% if empty == empty %}a{% endif %}{% if blank == nil %}b{% endif %}{% if '' == blank %}c{% endif %}{% if nil == empty %}d{% endif %}", "{}", ""]
["{% if e == empty and empty == o %}a{% endif %}{% if l == empty %}b{% endif %}{% unless 0 == empty %}c{% endunless %}", "{\"e\": [], \"o\": {}, \"l\": [1]}", "ac"]
["{% if l == k %}a{% endif %}{% if l != m %}b{% endif %}{% if blank <> false %}c{% endif %}", "{\"l\": [1, [2]], \"k\": [1, [2]], \"m\": [1, [\"2\"]]}", "abc"]
["{% if 'a' <= 'b' and 2 >= 2 %}a{% endif %}{% if 1 < '2' %}b{% endif %}{% if 'a1' contains 1 %}c{% endif %}", "{}", "ac"]
["{% unless x == true %}a{% elsif x == 'y' %}b{% endunless %}{% unless x %}c{% elsif x == 'y' %}d{% endunless %}", "{\"x\": \"y\"}", "ad"]
["{% case x %}{% when false %}a{% when nil %}b{% endcase %}{% case '' %}{% when blank, empty %}c{% endcase %}", "{\"x\": null}", "bc"]
["{% case empty %}{% when x, empty %}a{% when '' %}b{% endcase %}{% case 'x' %}{% when true %}c{% else %}d{% endcase %}", "{\"x\": [1]}", "bd"]
["{% for i in 'ab' %}{{ i }}{{ forloop.length }}{% endfor %}{% for i in '' %}{{ i }}{% else %}n{% endfor %}", "{}", "ab1n"]
["{% for i in 5 %}{{ i }}{% else %}n{% endfor %}{% for i in true %}{{ i }}{% endfor %}{% for i in nil %}{{ i }}{% else %}n{% endfor %}", "{}", "nn"]
["{% for i in 'ab' reversed limit: 1 %}{{ i }}{% endfor %}{% for i in 'ab' limit: 0 %}{{ i }}{% else %}n{% endfor %}", "{}", "abn"]
["{% for i in l %}{{ i }}{% endfor %}{% for i in o %}{{ i }}{% endfor %}{% for i in (x..3) %}{{ i }}{% endfor %}", "{\"l\": [7, 8], \"o\": {\"k\": 1}, \"x\": \"2\"}", "78k123"]
["{% for i in (x..3) %}{{ i }}{% endfor %}", "{\"x\": \"a\"}", "liquid: Whole number expected\n  with:\n    found=\"a\"\n"]
["{% for i in 'ab' limit: 'x' %}{% endfor %}", "{}", "liquid: Whole number expected\n  with:\n    found=\"x\"\n"]
["{% tablerow i in 'ab' %}{% endtablerow %}", "{}", "liquid: Array expected\n  with:\n    found=\"ab\"\n"]"#;

/// Returns the language.
fn same_values(alloc: Global) -> Result<Language<NoPlugin, StdTags, StdBlocks>, AllocError> {
    let mut language = language(alloc, PluginRegistry::new(alloc))?;
    let blocks = &mut language.blocks;
    blocks.register("if", StdBlocks::If(Equality::Same))?;
    blocks.register("unless", StdBlocks::Unless(Equality::Same))?;
    blocks.register("case", StdBlocks::Case(Equality::Same))?;
    blocks.register("for", StdBlocks::For(OverScalar::TextItself))?;
    Ok(language)
}

/// Renders a text over these globals.
fn render(alloc: Global, text: &str, globals: &str, sink: &mut TextSink) -> Result<(), Error> {
    render_page_in::<Marks, NoPlugin, StdTags, StdBlocks, InMemorySource, TextSink>(
        alloc,
        text,
        same_values(alloc)?,
        globals_of(alloc, globals)?,
        InMemorySource::new(alloc),
        sink,
    )
}

#[test]
fn same_values_and_loops_over_texts(rt: HostRuntime) -> Result<(), Fail> {
    rows_write(rt.alloc(), ROWS, render)
}
