//! The plug-in that does nothing: what it says about itself, and what it makes of texts.
use crate::pages::{Table, tables_hold};
use crate::reflections::{block_is_listed, body_is_listed, filter_is_listed, tag_is_listed};
use liquid_core::model::{Value, ValueCow};
use liquid_core::parser::{
    BlockReflection, Filter, FilterArguments, FilterReflection, Language, NoPlugin, TagReflection,
    call_filter,
};
use rows::{Line, holds, rows_hold};
use std::alloc::{AllocError, Global};
use std::test::Fail;

type Nothings = Language<NoPlugin, NoPlugin, NoPlugin>;

/// What the filter, the tag and the block say: name, description, parameters by place, parameters by keyword; name and
/// description; start tag, end tag, description, dividers, whether it escapes, and whether it nests.
const REFLECTIONS: &str = r#"["nothing", "Gives nil.", "", ""]
["nothing", "Writes nothing."]
["nothing", "endnothing", "Writes nothing, not even its body.", "", false, false]"#;

/// Returns `true` if the block, the filter or the tag is as a row with that many places says.
fn is_listed(alloc: Global, row: &Line) -> bool {
    if row.member(5).is_some() {
        block_is_listed(&NoPlugin, row) && body_is_listed(alloc, &NoPlugin, row)
    } else if row.member(3).is_some() {
        filter_is_listed(alloc, &NoPlugin, row)
    } else {
        tag_is_listed(&NoPlugin, row)
    }
}

#[test]
fn nothing_says_what_it_is(rt: HostRuntime) -> Result<(), Fail> {
    rows_hold(rt.alloc(), REFLECTIONS, is_listed)?;
    holds(NoPlugin.label() == "nothing", "the label")
}

/// Returns `true` if the filter gives nil for a number.
fn gives_nil(alloc: Global) -> bool {
    let input = ValueCow::Owned(Value::scalar(5i64));
    let given = FilterArguments {
        positional: Vec::new(alloc),
        keyword: Vec::new(alloc),
    };
    matches!(call_filter(alloc, &NoPlugin, &input, given), Ok(Value::Nil))
}

/// Returns a language of a filter and a tag under their own names, and a block under another.
fn language_of<F, T, B>(
    alloc: Global,
    filter: F,
    tag: T,
    (name, block): (&str, B),
) -> Result<Language<F, T, B>, AllocError>
where
    F: FilterReflection + Drop,
    T: TagReflection + Drop,
    B: BlockReflection + Drop,
{
    let mut language = Language::empty(alloc);
    language.add_filter(alloc, filter)?;
    language.add_tag(alloc, tag)?;
    language.blocks.register(name, block)?;
    Ok(language)
}

/// Returns a language in which `nothing` is a filter and a tag, and `none` a block.
fn nothings(alloc: Global) -> Result<Nothings, AllocError> {
    language_of(alloc, NoPlugin, NoPlugin, ("none", NoPlugin))
}

/// Texts, and their results. The end of a block is the one that it names itself, whatever name it is registered under,
/// and its tokens are errors, while any token of a tag or a block is taken.
const TEXTS: &str = r#"{"template": "a{{ 5 | nothing }}b", "written": "ab"}
{"template": "a{{ 5 | nothing: 1, by: \"x\" | nothing }}b", "written": "ab"}
{"template": "a{% nothing %}b{% nothing x == (1..2) %}c", "written": "abc"}
{"template": "a{% none x | nothing %}b{{ 5 }}{% endnothing %}c", "written": "ac"}
{"template": "a{% none %}{% none %}b{% endnothing %}{% endnothing %}c", "written": "ac"}
{"template": "a{% none %}b{% endnothing 1 %}c", "written": "", "error": "liquid: Unexpected token (line 1, column 27)\n"}
{"template": "a{% none %}b{% endnone %}c", "written": "", "error": "liquid: Unknown tag. (line 1, column 16)\n  with:\n    requested=endnone\n    available tags=nothing\n    available blocks=none\n"}
{"template": "a{% none %}b", "written": "", "error": "liquid: Unclosed block. {% endnothing %} tag expected. (line 1, column 13)\n"}"#;

/// Texts in a language that has no plug-in.
const ROWS: &str =
    r#"{"template": "Hello {{ name }}!", "globals": {"name": "World"}, "written": "Hello World!"}
{"template": "{{ name | append: 1 }}", "globals": {"name": "World"}, "written": "", "error": "liquid: Unknown filter (line 1, column 11)\n  with:\n    requested filter=append\n    available filters=\n"}
{"template": "{% name %}", "globals": {"name": "World"}, "written": "", "error": "liquid: Unknown tag. (line 1, column 4)\n  with:\n    requested=name\n    available tags=\n    available blocks=\n"}
{"template": "{{ name.size }}", "globals": {"name": "World"}, "written": "5"}"#;

/// Fails for the first row of a table in a language of `nothing` that does not pass.
fn table_holds(
    alloc: Global,
    table: Table<'_>,
    language: Result<Nothings, AllocError>,
) -> Result<(), Fail> {
    tables_hold(alloc, &[table], false, language)
}

#[test]
fn nothing_makes_nothing(rt: HostRuntime) -> Result<(), Fail> {
    let alloc = rt.alloc();
    table_holds(alloc, (TEXTS, 8), nothings(alloc))?;
    table_holds(alloc, (ROWS, 4), Ok(Language::empty(alloc)))?;
    holds(gives_nil(alloc), "the filter gives nil")
}

/// A text over a language with the block `nothing` alone.
const NAMED: &str = r#"{"template": "a{% nothing %}b{% endnothing %}c", "written": "ac"}"#;

/// Returns a language of a block that was added twice, and an empty one if the first replaces another, or the second
/// does not replace the first.
fn added_twice<F, T, B>(alloc: Global, first: B, second: B) -> Result<Language<F, T, B>, AllocError>
where
    F: FilterReflection + Drop,
    T: TagReflection + Drop,
    B: BlockReflection + Drop,
{
    let mut language = Language::empty(alloc);
    let is_first = matches!(language.add_block(alloc, first), Ok(false));
    if is_first && matches!(language.add_block(alloc, second), Ok(true)) {
        Ok(language)
    } else {
        Ok(Language::empty(alloc))
    }
}

// Plug-ins are found under the names that they return, and a second one replaces the first.
#[test]
fn plugins_are_added_under_their_own_names(rt: HostRuntime) -> Result<(), Fail> {
    let alloc = rt.alloc();
    table_holds(alloc, (NAMED, 1), added_twice(alloc, NoPlugin, NoPlugin))
}
