//! Every join of up to three pieces is read and rendered.
use crate::given::runtime_of;
use liquid_core::parser::{Language, ParseBlock, ParseFilter, ParseTag, parse};
use liquid_core::runtime::{Renderable, Runtime, Template};
use liquid_core::{Error, PartialStore, TextSink, render_source};
use rows::holds;
use std::alloc::{AllocError, Global};
use std::test::Fail;
use test_plugins::languages::language;

const PIECES: [&str; 12] = [
    "a",
    " ",
    "{{ a }}",
    "{{- 5 -}}",
    "{{ \"x\" | append: 1 }}",
    "{% box %}",
    "{% endbox %}",
    "{% raw %}",
    "{% endraw %}",
    "{% set g 1 %}",
    "{{",
    "{{ 4.5 }}",
];

/// What the texts see.
const NAMES: &str = r#"{"a": 1}"#;

/// Returns what a text is rendered as when it is parsed first.
fn rendered<F, T, B, R>(
    alloc: Global,
    language: &Language<F, T, B>,
    text: &str,
    mut runtime: R,
) -> Result<String, Error>
where
    F: ParseFilter,
    T: ParseTag<F>,
    B: ParseBlock<F>,
    T::Node: Renderable<()>,
    B::Node: Renderable<()>,
    R: Runtime<Register = ()> + Drop,
    R::Store: PartialStore<F::Filter, T::Node, B::Node>,
{
    let page = Template::new(parse(alloc, text, language)?);
    page.render(alloc, &mut runtime)
}

/// Returns `true` if a call has an error that is not out of memory.
fn is_refused(answer: &Result<(), Error>) -> bool {
    match answer {
        Ok(()) => false,
        Err(error) => !error.is_memory(),
    }
}

/// Returns `true` if a call in one has the result of a text that is parsed first, and neither is out of memory.
fn is_same(sink: &TextSink, answer: &Result<(), Error>, rendered: &Result<String, Error>) -> bool {
    match rendered {
        Ok(text) => answer.is_ok() && sink.as_bytes() == text.as_bytes(),
        Err(error) => !error.is_memory() && is_refused(answer),
    }
}

/// Returns `true` if parsing and rendering a text in one call has the result of a text that is parsed first.
fn is_same_at_once<F, T, B, R>(
    alloc: Global,
    language: &Language<F, T, B>,
    text: &str,
    runtime: Option<R>,
    rendered: Result<String, Error>,
) -> bool
where
    F: ParseFilter,
    T: ParseTag<F>,
    B: ParseBlock<F>,
    T::Node: Renderable<()>,
    B::Node: Renderable<()>,
    R: Runtime<Register = ()> + Drop,
    R::Store: PartialStore<F::Filter, T::Node, B::Node>,
{
    match runtime {
        Some(mut runtime) => {
            let mut sink = TextSink::new(alloc);
            let answer = render_source(alloc, text, language, &mut runtime, &mut sink);
            is_same(&sink, &answer, &rendered)
        }
        None => false,
    }
}

/// Returns `true` if a text that is parsed and rendered has the same result in one call.
fn is_tried<F, T, B>(alloc: Global, language: &Language<F, T, B>, text: &str) -> bool
where
    F: ParseFilter,
    T: ParseTag<F>,
    B: ParseBlock<F>,
    T::Node: Renderable<()>,
    B::Node: Renderable<()>,
{
    match runtime_of(alloc, NAMES) {
        Some(runtime) => {
            let rendered = rendered(alloc, language, text, runtime);
            is_same_at_once(alloc, language, text, runtime_of(alloc, NAMES), rendered)
        }
        None => false,
    }
}

/// Tries the join of three pieces, and counts it.
fn tries<F, T, B>(
    alloc: Global,
    language: &Language<F, T, B>,
    (first, second, third): (&str, &str, &str),
    count: &mut usize,
) -> bool
where
    F: ParseFilter,
    T: ParseTag<F>,
    B: ParseBlock<F>,
    T::Node: Renderable<()>,
    B::Node: Renderable<()>,
{
    *count = count.saturating_add(1);
    match format!(in alloc; "{first}{second}{third}") {
        Ok(text) => is_tried(alloc, language, text.as_str()),
        Err(_) => false,
    }
}

/// Tries the join of two pieces, and that of them and each piece, and counts these texts.
fn tries_followed<F, T, B>(
    alloc: Global,
    language: &Language<F, T, B>,
    (first, second): (&str, &str),
    count: &mut usize,
) -> bool
where
    F: ParseFilter,
    T: ParseTag<F>,
    B: ParseBlock<F>,
    T::Node: Renderable<()>,
    B::Node: Renderable<()>,
{
    for third in PIECES {
        if !tries(alloc, language, (first, second, third), count) {
            return false;
        }
    }
    tries(alloc, language, (first, second, ""), count)
}

/// Tries each piece, and each followed by one and by two pieces, and counts these texts.
fn tries_all<F, T, B>(alloc: Global, language: &Language<F, T, B>, count: &mut usize) -> bool
where
    F: ParseFilter,
    T: ParseTag<F>,
    B: ParseBlock<F>,
    T::Node: Renderable<()>,
    B::Node: Renderable<()>,
{
    for first in PIECES {
        for second in PIECES {
            if !tries_followed(alloc, language, (first, second), count) {
                return false;
            }
        }
        if !tries(alloc, language, (first, "", ""), count) {
            return false;
        }
    }
    true
}

/// Returns `true` if each of that many joins has the same result in one call.
fn are_tried<F, T, B>(
    alloc: Global,
    language: Result<Language<F, T, B>, AllocError>,
    wanted: usize,
) -> bool
where
    F: ParseFilter,
    T: ParseTag<F>,
    B: ParseBlock<F>,
    T::Node: Renderable<()>,
    B::Node: Renderable<()>,
{
    let mut count = 0usize;
    match language {
        Ok(language) => tries_all(alloc, &language, &mut count) && count == wanted,
        Err(_) => false,
    }
}

#[test]
fn joins_of_three_pieces_find_memory(rt: HostRuntime) -> Result<(), Fail> {
    let wanted = 12 + 12 * 12 + 12 * 12 * 12;
    holds(
        are_tried(rt.alloc(), language(rt.alloc()), wanted),
        "each join is tried, and has the same result in one call",
    )
}

/// Texts with what they are rendered as.
static ROWS: [(&str, Option<&str>); 7] = [
    ("a {{ a }}", Some("a 1")),
    ("a {{- 5 -}}", Some("a5")),
    ("{% box %}a{% endbox %}", Some("[a]")),
    ("{% raw %}{{{% endraw %}", Some("{{")),
    ("{{ \"x\" | append: 1 }}{% set g 1 %}a", Some("x1a")),
    ("{% box %}a", None),
    ("{{ 4.5 }}", None),
];

/// Returns `true` if a text is rendered as `wanted`, or has an error if that is `None`, which is not out of memory.
fn comes_to(rendered: Result<String, Error>, wanted: Option<&str>) -> bool {
    match rendered {
        Ok(text) => wanted == Some(text.as_str()),
        Err(error) => wanted.is_none() && !error.is_memory(),
    }
}

/// Returns `true` if a text in a language is rendered as its row says.
fn is_meant<F, T, B>(
    alloc: Global,
    language: &Language<F, T, B>,
    text: &str,
    wanted: Option<&str>,
) -> bool
where
    F: ParseFilter,
    T: ParseTag<F>,
    B: ParseBlock<F>,
    T::Node: Renderable<()>,
    B::Node: Renderable<()>,
{
    match runtime_of(alloc, NAMES) {
        Some(runtime) => comes_to(rendered(alloc, language, text, runtime), wanted),
        None => false,
    }
}

/// Fails for the first text that is not rendered as its row says.
fn are_meant<F, T, B>(
    alloc: Global,
    language: Result<Language<F, T, B>, AllocError>,
) -> Result<(), Fail>
where
    F: ParseFilter,
    T: ParseTag<F>,
    B: ParseBlock<F>,
    T::Node: Renderable<()>,
    B::Node: Renderable<()>,
{
    let language = language?;
    for (text, wanted) in &ROWS {
        holds(is_meant(alloc, &language, text, *wanted), text)?;
    }
    Ok(())
}

#[test]
fn some_joins_come_to_what_they_mean(rt: HostRuntime) -> Result<(), Fail> {
    are_meant(rt.alloc(), language(rt.alloc()))
}
