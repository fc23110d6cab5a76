//! Bodies of blocks, with the nodes that their elements are parsed into.
use crate::languages::{Check, language_rows_hold};
use crate::rows::texts_at;
use crate::shown::has_first_line;
use liquid_core::Error;
use liquid_core::model::Object;
use liquid_core::parser::{Filter, Language, Node, ParseBlock, ParseFilter, ParseTag, TagBlock};
use liquid_core::runtime::{BuiltRuntime, Renderable, RuntimeBuilder, Template};
use rows::Line;
use std::alloc::{AllocError, Global};
use std::test::Fail;

/// Returns a runtime without globals.
fn nothing_known(alloc: Global) -> BuiltRuntime<(), ()> {
    RuntimeBuilder::new(alloc)
        .set_globals(Object::new(alloc))
        .build()
}

/// Returns what nodes write.
pub(crate) fn rendered<X, T, B>(alloc: Global, nodes: Vec<Node<X, T, B>>) -> Result<String, Error>
where
    X: Filter,
    T: Renderable<()>,
    B: Renderable<()>,
{
    let mut runtime = nothing_known(alloc);
    Template::new(nodes).render(alloc, &mut runtime)
}

/// Returns what the nodes of a body up to the end tag `end` write.
fn body_text<F, T, B>(
    alloc: Global,
    body: &str,
    language: &Language<F, T, B>,
) -> Result<String, Error>
where
    F: ParseFilter,
    T: ParseTag<F>,
    B: ParseBlock<F>,
    T::Node: Renderable<()>,
    B::Node: Renderable<()>,
{
    let mut block = TagBlock::new(body, "start", "end");
    rendered(alloc, block.parse_all(alloc, language)?)
}

/// Returns `true` if an answer is this text, or if its error has this first line.
pub(crate) fn is_text_or_first_line(
    alloc: Global,
    answer: Result<String, Error>,
    text: &str,
) -> bool {
    match answer {
        Ok(answer) => answer.as_str() == text,
        Err(error) => has_first_line(alloc, &error, text),
    }
}

/// A body, and its result.
static BODIES: &str = r#"["{% end %}a", ""]
["a{{ 5 }}{% box %}b{% endbox %}c{% end %}d", "a5[b]c"]
["{% swap %}a{% mid %}b{% endswap %}{% end %}", "ba"]
["{% raw %}{{ 4.5 }}{% endraw %} {%- end %}", "{{ 4.5 }}"]
["{% box %}{% raw %}{% endbox %}{% endraw %}{% endbox %}{% end %}", "[{% endbox %}]"]
["{% set x 1 %}{{ x | append: 2 }}{% end %}", "12"]
["{% box %}{% end %}{% endbox %}{% end %}", "liquid: Unknown tag. (line 1, column 13)"]
["{% mid %}{% end %}", "liquid: Unknown tag. (line 1, column 4)"]
["a{{ ! }}{% end %}", "liquid: Invalid liquid (line 1, column 2)"]
["{{ a | nope }}{% end %}", "liquid: Unknown filter (line 1, column 8)"]
["{% box 1 %}a{% endbox %}{% end %}", "liquid: Unexpected token (line 1, column 8)"]
["{% box %}a", "liquid: Unclosed block. {% endbox %} tag expected. (line 1, column 11)"]
["{% box %}a{% endbox %}\n", "liquid: Unclosed block. {% end %} tag expected. (line 2, column 1)"]
["{% end 1 %}", "liquid: Unexpected token (line 1, column 8)"]"#;

/// Returns `true` if a row has the result of its body.
pub(crate) fn is_parsed<F, T, B>(alloc: Global, row: &Line, language: &Language<F, T, B>) -> bool
where
    F: ParseFilter,
    T: ParseTag<F>,
    B: ParseBlock<F>,
    T::Node: Renderable<()>,
    B::Node: Renderable<()>,
{
    match texts_at(row, 0, 1) {
        Some((body, text)) => is_text_or_first_line(alloc, body_text(alloc, body, language), text),
        None => false,
    }
}

#[test]
fn bodies_are_parsed_up_to_their_ends(rt: HostRuntime) -> Result<(), Fail> {
    language_rows_hold(rt.alloc(), Check::Body, BODIES)
}

/// Returns a body of that many nested boxes.
fn boxes(alloc: Global, count: usize) -> Result<String, AllocError> {
    let opened = "{% box %}".repeat(alloc, count)?;
    let closed = "{% endbox %}".repeat(alloc, count)?;
    format!(in alloc; "{opened}{closed}{{% end %}}")
}

/// Returns what a body of that many nested boxes writes.
fn boxed_text<F, T, B>(
    alloc: Global,
    count: usize,
    language: &Language<F, T, B>,
) -> Result<String, Error>
where
    F: ParseFilter,
    T: ParseTag<F>,
    B: ParseBlock<F>,
    T::Node: Renderable<()>,
    B::Node: Renderable<()>,
{
    let body = boxes(alloc, count)?;
    body_text(alloc, body.as_str(), language)
}

/// Returns `true` if an answer is a text of this length.
fn has_length(answer: Result<String, Error>, length: usize) -> bool {
    match answer {
        Ok(text) => text.len() == length,
        Err(_) => false,
    }
}

/// Returns the number at a place of a row, or `None` if there is none.
fn number_at(row: &Line, place: usize) -> Option<usize> {
    match row.number(place) {
        Some(number) => usize::try_from(number).ok(),
        None => None,
    }
}

/// Returns `true` if nested boxes write a text of the length that a row has, or have the row's error.
pub(crate) fn are_boxes_parsed<F, T, B>(
    alloc: Global,
    row: &Line,
    language: &Language<F, T, B>,
) -> bool
where
    F: ParseFilter,
    T: ParseTag<F>,
    B: ParseBlock<F>,
    T::Node: Renderable<()>,
    B::Node: Renderable<()>,
{
    let Some(count) = number_at(row, 0) else {
        return false;
    };
    match (number_at(row, 1), row.text(1)) {
        (Some(length), _) => has_length(boxed_text(alloc, count, language), length),
        (None, Some(line)) => is_text_or_first_line(
            alloc,
            boxed_text(alloc, count, language),
            line,
        ),
        (None, None) => false,
    }
}

/// The number of boxes in each other, and the length of what they write, or their error.
static BOXES: &str = r#"[99, 198]
[100, "liquid: Nested too deep (line 1, column 895)"]"#;

#[test]
fn a_cursor_counts_as_one_open_block(rt: HostRuntime) -> Result<(), Fail> {
    language_rows_hold(rt.alloc(), Check::Boxes, BOXES)
}
