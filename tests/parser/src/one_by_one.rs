//! Elements of bodies, parsed one by one.
use crate::blocks::{is_text_or_first_line, rendered};
use crate::languages::{Check, language_rows_hold};
use crate::rows::texts_at;
use crate::shown::has_first_line;
use liquid_core::Error;
use liquid_core::parser::{
    BlockElement, InvalidLiquidToken, Language, Node, ParseBlock, ParseFilter, ParseTag, Raw, Tag,
    TagBlock,
};
use liquid_core::runtime::Renderable;
use rows::Line;
use std::alloc::Global;
use std::test::Fail;

/// Adds a node that was read after others. Returns `false` if reading it failed.
fn push<X: Drop, N: Drop, K: Drop>(
    nodes: &mut Vec<Node<X, N, K>>,
    node: Result<Node<X, N, K>, Error>,
) -> bool {
    match node {
        Ok(node) => nodes.push(node).is_ok(),
        Err(_) => false,
    }
}

/// Adds the node of the next element after others. Returns `false` if there is none.
fn add_next<F, T, B>(
    alloc: Global,
    nodes: &mut Vec<Node<F::Filter, T::Node, B::Node>>,
    block: &mut TagBlock<'_, '_>,
    language: &Language<F, T, B>,
) -> bool
where
    F: ParseFilter,
    T: ParseTag<F>,
    B: ParseBlock<F>,
{
    match block.next(alloc) {
        Ok(Some(element)) => push(nodes, element.parse(alloc, block, language)),
        _ => false,
    }
}

/// Adds the node of the next element after others. Returns `false` if it is not an expression.
fn add_expression<F, T, B>(
    alloc: Global,
    nodes: &mut Vec<Node<F::Filter, T::Node, B::Node>>,
    block: &mut TagBlock<'_, '_>,
    language: &Language<F, T, B>,
) -> bool
where
    F: ParseFilter,
    T: ParseTag<F>,
    B: ParseBlock<F>,
{
    match block.next(alloc) {
        Ok(Some(BlockElement::Expression(exp))) => push(nodes, exp.parse(alloc, language)),
        _ => false,
    }
}

/// Adds the nodes of three elements, and of an expression after them.
fn add_four<F, T, B>(
    alloc: Global,
    nodes: &mut Vec<Node<F::Filter, T::Node, B::Node>>,
    block: &mut TagBlock<'_, '_>,
    language: &Language<F, T, B>,
) -> bool
where
    F: ParseFilter,
    T: ParseTag<F>,
    B: ParseBlock<F>,
{
    add_next(alloc, nodes, block, language)
        && add_next(alloc, nodes, block, language)
        && add_next(alloc, nodes, block, language)
        && add_expression(alloc, nodes, block, language)
        && nodes.len() == 4
}

/// Returns `true` if the next four elements have four nodes, which write a text.
fn four_come_to<F, T, B>(
    alloc: Global,
    block: &mut TagBlock<'_, '_>,
    text: &str,
    language: &Language<F, T, B>,
) -> bool
where
    F: ParseFilter,
    T: ParseTag<F>,
    B: ParseBlock<F>,
    T::Node: Renderable<()>,
    B::Node: Renderable<()>,
{
    let mut nodes: Vec<Node<F::Filter, T::Node, B::Node>> = Vec::new(alloc);
    add_four(alloc, &mut nodes, block, language)
        && is_text_or_first_line(alloc, rendered(alloc, nodes), text)
}

/// Returns `true` if a cursor has no element more.
fn has_no_next<F, T, B>(
    alloc: Global,
    block: &mut TagBlock<'_, '_>,
    language: &Language<F, T, B>,
) -> bool
where
    F: ParseFilter,
    T: ParseTag<F>,
    B: ParseBlock<F>,
{
    match block.parse_next(alloc, language) {
        Ok(next) => next.is_none(),
        Err(_) => false,
    }
}

/// Returns `true` if the four elements of a row's body are parsed one by one to the row's text, and the cursor stays
/// closed then.
pub(crate) fn are_four_parsed<F, T, B>(
    alloc: Global,
    row: &Line,
    language: &Language<F, T, B>,
) -> bool
where
    F: ParseFilter,
    T: ParseTag<F>,
    B: ParseBlock<F>,
    T::Node: Renderable<()>,
    B::Node: Renderable<()>,
{
    match texts_at(row, 0, 1) {
        Some((body, text)) => {
            let mut block = TagBlock::new(body, "start", "end");
            four_come_to(alloc, &mut block, text, language)
                && has_no_next(alloc, &mut block, language)
                && block.is_closed()
                && has_no_next(alloc, &mut block, language)
                && block.is_closed()
        }
        None => false,
    }
}

/// A body of four elements, and what they write.
static FOUR: &str = r#"["a{{ 5 }}{% box %}b{% endbox %}{{ 6 }}{% end %}", "a5[b]6"]"#;

#[test]
fn elements_are_parsed_one_by_one(rt: HostRuntime) -> Result<(), Fail> {
    language_rows_hold(rt.alloc(), Check::FourElements, FOUR)
}

/// Returns `true` if reading a node was an error with this first line.
fn is_refused_as<X: Drop, N: Drop, K: Drop>(
    alloc: Global,
    read: Result<Node<X, N, K>, Error>,
    refusal: &str,
) -> bool {
    match read {
        Ok(_) => false,
        Err(error) => has_first_line(alloc, &error, refusal),
    }
}

/// Returns `true` if a token that begins nothing has this error.
fn token_is_refused<F, T, B>(
    alloc: Global,
    token: InvalidLiquidToken<'_>,
    block: &mut TagBlock<'_, '_>,
    refusal: &str,
    _language: &Language<F, T, B>,
) -> bool
where
    F: ParseFilter,
    T: ParseTag<F>,
    B: ParseBlock<F>,
{
    let read: Result<Node<F::Filter, T::Node, B::Node>, Error> = token.parse(alloc, block);
    is_refused_as(alloc, read, refusal)
}

/// Returns `true` if the next element is a brace that begins nothing, and has this error.
fn brace_is_refused<F, T, B>(
    alloc: Global,
    block: &mut TagBlock<'_, '_>,
    refusal: &str,
    language: &Language<F, T, B>,
) -> bool
where
    F: ParseFilter,
    T: ParseTag<F>,
    B: ParseBlock<F>,
{
    match block.next(alloc) {
        Ok(Some(BlockElement::Invalid(token))) => {
            token_is_refused(alloc, token, block, refusal, language)
        }
        _ => false,
    }
}

/// Returns the node of the text that a body begins with.
fn first_text<X: Drop, N: Drop, K: Drop>(
    alloc: Global,
    body: &str,
) -> Result<Node<X, N, K>, Error> {
    let mut block = TagBlock::new(body, "start", "end");
    match block.next(alloc)? {
        Some(BlockElement::Raw(raw)) => Ok(raw.into_renderable(alloc)?),
        _ => Err(Error::with_msg(alloc, "a body begins with no text")),
    }
}

/// Adds the node of a tag `box` alone, whose body lies in a cursor, and the node of a text `b` after it.
fn add_box<F, T, B>(
    alloc: Global,
    nodes: &mut Vec<Node<F::Filter, T::Node, B::Node>>,
    block: &mut TagBlock<'_, '_>,
    language: &Language<F, T, B>,
) -> bool
where
    F: ParseFilter,
    T: ParseTag<F>,
    B: ParseBlock<F>,
{
    match Tag::new(alloc, "{% box %}") {
        Ok(tag) => {
            push(nodes, tag.parse(alloc, block, language))
                && push(nodes, first_text(alloc, "b{% end %}"))
        }
        Err(_) => false,
    }
}

/// Returns `true` if the node of a tag `box` alone, whose body lies in a cursor, and the node after it write a text.
fn box_comes_to<F, T, B>(
    alloc: Global,
    block: &mut TagBlock<'_, '_>,
    text: &str,
    language: &Language<F, T, B>,
) -> bool
where
    F: ParseFilter,
    T: ParseTag<F>,
    B: ParseBlock<F>,
    T::Node: Renderable<()>,
    B::Node: Renderable<()>,
{
    let mut nodes: Vec<Node<F::Filter, T::Node, B::Node>> = Vec::new(alloc);
    add_box(alloc, &mut nodes, block, language)
        && is_text_or_first_line(alloc, rendered(alloc, nodes), text)
}

/// Returns `true` if a row's body is that of a tag `box` alone, which writes the row's text, and the brace after it has the
/// row's error.
pub(crate) fn is_box_parsed<F, T, B>(
    alloc: Global,
    row: &Line,
    language: &Language<F, T, B>,
) -> bool
where
    F: ParseFilter,
    T: ParseTag<F>,
    B: ParseBlock<F>,
    T::Node: Renderable<()>,
    B::Node: Renderable<()>,
{
    match (texts_at(row, 0, 1), row.text(2)) {
        (Some((body, text)), Some(refusal)) => {
            let mut block = TagBlock::new(body, "start", "end");
            box_comes_to(alloc, &mut block, text, language)
                && brace_is_refused(alloc, &mut block, refusal, language)
        }
        _ => false,
    }
}

/// The body of a box and a brace after it, what the box and a text after it write, and the error of the brace.
static BOX: &str =
    r#"["a{% endbox %}{{% end %}", "[a]b", "liquid: Invalid liquid (line 1, column 14)"]"#;

#[test]
fn a_tag_alone_takes_its_body_from_a_cursor(rt: HostRuntime) -> Result<(), Fail> {
    language_rows_hold(rt.alloc(), Check::BoxAlone, BOX)
}
