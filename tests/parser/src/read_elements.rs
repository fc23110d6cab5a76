//! Calls of the parser that no other crate's tests make by name.
use crate::languages::{Check, language_rows_hold};
use crate::rows::texts_at;
use crate::shown::displays;
use liquid_core::Error;
use liquid_core::parser::{
    BlockElement, InvalidLiquidToken, Language, Node, ParseBlock, ParseFilter, ParseTag, Tag,
    TagBlock, TagToken, TagTokenIter,
};
use rows::{Line, holds};
use std::alloc::Global;
use std::test::Fail;

/// Returns the kind of a node.
fn kind_of<X, N, K>(node: &Node<X, N, K>) -> &'static str {
    match node {
        Node::Tag(_, _) => "tag",
        Node::Block(_, _, _) => "block",
        _ => "other",
    }
}

/// Returns `true` if a node that was read is of a kind, or if the text of the error is this one.
fn is_kind<X, N, K>(alloc: Global, read: &Result<Node<X, N, K>, Error>, kind: &str) -> bool {
    match read {
        Ok(node) => kind_of(node) == kind,
        Err(error) => displays(alloc, error, kind),
    }
}

/// Returns what the next element is read as: a tag by the tag's own call, an invalid by its own.
fn next_read<F, T, B>(
    alloc: Global,
    block: &mut TagBlock<'_, '_>,
    language: &Language<F, T, B>,
) -> Result<Node<F::Filter, T::Node, B::Node>, Error>
where
    F: ParseFilter,
    T: ParseTag<F>,
    B: ParseBlock<F>,
{
    match TagBlock::next(block, alloc)? {
        None => Err(Error::with_msg(alloc, "a body has no element")),
        Some(BlockElement::Tag(tag)) => Tag::parse(tag, alloc, block, language),
        Some(BlockElement::Invalid(token)) => InvalidLiquidToken::parse(token, alloc, block),
        Some(element) => BlockElement::parse(element, alloc, block, language),
    }
}

/// Returns `true` if the first element of a row's body is read as a kind of node, or if its error has the row's text.
pub(crate) fn is_read<F, T, B>(alloc: Global, row: &Line, language: &Language<F, T, B>) -> bool
where
    F: ParseFilter,
    T: ParseTag<F>,
    B: ParseBlock<F>,
{
    match texts_at(row, 0, 1) {
        Some((body, kind)) => {
            let mut block = TagBlock::new(body, "start", "end");
            is_kind(alloc, &next_read(alloc, &mut block, language), kind)
        }
        None => false,
    }
}

/// Bodies, and what the first element of each is read as.
static ROWS: &str = r#"["{% set g 1 %}", "tag"]
["{% box %}a{% endbox %}", "block"]
["text", "other"]
["{{ 1 }}", "other"]
["{{ ! }}", "liquid: Invalid liquid (line 1, column 1)\n"]"#;

#[test]
fn elements_are_read_one_by_one(rt: HostRuntime) -> Result<(), Fail> {
    language_rows_hold(rt.alloc(), Check::FirstElement, ROWS)
}

/// Returns `true` if an error about the place of some tokens has this text.
fn raises_error(alloc: Global, tokens: &TagTokenIter<'_>, text: &str) -> bool {
    displays(alloc, &TagTokenIter::raise_error(tokens, alloc, "m"), text)
}

/// Returns `true` if an error about the next token has this text.
fn next_raises_error(alloc: Global, tokens: &mut TagTokenIter<'_>, text: &str) -> bool {
    match TagTokenIter::expect_next(tokens, alloc, "none") {
        Ok(token) => displays(alloc, &TagToken::raise_error(token, alloc), text),
        Err(_) => false,
    }
}

/// Returns `true` if errors about a tag's place and about its token have their texts.
fn raise_errors(alloc: Global) -> bool {
    match Tag::new(alloc, "{% t 1 %}") {
        Ok(tag) => {
            let mut tokens: TagTokenIter<'_> = tag.into_tokens();
            raises_error(alloc, &tokens, "liquid: m (line 1, column 5)\n")
                && next_raises_error(
                    alloc,
                    &mut tokens,
                    "liquid: Unexpected token (line 1, column 6)\n",
                )
        }
        Err(_) => false,
    }
}

#[test]
fn tokens_raise_errors_at_their_place(rt: HostRuntime) -> Result<(), Fail> {
    holds(
        raise_errors(rt.alloc()),
        "errors have the places of their tokens",
    )
}
