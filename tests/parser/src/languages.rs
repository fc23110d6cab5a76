//! What tests check in a language.
use crate::attempts::is_tried;
use crate::blocks::{are_boxes_parsed, is_parsed};
use crate::one_by_one::{are_four_parsed, is_box_parsed};
use crate::read_elements::is_read;
use crate::reflections::{has_block, has_tag};
use crate::taken::is_taken;
use liquid_core::parser::{Language, ParseBlock, ParseFilter, ParseTag};
use liquid_core::runtime::Renderable;
use rows::{Line, holds};
use std::alloc::{AllocError, Global};
use std::test::Fail;
use test_plugins::{Blocks, Filters, Tags, language};

/// What a test checks in each row of a table.
#[derive(Clone, Copy)]
pub(crate) enum Check {
    Block,
    Tag,
    Chain,
    NextToken,
    Body,
    Boxes,
    FirstElement,
    FourElements,
    BoxAlone,
}

/// Returns `true` if a row passes a check in a language.
fn row_holds<F, T, B>(alloc: Global, check: Check, row: &Line, language: &Language<F, T, B>) -> bool
where
    F: ParseFilter,
    T: ParseTag<F>,
    B: ParseBlock<F>,
    T::Node: Renderable<()>,
    B::Node: Renderable<()>,
{
    match check {
        Check::Block => has_block(row, &language.blocks),
        Check::Tag => has_tag(row, &language.tags),
        Check::Chain => is_tried(alloc, row, &language.filters),
        Check::NextToken => is_taken(alloc, row, &language.filters),
        Check::Body => is_parsed(alloc, row, language),
        Check::Boxes => are_boxes_parsed(alloc, row, language),
        Check::FirstElement => is_read(alloc, row, language),
        Check::FourElements => are_four_parsed(alloc, row, language),
        Check::BoxAlone => is_box_parsed(alloc, row, language),
    }
}

/// Returns `true` if the row of a line passes a check in a language.
fn line_holds<F, T, B>(
    alloc: Global,
    check: Check,
    line: &str,
    language: &Language<F, T, B>,
) -> bool
where
    F: ParseFilter,
    T: ParseTag<F>,
    B: ParseBlock<F>,
    T::Node: Renderable<()>,
    B::Node: Renderable<()>,
{
    match Line::of(alloc, line) {
        Some(row) => row_holds(alloc, check, &row, language),
        None => false,
    }
}

/// Fails for the first row of a table that does not pass a check in a language.
fn rows_hold_in<F, T, B>(
    alloc: Global,
    check: Check,
    rows: &str,
    language: &Language<F, T, B>,
) -> Result<(), Fail>
where
    F: ParseFilter,
    T: ParseTag<F>,
    B: ParseBlock<F>,
    T::Node: Renderable<()>,
    B::Node: Renderable<()>,
{
    for line in rows.lines() {
        holds(line_holds(alloc, check, line, language), line)?;
    }
    Ok(())
}

/// Returns a copy of the plain language.
fn copied(alloc: Global) -> Result<Language<Filters, Tags, Blocks>, AllocError> {
    language(alloc)?.clone()
}

/// Fails for the first row of a table that does not pass a check in a copy of the plain language. No other function here
/// names it in a call that is generic in the language: each that does is checked against all that its plug-ins promise.
pub(crate) fn language_rows_hold(alloc: Global, check: Check, rows: &str) -> Result<(), Fail> {
    match copied(alloc) {
        Ok(language) => rows_hold_in(alloc, check, rows, &language),
        Err(failed) => Err(Fail::from(failed)),
    }
}
