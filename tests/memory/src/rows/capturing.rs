//! Templates with blocks that capture their bodies.

use crate::built::built;
use crate::growths::Seen;
use crate::problem::{Problem, both};
use crate::rows::pages::{page, seen_over};
use crate::rows::row::Row;
use liquid_core::parser::{Language, NoPlugin, ParseBlock, ParseFilter, ParseTag};
use liquid_core::runtime::Renderable;
use liquid_extend::TextBlockPlugin;
use std::alloc::Global;
use test_calls::Twice;

type Capturing = Language<NoPlugin, NoPlugin, TextBlockPlugin<Twice>>;

/// Returns a language of this block alone.
fn language(alloc: Global) -> Result<Capturing, Problem> {
    let mut language: Capturing = Language::empty(alloc);
    let plugin = TextBlockPlugin { kind: Twice };
    match language.blocks.register("twice", plugin) {
        Ok(_) => Ok(language),
        Err(error) => {
            drop(language);
            Err(Problem::from(error))
        }
    }
}

/// Renders in a language over the row's globals, and then once more.
fn captured_in<F, T, B>(
    alloc: Global,
    row: &Row,
    language: Language<F, T, B>,
    boxes: usize,
) -> Result<Seen, Problem>
where
    F: ParseFilter,
    T: ParseTag<F>,
    B: ParseBlock<F>,
    T::Node: Renderable<()>,
    B::Node: Renderable<()>,
{
    let made = both(page(alloc, row, &language), row.globals(alloc));
    drop(language);
    let (page, globals) = made?;
    let mut runtime = built(alloc, globals);
    let seen = seen_over(alloc, row, &page, &mut runtime, boxes);
    drop(runtime);
    drop(page);
    seen
}

/// Renders over the row's globals after that many boxes, and then once more.
pub fn captured(alloc: Global, row: &Row, boxes: usize) -> Result<Seen, Problem> {
    captured_in(alloc, row, language(alloc)?, boxes)
}
