//! Parsing a row's template.
use crate::growths::{MOST, Run, Seen, Verdict, taken};
use crate::problem::{Problem, both};
use crate::rows::pages::{Page, run_over, verdict_of};
use crate::rows::row::Row;
use crate::rows::stores::{OfSource, store};
use liquid_core::Error;
use liquid_core::parser::{Language, Node, ParseBlock, ParseFilter, ParseTag, parse};
use liquid_core::partials::PartialCompiler;
use liquid_core::runtime::{Renderable, Template};
use std::alloc::Global;
use std::rc::Rc;

type Nodes<F, T, B> = Vec<
    Node<<F as ParseFilter>::Filter, <T as ParseTag<F>>::Node, <B as ParseBlock<F>>::Node>,
>;

/// Classifies what a template writes over the row's globals.
fn page_verdict<C, F, T, B>(
    alloc: Global,
    row: &Row,
    language: &Rc<Language<F, T, B>>,
    page: &Page<F, T, B>,
) -> Result<Verdict, Problem>
where
    F: ParseFilter,
    T: ParseTag<F>,
    B: ParseBlock<F>,
    T::Node: Renderable<()>,
    B::Node: Renderable<()>,
    C: PartialCompiler<F, T, B> + OfSource + Drop,
    C::Store: Drop,
{
    let (globals, store) = both(
        row.globals(alloc),
        store::<C, F, T, B>(alloc, row, language),
    )?;
    let mut runtime = row.runtime(alloc, globals, store);
    let run = run_over(alloc, row, page, &mut runtime, 0);
    drop(runtime);
    Ok(run?.verdict)
}

/// Classifies a result of `parse`: a tree is the row's if it writes what the row writes.
fn read_verdict<C, F, T, B>(
    alloc: Global,
    row: &Row,
    language: &Rc<Language<F, T, B>>,
    read: Result<Nodes<F, T, B>, Error>,
) -> Result<Verdict, Problem>
where
    F: ParseFilter,
    T: ParseTag<F>,
    B: ParseBlock<F>,
    T::Node: Renderable<()>,
    B::Node: Renderable<()>,
    C: PartialCompiler<F, T, B> + OfSource + Drop,
    C::Store: Drop,
{
    match read {
        Err(error) => {
            let answer = Err(error);
            let verdict = verdict_of(alloc, row, b"", &answer);
            drop(answer);
            verdict
        }
        Ok(nodes) => {
            let page = Template::new(nodes);
            let verdict = page_verdict::<C, F, T, B>(alloc, row, language, &page);
            drop(page);
            verdict
        }
    }
}

/// Parses the row's text after that many boxes.
fn run<C, F, T, B>(
    alloc: Global,
    row: &Row,
    language: &Rc<Language<F, T, B>>,
    boxes: usize,
) -> Result<Run, Problem>
where
    F: ParseFilter,
    T: ParseTag<F>,
    B: ParseBlock<F>,
    T::Node: Renderable<()>,
    B::Node: Renderable<()>,
    C: PartialCompiler<F, T, B> + OfSource + Drop,
    C::Store: Drop,
{
    let before = taken(alloc, boxes);
    let read = parse(alloc, row.template(), language);
    let after = taken(alloc, MOST);
    let verdict = read_verdict::<C, F, T, B>(alloc, row, language, read)?;
    Ok(Run {
        before,
        after,
        verdict,
    })
}

/// Parses the row's text after that many boxes, and then once more.
pub fn parsed<C, F, T, B>(
    alloc: Global,
    row: &Row,
    language: &Rc<Language<F, T, B>>,
    boxes: usize,
) -> Result<Seen, Problem>
where
    F: ParseFilter,
    T: ParseTag<F>,
    B: ParseBlock<F>,
    T::Node: Renderable<()>,
    B::Node: Renderable<()>,
    C: PartialCompiler<F, T, B> + OfSource + Drop,
    C::Store: Drop,
{
    let first = run::<C, F, T, B>(alloc, row, language, boxes);
    Seen::of(first, run::<C, F, T, B>(alloc, row, language, 0))
}
