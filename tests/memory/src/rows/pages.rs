//! Templates of a row, and what they write.
use crate::growths::{MOST, Run, Seen, Verdict, taken};
use crate::problem::Problem;
use crate::rows::row::Row;
use liquid_core::parser::{Language, ParseBlock, ParseFilter, ParseTag, parse};
use liquid_core::runtime::{Renderable, Runtime, Template};
use liquid_core::{Error, Filter, PartialStore, TextSink};
use std::alloc::Global;

/// A template of a language's nodes.
pub type Page<F, T, B> = Template<
    <F as ParseFilter>::Filter,
    <T as ParseTag<F>>::Node,
    <B as ParseBlock<F>>::Node,
>;

/// Returns the row's template, parsed.
pub fn page<F, T, B>(
    alloc: Global,
    row: &Row,
    language: &Language<F, T, B>,
) -> Result<Page<F, T, B>, Problem>
where
    F: ParseFilter,
    T: ParseTag<F>,
    B: ParseBlock<F>,
{
    match parse(alloc, row.template(), language) {
        Ok(nodes) => Ok(Template::new(nodes)),
        Err(error) if error.is_memory() => Err(Problem::Refused),
        Err(_) => Err(Problem::NoTree),
    }
}

/// Returns `true` if this is the text of the error.
pub fn is_said(alloc: Global, error: &Error, text: &str) -> Result<bool, Problem> {
    Ok(error.to_string(alloc)?.as_str() == text)
}

/// Compares a result and what was written before it with the row.
pub fn verdict_of(
    alloc: Global,
    row: &Row,
    written: &[u8],
    answer: &Result<(), Error>,
) -> Result<Verdict, Problem> {
    let wanted = row.written().as_bytes();
    match answer {
        Err(error) if error.is_memory() => Ok(Verdict::Memory.only_if(wanted.starts_with(written))),
        Err(error) => {
            let is_said = is_said(alloc, error, row.error())?;
            Ok(Verdict::Whole.only_if(is_said && wanted == written))
        }
        Ok(()) => Ok(Verdict::Whole.only_if(row.error().is_empty() && wanted == written)),
    }
}

/// Renders over a runtime after that many boxes.
pub fn run_over<R, X, T, B>(
    alloc: Global,
    row: &Row,
    page: &Template<X, T, B>,
    runtime: &mut R,
    boxes: usize,
) -> Result<Run, Problem>
where
    X: Filter,
    T: Renderable<()>,
    B: Renderable<()>,
    R: Runtime<Register = ()>,
    R::Store: PartialStore<X, T, B>,
{
    let mut sink = TextSink::new(alloc);
    let before = taken(alloc, boxes);
    let answer = page.render_to(alloc, &mut sink, runtime);
    let after = taken(alloc, MOST);
    let verdict = verdict_of(alloc, row, sink.as_bytes(), &answer);
    drop(answer);
    drop(sink);
    Ok(Run {
        before,
        after,
        verdict: verdict?,
    })
}

/// Renders over a runtime after that many boxes, and then once more.
pub fn seen_over<R, X, T, B>(
    alloc: Global,
    row: &Row,
    page: &Template<X, T, B>,
    runtime: &mut R,
    boxes: usize,
) -> Result<Seen, Problem>
where
    X: Filter,
    T: Renderable<()>,
    B: Renderable<()>,
    R: Runtime<Register = ()>,
    R::Store: PartialStore<X, T, B>,
{
    let first = run_over(alloc, row, page, runtime, boxes);
    Seen::of(first, run_over(alloc, row, page, runtime, 0))
}
