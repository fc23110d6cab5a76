//! The calls that render a template, each over a runtime of its own, of any type.
use crate::pages::{has_error, is_row_result};
use liquid_core::runtime::{ChainedScopes, FlatScopes, Renderable, Runtime, Scopes, Template};
use liquid_core::{Error, Filter, PartialStore, TextSink};
use rows::{Row, is_text};
use std::alloc::Global;

/// A call that renders a template.
#[derive(Clone, Copy)]
pub(crate) enum Rendering {
    /// `render_to`.
    To,
    /// `render`, which returns no text with an error.
    Whole,
    /// `render_in` over scopes whose names are looked up frame by frame.
    Chained,
    /// `render_in` over scopes with a table of names.
    Flat,
}

/// Returns `true` if a template has a row's result by `render_to`.
fn is_rendered_to<X, T, B, R>(
    alloc: Global,
    row: &Row,
    page: &Template<X, T, B>,
    mut runtime: R,
) -> bool
where
    X: Filter,
    T: Renderable<()>,
    B: Renderable<()>,
    R: Runtime<Register = ()> + Drop,
    R::Store: PartialStore<X, T, B>,
{
    let mut sink = TextSink::new(alloc);
    let answer = page.render_to(alloc, &mut sink, &mut runtime);
    is_row_result(alloc, row, &sink, &answer)
}

/// Returns `true` if a call returned what a row says, or the row's error.
fn is_returned(alloc: Global, row: &Row, answer: Result<String, Error>) -> bool {
    match answer {
        Ok(text) => text.as_str() == row.written() && row.error().is_empty(),
        Err(error) => is_text(error.to_string(alloc), row.error()),
    }
}

/// Returns `true` if a template has a row's result by `render`.
fn is_rendered_whole<X, T, B, R>(
    alloc: Global,
    row: &Row,
    page: &Template<X, T, B>,
    mut runtime: R,
) -> bool
where
    X: Filter,
    T: Renderable<()>,
    B: Renderable<()>,
    R: Runtime<Register = ()> + Drop,
    R::Store: PartialStore<X, T, B>,
{
    is_returned(alloc, row, page.render(alloc, &mut runtime))
}

/// Returns `true` if a template has a row's result by `render_in` over scopes of one form, which leaves no frame open.
fn is_rendered_in<S, X, T, B>(
    alloc: Global,
    row: &Row,
    page: &Template<X, T, B>,
    base: S::Base,
) -> bool
where
    S: Scopes<Register = ()>,
    S::Base: Drop,
    X: Filter,
    T: Renderable<()>,
    B: Renderable<()>,
    S::Store: PartialStore<X, T, B>,
{
    let mut scopes = S::new(alloc, base);
    let mut sink = TextSink::new(alloc);
    let answer = page.render_in(alloc, &mut sink, &mut scopes);
    let frames = scopes.frames();
    drop(scopes.into_base());
    frames == 0 && is_row_result(alloc, row, &sink, &answer)
}

/// Returns `true` if a template has a row's result by one of the calls that render it.
pub(crate) fn is_rendered<X, T, B, R>(
    alloc: Global,
    row: &Row,
    page: &Template<X, T, B>,
    rendering: Rendering,
    runtime: R,
) -> bool
where
    X: Filter,
    T: Renderable<()>,
    B: Renderable<()>,
    R: Runtime<Register = ()> + Drop,
    R::Store: PartialStore<X, T, B>,
{
    match rendering {
        Rendering::To => is_rendered_to(alloc, row, page, runtime),
        Rendering::Whole => is_rendered_whole(alloc, row, page, runtime),
        Rendering::Chained => {
            is_rendered_in::<ChainedScopes<R>, X, T, B>(alloc, row, page, runtime)
        }
        Rendering::Flat => is_rendered_in::<FlatScopes<R>, X, T, B>(alloc, row, page, runtime),
    }
}

/// Returns `true` if a text is what a sink took, and after it the text of the error if there is one.
fn is_whole(alloc: Global, sink: &TextSink, answer: &Result<(), Error>, wanted: &str) -> bool {
    let taken = sink.as_bytes().len();
    match (wanted.get(..taken), wanted.get(taken..)) {
        (Some(first), Some(rest)) => {
            sink.as_bytes() == first.as_bytes() && has_error(alloc, answer, rest)
        }
        _ => false,
    }
}

/// Returns `true` if a template writes a text over a runtime, with the text of its error after it.
pub(crate) fn writes<X, T, B, R>(
    alloc: Global,
    page: &Template<X, T, B>,
    runtime: &mut R,
    wanted: &str,
) -> bool
where
    X: Filter,
    R: Runtime,
    T: Renderable<R::Register>,
    B: Renderable<R::Register>,
    R::Store: PartialStore<X, T, B>,
{
    let mut sink = TextSink::new(alloc);
    let answer = page.render_to(alloc, &mut sink, runtime);
    is_whole(alloc, &sink, &answer, wanted)
}
