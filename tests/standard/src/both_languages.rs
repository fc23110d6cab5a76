//! Templates of the tag library in its own language and in the standard one, with the same filters.
use crate::library_rows::LIBRARY;
use crate::parents::{Over, built};
use crate::sources::{data_of, has_result, row_of, store_of};
use liquid_core::parser::{Language, ParseBlock, ParseFilter, ParseTag};
use liquid_core::partials::{InMemorySource, LazyStore};
use liquid_core::runtime::{Renderable, Runtime};
use liquid_core::{PartialStore, TextSink, render_source};
use liquid_filters::filters;
use liquid_std::marks::Marks;
use rows::{Row, holds};
use std::alloc::Global;
use std::rc::Rc;
use std::test::Fail;

/// Returns `true` if a row comes to what it says in a language over a runtime.
fn is_rendered<F, T, B, R>(
    alloc: Global,
    row: &Row,
    language: &Language<F, T, B>,
    runtime: &mut R,
) -> bool
where
    F: ParseFilter,
    T: ParseTag<F>,
    B: ParseBlock<F>,
    R: Runtime,
    T::Node: Renderable<R::Register>,
    B::Node: Renderable<R::Register>,
    R::Store: PartialStore<F::Filter, T::Node, B::Node>,
{
    let mut sink = TextSink::new(alloc);
    let answer = render_source(alloc, row.template(), language, runtime, &mut sink);
    has_result(alloc, row, sink.as_bytes(), answer)
}

/// Returns a runtime that has a row's names and partials, or `None` if it could not be made.
fn runtime_of<F, T, B>(
    alloc: Global,
    row: &Row,
    language: &Rc<Language<F, T, B>>,
) -> Option<Over<LazyStore<InMemorySource, F, T, B>>>
where
    F: ParseFilter,
    T: ParseTag<F>,
    B: ParseBlock<F>,
{
    let store = store_of(alloc, row, language)?;
    match data_of(alloc, row) {
        Ok(data) => Some(built(alloc, data, store, row.is_lenient())),
        Err(_) => None,
    }
}

/// Returns `true` if a row comes to what it says in a language.
fn row_holds<F, T, B>(alloc: Global, row: &Row, language: &Rc<Language<F, T, B>>) -> bool
where
    F: ParseFilter,
    T: ParseTag<F>,
    B: ParseBlock<F>,
    T::Node: Renderable<Marks>,
    B::Node: Renderable<Marks>,
{
    match runtime_of(alloc, row, language) {
        Some(mut runtime) => is_rendered(alloc, row, language, &mut runtime),
        None => false,
    }
}

/// Returns `true` if the row of a line comes to what it says in a language.
fn line_holds<F, T, B>(alloc: Global, line: &str, language: &Rc<Language<F, T, B>>) -> bool
where
    F: ParseFilter,
    T: ParseTag<F>,
    B: ParseBlock<F>,
    T::Node: Renderable<Marks>,
    B::Node: Renderable<Marks>,
{
    match row_of(alloc, line) {
        Some(row) => row_holds(alloc, &row, language),
        None => false,
    }
}

/// Fails for the first row that does not come to what it says in a language.
fn all_hold<F, T, B>(alloc: Global, language: &Rc<Language<F, T, B>>) -> Result<(), Fail>
where
    F: ParseFilter,
    T: ParseTag<F>,
    B: ParseBlock<F>,
    T::Node: Renderable<Marks>,
    B::Node: Renderable<Marks>,
{
    for line in LIBRARY.lines() {
        if !line_holds(alloc, line, language) {
            return Err(Fail::new(format_args!("this row doesn't hold: {line}")));
        }
    }
    Ok(())
}

/// Fails for the first row that does not come to what it says in the language of the tag library.
fn all_hold_in_the_library(alloc: Global) -> Result<(), Fail> {
    let language = liquid_tags::language(alloc, filters(alloc, None)?)?;
    all_hold(alloc, &Rc::new(alloc, language)?)
}

/// Fails for the first row that does not come to what it says in the standard language.
fn all_hold_in_the_standard(alloc: Global) -> Result<(), Fail> {
    let language = liquid_std::language(alloc, filters(alloc, None)?)?;
    all_hold(alloc, &Rc::new(alloc, language)?)
}

#[test]
fn rows_in_both_languages(rt: HostRuntime) -> Result<(), Fail> {
    all_hold_in_the_library(rt.alloc())?;
    all_hold_in_the_standard(rt.alloc())?;
    holds(LIBRARY.lines().count() == 24, "a table has all its rows")
}
