//! Rows in isolation, and in a sandbox if they assign nothing, over each parent.
use crate::isolated_rows::ISOLATED;
use crate::parents::{Over, PARENTS, is_kept, over};
use crate::sources::{data_of, has_result, row_of, store_of};
use liquid_core::parser::{Language, ParseBlock, ParseFilter, ParseTag, parse};
use liquid_core::partials::{InMemorySource, LazyStore};
use liquid_core::runtime::{Runtime, Template};
use liquid_core::{Discreet, Error, Filter, PartialStore, TextSink};
use liquid_filters::filters;
use liquid_std::marks::Marks;
use rows::{Line, Row, holds};
use std::alloc::Global;
use std::rc::Rc;
use std::test::Fail;

/// Renders a row over a parent, in isolation or in a sandbox.
fn render<X, T, B, R>(
    alloc: Global,
    page: &Template<X, T, B>,
    row: &Row,
    parent: &mut R,
    is_sandboxed: bool,
    sink: &mut TextSink,
) -> Result<(), Error>
where
    X: Filter,
    T: Discreet<Marks>,
    B: Discreet<Marks>,
    R: Runtime<Register = Marks>,
    R::Store: PartialStore<X, T, B>,
{
    let data = data_of(alloc, row)?;
    if is_sandboxed {
        page.render_sandboxed(alloc, sink, parent, data, None)
    } else {
        page.render_isolated(alloc, sink, parent, data, None)
    }
}

/// Returns `true` if a page comes to what its row says over a runtime of a parent, and leaves the runtime as it was.
fn is_rendered<X, T, B, R>(
    alloc: Global,
    page: &Template<X, T, B>,
    row: &Row,
    parent: &Line,
    runtime: &mut R,
    is_sandboxed: bool,
) -> bool
where
    X: Filter,
    T: Discreet<Marks>,
    B: Discreet<Marks>,
    R: Runtime<Register = Marks>,
    R::Store: PartialStore<X, T, B>,
{
    let mut sink = TextSink::new(alloc);
    let answer = render(alloc, page, row, runtime, is_sandboxed, &mut sink);
    has_result(alloc, row, sink.as_bytes(), answer) && is_kept(alloc, parent, &*runtime)
}

/// Returns a runtime of a parent over a store of its own, or `None` if it could not be made.
fn runtime_over<F, T, B>(
    alloc: Global,
    language: &Rc<Language<F, T, B>>,
    row: &Row,
    parent: &Line,
) -> Option<Over<LazyStore<InMemorySource, F, T, B>>>
where
    F: ParseFilter,
    T: ParseTag<F>,
    B: ParseBlock<F>,
{
    over(alloc, parent, row, store_of(alloc, row, language)?)
}

/// Returns `true` if a page comes to what its row says over a parent, and leaves the parent as it was.
fn holds_over<F, T, B>(
    alloc: Global,
    language: &Rc<Language<F, T, B>>,
    page: &Template<F::Filter, T::Node, B::Node>,
    row: &Row,
    parent: &Line,
    is_sandboxed: bool,
) -> bool
where
    F: ParseFilter,
    T: ParseTag<F>,
    B: ParseBlock<F>,
    T::Node: Discreet<Marks>,
    B::Node: Discreet<Marks>,
{
    match runtime_over(alloc, language, row, parent) {
        Some(mut runtime) => is_rendered(alloc, page, row, parent, &mut runtime, is_sandboxed),
        None => false,
    }
}

/// Returns `true` if a parsed row holds over the parent of a line in isolation, and in a sandbox if it says so.
fn holds_within<F, T, B>(
    alloc: Global,
    language: &Rc<Language<F, T, B>>,
    page: &Template<F::Filter, T::Node, B::Node>,
    row: &Row,
    line: &str,
) -> bool
where
    F: ParseFilter,
    T: ParseTag<F>,
    B: ParseBlock<F>,
    T::Node: Discreet<Marks>,
    B::Node: Discreet<Marks>,
{
    match Line::of(alloc, line) {
        Some(parent) => {
            holds_over(alloc, language, page, row, &parent, false)
                && (row.member("is_sandboxed").is_none()
                    || holds_over(alloc, language, page, row, &parent, true))
        }
        None => false,
    }
}

/// Returns `true` if a parsed row holds over each parent.
fn holds_over_each<F, T, B>(
    alloc: Global,
    language: &Rc<Language<F, T, B>>,
    page: &Template<F::Filter, T::Node, B::Node>,
    row: &Row,
) -> bool
where
    F: ParseFilter,
    T: ParseTag<F>,
    B: ParseBlock<F>,
    T::Node: Discreet<Marks>,
    B::Node: Discreet<Marks>,
{
    for line in PARENTS.lines() {
        if !holds_within(alloc, language, page, row, line) {
            return false;
        }
    }
    true
}

/// Returns `true` if a row holds over each parent, or has the error of its text.
fn row_holds<F, T, B>(alloc: Global, language: &Rc<Language<F, T, B>>, row: &Row) -> bool
where
    F: ParseFilter,
    T: ParseTag<F>,
    B: ParseBlock<F>,
    T::Node: Discreet<Marks>,
    B::Node: Discreet<Marks>,
{
    match parse(alloc, row.template(), language) {
        Ok(nodes) => holds_over_each(alloc, language, &Template::new(nodes), row),
        Err(error) => has_result(alloc, row, b"", Err(error)),
    }
}

/// Returns `true` if the row of a line holds.
fn line_holds<F, T, B>(alloc: Global, language: &Rc<Language<F, T, B>>, line: &str) -> bool
where
    F: ParseFilter,
    T: ParseTag<F>,
    B: ParseBlock<F>,
    T::Node: Discreet<Marks>,
    B::Node: Discreet<Marks>,
{
    match row_of(alloc, line) {
        Some(row) => row_holds(alloc, language, &row),
        None => false,
    }
}

/// Fails for the first row that does not hold in a language.
fn all_hold<F, T, B>(alloc: Global, language: &Rc<Language<F, T, B>>) -> Result<(), Fail>
where
    F: ParseFilter,
    T: ParseTag<F>,
    B: ParseBlock<F>,
    T::Node: Discreet<Marks>,
    B::Node: Discreet<Marks>,
{
    for line in ISOLATED.lines() {
        if !line_holds(alloc, language, line) {
            return Err(Fail::new(format_args!("this row doesn't hold: {line}")));
        }
    }
    Ok(())
}

/// Fails for the first row that does not hold in the standard language.
fn all_hold_in_the_standard(alloc: Global) -> Result<(), Fail> {
    let language = liquid_std::language(alloc, filters(alloc, None)?)?;
    all_hold(alloc, &Rc::new(alloc, language)?)
}

#[test]
fn rows_in_isolation(rt: HostRuntime) -> Result<(), Fail> {
    all_hold_in_the_standard(rt.alloc())?;
    holds(ISOLATED.lines().count() == 54, "a table has all its rows")
}
