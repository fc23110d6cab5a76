//! Rows in any language, by each of the calls that render a template.
use crate::given::made_by_hand;
use crate::kinds::{Eager, Kind, Lazy, OnDemand, source, store_of};
use crate::renderings::{Rendering, is_rendered};
use liquid_core::model::{Object, to_object};
use liquid_core::parser::{Language, ParseBlock, ParseFilter, ParseTag, parse};
use liquid_core::partials::InMemorySource;
use liquid_core::runtime::{BuiltRuntime, Renderable, Runtime, RuntimeBuilder, Template};
use liquid_core::{Error, PartialStore, TextSink, render_source};
use rows::{Row, is_text};
use serde_json::Value as Json;
use std::alloc::{AllocError, Global};
use std::rc::Rc;
use std::test::Fail;

/// A runtime over a store of partials.
pub(crate) type Over<P> = BuiltRuntime<(), P>;

/// A template of a language.
pub(crate) type Page<F, T, B> = Template<
    <F as ParseFilter>::Filter,
    <T as ParseTag<F>>::Node,
    <B as ParseBlock<F>>::Node,
>;

/// Returns the names that a row sees: an object, or those that are made by hand if the row says so.
pub(crate) fn globals(alloc: Global, row: &Row) -> Option<Object> {
    match row.member("globals") {
        Some(Json::String(_)) if row.text("globals") == "made by hand" => made_by_hand(alloc),
        Some(globals) => to_object(alloc, globals).ok(),
        None => Some(Object::new(alloc)),
    }
}

/// Returns the number of partials that may be nested, 32 if the row doesn't say.
fn depth(row: &Row) -> Option<u32> {
    match row.member("depth") {
        Some(depth) => u32::try_from(depth.as_u64()?).ok(),
        None => Some(32),
    }
}

/// Returns a runtime of a row's globals over a store, or without one if there is none.
pub(crate) fn over<P: Drop>(alloc: Global, row: &Row, store: Option<P>) -> Option<Over<P>> {
    let (globals, depth) = (globals(alloc, row)?, depth(row)?);
    let builder = RuntimeBuilder::new(alloc)
        .set_globals(globals)
        .set_lenient(row.is_lenient());
    match store {
        Some(store) => Some(builder.set_partials(store).set_depth(depth).build()),
        None => Some(builder.build()),
    }
}

/// Returns a runtime of a row's globals, over a store of its partials if it has some.
fn runtime<F, T, B, K>(
    alloc: Global,
    row: &Row,
    language: &Rc<Language<F, T, B>>,
) -> Option<Over<K::Store>>
where
    F: ParseFilter,
    T: ParseTag<F>,
    B: ParseBlock<F>,
    K: Kind<InMemorySource, F, T, B>,
{
    if row.member("partials").is_none() {
        return over(alloc, row, None);
    }
    match store_of::<InMemorySource, F, T, B, K>(alloc, source(alloc, row), language) {
        Some(store) => over(alloc, row, Some(store)),
        None => None,
    }
}

/// Returns `true` if a call has an error with this text, or if it has none and the text is empty.
pub(crate) fn has_error(alloc: Global, answer: &Result<(), Error>, text: &str) -> bool {
    match answer {
        Ok(()) => text.is_empty(),
        Err(error) => !text.is_empty() && is_text(error.to_string(alloc), text),
    }
}

/// Returns `true` if a call wrote what a row says, and has the row's error.
pub(crate) fn is_row_result(
    alloc: Global,
    row: &Row,
    sink: &TextSink,
    answer: &Result<(), Error>,
) -> bool {
    sink.as_bytes() == row.written().as_bytes() && has_error(alloc, answer, row.error())
}

/// Returns `true` if a row passes with `render_source` over a runtime.
fn holds_at_once<F, T, B, R>(
    alloc: Global,
    row: &Row,
    language: &Language<F, T, B>,
    runtime: Option<R>,
) -> bool
where
    F: ParseFilter,
    T: ParseTag<F>,
    B: ParseBlock<F>,
    T::Node: Renderable<()>,
    B::Node: Renderable<()>,
    R: Runtime<Register = ()> + Drop,
    R::Store: PartialStore<F::Filter, T::Node, B::Node>,
{
    match runtime {
        Some(mut runtime) => {
            let mut sink = TextSink::new(alloc);
            let answer = render_source(alloc, row.template(), language, &mut runtime, &mut sink);
            is_row_result(alloc, row, &sink, &answer)
        }
        None => false,
    }
}

/// Returns `true` if a row's page passes with one of the calls that render a template.
fn holds_by<F, T, B, K>(
    alloc: Global,
    row: &Row,
    language: &Rc<Language<F, T, B>>,
    page: &Page<F, T, B>,
    rendering: Rendering,
) -> bool
where
    F: ParseFilter,
    T: ParseTag<F>,
    B: ParseBlock<F>,
    T::Node: Renderable<()>,
    B::Node: Renderable<()>,
    K: Kind<InMemorySource, F, T, B>,
{
    match runtime::<F, T, B, K>(alloc, row, language) {
        Some(runtime) => is_rendered(alloc, row, page, rendering, runtime),
        None => false,
    }
}

/// Returns `true` if a row that is parsed once passes with each call that renders a template, or has the error of its
/// text.
fn holds_once_read<F, T, B, K>(alloc: Global, row: &Row, language: &Rc<Language<F, T, B>>) -> bool
where
    F: ParseFilter,
    T: ParseTag<F>,
    B: ParseBlock<F>,
    T::Node: Renderable<()>,
    B::Node: Renderable<()>,
    K: Kind<InMemorySource, F, T, B>,
{
    match parse(alloc, row.template(), language) {
        Ok(nodes) => {
            let page = Template::new(nodes);
            holds_by::<F, T, B, K>(alloc, row, language, &page, Rendering::To)
                && holds_by::<F, T, B, K>(alloc, row, language, &page, Rendering::Whole)
                && holds_by::<F, T, B, K>(alloc, row, language, &page, Rendering::Chained)
                && holds_by::<F, T, B, K>(alloc, row, language, &page, Rendering::Flat)
        }
        Err(error) => is_text(error.to_string(alloc), row.error()),
    }
}

/// Returns `true` if a row passes with each of the calls, over a kind of store.
fn holds_by_each<F, T, B, K>(alloc: Global, row: &Row, language: &Rc<Language<F, T, B>>) -> bool
where
    F: ParseFilter,
    T: ParseTag<F>,
    B: ParseBlock<F>,
    T::Node: Renderable<()>,
    B::Node: Renderable<()>,
    K: Kind<InMemorySource, F, T, B>,
{
    holds_at_once(
        alloc,
        row,
        language,
        runtime::<F, T, B, K>(alloc, row, language),
    ) && holds_once_read::<F, T, B, K>(alloc, row, language)
}

/// Returns `true` if a row passes over partials that are parsed on demand, and if `each_store` is true over those of
/// each kind of store.
fn row_holds<F, T, B>(
    alloc: Global,
    row: &Row,
    each_store: bool,
    language: &Rc<Language<F, T, B>>,
) -> bool
where
    F: ParseFilter,
    T: ParseTag<F>,
    B: ParseBlock<F>,
    T::Node: Renderable<()>,
    B::Node: Renderable<()>,
{
    holds_by_each::<F, T, B, OnDemand>(alloc, row, language)
        && (!each_store
            || holds_by_each::<F, T, B, Lazy>(alloc, row, language)
                && holds_by_each::<F, T, B, Eager>(alloc, row, language))
}

/// Returns `true` if the row of a line passes with strict names and with lenient ones.
fn line_holds<F, T, B>(
    alloc: Global,
    line: &str,
    each_store: bool,
    language: &Rc<Language<F, T, B>>,
) -> bool
where
    F: ParseFilter,
    T: ParseTag<F>,
    B: ParseBlock<F>,
    T::Node: Renderable<()>,
    B::Node: Renderable<()>,
{
    match Row::of(alloc, line) {
        Some(row) => {
            row_holds(alloc, &row, each_store, language)
                && row_holds(alloc, &row.leniently(), each_store, language)
        }
        None => false,
    }
}

/// A table of rows, and the number of its rows.
pub(crate) type Table<'r> = (&'r str, usize);

/// Fails for the first row of a table that does not pass, and for a table with another number of rows.
fn table_holds<F, T, B>(
    alloc: Global,
    (rows, count): Table<'_>,
    each_store: bool,
    language: &Rc<Language<F, T, B>>,
) -> Result<(), Fail>
where
    F: ParseFilter,
    T: ParseTag<F>,
    B: ParseBlock<F>,
    T::Node: Renderable<()>,
    B::Node: Renderable<()>,
{
    for line in rows.lines() {
        if !line_holds(alloc, line, each_store, language) {
            return Err(Fail::new(format_args!("this row doesn't hold: {line}")));
        }
    }
    rows::holds(rows.lines().count() == count, "a table has all its rows")
}

/// Fails for the first row of the tables that does not pass with each of the calls, with strict names and with lenient
/// ones, over partials that are parsed on demand, and if `each_store` is true over those of each kind of store. A test
/// names a language in one call of this function, since a check of tests costs with each call that names one.
pub(crate) fn tables_hold<F, T, B>(
    alloc: Global,
    tables: &[Table<'_>],
    each_store: bool,
    language: Result<Language<F, T, B>, AllocError>,
) -> Result<(), Fail>
where
    F: ParseFilter,
    T: ParseTag<F>,
    B: ParseBlock<F>,
    T::Node: Renderable<()>,
    B::Node: Renderable<()>,
{
    let language = Rc::new(alloc, language?)?;
    for table in tables {
        table_holds(alloc, *table, each_store, &language)?;
    }
    Ok(())
}
