//! Rows in sandboxes over each parent and both forms of scopes, in any language over any store.

use crate::kinds::{Kind, source};
use crate::parents::{Over, is_left, over};
use liquid_core::model::{Object, Value, to_object};
use liquid_core::parser::{Language, ParseBlock, ParseFilter, ParseTag, parse};
use liquid_core::runtime::{ChainedScopes, FlatScopes, Frame, Runtime, Scopes, Template};
use liquid_core::{Discreet, Error, Filter, PartialStore, TextSink};
use rows::{Line, Row, is_text};
use std::alloc::{AllocError, Global};
use std::rc::Rc;
use test_plugins::Visits;

/// A row, one of its parents, and what that parent is before the row is rendered.
#[derive(Clone, Copy)]
struct Place<'a> {
    row: &'a Row,
    parent: &'a Line,
    before: &'a Over<()>,
}

/// Returns `true` if a row is rendered in isolation, and not in a sandbox.
fn is_isolated(row: &Row) -> bool {
    row.member("isolated").is_some()
}

/// Returns the names that a row is given.
pub(crate) fn data(alloc: Global, row: &Row) -> Result<Object, Error> {
    match row.member("data") {
        Some(data) => to_object(alloc, data),
        None => Ok(Object::new(alloc)),
    }
}

/// Returns the names of a frame around the sandbox.
fn outer(alloc: Global) -> Result<Object, AllocError> {
    let mut outer = Object::new(alloc);
    for name in ["a", "b", "forloop", "i", "s", "unknown", "y"] {
        outer.insert(String::from_str(alloc, name)?, Value::scalar(20i64))?;
    }
    Ok(outer)
}

/// Returns `true` if a call has the error of a row, or none if the row has none.
fn has_error(alloc: Global, row: &Row, answer: &Result<(), Error>) -> bool {
    match answer {
        Ok(()) => row.error().is_empty(),
        Err(error) => is_text(error.to_string(alloc), row.error()),
    }
}

/// Returns `true` if a call wrote what its row says, has the row's error, and left of the parent what the row says.
fn is_row_result<R: Runtime<Register = Visits>>(
    alloc: Global,
    place: Place<'_>,
    written: &[u8],
    answer: &Result<(), Error>,
    after: &R,
) -> bool {
    written == place.row.written().as_bytes()
        && has_error(alloc, place.row, answer)
        && is_left(alloc, place.parent, place.row, place.before, after)
}

/// Renders a row in a sandbox or in isolation over its parent.
fn render<X, T, B, R>(
    alloc: Global,
    row: &Row,
    page: &Template<X, T, B>,
    sink: &mut TextSink,
    parent: &mut R,
) -> Result<(), Error>
where
    X: Filter,
    T: Discreet<Visits>,
    B: Discreet<Visits>,
    R: Runtime<Register = Visits>,
    R::Store: PartialStore<X, T, B>,
{
    let data = data(alloc, row)?;
    if is_isolated(row) {
        page.render_isolated(alloc, sink, parent, data, None)
    } else {
        page.render_sandboxed(alloc, sink, parent, data, None)
    }
}

/// Returns `true` if a row passes with `render_sandboxed`, or with `render_isolated`.
fn holds_at_once<X, T, B, R>(
    alloc: Global,
    place: Place<'_>,
    page: &Template<X, T, B>,
    parent: &mut R,
) -> bool
where
    X: Filter,
    T: Discreet<Visits>,
    B: Discreet<Visits>,
    R: Runtime<Register = Visits>,
    R::Store: PartialStore<X, T, B>,
{
    let mut sink = TextSink::new(alloc);
    let answer = render(alloc, place.row, page, &mut sink, parent);
    is_row_result(alloc, place, sink.as_bytes(), &answer, &*parent)
}

/// Renders a row in a sandbox or in isolation over open scopes.
fn render_in<S, X, T, B>(
    alloc: Global,
    row: &Row,
    page: &Template<X, T, B>,
    sink: &mut TextSink,
    scopes: &mut S,
) -> Result<(), Error>
where
    S: Scopes<Register = Visits>,
    X: Filter,
    T: Discreet<Visits>,
    B: Discreet<Visits>,
    S::Store: PartialStore<X, T, B>,
{
    let data = data(alloc, row)?;
    if is_isolated(row) {
        page.render_isolated_in(alloc, sink, scopes, data, Some("page"))
    } else {
        page.render_sandboxed_in(alloc, sink, scopes, data, Some("page"))
    }
}

/// Renders a row over a frame that is opened for it.
fn render_over_a_frame<S, X, T, B>(
    alloc: Global,
    row: &Row,
    page: &Template<X, T, B>,
    sink: &mut TextSink,
    scopes: &mut S,
) -> Result<(), Error>
where
    S: Scopes<Register = Visits>,
    X: Filter,
    T: Discreet<Visits>,
    B: Discreet<Visits>,
    S::Store: PartialStore<X, T, B>,
{
    scopes.push(Frame::Stack(outer(alloc)?, None))?;
    let answer = render_in(alloc, row, page, sink, scopes);
    scopes.pop();
    answer
}

/// Renders a row over a frame that is open in scopes of one form, and returns their base again.
fn rendered_over_a_frame<S, X, T, B>(
    alloc: Global,
    row: &Row,
    page: &Template<X, T, B>,
    sink: &mut TextSink,
    base: S::Base,
) -> (Result<(), Error>, S::Base)
where
    S: Scopes<Register = Visits>,
    X: Filter,
    T: Discreet<Visits>,
    B: Discreet<Visits>,
    S::Store: PartialStore<X, T, B>,
{
    let mut scopes = S::new(alloc, base);
    let answer = render_over_a_frame(alloc, row, page, sink, &mut scopes);
    (answer, scopes.into_base())
}

/// Returns `true` if a row passes with `render_sandboxed_in`, or with `render_isolated_in`, over scopes of one form and
/// a frame that is open.
fn holds_in<S, X, T, B>(
    alloc: Global,
    place: Place<'_>,
    page: &Template<X, T, B>,
    base: S::Base,
) -> bool
where
    S: Scopes<Register = Visits>,
    S::Base: Drop,
    X: Filter,
    T: Discreet<Visits>,
    B: Discreet<Visits>,
    S::Store: PartialStore<X, T, B>,
{
    let mut sink = TextSink::new(alloc);
    let (answer, after) = rendered_over_a_frame::<S, X, T, B>(
        alloc, place.row, page, &mut sink, base,
    );
    is_row_result(alloc, place, sink.as_bytes(), &answer, &after)
}

/// Returns a place's parent over a store of its own, or `None` if it could not be made.
fn parent_over<F, T, B, K>(
    alloc: Global,
    place: Place<'_>,
    language: &Rc<Language<F, T, B>>,
) -> Option<Over<K::Store>>
where
    F: ParseFilter,
    T: ParseTag<F>,
    B: ParseBlock<F>,
    K: Kind<F, T, B>,
{
    let store = K::store(alloc, source(alloc, place.row)?, language).ok()?;
    over(alloc, place.parent, place.row, store)
}

/// Returns `true` if a row passes with the calls over a parent.
fn holds_over_parent<F, T, B, K>(
    alloc: Global,
    place: Place<'_>,
    language: &Rc<Language<F, T, B>>,
    page: &Template<F::Filter, T::Node, B::Node>,
) -> bool
where
    F: ParseFilter,
    T: ParseTag<F>,
    B: ParseBlock<F>,
    T::Node: Discreet<Visits>,
    B::Node: Discreet<Visits>,
    K: Kind<F, T, B>,
{
    match parent_over::<F, T, B, K>(alloc, place, language) {
        Some(mut parent) => holds_at_once(alloc, place, page, &mut parent),
        None => false,
    }
}

/// Returns `true` if a row passes with the calls over scopes of one form, whose base is a parent.
fn holds_over_scopes<S, F, T, B, K>(
    alloc: Global,
    place: Place<'_>,
    language: &Rc<Language<F, T, B>>,
    page: &Template<F::Filter, T::Node, B::Node>,
) -> bool
where
    S: Scopes<Register = Visits, Base = Over<K::Store>, Store = K::Store>,
    F: ParseFilter,
    T: ParseTag<F>,
    B: ParseBlock<F>,
    T::Node: Discreet<Visits>,
    B::Node: Discreet<Visits>,
    K: Kind<F, T, B>,
{
    match parent_over::<F, T, B, K>(alloc, place, language) {
        Some(parent) => holds_in::<S, _, _, _>(alloc, place, page, parent),
        None => false,
    }
}

/// Returns `true` if a row passes with both calls and both forms of scopes over a parent.
fn holds_over<F, T, B, K>(
    alloc: Global,
    place: Place<'_>,
    language: &Rc<Language<F, T, B>>,
    page: &Template<F::Filter, T::Node, B::Node>,
) -> bool
where
    F: ParseFilter,
    T: ParseTag<F>,
    B: ParseBlock<F>,
    T::Node: Discreet<Visits>,
    B::Node: Discreet<Visits>,
    K: Kind<F, T, B>,
{
    holds_over_parent::<F, T, B, K>(alloc, place, language, page)
        && holds_over_scopes::<ChainedScopes<Over<K::Store>>, F, T, B, K>(
            alloc, place, language, page,
        )
        && holds_over_scopes::<FlatScopes<Over<K::Store>>, F, T, B, K>(alloc, place, language, page)
}

/// Returns `true` if a parsed row passes over the parent of a line.
fn holds_within<F, T, B, K>(
    alloc: Global,
    row: &Row,
    line: &str,
    language: &Rc<Language<F, T, B>>,
    page: &Template<F::Filter, T::Node, B::Node>,
) -> bool
where
    F: ParseFilter,
    T: ParseTag<F>,
    B: ParseBlock<F>,
    T::Node: Discreet<Visits>,
    B::Node: Discreet<Visits>,
    K: Kind<F, T, B>,
{
    let Some(parent) = Line::of(alloc, line) else {
        return false;
    };
    match over(alloc, &parent, row, ()) {
        Some(before) => {
            let place = Place {
                row,
                parent: &parent,
                before: &before,
            };
            holds_over::<F, T, B, K>(alloc, place, language, page)
        }
        None => false,
    }
}

/// Returns `true` if a parsed row passes over each of these parents.
fn page_holds<F, T, B, K>(
    alloc: Global,
    row: &Row,
    parents: &str,
    language: &Rc<Language<F, T, B>>,
    page: &Template<F::Filter, T::Node, B::Node>,
) -> bool
where
    F: ParseFilter,
    T: ParseTag<F>,
    B: ParseBlock<F>,
    T::Node: Discreet<Visits>,
    B::Node: Discreet<Visits>,
    K: Kind<F, T, B>,
{
    for parent in parents.lines() {
        if !holds_within::<F, T, B, K>(alloc, row, parent, language, page) {
            return false;
        }
    }
    true
}

/// Returns `true` if a row passes over each of these parents.
pub(crate) fn row_holds<F, T, B, K>(
    alloc: Global,
    row: &Row,
    parents: &str,
    language: &Rc<Language<F, T, B>>,
) -> bool
where
    F: ParseFilter,
    T: ParseTag<F>,
    B: ParseBlock<F>,
    T::Node: Discreet<Visits>,
    B::Node: Discreet<Visits>,
    K: Kind<F, T, B>,
{
    match parse(alloc, row.template(), language) {
        Ok(nodes) => {
            page_holds::<F, T, B, K>(alloc, row, parents, language, &Template::new(nodes))
        }
        Err(_) => false,
    }
}
