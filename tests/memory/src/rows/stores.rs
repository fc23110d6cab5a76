//! The stores of a row's partials.
use crate::built::built;
use crate::growths::Verdict;
use crate::problem::Problem;
use crate::rows::pages::is_said;
use crate::rows::row::Row;
use liquid_core::model::Object;
use liquid_core::parser::{Language, ParseBlock, ParseFilter, ParseTag};
use liquid_core::partials::{
    EagerCompiler, InMemorySource, LazyCompiler, OnDemandCompiler, PartialCompiler,
};
use liquid_core::runtime::{Renderable, Runtime, Template};
use liquid_core::{Error, Filter, PartialStore, TextSink};
use std::alloc::{AllocError, Global};
use std::rc::Rc;

/// A compiler of partials in memory.
pub trait OfSource {
    /// Returns a compiler of this source.
    fn of_source(source: InMemorySource) -> Self;
}

impl OfSource for EagerCompiler<InMemorySource> {
    fn of_source(source: InMemorySource) -> EagerCompiler<InMemorySource> {
        EagerCompiler::new(source)
    }
}

impl OfSource for LazyCompiler<InMemorySource> {
    fn of_source(source: InMemorySource) -> LazyCompiler<InMemorySource> {
        LazyCompiler::new(source)
    }
}

impl OfSource for OnDemandCompiler<InMemorySource> {
    fn of_source(source: InMemorySource) -> OnDemandCompiler<InMemorySource> {
        OnDemandCompiler::new(source)
    }
}

/// Returns a compiler of the row's partials.
pub fn compiler<C: OfSource>(alloc: Global, row: &Row) -> Result<C, Problem> {
    Ok(C::of_source(row.source(alloc)?))
}

/// Returns a store of the row's partials.
pub fn store<C, F, T, B>(
    alloc: Global,
    row: &Row,
    language: &Rc<Language<F, T, B>>,
) -> Result<C::Store, Problem>
where
    F: ParseFilter,
    T: ParseTag<F>,
    B: ParseBlock<F>,
    C: PartialCompiler<F, T, B> + OfSource + Drop,
{
    let compiler: C = compiler(alloc, row)?;
    Ok(compiler.compile(alloc, language.clone()?)?)
}

/// A name that is requested from a store, and what the partial is by itself: what it writes over a runtime without
/// names, with the text of its error after it.
#[derive(Drop)]
pub struct Request {
    pub name: String,
    pub answer: String,
}

/// Adds the text of an error, if there is one, to another text.
fn add_error(all: &mut String, answer: &Result<(), Error>) -> Result<(), AllocError> {
    match answer {
        Ok(()) => Ok(()),
        Err(error) => write!(all, "{error}"),
    }
}

/// Returns what was written, with the text of an error after it.
fn text_of(sink: TextSink, answer: &Result<(), Error>) -> Result<String, Problem> {
    match sink.into_string() {
        Ok(mut text) => {
            add_error(&mut text, answer)?;
            Ok(text)
        }
        Err(_) => Err(Problem::Row),
    }
}

/// Returns what a partial is over a runtime.
fn shown_over<R, X, T, B>(
    alloc: Global,
    page: &Template<X, T, B>,
    runtime: &mut R,
) -> Result<String, Problem>
where
    X: Filter,
    T: Renderable<()>,
    B: Renderable<()>,
    R: Runtime<Register = ()>,
    R::Store: PartialStore<X, T, B>,
{
    let mut sink = TextSink::new(alloc);
    let answer = page.render_to(alloc, &mut sink, runtime);
    let text = text_of(sink, &answer);
    drop(answer);
    text
}

/// Returns what a partial is by itself.
fn shown<X, T, B>(alloc: Global, page: &Template<X, T, B>) -> Result<String, Problem>
where
    X: Filter,
    T: Renderable<()>,
    B: Renderable<()>,
{
    let mut runtime = built(alloc, Object::new(alloc));
    let text = shown_over(alloc, page, &mut runtime);
    drop(runtime);
    text
}

/// Returns `true` if this is what a partial is by itself.
fn is_shown<X, T, B>(alloc: Global, page: &Template<X, T, B>, text: &str) -> Result<bool, Problem>
where
    X: Filter,
    T: Renderable<()>,
    B: Renderable<()>,
{
    Ok(shown(alloc, page)?.as_str() == text)
}

/// Compares the result of a store for a request with the row's.
pub fn request_verdict<X, T, B>(
    alloc: Global,
    request: &Request,
    found: &Result<Rc<Template<X, T, B>>, Error>,
) -> Result<Verdict, Problem>
where
    X: Filter,
    T: Renderable<()>,
    B: Renderable<()>,
{
    let wanted = request.answer.as_str();
    let is_whole = match found {
        Err(error) if error.is_memory() => return Ok(Verdict::Memory),
        Err(error) => is_said(alloc, error, wanted),
        Ok(page) => is_shown(alloc, page, wanted),
    };
    Ok(Verdict::Whole.only_if(is_whole?))
}

/// Requests one name from a store, and compares the result with the row's.
fn one_verdict<S, X, T, B>(
    alloc: Global,
    store: &mut S,
    request: &Request,
) -> Result<Verdict, Problem>
where
    X: Filter,
    T: Renderable<()>,
    B: Renderable<()>,
    S: PartialStore<X, T, B>,
{
    let found = store.get(alloc, request.name.as_str());
    let verdict = request_verdict(alloc, request, &found);
    drop(found);
    verdict
}

/// Compares the results of a store for all requests, one after another, with the row's.
pub fn all_verdict<S, X, T, B>(
    alloc: Global,
    store: &mut S,
    requests: &[Request],
) -> Result<Verdict, Problem>
where
    X: Filter,
    T: Renderable<()>,
    B: Renderable<()>,
    S: PartialStore<X, T, B>,
{
    let mut all = Verdict::Whole;
    for request in requests {
        all = all.and(one_verdict(alloc, store, request)?);
    }
    Ok(all)
}
