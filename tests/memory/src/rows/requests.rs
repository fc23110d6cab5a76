//! Requests to stores.
use crate::growths::{MOST, Run, Seen, Verdict, taken};
use crate::problem::{Problem, both};
use crate::rows::row::Row;
use crate::rows::stores::{OfSource, Request, all_verdict, request_verdict, store};
use liquid_core::parser::{Language, ParseBlock, ParseFilter, ParseTag};
use liquid_core::partials::{InMemorySource, PartialCompiler};
use liquid_core::runtime::{Renderable, Template};
use liquid_core::{EagerStore, Error, Filter, LazyStore, OnDemandStore, PartialStore};
use std::alloc::Global;
use std::rc::Rc;

/// A store that may know whether it keeps the result for a name.
pub trait Keeping {
    /// Returns whether the result for the name is kept, or `None` if the store doesn't know.
    fn keeps(&self, name: &str) -> Option<bool>;
}

impl<F, T, B> Keeping for EagerStore<InMemorySource, F, T, B>
where
    F: ParseFilter,
    T: ParseTag<F>,
    B: ParseBlock<F>,
{
    fn keeps(&self, _name: &str) -> Option<bool> {
        None
    }
}

impl<F, T, B> Keeping for OnDemandStore<InMemorySource, F, T, B> {
    fn keeps(&self, _name: &str) -> Option<bool> {
        None
    }
}

impl<F, T, B> Keeping for LazyStore<InMemorySource, F, T, B>
where
    F: ParseFilter,
    T: ParseTag<F>,
    B: ParseBlock<F>,
{
    fn keeps(&self, name: &str) -> Option<bool> {
        Some(self.is_kept(name))
    }
}

/// A result, and whether the name was kept before the request and after it.
#[derive(Drop)]
struct Answered<X, T, B> {
    found: Result<Rc<Template<X, T, B>>, Error>,
    kept_before: Option<bool>,
    kept_after: Option<bool>,
}

/// Requests each name. The list has room for all results, so that only the requests take memory.
fn ask<S, X, T, B>(
    alloc: Global,
    store: &mut S,
    requests: &[Request],
    answers: &mut Vec<Answered<X, T, B>>,
) -> Result<(), Problem>
where
    X: Filter,
    T: Renderable<()>,
    B: Renderable<()>,
    S: PartialStore<X, T, B> + Keeping,
{
    for request in requests {
        let name = request.name.as_str();
        let kept_before = store.keeps(name);
        let found = store.get(alloc, name);
        let kept_after = store.keeps(name);
        answers.push(Answered {
            found,
            kept_before,
            kept_after,
        })?;
    }
    Ok(())
}

/// Returns `true` if the name is kept as it should be: an out-of-memory error changes nothing, and otherwise a name is
/// kept exactly if the store has it.
fn is_kept_so<X, T, B>(answered: &Answered<X, T, B>, verdict: Verdict, is_there: bool) -> bool {
    match answered.kept_after {
        None => true,
        Some(kept) if verdict == Verdict::Memory => answered.kept_before == Some(kept),
        Some(kept) => kept == is_there,
    }
}

/// Returns what one result is, with what the store has then.
fn one_verdict<S, X, T, B>(
    alloc: Global,
    store: &S,
    request: &Request,
    answered: &Answered<X, T, B>,
) -> Result<Verdict, Problem>
where
    X: Filter,
    T: Renderable<()>,
    B: Renderable<()>,
    S: PartialStore<X, T, B>,
{
    let verdict = request_verdict(alloc, request, &answered.found)?;
    let is_there = store.contains(request.name.as_str());
    Ok(verdict.only_if(is_kept_so(answered, verdict, is_there)))
}

/// Returns what all results are together.
fn together<S, X, T, B>(
    alloc: Global,
    store: &S,
    requests: &[Request],
    answers: &[Answered<X, T, B>],
) -> Result<Verdict, Problem>
where
    X: Filter,
    T: Renderable<()>,
    B: Renderable<()>,
    S: PartialStore<X, T, B>,
{
    let mut all = Verdict::Whole.only_if(requests.len() == answers.len());
    for (request, answered) in requests.iter().zip(answers) {
        all = all.and(one_verdict(alloc, store, request, answered)?);
    }
    Ok(all)
}

/// Requests the names after that many boxes, and lists the results.
fn run<S, X, T, B>(
    alloc: Global,
    store: &mut S,
    requests: &[Request],
    answers: &mut Vec<Answered<X, T, B>>,
    boxes: usize,
) -> Result<Run, Problem>
where
    X: Filter,
    T: Renderable<()>,
    B: Renderable<()>,
    S: PartialStore<X, T, B> + Keeping,
{
    let before = taken(alloc, boxes);
    ask(alloc, store, requests, answers)?;
    let after = taken(alloc, MOST);
    let verdict = together(alloc, store, requests, answers.as_slice())?;
    Ok(Run {
        before,
        after,
        verdict,
    })
}

/// Requests the names once more.
fn run_again<S, X, T, B>(alloc: Global, store: &mut S, requests: &[Request]) -> Result<Run, Problem>
where
    X: Filter,
    T: Renderable<()>,
    B: Renderable<()>,
    S: PartialStore<X, T, B>,
{
    let verdict = all_verdict(alloc, store, requests)?;
    Ok(Run {
        before: None,
        after: None,
        verdict,
    })
}

/// Requests the names from a store after that many boxes, and then once more.
fn requested_of<S, X, T, B>(
    alloc: Global,
    store: &mut S,
    requests: &[Request],
    boxes: usize,
) -> Result<Seen, Problem>
where
    X: Filter,
    T: Renderable<()>,
    B: Renderable<()>,
    S: PartialStore<X, T, B> + Keeping,
{
    let mut answers = Vec::with_capacity(alloc, requests.len())?;
    let first = run(alloc, store, requests, &mut answers, boxes);
    drop(answers);
    let next = run_again(alloc, store, requests);
    Seen::of(first, next)
}

/// Requests the row's names from a store after that many boxes, and then once more.
pub fn requested<C, F, T, B>(
    alloc: Global,
    row: &Row,
    language: &Rc<Language<F, T, B>>,
    boxes: usize,
) -> Result<Seen, Problem>
where
    F: ParseFilter,
    T: ParseTag<F>,
    B: ParseBlock<F>,
    T::Node: Renderable<()>,
    B::Node: Renderable<()>,
    C: PartialCompiler<F, T, B> + OfSource + Drop,
    C::Store: Keeping + Drop,
{
    let made = store::<C, F, T, B>(alloc, row, language);
    let (mut store, requests) = both(made, row.requests(alloc))?;
    let seen = requested_of(alloc, &mut store, requests.as_slice(), boxes);
    drop(requests);
    drop(store);
    seen
}
