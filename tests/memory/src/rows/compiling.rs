//! Compiling a row's partials.
use crate::growths::{MOST, Run, Seen, Verdict, taken};
use crate::problem::{Problem, both};
use crate::rows::row::Row;
use crate::rows::stores::{OfSource, Request, all_verdict, compiler};
use liquid_core::parser::{Language, ParseBlock, ParseFilter, ParseTag};
use liquid_core::partials::PartialCompiler;
use liquid_core::runtime::Renderable;
use liquid_core::{Filter, PartialStore};
use std::alloc::{AllocError, Global};
use std::rc::Rc;

/// Classifies a result of `compile`: a store is the row's if it has the row's results for its requests.
fn store_verdict<S, X, T, B>(
    alloc: Global,
    made: Result<S, AllocError>,
    requests: &[Request],
) -> Result<Verdict, Problem>
where
    X: Filter,
    T: Renderable<()>,
    B: Renderable<()>,
    S: PartialStore<X, T, B> + Drop,
{
    match made {
        Err(_) => Ok(Verdict::Memory),
        Ok(mut store) => {
            let verdict = all_verdict(alloc, &mut store, requests);
            drop(store);
            verdict
        }
    }
}

/// Compiles the row's partials after that many boxes.
fn run<C, F, T, B>(
    alloc: Global,
    requests: &[Request],
    compiler: C,
    language: &Rc<Language<F, T, B>>,
    boxes: usize,
) -> Result<Run, Problem>
where
    F: ParseFilter,
    T: ParseTag<F>,
    B: ParseBlock<F>,
    T::Node: Renderable<()>,
    B::Node: Renderable<()>,
    C: PartialCompiler<F, T, B> + Drop,
    C::Store: Drop,
{
    let language = language.clone()?;
    let before = taken(alloc, boxes);
    let made = compiler.compile(alloc, language);
    let after = taken(alloc, MOST);
    let verdict = store_verdict(alloc, made, requests)?;
    Ok(Run {
        before,
        after,
        verdict,
    })
}

/// Compiles the row's partials after that many boxes, and then once more.
pub fn compiled<C, F, T, B>(
    alloc: Global,
    row: &Row,
    language: &Rc<Language<F, T, B>>,
    boxes: usize,
) -> Result<Seen, Problem>
where
    F: ParseFilter,
    T: ParseTag<F>,
    B: ParseBlock<F>,
    T::Node: Renderable<()>,
    B::Node: Renderable<()>,
    C: PartialCompiler<F, T, B> + OfSource + Drop,
    C::Store: Drop,
{
    let compilers = both(compiler::<C>(alloc, row), compiler::<C>(alloc, row));
    let ((one, other), requests) = both(compilers, row.requests(alloc))?;
    let first = run(alloc, requests.as_slice(), one, language, boxes);
    let next = run(alloc, requests.as_slice(), other, language, 0);
    drop(requests);
    Seen::of(first, next)
}
