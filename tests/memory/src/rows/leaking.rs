//! A tag that shows what a sandbox hides, under a sandboxed frame.
use crate::built::built;
use crate::growths::{Run, Seen};
use crate::problem::Problem;
use crate::rows::pages::{page, run_over};
use crate::rows::row::Row;
use liquid_core::model::{Object, Value};
use liquid_core::parser::{Language, ParseBlock, ParseFilter, ParseTag};
use liquid_core::runtime::{Renderable, Runtime, SandboxedStackFrame, Template};
use liquid_core::{Filter, PartialStore};
use std::alloc::Global;

/// Assigns copies of these names to a runtime.
fn assign<R: Runtime>(runtime: &mut R, names: &Object) -> Result<(), Problem> {
    for (name, value) in names {
        let name = name.clone()?;
        let old = runtime.set_global(name, Value::clone(value)?)?;
        drop(old);
    }
    Ok(())
}

/// Renders after that many boxes, in a sandbox without names over a host to which what is around it is assigned.
fn run<R, X, T, B>(
    alloc: Global,
    row: &Row,
    page: &Template<X, T, B>,
    mut host: R,
    boxes: usize,
) -> Result<Run, Problem>
where
    X: Filter,
    T: Renderable<()>,
    B: Renderable<()>,
    R: Runtime<Register = ()> + Drop,
    R::Store: PartialStore<X, T, B>,
{
    let names = row.parent(alloc)?;
    let assigned = assign(&mut host, &names);
    drop(names);
    assigned?;
    let mut sandbox = SandboxedStackFrame::new(host, Object::new(alloc));
    let run = run_over(alloc, row, page, &mut sandbox, boxes);
    drop(sandbox);
    run
}

/// Renders after that many boxes, in a sandbox over a host of its own.
fn run_anew<X, T, B>(
    alloc: Global,
    row: &Row,
    page: &Template<X, T, B>,
    boxes: usize,
) -> Result<Run, Problem>
where
    X: Filter,
    T: Renderable<()>,
    B: Renderable<()>,
{
    run(alloc, row, page, built(alloc, Object::new(alloc)), boxes)
}

/// Renders in a sandbox after that many boxes, and then once more in another one.
pub fn leaked<F, T, B>(
    alloc: Global,
    row: &Row,
    language: Language<F, T, B>,
    boxes: usize,
) -> Result<Seen, Problem>
where
    F: ParseFilter,
    T: ParseTag<F>,
    B: ParseBlock<F>,
    T::Node: Renderable<()>,
    B::Node: Renderable<()>,
{
    let page = page(alloc, row, &language);
    drop(language);
    let page = page?;
    let first = run_anew(alloc, row, &page, boxes);
    let next = run_anew(alloc, row, &page, 0);
    drop(page);
    Seen::of(first, next)
}
