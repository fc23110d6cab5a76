//! Rendering a row's template.
use crate::growths::{MOST, Run, Seen, Verdict, taken};
use crate::problem::{Problem, both};
use crate::rows::framing::framed;
use crate::rows::pages::{Page, page, verdict_of};
use crate::rows::row::Row;
use crate::rows::stores::{OfSource, store};
use liquid_core::model::{Object, Value, ValueRender};
use liquid_core::parser::{Language, ParseBlock, ParseFilter, ParseTag};
use liquid_core::partials::PartialCompiler;
use liquid_core::runtime::{self, ChainedScopes, FlatScopes, Runtime, Template};
use liquid_core::{Discreet, Error, Filter, PartialStore, TextSink};
use std::alloc::Global;
use std::rc::Rc;

/// Returns `true` if this is the text of the value.
fn is_shown(alloc: Global, value: &Value, text: &str) -> Result<bool, Problem> {
    Ok(ValueRender::new(value).to_string(alloc)?.as_str() == text)
}

/// Returns `true` if two values have the same text.
fn are_alike(alloc: Global, value: &Value, other: &Value) -> Result<bool, Problem> {
    let wanted = ValueRender::new(value).to_string(alloc)?;
    is_shown(alloc, other, wanted.as_str())
}

/// Returns `true` if each of the names has its value in the runtime.
fn are_seen<R: Runtime>(alloc: Global, runtime: &R, names: &Object) -> Result<bool, Problem> {
    for (name, value) in names {
        let is_seen = match runtime.try_get_name(name.as_str()) {
            Some(runtime::Seen::Lent(found)) => are_alike(alloc, value, found)?,
            _ => false,
        };
        if !is_seen {
            return Ok(false);
        }
    }
    Ok(true)
}

/// Returns `true` if each of the names, or the problem with them, has its value in the runtime.
fn are_all_seen<R: Runtime>(
    alloc: Global,
    runtime: &R,
    names: Result<Object, Problem>,
) -> Result<bool, Problem> {
    let names = names?;
    let are_seen = are_seen(alloc, runtime, &names);
    drop(names);
    are_seen
}

/// Returns the globals of the runtime over which a call renders: what the template sees, or what is around it.
fn around(alloc: Global, row: &Row, word: &str) -> Result<Object, Problem> {
    match word {
        "render_sandboxed" | "render_isolated" => row.parent(alloc),
        _ => row.globals(alloc),
    }
}

/// Returns what a call gives the template besides the runtime.
fn given(alloc: Global, row: &Row, word: &str) -> Result<Object, Problem> {
    match word {
        "render_sandboxed" | "render_isolated" => row.globals(alloc),
        _ => Ok(Object::new(alloc)),
    }
}

/// Returns `true` if a built runtime has the frames that it was built with: no name, its globals, its depth; and, if
/// the call came to its end, what the row leaves.
fn has_its_frames<R: Runtime>(
    alloc: Global,
    row: &Row,
    word: &str,
    runtime: &R,
    is_over: bool,
) -> Result<bool, Problem> {
    let is_as_built = runtime.name().is_none()
        && runtime.depth() == row.depth()
        && !runtime.registers().interrupt.interrupted();
    let are_kept = are_all_seen(alloc, runtime, around(alloc, row, word))?;
    let are_left = !is_over || are_all_seen(alloc, runtime, row.left(alloc))?;
    Ok(is_as_built && are_kept && are_left)
}

/// Classifies a call over a built runtime.
fn came_to<R: Runtime>(
    alloc: Global,
    row: &Row,
    word: &str,
    runtime: &R,
    sink: &TextSink,
    answer: &Result<(), Error>,
) -> Result<Verdict, Problem> {
    let is_so = has_its_frames(alloc, row, word, runtime, answer.is_ok())?;
    let verdict = verdict_of(alloc, row, sink.as_bytes(), answer)?;
    Ok(verdict.only_if(is_so))
}

/// Renders over a runtime, in a sandbox of what is given or in isolation.
fn render<R, X, T, B>(
    alloc: Global,
    word: &str,
    page: &Template<X, T, B>,
    sink: &mut TextSink,
    runtime: &mut R,
    given: Object,
) -> Result<(), Error>
where
    X: Filter,
    T: Discreet<()>,
    B: Discreet<()>,
    R: Runtime<Register = ()>,
    R::Store: PartialStore<X, T, B>,
{
    match word {
        "render_sandboxed" => page.render_sandboxed(alloc, sink, runtime, given, Some("page")),
        "render_isolated" => page.render_isolated(alloc, sink, runtime, given, Some("page")),
        _ => {
            drop(given);
            page.render_to(alloc, sink, runtime)
        }
    }
}

/// Renders over a runtime after that many boxes.
fn run<R, X, T, B>(
    alloc: Global,
    row: &Row,
    word: &str,
    page: &Template<X, T, B>,
    runtime: &mut R,
    given: Object,
    boxes: usize,
) -> Result<Run, Problem>
where
    X: Filter,
    T: Discreet<()>,
    B: Discreet<()>,
    R: Runtime<Register = ()>,
    R::Store: PartialStore<X, T, B>,
{
    let mut sink = TextSink::new(alloc);
    let before = taken(alloc, boxes);
    let answer = render(alloc, word, page, &mut sink, runtime, given);
    let after = taken(alloc, MOST);
    let verdict = came_to(alloc, row, word, runtime, &sink, &answer);
    drop(answer);
    drop(sink);
    Ok(Run {
        before,
        after,
        verdict: verdict?,
    })
}

/// Renders over a runtime after that many boxes, and then once more.
fn over_runtime<R, X, T, B>(
    alloc: Global,
    row: &Row,
    word: &str,
    page: &Template<X, T, B>,
    mut runtime: R,
    boxes: usize,
) -> Result<Seen, Problem>
where
    X: Filter,
    T: Discreet<()>,
    B: Discreet<()>,
    R: Runtime<Register = ()> + Drop,
    R::Store: PartialStore<X, T, B>,
{
    let (data, more) = both(given(alloc, row, word), given(alloc, row, word))?;
    let first = run(alloc, row, word, page, &mut runtime, data, boxes);
    let next = run(alloc, row, word, page, &mut runtime, more, 0);
    drop(runtime);
    Seen::of(first, next)
}

/// Renders over a runtime, or over scopes of one form over it, after that many boxes, and then once more.
fn over<R, X, T, B>(
    alloc: Global,
    row: &Row,
    word: &str,
    page: &Template<X, T, B>,
    runtime: R,
    boxes: usize,
) -> Result<Seen, Problem>
where
    X: Filter,
    T: Discreet<()>,
    B: Discreet<()>,
    R: Runtime<Register = ()> + Drop,
    R::Store: PartialStore<X, T, B>,
{
    match word {
        "render_in_chained" => {
            framed::<ChainedScopes<R>, X, T, B>(alloc, row, page, runtime, boxes)
        }
        "render_in_flat" => framed::<FlatScopes<R>, X, T, B>(alloc, row, page, runtime, boxes),
        "render_to" | "render_sandboxed" | "render_isolated" => {
            over_runtime(alloc, row, word, page, runtime, boxes)
        }
        _ => Err(Problem::Case),
    }
}

/// Renders a page over a store of the row's partials after that many boxes, and then once more.
fn over_store<C, F, T, B>(
    alloc: Global,
    row: &Row,
    language: &Rc<Language<F, T, B>>,
    word: &str,
    page: &Page<F, T, B>,
    boxes: usize,
) -> Result<Seen, Problem>
where
    F: ParseFilter,
    T: ParseTag<F>,
    B: ParseBlock<F>,
    T::Node: Discreet<()>,
    B::Node: Discreet<()>,
    C: PartialCompiler<F, T, B> + OfSource + Drop,
    C::Store: Drop,
{
    let globals = around(alloc, row, word);
    let (globals, store) = both(globals, store::<C, F, T, B>(alloc, row, language))?;
    let runtime = row.runtime(alloc, globals, store);
    over(alloc, row, word, page, runtime, boxes)
}

/// Renders the row's template after that many boxes, and then once more.
pub fn rendered<C, F, T, B>(
    alloc: Global,
    row: &Row,
    language: &Rc<Language<F, T, B>>,
    word: &str,
    boxes: usize,
) -> Result<Seen, Problem>
where
    F: ParseFilter,
    T: ParseTag<F>,
    B: ParseBlock<F>,
    T::Node: Discreet<()>,
    B::Node: Discreet<()>,
    C: PartialCompiler<F, T, B> + OfSource + Drop,
    C::Store: Drop,
{
    let page = page(alloc, row, language)?;
    let seen = over_store::<C, F, T, B>(alloc, row, language, word, &page, boxes);
    drop(page);
    seen
}
