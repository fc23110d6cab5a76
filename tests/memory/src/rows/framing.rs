//! Rendering a row's template over scopes with an open frame.

use crate::growths::{MOST, Run, Seen, taken};
use crate::problem::{Problem, both};
use crate::rows::pages::verdict_of;
use crate::rows::row::Row;
use liquid_core::model::{Object, Value};
use liquid_core::runtime::{Frame, Renderable, Runtime, Scopes, Template};
use liquid_core::{Error, Filter, PartialStore, TextSink};
use std::alloc::Global;

/// Returns `true` if one frame is open, with its name and its own name.
fn has_its_frame<S: Scopes>(scopes: &S) -> bool {
    scopes.frames() == 1 && scopes.name() == Some("frame") && scopes.try_get_name("own").is_some()
}

fn text(alloc: Global, text: &str) -> Result<String, Problem> {
    Ok(String::from_str(alloc, text)?)
}

/// Returns the frame that is open around the call.
fn frame(alloc: Global) -> Result<Frame, Problem> {
    let (own, name) = both(text(alloc, "own"), text(alloc, "frame"))?;
    let mut names = Object::new(alloc);
    match names.insert(own, Value::scalar(1i64)) {
        Ok(_) => Ok(Frame::Stack(names, Some(name))),
        Err(error) => {
            drop(names);
            drop(name);
            Err(Problem::from(error))
        }
    }
}

/// Renders over scopes with an open frame after that many boxes.
fn run<S, X, T, B>(
    alloc: Global,
    row: &Row,
    page: &Template<X, T, B>,
    scopes: &mut S,
    boxes: usize,
) -> Result<Run, Problem>
where
    X: Filter,
    T: Renderable<()>,
    B: Renderable<()>,
    S: Scopes<Register = ()>,
    S::Store: PartialStore<X, T, B>,
{
    let mut sink = TextSink::new(alloc);
    let before = taken(alloc, boxes);
    let answer = page.render_in(alloc, &mut sink, scopes);
    let after = taken(alloc, MOST);
    let verdict = verdict_of(alloc, row, sink.as_bytes(), &answer);
    drop(answer);
    drop(sink);
    Ok(Run {
        before,
        after,
        verdict: verdict?.only_if(has_its_frame(scopes)),
    })
}

/// Renders over scopes with an open frame after that many boxes, and then once more.
fn over<S, X, T, B>(
    alloc: Global,
    row: &Row,
    page: &Template<X, T, B>,
    scopes: &mut S,
    boxes: usize,
) -> Result<Seen, Problem>
where
    X: Filter,
    T: Renderable<()>,
    B: Renderable<()>,
    S: Scopes<Register = ()>,
    S::Store: PartialStore<X, T, B>,
{
    let first = run(alloc, row, page, scopes, boxes);
    let next = run(alloc, row, page, scopes, 0);
    Seen::of(first, next)
}

/// Makes scopes of one form over a base, with a frame that is ended after the calls.
pub fn framed<S, X, T, B>(
    alloc: Global,
    row: &Row,
    page: &Template<X, T, B>,
    base: S::Base,
    boxes: usize,
) -> Result<Seen, Problem>
where
    X: Filter,
    T: Renderable<()>,
    B: Renderable<()>,
    S: Scopes<Register = ()>,
    S::Base: Drop,
    S::Store: PartialStore<X, T, B>,
{
    let mut scopes = S::new(alloc, base);
    let pushed = match frame(alloc) {
        Ok(frame) => scopes.push(frame),
        Err(_) => Err(Error::Memory),
    };
    let answer = match pushed {
        Ok(()) => {
            let answer = over(alloc, row, page, &mut scopes, boxes);
            scopes.pop();
            answer
        }
        Err(error) => Err(Problem::from(error)),
    };
    let base = scopes.into_base();
    drop(base);
    answer
}
