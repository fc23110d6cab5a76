//! Scopes by their own calls: frames that are pushed, looked through and popped.

use crate::given::{is_added, no_names};
use crate::nodes::page_in;
use liquid_core::model::{Object, ScalarCow, Value};
use liquid_core::runtime::{
    BuiltRuntime, ChainedScopes, Frame, Interrupt, Renderable, Runtime, Scopes, Template,
};
use liquid_core::{Filter, PartialStore, TextSink, ValueView};
use rows::holds;
use std::alloc::{AllocError, Global};
use std::test::Fail;

/// A frame, with the one name that it brings.
#[derive(Clone, Copy)]
enum Pushed {
    None,
    Stack(&'static str, i64),
    Sandboxed(&'static str, i64),
    Global,
}

/// A frame that is pushed, and what the name `a` is set to under it.
type Level = (Pushed, Option<i64>);

/// Returns an object of one name, or `None` if memory runs out.
fn one_name(alloc: Global, name: &str, number: i64) -> Option<Object> {
    let mut names = Object::new(alloc);
    if is_added(alloc, &mut names, name, Value::scalar(number)) {
        Some(names)
    } else {
        None
    }
}

fn frame_of(alloc: Global, pushed: Pushed) -> Option<Frame> {
    match pushed {
        Pushed::None => Some(Frame::None),
        Pushed::Stack(name, number) => Some(Frame::Stack(one_name(alloc, name, number)?, None)),
        Pushed::Sandboxed(name, number) => {
            Some(Frame::Sandboxed(one_name(alloc, name, number)?, None))
        }
        Pushed::Global => Some(Frame::Global),
    }
}

/// Adds a text to what is seen, and returns `false` if memory runs out.
fn adds(seen: &mut String, text: Result<String, AllocError>) -> bool {
    match text {
        Ok(text) => seen.push_str(text.as_str()).is_ok(),
        Err(_) => false,
    }
}

/// Adds the value of a name to what is seen, or `-` for a name without one. Returns `false` if memory runs out.
fn sees<S: Scopes>(alloc: Global, scopes: &S, name: &str, seen: &mut String) -> bool {
    match scopes.try_get(alloc, &[ScalarCow::from(name)]) {
        Ok(Some(value)) => adds(seen, value.render().to_string(alloc)),
        Ok(None) => seen.push_str("-").is_ok(),
        Err(_) => false,
    }
}

/// Adds to what is seen how many frames are open, and the values of `a` and `b`. Returns `false` if memory runs out.
fn looks<S: Scopes>(alloc: Global, scopes: &S, seen: &mut String) -> bool {
    adds(seen, scopes.frames().to_string(alloc))
        && sees(alloc, scopes, "a", seen)
        && sees(alloc, scopes, "b", seen)
        && seen.push_str(" ").is_ok()
}

/// Sets `a` under the frame that was opened last if there is a number for it, and returns `false` if memory runs out.
fn sets<S: Scopes>(alloc: Global, scopes: &mut S, number: Option<i64>) -> bool {
    match number {
        Some(number) => match String::from_str(alloc, "a") {
            Ok(name) => scopes.set_global(name, Value::scalar(number)).is_ok(),
            Err(_) => false,
        },
        None => true,
    }
}

/// Opens each frame in those before it, and closes them again. Looks up the names whenever one was opened or closed.
/// Returns `false` if memory runs out.
fn looks_under<S: Scopes>(
    alloc: Global,
    scopes: &mut S,
    levels: &[Level],
    seen: &mut String,
) -> bool {
    match levels {
        [] => true,
        [(pushed, number), rest @ ..] => {
            let Some(frame) = frame_of(alloc, *pushed) else {
                return false;
            };
            if scopes.push(frame).is_err() {
                return false;
            }
            let is_seen = sets(alloc, scopes, *number)
                && looks(alloc, &*scopes, seen)
                && looks_under(alloc, scopes, rest, seen);
            scopes.pop();
            is_seen && looks(alloc, &*scopes, seen)
        }
    }
}

const ROWS: [(&[Level], &str); 4] = [
    (
        &[
            (Pushed::Stack("a", 1), None),
            (Pushed::Sandboxed("b", 2), None),
            (Pushed::Stack("b", 3), None),
        ],
        "11- 2-2 3-3 2-2 11- 0-- ",
    ),
    (
        &[(Pushed::Stack("a", 1), None), (Pushed::Global, Some(4))],
        "11- 24- 11- 0-- ",
    ),
    (
        &[
            (Pushed::None, Some(5)),
            (Pushed::Sandboxed("b", 2), Some(6)),
        ],
        "15- 2-2 16- 06- ",
    ),
    (
        &[(Pushed::Global, Some(4)), (Pushed::Stack("a", 7), Some(5))],
        "14- 27- 15- 0-- ",
    ),
];

/// Returns `true` if that is seen over a base without names.
fn shows<S: Scopes>(alloc: Global, base: S::Base, levels: &[Level], wanted: &str) -> bool
where
    S::Base: Drop,
{
    let mut seen = String::new(alloc);
    let mut scopes = S::new(alloc, base);
    let is_seen = looks_under(alloc, &mut scopes, levels, &mut seen);
    drop(scopes.into_base());
    is_seen && seen.as_str() == wanted
}

/// Returns `true` if that is seen over a runtime without names.
fn is_shown(alloc: Global, levels: &[Level], wanted: &str) -> bool {
    shows::<ChainedScopes<BuiltRuntime<(), ()>>>(alloc, no_names(alloc), levels, wanted)
}

#[test]
fn frames_show_and_hide_names_in_turn(rt: HostRuntime) -> Result<(), Fail> {
    for (levels, wanted) in &ROWS {
        holds(is_shown(rt.alloc(), levels, wanted), wanted)?;
    }
    Ok(())
}

/// Returns `true` if a template writes `a` over a base that is interrupted, and the base is then still interrupted.
fn ends_interrupted<S, X, T, B>(
    alloc: Global,
    template: Option<Template<X, T, B>>,
    mut base: S::Base,
) -> bool
where
    S: Scopes,
    S::Base: Drop,
    X: Filter,
    T: Renderable<S::Register>,
    B: Renderable<S::Register>,
    S::Store: PartialStore<X, T, B>,
{
    match template {
        Some(template) => {
            base.registers_mut().interrupt.set(Interrupt::Break);
            let mut sink = TextSink::new(alloc);
            let mut scopes = S::new(alloc, base);
            let answer = template.render_in(alloc, &mut sink, &mut scopes);
            let base = scopes.into_base();
            answer.is_ok()
                && sink.as_bytes() == b"a".as_slice()
                && base.registers().interrupt.interrupted()
        }
        None => false,
    }
}

#[test]
fn an_interrupt_at_entry_ends_a_list_after_its_first_element(rt: HostRuntime) -> Result<(), Fail> {
    let alloc = rt.alloc();
    let template = page_in(alloc, r#"[["text", "a"], ["text", "b"]]"#);
    let base = no_names(alloc);
    holds(
        ends_interrupted::<ChainedScopes<BuiltRuntime<(), ()>>, _, _, _>(alloc, template, base),
        "`a` is written, and the interrupt is still set",
    )
}
