//! What the tests do under a frame, over both forms of scopes.

use crate::names::values::numbers;
use liquid_runtime::{BuiltRuntime, Frame, RuntimeBuilder, Scopes};
use liquid_scalar::ScalarCow;
use liquid_scopes::{ChainedScopes, FlatScopes};
use liquid_value::ValueCow;
use liquid_views::ValueView;
use rows::is_text;
use std::alloc::{AllocError, Global};

pub(crate) type Base = BuiltRuntime<(), ()>;

/// Returns a runtime with globals that are numbers.
pub(crate) fn based(
    alloc: Global,
    globals: &[(&'static str, i64)],
    lenient: bool,
) -> Result<Base, AllocError> {
    Ok(
        RuntimeBuilder::new(alloc)
            .set_globals(numbers(alloc, globals)?)
            .set_lenient(lenient)
            .build(),
    )
}

/// Calls on scopes that leave the frames as they were.
pub(crate) trait Body {
    /// Returns `true` if the calls have the expected results.
    fn holds<S: Scopes>(&self, alloc: Global, scopes: &mut S) -> bool;
}

/// Returns `true` if a body holds under a frame.
fn holds_under<S: Scopes, B: Body>(alloc: Global, scopes: &mut S, frame: Frame, body: &B) -> bool {
    match scopes.push(frame) {
        Ok(()) => {
            let is_so = body.holds(alloc, scopes);
            scopes.pop();
            is_so
        }
        Err(_) => false,
    }
}

/// Returns `true` if a frame was made, and a body holds under it.
pub(crate) fn framed<S: Scopes, B: Body>(
    alloc: Global,
    scopes: &mut S,
    frame: Option<Frame>,
    body: &B,
) -> bool {
    match frame {
        Some(frame) => holds_under(alloc, scopes, frame, body),
        None => false,
    }
}

/// Returns `true` if a body holds over scopes of one form.
fn holds_over<S: Scopes, B: Body>(alloc: Global, base: S::Base, body: &B) -> bool
where
    S::Base: Drop,
{
    let mut scopes = S::new(alloc, base);
    let is_so = body.holds(alloc, &mut scopes);
    let _base = scopes.into_base();
    is_so
}

/// Returns `true` if a body holds over chained scopes. No other test of both forms names these scopes with their base:
/// each function that does is checked against all that they promise.
fn is_chained<B: Body>(alloc: Global, base: Result<Base, AllocError>, body: &B) -> bool {
    match base {
        Ok(base) => holds_over::<ChainedScopes<Base>, B>(alloc, base, body),
        Err(_) => false,
    }
}

/// Returns `true` if a body holds over flat scopes, which no other test of both forms names with their base.
fn is_flat<B: Body>(alloc: Global, base: Result<Base, AllocError>, body: &B) -> bool {
    match base {
        Ok(base) => holds_over::<FlatScopes<Base>, B>(alloc, base, body),
        Err(_) => false,
    }
}

/// Returns `true` if a body holds over scopes of both forms, each over a runtime with these globals.
pub(crate) fn holds_over_both<B: Body>(
    alloc: Global,
    globals: &[(&'static str, i64)],
    lenient: bool,
    body: &B,
) -> bool {
    is_chained(alloc, based(alloc, globals, lenient), body)
        && is_flat(alloc, based(alloc, globals, lenient), body)
}

/// Returns the text of a value, or `none`.
pub(crate) fn shown(alloc: Global, found: Option<ValueCow<'_>>) -> Result<String, AllocError> {
    match found {
        Some(value) => value.render().to_string(alloc),
        None => String::from_str(alloc, "none"),
    }
}

/// Returns a stack frame of numbers.
pub(crate) fn stack(alloc: Global, pairs: &[(&'static str, i64)]) -> Option<Frame> {
    match numbers(alloc, pairs) {
        Ok(names) => Some(Frame::Stack(names, None)),
        Err(_) => None,
    }
}

/// Returns a sandboxed frame of numbers.
pub(crate) fn sandboxed(alloc: Global, pairs: &[(&'static str, i64)]) -> Option<Frame> {
    match numbers(alloc, pairs) {
        Ok(names) => Some(Frame::Sandboxed(names, None)),
        Err(_) => None,
    }
}

/// Returns `true` if a name leads to a value with this text, or to nothing if the text is `none`.
pub(crate) fn shows<S: Scopes>(alloc: Global, scopes: &S, name: &'static str, text: &str) -> bool {
    match scopes.try_get(alloc, &[ScalarCow::from(name)]) {
        Ok(found) => is_text(shown(alloc, found), text),
        Err(_) => false,
    }
}
