//! What the end of a frame returns: the frame of a loop, and nothing of another frame.
use crate::names::framed::{Base, based, sandboxed, stack};
use crate::names::values::numbers;
use liquid_runtime::{Counts, Frame, LoopFrame, LoopItem, Scopes};
use liquid_scopes::{ChainedScopes, FlatScopes};
use liquid_value::Value;
use rows::holds;
use std::alloc::{AllocError, Global};
use std::test::Fail;

/// The names of each frame.
const NAMES: [(&str, i64); 2] = [("a", 1), ("b", 2)];

/// Returns `true` if a frame can begin, and its end returns the frame of a loop over this number, or nothing.
fn ends_with<S: Scopes>(scopes: &mut S, frame: Option<Frame>, wanted: Option<i64>) -> bool {
    let Some(frame) = frame else {
        return false;
    };
    if scopes.push(frame).is_err() {
        return false;
    }
    match (scopes.pop_loop(), wanted) {
        (Some(found), Some(wanted)) => *found.item.get() == Value::scalar(wanted),
        (None, None) => true,
        _ => false,
    }
}

/// Returns an isolated frame of numbers.
fn isolated(alloc: Global) -> Option<Frame> {
    Some(Frame::Isolated(numbers(alloc, &NAMES).ok()?, None))
}

/// Returns the frame of a loop over a number.
fn looped(alloc: Global, number: i64) -> Option<Frame> {
    let counts = Counts { place: 0, size: 1 };
    let item = LoopItem::Own(Value::scalar(number));
    Some(Frame::Loop(LoopFrame::of_turn(alloc, None, "a", item, counts).ok()?))
}

/// Returns `true` if frames of each kind end as they should, each inside a stack frame.
fn frames_end<S: Scopes>(alloc: Global, base: S::Base) -> bool
where
    S::Base: Drop,
{
    let mut scopes = S::new(alloc, base);
    let is_open = match stack(alloc, &[("a", 3)]) {
        Some(outer) => scopes.push(outer).is_ok(),
        None => false,
    };
    let is_so = is_open
        && ends_with(&mut scopes, looped(alloc, 5), Some(5))
        && ends_with(&mut scopes, stack(alloc, &NAMES), None)
        && ends_with(&mut scopes, sandboxed(alloc, &NAMES), None)
        && ends_with(&mut scopes, isolated(alloc), None)
        && ends_with(&mut scopes, Some(Frame::Global), None)
        && ends_with(&mut scopes, Some(Frame::None), None);
    let _base = scopes.into_base();
    is_so
}

/// Returns `true` if frames of each kind end as they should over scopes of both forms.
fn end_over_both(alloc: Global) -> Result<bool, AllocError> {
    let chained = based(alloc, &[("a", 7)], false)?;
    let flat = based(alloc, &[("a", 7)], false)?;
    Ok(
        frames_end::<ChainedScopes<Base>>(alloc, chained)
            && frames_end::<FlatScopes<Base>>(alloc, flat),
    )
}

#[test]
fn the_end_of_a_loops_frame_returns_it(rt: HostRuntime) -> Result<(), Fail> {
    holds(
        end_over_both(rt.alloc()).unwrap_or(false),
        "what the end of a frame returns",
    )
}
