//! A thousand frames, and how many frame lookups a name takes under them.

use crate::names::framed::{Base, based, sandboxed, shown, stack};
use liquid_runtime::{Runtime, Scopes};
use liquid_scalar::ScalarCow;
use liquid_scopes::{FlatScopes, Looks};
use rows::{holds, is_text};
use std::alloc::{AllocError, Global};
use std::test::Fail;

/// Scopes that count their frame lookups.
trait Seeks: Scopes {
    /// Returns `true` if a name leads to a value with this text (or to nothing, if the text is `none`) by so many frame
    /// lookups.
    fn is_found(&self, alloc: Global, name: &'static str, text: &str, count: u64) -> bool;
}

impl<R: Runtime> Seeks for FlatScopes<R> {
    fn is_found(&self, alloc: Global, name: &'static str, text: &str, count: u64) -> bool {
        let mut looks = Looks::new();
        let is_so = match self.seek(alloc, &[ScalarCow::from(name)], &mut looks) {
            Ok(found) => is_text(shown(alloc, found), text),
            Err(_) => false,
        };
        is_so && looks.count() == count
    }
}

/// Returns `true` if lookups find what they should under that many more frames, each of which gives `deep` its own number.
fn nested<S: Seeks>(alloc: Global, scopes: &mut S, frames: u32) -> bool {
    if frames == 0 {
        return innermost(alloc, scopes);
    }
    let Some(frame) = stack(alloc, &[("deep", i64::from(frames))]) else {
        return false;
    };
    match scopes.push(frame) {
        Ok(()) => {
            let is_so = nested(alloc, scopes, frames - 1);
            scopes.pop();
            is_so
        }
        Err(_) => false,
    }
}

/// Returns `true` if lookups find what they should, and then under a sandboxed frame.
fn innermost<S: Seeks>(alloc: Global, scopes: &mut S) -> bool {
    let is_found = finds(alloc, scopes, ("1", 1), ("5", 2), ("none", 2));
    let Some(frame) = sandboxed(alloc, &[("own", 6)]) else {
        return false;
    };
    match scopes.push(frame) {
        Ok(()) => {
            let is_so = is_found && in_sandbox(alloc, scopes);
            scopes.pop();
            is_so
        }
        Err(_) => false,
    }
}

/// Returns `true` if lookups find what they should, and then under another frame.
fn in_sandbox<S: Seeks>(alloc: Global, scopes: &mut S) -> bool {
    let is_found = finds(alloc, scopes, ("none", 1), ("none", 1), ("6", 1));
    let Some(frame) = stack(alloc, &[("other", 7)]) else {
        return false;
    };
    match scopes.push(frame) {
        Ok(()) => {
            let is_so = is_found && finds(alloc, scopes, ("none", 1), ("none", 1), ("6", 2));
            scopes.pop();
            is_so
        }
        Err(_) => false,
    }
}

/// Returns `true` if `deep`, `base` and `own` lead to these texts by so many frame lookups.
fn finds<S: Seeks>(
    alloc: Global,
    scopes: &S,
    deep: (&str, u64),
    base: (&str, u64),
    own: (&str, u64),
) -> bool {
    scopes.is_found(alloc, "deep", deep.0, deep.1)
        && scopes.is_found(alloc, "base", base.0, base.1)
        && scopes.is_found(alloc, "own", own.0, own.1)
}

/// Returns `true` if lookups find what they should under that many frames over a base.
fn finds_over<S: Seeks>(alloc: Global, base: S::Base, frames: u32) -> bool
where
    S::Base: Drop,
{
    let mut scopes = S::new(alloc, base);
    let is_so = nested(alloc, &mut scopes, frames);
    let _base = scopes.into_base();
    is_so
}

/// Returns `true` if the lookups under that many frames are few, over a runtime whose globals give `base` the number 5.
fn takes_few_looks(alloc: Global, base: Result<Base, AllocError>, frames: u32) -> bool {
    match base {
        Ok(base) => finds_over::<FlatScopes<Base>>(alloc, base, frames),
        Err(_) => false,
    }
}

#[test]
fn a_name_takes_at_most_two_looks_under_a_thousand_frames(rt: HostRuntime) -> Result<(), Fail> {
    let alloc = rt.alloc();
    for frames in [1, 1000] {
        holds(
            takes_few_looks(alloc, based(alloc, &[("base", 5)], false), frames),
            "a name takes at most two lookups",
        )?;
    }
    Ok(())
}
