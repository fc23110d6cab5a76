//! Frames that hide one another, over both forms of scopes.
use crate::names::calls::is_new_global;
use crate::names::framed::{Body, framed, holds_over_both, sandboxed, shows, stack};
use liquid_runtime::{Frame, Scopes};
use rows::holds;
use std::alloc::Global;
use std::test::Fail;

/// A stack frame with `a`, under it first a sandboxed and then a global frame.
struct Frames;

impl Body for Frames {
    fn holds<S: Scopes>(&self, alloc: Global, scopes: &mut S) -> bool {
        framed(alloc, scopes, stack(alloc, &[("a", 1)]), &BelowStack)
    }
}

struct BelowStack;

impl Body for BelowStack {
    fn holds<S: Scopes>(&self, alloc: Global, scopes: &mut S) -> bool {
        framed(alloc, scopes, sandboxed(alloc, &[("b", 2)]), &BelowSandbox)
            && shows(alloc, scopes, "a", "1")
            && framed(alloc, scopes, Some(Frame::Global), &BelowGlobal)
            && shows(alloc, scopes, "a", "1")
    }
}

struct BelowSandbox;

impl Body for BelowSandbox {
    fn holds<S: Scopes>(&self, alloc: Global, scopes: &mut S) -> bool {
        framed(alloc, scopes, stack(alloc, &[("b", 3)]), &Innermost)
            && shows(alloc, scopes, "b", "2")
    }
}

struct Innermost;

impl Body for Innermost {
    fn holds<S: Scopes>(&self, alloc: Global, scopes: &mut S) -> bool {
        shows(alloc, scopes, "a", "none") && shows(alloc, scopes, "b", "3")
    }
}

struct BelowGlobal;

impl Body for BelowGlobal {
    fn holds<S: Scopes>(&self, alloc: Global, scopes: &mut S) -> bool {
        is_new_global(alloc, scopes, "a", 4) && shows(alloc, scopes, "a", "4")
    }
}

#[test]
fn a_name_that_was_hidden_is_seen_again(rt: HostRuntime) -> Result<(), Fail> {
    holds(
        holds_over_both(rt.alloc(), &[], false, &Frames),
        "scopes of both forms show the names",
    )
}
