//! Names of a runtime: what they lead to, and which of them a sandbox with `b` and a frame with `c` over it show.
use crate::names::values::answer_text;
use liquid_runtime::Runtime;
use liquid_scalar::ScalarCow;
use liquid_views::ValueView;
use rows::is_text;
use std::alloc::Global;

const UNKNOWN_A: &str = "liquid: Unknown variable\n  with:\n    requested variable=a\n";

const UNKNOWN_B: &str = "liquid: Unknown variable\n  with:\n    requested variable=b\n";

const UNKNOWN_NIL: &str = "liquid: Unknown variable\n  with:\n    requested variable=nil\n";

const UNKNOWN_INDEX: &str =
    "liquid: Unknown index\n  with:\n    variable=c\n    requested index=x\n    available indexes=\n";

/// Returns `true` if a name's value, or the error of the name, has a text.
pub(crate) fn is_name<R: Runtime>(alloc: Global, runtime: &R, name: &str, text: &str) -> bool {
    is_text(
        answer_text(alloc, runtime.get(alloc, &[ScalarCow::from(name)])),
        text,
    )
}

/// Returns `true` if a path is nil.
fn is_nil<R: Runtime>(alloc: Global, runtime: &R, path: &[ScalarCow<'_>]) -> bool {
    match runtime.get(alloc, path) {
        Ok(value) => value.is_nil(),
        Err(_) => false,
    }
}

/// Returns `true` if a path has an error with this text.
fn has_error<R: Runtime>(alloc: Global, runtime: &R, path: &[ScalarCow<'_>], text: &str) -> bool {
    match runtime.get(alloc, path) {
        Ok(_) => false,
        Err(error) => is_text(error.to_string(alloc), text),
    }
}

/// Returns `true` if a path has an error with this text, or is nil in a lenient runtime.
fn is_refused<R: Runtime>(
    alloc: Global,
    runtime: &R,
    path: &[ScalarCow<'_>],
    refusal: &str,
) -> bool {
    if runtime.is_lenient() {
        is_nil(alloc, runtime, path)
    } else {
        has_error(alloc, runtime, path, refusal)
    }
}

/// Returns `true` if trying a name gives a value exactly if it should.
fn is_tried<R: Runtime>(alloc: Global, runtime: &R, name: &str, is_known: bool) -> bool {
    match runtime.try_get(alloc, &[ScalarCow::from(name)]) {
        Ok(found) => found.is_some() == is_known,
        Err(_) => false,
    }
}

/// Returns `true` if a name is among those that can be seen exactly if it should.
fn is_listed<R: Runtime>(alloc: Global, runtime: &R, name: &str, is_known: bool) -> bool {
    match runtime.roots(alloc) {
        Ok(roots) => roots.contains(name) == is_known,
        Err(_) => false,
    }
}

/// Returns `true` if `b` is listed, but not `a`.
pub(crate) fn hides_a<R: Runtime>(alloc: Global, runtime: &R) -> bool {
    is_listed(alloc, runtime, "a", false) && is_listed(alloc, runtime, "b", true)
}

/// Returns `true` if `c` is listed besides `b`, and `b` and `c` are tried to values, but not `a`.
fn shows_b_and_c<R: Runtime>(alloc: Global, runtime: &R) -> bool {
    is_listed(alloc, runtime, "c", true)
        && is_tried(alloc, runtime, "a", false)
        && is_tried(alloc, runtime, "b", true)
        && is_tried(alloc, runtime, "c", true)
}

/// Returns `true` if `b` and `c` have their numbers, and `a` is an error.
fn answers_b_and_c<R: Runtime>(alloc: Global, runtime: &R) -> bool {
    is_refused(alloc, runtime, &[ScalarCow::from("a")], UNKNOWN_A)
        && is_name(alloc, runtime, "b", "2")
        && is_name(alloc, runtime, "c", "3")
}

/// Returns `true` if an index `x` of a name is refused with this error.
fn refuses_index_of<R: Runtime>(
    alloc: Global,
    runtime: &R,
    name: &'static str,
    refusal: &str,
) -> bool {
    is_refused(
        alloc,
        runtime,
        &[ScalarCow::from(name), ScalarCow::from("x")],
        refusal,
    )
}

/// Returns `true` if a frame with `c` over a sandbox with `b` shows both, and hides `a`. A path into the sealed `b` has the
/// error of that name, and one into the shown `c` that of its index.
pub(crate) fn frame_holds<R: Runtime>(alloc: Global, frame: &R) -> bool {
    hides_a(alloc, frame)
        && shows_b_and_c(alloc, frame)
        && answers_b_and_c(alloc, frame)
        && refuses_index_of(alloc, frame, "b", UNKNOWN_B)
        && refuses_index_of(alloc, frame, "c", UNKNOWN_INDEX)
        && is_refused(alloc, frame, &[], UNKNOWN_NIL)
}
