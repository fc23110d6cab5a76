//! What paths lead to under frames, in a strict runtime and in a lenient one, over both forms of scopes.

use crate::names::calls::set_global;
use crate::names::framed::{Body, holds_over_both};
use crate::names::paths::path_of;
use crate::names::values::answer_text;
use liquid_json::to_object;
use liquid_runtime::{Frame, Runtime, Scopes, Seen, find_seen};
use liquid_scalar::ScalarCow;
use liquid_value::Object;
use liquid_views::ValueView;
use rows::{Line, is_text, rows_hold};
use serde_json::Value as Json;
use std::alloc::Global;
use std::collections::BTreeSet;
use std::test::Fail;

/// Frames over a runtime that gives `base` the number 5, a name that is set to 4 under them, if there is one, a path,
/// and what `get` returns for it in a strict runtime: a value's text or that of the error.
const ROWS: &str = r#"[[], "", ["base"], "5"]
[[], "", ["base", "x"], "liquid: Unknown index\n  with:\n    variable=base\n    requested index=x\n    available indexes=\n"]
[[], "", ["x"], "liquid: Unknown variable\n  with:\n    requested variable=x\n"]
[[], "", ["x", "y"], "liquid: Unknown variable\n  with:\n    requested variable=x\n"]
[[], "", [7], "liquid: Unknown variable\n  with:\n    requested variable=7\n"]
[[], "", [], "liquid: Unknown variable\n  with:\n    requested variable=nil\n"]
[[], "g", ["g"], "4"]
[[["none"]], "", ["base"], "5"]
[[["none"]], "", ["x"], "liquid: Unknown variable\n  with:\n    requested variable=x\n"]
[[["none"]], "", [], "liquid: Unknown variable\n  with:\n    requested variable=nil\n"]
[[["stack", {"a": [1, 2]}]], "", ["a", "size"], "2"]
[[["stack", {"a": [1, 2]}]], "", ["a", 1], "2"]
[[["stack", {"a": [1, 2]}]], "", ["a", 2], "liquid: Unknown index\n  with:\n    variable=a\n    requested index=2\n    available indexes=0..1, first, last\n"]
[[["stack", {"a": null}]], "", ["a"], ""]
[[["stack", {"a": null}]], "", ["a", "x"], "liquid: Unknown index\n  with:\n    variable=a\n    requested index=x\n    available indexes=\n"]
[[["stack", {"a": {"c": 1, "d": 2}}]], "", ["a", "b"], "liquid: Unknown index\n  with:\n    variable=a\n    requested index=b\n    available indexes=c, d\n"]
[[["stack", {"a": {"c": {"e": 1}}}]], "", ["a", "c", "f"], "liquid: Unknown index\n  with:\n    variable=a.c\n    requested index=f\n    available indexes=e\n"]
[[["stack", {"a": 1}]], "", ["base"], "5"]
[[["stack", {"a": 1}]], "", ["x"], "liquid: Unknown variable\n  with:\n    requested variable=x\n"]
[[["stack", {"a": 1}]], "", [], "liquid: Unknown variable\n  with:\n    requested variable=nil\n"]
[[["global"]], "g", ["g"], "4"]
[[["global"]], "g", ["g", "x"], "liquid: Unknown index\n  with:\n    variable=g\n    requested index=x\n    available indexes=\n"]
[[["global"]], "", ["g"], "liquid: Unknown variable\n  with:\n    requested variable=g\n"]
[[["global"]], "", [], "liquid: Unknown variable\n  with:\n    requested variable=nil\n"]
[[["stack", {"test": 3}]], "test", ["test"], "3"]
[[["global"], ["stack", {"test": 3}]], "test", ["test"], "3"]
[[["sandboxed", {"b": 2}]], "", ["b"], "2"]
[[["sandboxed", {"b": 2}]], "", ["b", "x"], "liquid: Unknown variable\n  with:\n    requested variable=b\n"]
[[["sandboxed", {"b": 2}]], "", ["base"], "liquid: Unknown variable\n  with:\n    requested variable=base\n"]
[[["sandboxed", {"b": 2}]], "", ["base", "size"], "liquid: Unknown variable\n  with:\n    requested variable=base\n"]
[[["sandboxed", {"b": 2}]], "", [], "liquid: Unknown variable\n  with:\n    requested variable=nil\n"]
[[["sandboxed", {"b": 2}]], "b", ["b"], "2"]
[[["sandboxed", {"b": 2}]], "g", ["g"], "liquid: Unknown variable\n  with:\n    requested variable=g\n"]
[[["stack", {"a": 1}], ["sandboxed", {"b": 2}], ["stack", {"c": 1}]], "", ["a"], "liquid: Unknown variable\n  with:\n    requested variable=a\n"]
[[["stack", {"a": 1}], ["sandboxed", {"b": 2}], ["stack", {"c": 1}]], "", ["b"], "2"]
[[["stack", {"a": 1}], ["sandboxed", {"b": 2}], ["stack", {"c": 1}]], "", ["c"], "1"]
[[["stack", {"a": 1}], ["sandboxed", {"b": 2}], ["stack", {"c": 1}]], "", ["b", "x"], "liquid: Unknown variable\n  with:\n    requested variable=b\n"]
[[["stack", {"a": 1}], ["sandboxed", {"b": 2}], ["stack", {"c": 1}]], "", ["c", "x"], "liquid: Unknown index\n  with:\n    variable=c\n    requested index=x\n    available indexes=\n"]
[[["sandboxed", {"b": 2}], ["stack", {"b": 3}]], "", ["b", "x"], "liquid: Unknown index\n  with:\n    variable=b\n    requested index=x\n    available indexes=\n"]
[[["stack", {"b": 3}], ["sandboxed", {"b": 2}], ["none"]], "", ["b", "x"], "liquid: Unknown variable\n  with:\n    requested variable=b\n"]
[[["sandboxed", {"b": 2}], ["global"]], "b", ["b"], "4"]
[[["sandboxed", {"b": 2}], ["global"]], "b", ["b", "x"], "liquid: Unknown index\n  with:\n    variable=b\n    requested index=x\n    available indexes=\n"]
[[["sandboxed", {"b": 2}], ["global"], ["stack", {"c": 1}]], "", ["b", "x"], "liquid: Unknown variable\n  with:\n    requested variable=b\n"]
[[["sandboxed", {"b": 2}], ["sandboxed", {}]], "", ["b"], "liquid: Unknown variable\n  with:\n    requested variable=b\n"]
[[["isolated", {"b": 2}]], "", ["b"], "2"]
[[["isolated", {"b": 2}]], "", ["base"], "liquid: Unknown variable\n  with:\n    requested variable=base\n"]
[[["isolated", {"b": 2}]], "", ["b", "x"], "liquid: Unknown variable\n  with:\n    requested variable=b\n"]
[[["isolated", {"b": 2}]], "", [], "liquid: Unknown variable\n  with:\n    requested variable=nil\n"]
[[["isolated", {"b": 2}]], "g", ["g"], "4"]
[[["isolated", {"b": 2}]], "g", ["g", "x"], "liquid: Unknown index\n  with:\n    variable=g\n    requested index=x\n    available indexes=\n"]
[[["isolated", {"b": 2}]], "b", ["b"], "4"]
[[["isolated", {"b": 2}]], "b", ["b", "x"], "liquid: Unknown index\n  with:\n    variable=b\n    requested index=x\n    available indexes=\n"]
[[["isolated", {"b": 2}], ["stack", {"c": 1}]], "", ["b", "x"], "liquid: Unknown variable\n  with:\n    requested variable=b\n"]
[[["isolated", {"b": 2}], ["stack", {"c": 1}]], "b", ["b"], "4"]
[[["isolated", {"b": 2}], ["stack", {"c": 1}]], "b", ["b", "x"], "liquid: Unknown index\n  with:\n    variable=b\n    requested index=x\n    available indexes=\n"]
[[["isolated", {"b": 2}], ["stack", {"b": 3}]], "b", ["b"], "3"]
[[["stack", {"b": 7}], ["isolated", {"c": 2}], ["stack", {"d": 1}]], "", ["b"], "liquid: Unknown variable\n  with:\n    requested variable=b\n"]
[[["isolated", {"b": 2}], ["global"]], "g", ["g"], "4"]
[[["isolated", {"b": 2}], ["isolated", {}]], "", ["b"], "liquid: Unknown variable\n  with:\n    requested variable=b\n"]
[[["isolated", {"b": 2}], ["isolated", {"c": 1}]], "c", ["c"], "4"]
[[["isolated", {"b": 2}], ["sandboxed", {"c": 1}]], "g", ["g"], "liquid: Unknown variable\n  with:\n    requested variable=g\n"]
[[["isolated", {"b": 2}], ["sandboxed", {"c": 1}]], "c", ["c", "x"], "liquid: Unknown variable\n  with:\n    requested variable=c\n"]
[[["sandboxed", {"b": 2}], ["isolated", {"c": 1}]], "", ["b"], "liquid: Unknown variable\n  with:\n    requested variable=b\n"]
[[["sandboxed", {"b": 2}], ["isolated", {"c": 1}]], "g", ["g"], "4"]"#;

/// Frames over the same runtime, a name that is set under them, if there is one, and the names seen.
const NAMES: &str = r#"[[], "", ["base"]]
[[["none"]], "g", ["base", "g"]]
[[["stack", {"a": 1}]], "", ["a", "base"]]
[[["global"]], "g", ["base", "g"]]
[[["sandboxed", {"b": 2}]], "g", ["b"]]
[[["sandboxed", {"b": 2}], ["global"], ["stack", {"c": 1}]], "g", ["b", "c", "g"]]
[[["isolated", {"b": 2}]], "", ["b"]]
[[["isolated", {"b": 2}]], "g", ["b", "g"]]
[[["isolated", {"b": 2}], ["stack", {"c": 1}]], "b", ["b", "c"]]
[[["stack", {"a": 1}], ["isolated", {"b": 2}]], "a", ["a", "b"]]"#;

/// Returns a frame with these names, or `None` if a row calls it by another word.
fn named_frame(word: &str, names: Object) -> Option<Frame> {
    match word {
        "stack" => Some(Frame::Stack(names, None)),
        "sandboxed" => Some(Frame::Sandboxed(names, None)),
        "isolated" => Some(Frame::Isolated(names, None)),
        _ => None,
    }
}

/// Returns the frame with names that a row describes.
fn frame_with(alloc: Global, word: &str, names: &Json) -> Option<Frame> {
    match to_object(alloc, names) {
        Ok(names) => named_frame(word, names),
        Err(_) => None,
    }
}

/// Returns the frame that a row describes.
fn frame_of(alloc: Global, row: &Json) -> Option<Frame> {
    match (row.get(0).and_then(Json::as_str), row.get(1)) {
        (Some("none"), _) => Some(Frame::None),
        (Some("global"), _) => Some(Frame::Global),
        (Some(word), Some(names)) => frame_with(alloc, word, names),
        _ => None,
    }
}

/// Returns `true` if a body holds under these frames, the outermost first.
fn holds_under<S: Scopes, B: Body>(
    alloc: Global,
    scopes: &mut S,
    frames: &[Json],
    body: &B,
) -> bool {
    let Some((first, rest)) = frames.split_first() else {
        return body.holds(alloc, scopes);
    };
    let Some(frame) = frame_of(alloc, first) else {
        return false;
    };
    match scopes.push(frame) {
        Ok(()) => {
            let is_so = holds_under(alloc, scopes, rest, body);
            scopes.pop();
            is_so
        }
        Err(_) => false,
    }
}

/// A body under these frames.
#[derive(Drop)]
struct WithFrames<'r, B> {
    frames: &'r [Json],
    body: &'r B,
}

impl<B: Body> Body for WithFrames<'_, B> {
    fn holds<S: Scopes>(&self, alloc: Global, scopes: &mut S) -> bool {
        holds_under(alloc, scopes, self.frames, self.body)
    }
}

/// Sets a name to 4, unless it is empty, and returns `true` if that is done.
fn is_set<S: Scopes>(alloc: Global, scopes: &mut S, name: &str) -> bool {
    name.is_empty() || set_global(alloc, scopes, name, 4).is_ok()
}

/// A path that is looked up, and its result in a strict runtime.
#[derive(Drop)]
struct Asks<'r> {
    set: &'r str,
    path: &'r [ScalarCow<'r>],
    strict: &'r str,
}

impl Body for Asks<'_> {
    fn holds<S: Scopes>(&self, alloc: Global, scopes: &mut S) -> bool {
        is_set(alloc, scopes, self.set)
            && has_result(alloc, scopes, self)
            && is_tried(alloc, scopes, self.path, !is_refused(self))
            && is_found(alloc, scopes, self.path, !is_refused(self))
    }
}

/// Returns `true` if the path is an error in a strict runtime.
fn is_refused(asks: &Asks<'_>) -> bool {
    asks.strict.starts_with("liquid: Unknown ")
}

/// Returns `true` if the path has the expected result.
fn has_result<S: Scopes>(alloc: Global, scopes: &S, asks: &Asks<'_>) -> bool {
    if is_refused(asks) && scopes.is_lenient() {
        is_nil(alloc, scopes, asks.path)
    } else {
        is_text(
            answer_text(alloc, scopes.get(alloc, asks.path)),
            asks.strict,
        )
    }
}

/// Returns `true` if the path is nil.
fn is_nil<S: Scopes>(alloc: Global, scopes: &S, path: &[ScalarCow<'_>]) -> bool {
    match scopes.get(alloc, path) {
        Ok(value) => value.is_nil(),
        Err(_) => false,
    }
}

/// Returns `true` if trying the path gives a value exactly if it should.
fn is_tried<S: Scopes>(alloc: Global, scopes: &S, path: &[ScalarCow<'_>], is_so: bool) -> bool {
    match scopes.try_get(alloc, path) {
        Ok(found) => found.is_some() == is_so,
        Err(_) => false,
    }
}

/// Returns `true` if the path's name has a value, in which the rest of the path is found, exactly if it should.
fn is_found<S: Scopes>(alloc: Global, scopes: &S, path: &[ScalarCow<'_>], is_so: bool) -> bool {
    match path.split_first() {
        Some((first, rest)) => is_found_under(alloc, scopes, first, rest, is_so),
        None => !is_so,
    }
}

/// Returns `true` if a name has a value, in which the rest of a path is found, exactly if it should.
fn is_found_under<S: Scopes>(
    alloc: Global,
    scopes: &S,
    name: &ScalarCow<'_>,
    rest: &[ScalarCow<'_>],
    is_so: bool,
) -> bool {
    match name.to_kstr(alloc) {
        Ok(name) => leads_on(alloc, scopes.try_get_name(name.as_str()), rest) == is_so,
        Err(_) => false,
    }
}

/// Returns `true` if there is a value, in which the rest of a path is found.
fn leads_on(alloc: Global, seen: Option<Seen<'_>>, rest: &[ScalarCow<'_>]) -> bool {
    match seen {
        Some(seen) => matches!(find_seen(alloc, seen, rest), Ok(Some(_))),
        None => false,
    }
}

/// The names that are seen.
#[derive(Drop)]
struct Lists<'r> {
    set: &'r str,
    names: &'r [Json],
}

impl Body for Lists<'_> {
    fn holds<S: Scopes>(&self, alloc: Global, scopes: &mut S) -> bool {
        is_set(alloc, scopes, self.set) && sees_only(alloc, scopes, self.names)
    }
}

/// Returns `true` if the names that are seen are these.
fn sees_only<S: Scopes>(alloc: Global, scopes: &S, names: &[Json]) -> bool {
    match scopes.roots(alloc) {
        Ok(roots) => are_names(&roots, names),
        Err(_) => false,
    }
}

/// Returns `true` if names are those of a row.
fn are_names(roots: &BTreeSet<String>, names: &[Json]) -> bool {
    roots.len() == names.len()
        && names.iter().all(|name| name.as_str().is_some_and(|name| roots.contains(name)))
}

/// Returns `true` if a body holds under these frames, over scopes of both forms, in a strict and in a lenient runtime.
fn holds_in_both<B: Body>(alloc: Global, frames: &[Json], body: &B) -> bool {
    let framed = WithFrames { frames, body };
    holds_over_both(alloc, &[("base", 5)], false, &framed)
        && holds_over_both(alloc, &[("base", 5)], true, &framed)
}

/// Returns `true` if the path of these indexes has the result of a row.
fn is_answered(
    alloc: Global,
    frames: &[Json],
    set: &str,
    indexes: &Vec<Json>,
    strict: &str,
) -> bool {
    match path_of(alloc, indexes) {
        Some(path) => holds_in_both(
            alloc,
            frames,
            &Asks {
                set,
                path: path.as_slice(),
                strict,
            },
        ),
        None => false,
    }
}

/// Returns `true` if the path of a row has the row's result.
fn row_is_answered(alloc: Global, row: &Line) -> bool {
    match (row.list(0), row.text(1), row.list(2), row.text(3)) {
        (Some(frames), Some(set), Some(indexes), Some(strict)) => {
            is_answered(alloc, frames.as_slice(), set, indexes, strict)
        }
        _ => false,
    }
}

#[test]
fn a_path_without_a_value_is_nil_in_a_lenient_runtime(rt: HostRuntime) -> Result<(), Fail> {
    rows_hold(rt.alloc(), ROWS, row_is_answered)
}

/// Returns `true` if the names seen are those of a row.
fn row_is_listed(alloc: Global, row: &Line) -> bool {
    match (row.list(0), row.text(1), row.list(2)) {
        (Some(frames), Some(set), Some(names)) => {
            let names = names.as_slice();
            holds_in_both(alloc, frames.as_slice(), &Lists { set, names })
        }
        _ => false,
    }
}

#[test]
fn a_lenient_runtime_has_the_same_names(rt: HostRuntime) -> Result<(), Fail> {
    rows_hold(rt.alloc(), NAMES, row_is_listed)
}
