//! Paths into values.
use crate::names::values::answer_text;
use liquid_json::to_value;
use liquid_paths::{Path, find, find_after, own_part, try_find};
use liquid_scalar::ScalarCow;
use liquid_value::Value;
use liquid_views::ArrayView;
use rows::{Line, holds, is_text, rows_hold};
use serde_json::Value as Json;
use std::alloc::{AllocError, Global};
use std::test::Fail;

/// The values that paths lead into.
const VALUES: &str =
    r#"{"list": [0, 1, 4, 9, 16, 25, 36, 49, 64, 81], "empty": [], "word": "häuser", "box": {"size": 7, "part": 5}, "plain": {"d": 2, "c": 1}}"#;

/// Paths, and what each leads to: a value's text or that of the error.
const PATHS: &str = r#"[["list", 2], "4"]
[["list", "2"], "4"]
[["list", -1], "81"]
[["list", -10], "0"]
[["list", "first"], "0"]
[["list", "last"], "81"]
[["list", "size"], "10"]
[["list", "size", "size"], "2"]
[["word", "size"], "7"]
[["box", "size"], "7"]
[["plain", "size"], "2"]
[["plain", "d"], "2"]
[["size"], "5"]
[["list", -11], "liquid: Unknown index\n  with:\n    variable=list\n    requested index=-11\n    available indexes=0..9, first, last\n"]
[["list", 10, "x"], "liquid: Unknown index\n  with:\n    variable=list\n    requested index=10\n    available indexes=0..9, first, last\n"]
[["empty", "first"], "liquid: Unknown index\n  with:\n    variable=empty\n    requested index=first\n    available indexes=first, last\n"]
[["plain", "b", "x"], "liquid: Unknown index\n  with:\n    variable=plain\n    requested index=b\n    available indexes=c, d\n"]
[["plain", "c", "x"], "liquid: Unknown index\n  with:\n    variable=plain.c\n    requested index=x\n    available indexes=\n"]
[["list", 3, "size", "first"], "liquid: Unknown index\n  with:\n    variable=list.3.size\n    requested index=first\n    available indexes=\n"]
[["x", "y"], "liquid: Unknown index\n  with:\n    requested index=x\n    available indexes=box, empty, list, plain, word\n"]
[["word", "first"], "liquid: Unknown index\n  with:\n    variable=word\n    requested index=first\n    available indexes=\n"]
[["plain", "c", "size"], "1"]"#;

/// Returns an index of a path.
fn index_of(member: &Json) -> Option<ScalarCow<'_>> {
    match (member.as_str(), member.as_i64()) {
        (Some(word), _) => Some(ScalarCow::from(word)),
        (None, Some(place)) => Some(ScalarCow::from(place)),
        (None, None) => None,
    }
}

/// Puts an index after those of a path, and returns `true` if there is one and memory for it.
fn push<'j>(path: &mut Vec<ScalarCow<'j>>, member: &'j Json) -> bool {
    match index_of(member) {
        Some(index) => path.push(index).is_ok(),
        None => false,
    }
}

/// Puts indexes after those of a path, and returns `true` if there are such indexes and memory for them.
fn push_all<'j>(path: &mut Vec<ScalarCow<'j>>, indexes: &'j Vec<Json>) -> bool {
    for member in indexes {
        if !push(path, member) {
            return false;
        }
    }
    true
}

/// Returns the path of these indexes, if they are indexes and there is memory.
pub(crate) fn path_of(alloc: Global, indexes: &Vec<Json>) -> Option<Vec<ScalarCow<'_>>> {
    let mut path = Vec::new(alloc);
    if push_all(&mut path, indexes) {
        Some(path)
    } else {
        None
    }
}

/// Returns `true` if trying a path gives a value exactly if it should.
fn is_tried(alloc: Global, value: &Value, path: &[ScalarCow<'_>], is_so: bool) -> bool {
    match try_find(alloc, value, path) {
        Ok(found) => found.is_some() == is_so,
        Err(_) => false,
    }
}

/// Returns `true` if a path of these indexes leads to the answer, which is a value's text or that of the error, and to a
/// value exactly if it is tried to one.
fn is_answered(alloc: Global, value: &Value, path: &[ScalarCow<'_>], answer: &str) -> bool {
    is_text(answer_text(alloc, find(alloc, value, path)), answer)
        && is_tried(alloc, value, path, find(alloc, value, path).is_ok())
}

/// Returns `true` if the path of these indexes leads to the answer, tried or not.
fn leads_to(alloc: Global, value: &Value, indexes: &Vec<Json>, answer: &str) -> bool {
    match path_of(alloc, indexes) {
        Some(path) => is_answered(alloc, value, path.as_slice(), answer),
        None => false,
    }
}

/// Returns `true` if the path at a place of a row leads to the answer at the next place.
fn row_leads_to(alloc: Global, value: &Value, row: &Line, place: usize) -> bool {
    match (row.list(place), row.text(place.wrapping_add(1))) {
        (Some(indexes), Some(answer)) => leads_to(alloc, value, indexes, answer),
        _ => false,
    }
}

/// Values, a path into each, and the text of its error.
const REFUSED: &str =
    r#"[{"a": 1}, ["x", "y"], "liquid: Unknown index\n  with:\n    requested index=x\n    available indexes=a\n"]
[{"a": {"c": 1, "d": 2}}, ["a", "b"], "liquid: Unknown index\n  with:\n    variable=a\n    requested index=b\n    available indexes=c, d\n"]"#;

/// A path, how many of its indexes come before a walk through `{"c": 1, "d": 2}`, and the result of the rest of the path:
/// a value's text or that of the error.
const AFTER: &str = r#"[["a", "d"], 1, "2"]
[["a", "d"], 2, "c1d2"]
[["a", "b"], 1, "liquid: Unknown index\n  with:\n    variable=a\n    requested index=b\n    available indexes=c, d\n"]"#;

/// Returns `true` if a text is the result of the rest of a path after its first indexes.
fn leads_on_to(
    alloc: Global,
    front: i64,
    value: &Value,
    path: &[ScalarCow<'_>],
    answer: &str,
) -> bool {
    match usize::try_from(front) {
        Ok(front) => is_text(
            answer_text(alloc, find_after(alloc, front, value, path)),
            answer,
        ),
        Err(_) => false,
    }
}

/// Returns `true` if the rest of the path of these indexes leads to the answer.
fn rest_leads_to(
    alloc: Global,
    front: i64,
    value: &Value,
    indexes: &Vec<Json>,
    answer: &str,
) -> bool {
    match path_of(alloc, indexes) {
        Some(path) => leads_on_to(alloc, front, value, path.as_slice(), answer),
        None => false,
    }
}

/// Returns `true` if the rest of a row's path has the row's result.
fn rest_holds(alloc: Global, value: &Value, row: &Line) -> bool {
    match (row.list(0), row.number(1), row.text(2)) {
        (Some(indexes), Some(front), Some(answer)) => {
            rest_leads_to(alloc, front, value, indexes, answer)
        }
        _ => false,
    }
}

/// Returns the value of a text of JSON.
fn value_in(alloc: Global, text: &str) -> Result<Value, Fail> {
    Ok(to_value(alloc, &Json::from_str(alloc, text)?)?)
}

#[test]
fn a_walk_may_begin_after_a_path(rt: HostRuntime) -> Result<(), Fail> {
    let alloc = rt.alloc();
    let value = value_in(alloc, r#"{"c": 1, "d": 2}"#)?;
    let answer = rows_hold(alloc, AFTER, |alloc, row| rest_holds(alloc, &value, row));
    drop(value);
    answer
}

/// Returns the value at a place of a row, if it has one and there is memory.
fn value_at(alloc: Global, row: &Line, place: usize) -> Option<Value> {
    match row.member(place) {
        Some(member) => to_value(alloc, member).ok(),
        None => None,
    }
}

/// Returns `true` if the path of a row has the row's error, tried or not.
fn refusal_holds(alloc: Global, row: &Line) -> bool {
    match value_at(alloc, row, 0) {
        Some(value) => row_leads_to(alloc, &value, row, 1),
        None => false,
    }
}

#[test]
fn paths_are_refused(rt: HostRuntime) -> Result<(), Fail> {
    rows_hold(rt.alloc(), REFUSED, refusal_holds)
}

#[test]
fn paths_lead_to_values(rt: HostRuntime) -> Result<(), Fail> {
    let alloc = rt.alloc();
    let value = value_in(alloc, VALUES)?;
    let answer = rows_hold(
        alloc,
        PATHS,
        |alloc, row| row_leads_to(alloc, &value, row, 0),
    );
    drop(value);
    answer
}

/// Values, an index of each, and the text of the item at that number or the member at that text, if there is one.
const OWN_PARTS: &str = r#"[[10, 20], 1, "20"]
[[10, 20], -2, "10"]
[[10, 20], 2, null]
[[10, 20], "1", null]
[[10, 20], "size", null]
[{"a": 5}, "a", "5"]
[{"a": 5}, "b", null]
[{"1": 5}, 1, null]
["word", "size", null]"#;

/// Returns `true` if a value has this text.
fn has_text(alloc: Global, value: &Value, text: &str) -> bool {
    match value.to_kstr(alloc) {
        Ok(found) => found.as_str() == text,
        Err(_) => false,
    }
}

/// Returns `true` if a part has this text, or if there is neither.
fn is_part(alloc: Global, part: Option<&Value>, text: Option<&str>) -> bool {
    match (part, text) {
        (Some(part), Some(text)) => has_text(alloc, part, text),
        (part, text) => part.is_none() && text.is_none(),
    }
}

/// Returns `true` if the own part of a value at an index has this text, or if there is neither.
fn is_own_part(alloc: Global, value: &Value, index: &Value, text: Option<&str>) -> bool {
    match index {
        Value::Scalar(index) => is_part(alloc, own_part(value, index), text),
        _ => false,
    }
}

/// Returns `true` if the value of a row has at an index the own part that the row says.
fn own_part_at(alloc: Global, index: &Value, row: &Line) -> bool {
    match value_at(alloc, row, 0) {
        Some(value) => is_own_part(alloc, &value, index, row.text(2)),
        None => false,
    }
}

/// Returns `true` if the value of a row has the own part that the row says.
fn own_part_holds(alloc: Global, row: &Line) -> bool {
    match value_at(alloc, row, 1) {
        Some(index) => own_part_at(alloc, &index, row),
        None => false,
    }
}

#[test]
fn items_and_members_are_own_parts(rt: HostRuntime) -> Result<(), Fail> {
    rows_hold(rt.alloc(), OWN_PARTS, own_part_holds)
}

/// Puts the squares below a hundred into a list.
fn push_squares(list: &mut Vec<Value>) -> Result<(), AllocError> {
    for square in [0i64, 1, 4, 9, 16, 25, 36, 49, 64, 81] {
        list.push(Value::scalar(square))?;
    }
    Ok(())
}

/// Returns `true` if a list of the squares below a hundred has a place at -10, and none at -11.
fn is_bounded(alloc: Global) -> bool {
    let mut list = Vec::new(alloc);
    push_squares(&mut list).is_ok() && !list.contains_key(-11) && list.contains_key(-10)
}

#[test]
fn a_list_has_as_many_places_from_its_end(rt: HostRuntime) -> Result<(), Fail> {
    holds(is_bounded(rt.alloc()), "the first place of ten is -10")
}

/// Returns the index `name`.
fn name_index(alloc: Global) -> Result<Vec<ScalarCow<'static>>, AllocError> {
    let mut indexes = Vec::new(alloc);
    indexes.push(ScalarCow::from("name"))?;
    Ok(indexes)
}

/// Puts the indexes -3 and `name` after those of a path, and returns `true` if there is memory for them.
fn add_indexes(alloc: Global, path: &mut Path<'static>) -> bool {
    path.reserve(2).is_ok() && path.push(-3i64).is_ok() && add_name(alloc, path)
}

/// Puts the index `name` after those of a path, and returns `true` if there is memory for it.
fn add_name(alloc: Global, path: &mut Path<'static>) -> bool {
    match name_index(alloc) {
        Ok(indexes) => path.extend(indexes).is_ok(),
        Err(_) => false,
    }
}

/// Returns `true` if a copy equals its path, until one more index is added to the path.
fn is_copied(path: &mut Path<'static>) -> bool {
    let copy: Result<Path<'static>, AllocError> = path.clone();
    match copy {
        Ok(copy) => copy == *path && path.push("x").is_ok() && copy != *path,
        Err(_) => false,
    }
}

/// Returns `true` if the path `user.-3.name` is a list of its indexes, as is its copy.
fn has_its_indexes(alloc: Global, path: &mut Path<'static>) -> bool {
    add_indexes(alloc, path)
        && is_text(path.to_string(alloc), "user.-3.name")
        && path.iter().len() == 3
        && is_copied(path)
        && path.as_slice().len() == 4
}

#[test]
fn a_path_is_a_list_of_indexes(rt: HostRuntime) -> Result<(), Fail> {
    let mut path: Path<'static> = Path::with_index(rt.alloc(), "user")?;
    let is_list = has_its_indexes(rt.alloc(), &mut path);
    drop(path);
    holds(is_list, "a path and its copy have their indexes")
}
