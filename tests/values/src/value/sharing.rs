//! Arrays and objects that values share: a write reaches the value that is written to, and no other one.
use super::{has_text, insert, push};
use liquid_value::{Array, Object, SharedArray, SharedObject, Value};
use rows::holds;
use std::alloc::Global;
use std::test::Fail;

/// Returns the array `[1]`, whose copies share it.
fn array(alloc: Global) -> Option<Value> {
    let mut items = Array::new(alloc);
    if push(&mut items, Some(Value::scalar(1i64))) {
        Some(Value::Array(SharedArray::shared(alloc, items).ok()?))
    } else {
        None
    }
}

/// Returns the object `{"a": 1}`, whose copies share it.
fn object(alloc: Global) -> Option<Value> {
    let mut members = Object::new(alloc);
    if insert(alloc, &mut members, "a", Some(Value::scalar(1i64))) {
        Some(Value::Object(SharedObject::shared(alloc, members).ok()?))
    } else {
        None
    }
}

/// Puts 2 after the items of an array, and returns `true` if memory doesn't run out.
pub(super) fn push_two(items: &mut SharedArray) -> bool {
    match SharedArray::to_mut(items) {
        Ok(items) => push(items, Some(Value::scalar(2i64))),
        Err(_) => false,
    }
}

/// Sets the member `b` of an object to 2, and returns `true` if memory doesn't run out.
pub(super) fn insert_two(alloc: Global, members: &mut SharedObject) -> bool {
    match SharedObject::to_mut(members) {
        Ok(members) => insert(alloc, members, "b", Some(Value::scalar(2i64))),
        Err(_) => false,
    }
}

/// Writes 2 after the items, or as the member `b`, and returns `true` if it could be written.
fn write(alloc: Global, value: &mut Value) -> bool {
    match value {
        Value::Array(items) => push_two(items),
        Value::Object(members) => insert_two(alloc, members),
        _ => false,
    }
}

/// Returns `true` if the value can be written to in place.
fn is_alone(value: &mut Value) -> bool {
    match value {
        Value::Array(items) => items.get_mut().is_some(),
        Value::Object(members) => members.get_mut().is_some(),
        _ => false,
    }
}

/// Returns `true` if two values share their content, and a write to the first leaves the second as it was.
fn share(alloc: Global, first: &mut Value, second: &mut Value, before: &str, after: &str) -> bool {
    !is_alone(first)
        && !is_alone(second)
        && write(alloc, first)
        && has_text(alloc, first, after)
        && has_text(alloc, second, before)
        && is_alone(first)
        && is_alone(second)
}

/// Returns `true` if a value shares its content with its copy, and a write to the value leaves the copy as it was.
fn shares_with_copy(alloc: Global, first: &mut Value, before: &str, after: &str) -> bool {
    match first.clone() {
        Ok(mut second) => share(alloc, first, &mut second, before, after),
        Err(_) => false,
    }
}

/// Returns `true` if a value is alone before it is copied, and shares its content then until it is written to.
fn shares(alloc: Global, value: Option<Value>, before: &str, after: &str) -> bool {
    match value {
        Some(mut first) => {
            is_alone(&mut first) & shares_with_copy(alloc, &mut first, before, after)
        }
        None => false,
    }
}

#[test]
fn a_write_leaves_the_other_owner_as_it_was(rt: HostRuntime) -> Result<(), Fail> {
    let alloc = rt.alloc();
    holds(
        shares(alloc, array(alloc), "1", "12") && shares(alloc, object(alloc), "a1", "a1b2"),
        "the value that is written to, and the other one",
    )
}

/// Returns the value of the items of a copy of an array.
fn taken_items(items: &SharedArray) -> Option<Value> {
    let copy = SharedArray::clone(items).ok()?;
    Some(Value::from(SharedArray::into_array(copy).ok()?))
}

/// Returns the value of the members of a copy of an object.
fn taken_members(members: &SharedObject) -> Option<Value> {
    let copy = SharedObject::clone(members).ok()?;
    Some(Value::from(SharedObject::into_object(copy).ok()?))
}

/// Returns a value of what is taken from a copy of an array or an object.
fn taken(value: &Value) -> Option<Value> {
    match value {
        Value::Array(items) => taken_items(items),
        Value::Object(members) => taken_members(members),
        _ => None,
    }
}

/// Returns `true` if there is a value, and it has this text after a write to it.
fn is_changed(alloc: Global, value: Option<Value>, after: &str) -> bool {
    match value {
        Some(mut value) => write(alloc, &mut value) & has_text(alloc, &value, after),
        None => false,
    }
}

/// Returns `true` if what a value holds can be taken and changed while the value shares it, which keeps it.
fn is_kept(alloc: Global, value: Option<Value>, before: &str, after: &str) -> bool {
    match value {
        Some(value) => { is_changed(alloc, taken(&value), after) & has_text(alloc, &value, before) }
        None => false,
    }
}

#[test]
fn what_is_taken_is_a_copy_where_it_is_shared(rt: HostRuntime) -> Result<(), Fail> {
    let alloc = rt.alloc();
    holds(
        is_kept(alloc, array(alloc), "1", "12") && is_kept(alloc, object(alloc), "a1", "a1b2"),
        "what is taken, and what is kept",
    )
}
