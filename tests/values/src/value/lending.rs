//! Arrays and objects that no other value shares are lent to be changed in place.
use super::{insert, push};
use liquid_value::{Array, Object, SharedArray, SharedObject, Value};
use rows::holds;
use std::alloc::Global;
use std::test::Fail;

/// Returns `true` if an array of a value's own is lent, empty or not.
fn own_array_is_lent(mut items: Array) -> bool {
    let mut empty = SharedArray::Own(Array::new(*items.allocator()));
    if !push(&mut items, Some(Value::scalar(1i64))) {
        return false;
    }
    let mut own = SharedArray::Own(items);
    let is_lent = match own.get_mut() {
        Some(items) => push(items, Some(Value::scalar(2i64))),
        None => false,
    };
    is_lent && own.as_array().len() == 2 && empty.get_mut().is_some()
}

/// Returns `true` if an object of a value's own is lent, empty or not.
fn own_object_is_lent(alloc: Global, mut members: Object) -> bool {
    let mut empty = SharedObject::Own(Object::new(alloc));
    if !insert(alloc, &mut members, "a", Some(Value::scalar(1i64))) {
        return false;
    }
    let mut own = SharedObject::Own(members);
    let is_lent = match own.get_mut() {
        Some(members) => insert(alloc, members, "b", Some(Value::scalar(2i64))),
        None => false,
    };
    is_lent && own.as_object().len() == 2 && empty.get_mut().is_some()
}

#[test]
fn an_array_and_an_object_of_its_own_are_lent(rt: HostRuntime) -> Result<(), Fail> {
    let alloc = rt.alloc();
    holds(
        own_array_is_lent(Array::new(alloc)) && own_object_is_lent(alloc, Object::new(alloc)),
        "an array and an object that no other value shares",
    )
}
