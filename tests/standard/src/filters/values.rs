//! Items, numbers and parts of values.
use liquid_filters::value::items::items;
use liquid_filters::value::numbers::{number, whole};
use liquid_filters::value::parts::{is_truthy, property, size_of};
use liquid_value::Value;
use rows::holds;
use std::alloc::{AllocError, Global};
use std::test::Fail;

/// Returns an array of an array and a number.
fn nested(alloc: Global) -> Result<Value, AllocError> {
    let inner = Value::from(vec![in alloc; Value::scalar(1i64), Value::Nil]?);
    Ok(Value::from(vec![in alloc; inner, Value::scalar(2i64)]?))
}

/// Returns `true` if a value has three items.
fn has_three_items(alloc: Global, value: &Value) -> bool {
    match items(alloc, value) {
        Ok(items) => items.len() == 3,
        Err(_) => false,
    }
}

/// Returns `true` if a value is of size 2.
fn is_of_size_two(alloc: Global, value: &Value) -> bool {
    match size_of(alloc, value) {
        Ok(size) => size == 2,
        Err(_) => false,
    }
}

/// Returns `true` if the nested array has its items, its size and no property.
fn has_its_parts(alloc: Global, outer: &Value) -> bool {
    has_three_items(alloc, outer)
        && is_of_size_two(alloc, outer)
        && is_truthy(outer)
        && property(alloc, outer, "a").is_err()
}

#[test]
fn parts_of_a_nested_array(rt: HostRuntime) -> Result<(), Fail> {
    holds(
        has_its_parts(rt.alloc(), &nested(rt.alloc())?),
        "the array has its items and its size, is truthy, and has no property",
    )
}

/// Returns `true` if nil is the number 0.
fn nil_is_zero(alloc: Global) -> bool {
    match number(alloc, &Value::Nil) {
        Ok(number) => number == 0,
        Err(_) => false,
    }
}

#[test]
fn nil_as_a_number(rt: HostRuntime) -> Result<(), Fail> {
    holds(
        nil_is_zero(rt.alloc()) && whole(rt.alloc(), &Value::Nil).is_err(),
        "nil is 0, and no whole number",
    )
}
