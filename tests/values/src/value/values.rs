//! What values contain, what they are made from, and walks over objects.
use super::sharing::{insert_two, push_two};
use super::walks::{
    entries_are_walked, names_are_walked, owned_entries_are_walked, values_are_walked,
};
use super::{has_text, insert, value_at, value_in};
use liquid_scalar::Scalar;
use liquid_value::{Array, Object, State, Value, ValueCow};
use rows::{Line, holds, rows_hold};
use std::alloc::{AllocError, Global};
use std::test::Fail;

// What a value is, and the value.
const PARTS: &str = r#"["scalar", 1]
["array", [1, "a", null]]
["object", {"b": 2, "a": "x"}]
["state", {"state": "empty"}]
["nil", null]"#;

/// Returns `Some(true)` if a copy of a value gives a scalar, and `None` if memory runs out.
fn gives_scalar(value: &Value) -> Option<bool> {
    Some(value.clone().ok()?.into_scalar().is_some())
}

/// Returns `Some(true)` if a copy of a value gives an array, and `None` if memory runs out.
fn gives_array(value: &Value) -> Option<bool> {
    Some(value.clone().ok()?.into_array().is_some())
}

/// Returns `Some(true)` if a copy of a value gives an object, and `None` if memory runs out.
fn gives_object(value: &Value) -> Option<bool> {
    Some(value.clone().ok()?.into_object().is_some())
}

/// Returns `Some(true)` if a copy of a value gives a state, and `None` if memory runs out.
fn gives_state(value: &Value) -> Option<bool> {
    Some(value.clone().ok()?.into_state().is_some())
}

/// Returns `true` if a value gives what it contains if it is of this kind, and nothing if it isn't.
fn gives(value: &Value, kind: &str) -> bool {
    gives_scalar(value) == Some(kind == "scalar")
        && gives_array(value) == Some(kind == "array")
        && gives_object(value) == Some(kind == "object")
        && gives_state(value) == Some(kind == "state")
}

/// Returns `true` if a value lends what it contains if it is of this kind, and nothing if it isn't.
fn lends(value: &mut Value, kind: &str) -> bool {
    let (is_array, is_object) = (kind == "array", kind == "object");
    (value.as_array().is_some() == is_array)
        & (value.as_object().is_some() == is_object)
        & (value.as_array_mut().is_some() == is_array)
        & (value.as_object_mut().is_some() == is_object)
}

/// Returns `true` if there is a value, and it lends and gives what a value of this kind does.
fn is_kind(value: Option<Value>, kind: &str) -> bool {
    match value {
        Some(mut value) => lends(&mut value, kind) & gives(&value, kind),
        None => false,
    }
}

fn is_of_kind(alloc: Global, row: &Line) -> bool {
    match row.text(0) {
        Some(kind) => is_kind(value_at(alloc, row, 1), kind),
        None => false,
    }
}

#[test]
fn values_give_what_they_hold(rt: HostRuntime) -> Result<(), Fail> {
    rows_hold(rt.alloc(), PARTS, is_of_kind)
}

/// Returns `true` if there is a value, and an item that is put into the array that it lends changes its text to this one.
fn array_changes(alloc: Global, value: Option<Value>, after: &str) -> bool {
    match value {
        Some(mut value) => lent_array_changes(&mut value) & has_text(alloc, &value, after),
        None => false,
    }
}

/// Puts 2 after the items of the array that a value lends, and returns `true` if it could be put there.
fn lent_array_changes(value: &mut Value) -> bool {
    match value.as_array_mut() {
        Some(items) => push_two(items),
        None => false,
    }
}

#[test]
fn arrays_change_in_place(rt: HostRuntime) -> Result<(), Fail> {
    let alloc = rt.alloc();
    holds(
        array_changes(alloc, value_in(alloc, "[1]"), "12"),
        "an item more",
    )
}

/// Returns `true` if there is a value, and a member that is put into the object that it lends changes its text to this one.
fn object_changes(alloc: Global, value: Option<Value>, after: &str) -> bool {
    match value {
        Some(mut value) => lent_object_changes(alloc, &mut value) & has_text(alloc, &value, after),
        None => false,
    }
}

/// Sets the member `b` of the object that a value lends to 2, and returns `true` if it could be set.
fn lent_object_changes(alloc: Global, value: &mut Value) -> bool {
    match value.as_object_mut() {
        Some(members) => insert_two(alloc, members),
        None => false,
    }
}

#[test]
fn objects_change_in_place(rt: HostRuntime) -> Result<(), Fail> {
    let alloc = rt.alloc();
    holds(
        object_changes(alloc, value_in(alloc, "{\"a\": 1}"), "a1b2"),
        "a member more",
    )
}

/// Returns `true` if a value was made and is this one.
fn is_same(made: Result<Value, AllocError>, value: &Value) -> bool {
    match made {
        Ok(made) => made == *value,
        Err(_) => false,
    }
}

/// Returns `true` if a borrowed value is as its clone.
fn is_cloned(cow: &ValueCow<'_>) -> bool {
    match cow.clone() {
        Ok(copy) => copy == *cow,
        Err(_) => false,
    }
}

/// Returns `true` if a borrowed value is as the value, and lends what a value of this kind does.
fn lends_alike(cow: &ValueCow<'_>, value: &Value, kind: &str) -> bool {
    (cow.as_array().is_some() == (kind == "array"))
        & (cow.as_object().is_some() == (kind == "object"))
        & (*cow.as_view() == *value)
}

/// Returns `true` if a value that is borrowed is as the value, lends what it does, and is its clone if it is owned.
fn is_borrowed_alike(value: &Value, kind: &str) -> bool {
    let cow = ValueCow::from(value);
    lends_alike(&cow, value, kind)
        & is_cloned(&cow)
        & is_same(ValueCow::from(value).into_owned(), value)
}

/// Returns `true` if there is a value, and it is as its clone and is borrowed alike.
fn is_copied_alike(value: Option<Value>, kind: &str) -> bool {
    match value {
        Some(value) => is_same(value.clone(), &value) & is_borrowed_alike(&value, kind),
        None => false,
    }
}

fn is_copied(alloc: Global, row: &Line) -> bool {
    match row.text(0) {
        Some(kind) => is_copied_alike(value_at(alloc, row, 1), kind),
        None => false,
    }
}

#[test]
fn clones_are_the_same_value(rt: HostRuntime) -> Result<(), Fail> {
    rows_hold(rt.alloc(), PARTS, is_copied)
}

const ITEMS: &str = "[1, \"a\", null]";

const NAMED: &str = "{\"b\": 2, \"a\": \"x\"}";

const BLANK: &str = "{\"state\": \"blank\"}";

fn items(alloc: Global) -> Option<Array> {
    value_in(alloc, ITEMS)?.into_array()?.into_array().ok()
}

fn named(alloc: Global) -> Option<Object> {
    value_in(alloc, NAMED)?.into_object()?.into_object().ok()
}

/// Returns `true` if a value is what a JSON text means.
fn is_meant(alloc: Global, value: &Value, text: &str) -> bool {
    match value_in(alloc, text) {
        Some(wanted) => wanted == *value,
        None => false,
    }
}

/// Returns `true` if a value was made and is what a JSON text means.
fn is_json(alloc: Global, made: Option<Value>, text: &str) -> bool {
    match made {
        Some(value) => is_meant(alloc, &value, text),
        None => false,
    }
}

/// Returns an array that is built of items.
fn built(alloc: Global) -> Option<Value> {
    Value::array(alloc, items(alloc)?.into_iter()).ok()
}

fn value_of_items(alloc: Global) -> Option<Value> {
    Some(Value::from(items(alloc)?))
}

fn value_of_members(alloc: Global) -> Option<Value> {
    Some(Value::from(named(alloc)?))
}

/// Returns `true` if values are what they are made from.
fn values_are_kept(alloc: Global) -> bool {
    is_json(alloc, Some(Value::default()), "null")
        && is_json(alloc, Some(Value::from(State::Blank)), BLANK)
        && is_json(alloc, Some(Value::from(Scalar::Integer(1))), "1")
        && is_json(alloc, built(alloc), ITEMS)
        && is_json(alloc, value_of_items(alloc), ITEMS)
        && is_json(alloc, value_of_members(alloc), NAMED)
}

#[test]
fn conversions_keep_the_value(rt: HostRuntime) -> Result<(), Fail> {
    holds(values_are_kept(rt.alloc()), "the value of each conversion")
}

/// Returns `true` if a borrowed value that is owned is what a JSON text means.
fn is_owned(alloc: Global, cow: ValueCow<'static>, text: &str) -> bool {
    is_json(alloc, cow.into_owned().ok(), text)
}

fn cow_of_items(alloc: Global) -> Option<Value> {
    ValueCow::from(items(alloc)?).into_owned().ok()
}

fn cow_of_members(alloc: Global) -> Option<Value> {
    ValueCow::from(named(alloc)?).into_owned().ok()
}

/// Returns `true` if borrowed values are what they are made from.
fn cows_are_kept(alloc: Global) -> bool {
    is_owned(alloc, ValueCow::default(), "null")
        && is_owned(alloc, ValueCow::from(Value::Nil), "null")
        && is_owned(alloc, ValueCow::from(State::Blank), BLANK)
        && is_owned(alloc, ValueCow::from(Scalar::Integer(1)), "1")
        && is_json(alloc, cow_of_items(alloc), ITEMS)
        && is_json(alloc, cow_of_members(alloc), NAMED)
}

#[test]
fn conversions_keep_the_borrowed_value(rt: HostRuntime) -> Result<(), Fail> {
    holds(cows_are_kept(rt.alloc()), "the value of each conversion")
}

fn two_entries(alloc: Global) -> Option<Object> {
    let mut object = Object::new(alloc);
    if insert(alloc, &mut object, "b", Some(Value::scalar(2i64)))
        && insert(alloc, &mut object, "a", Some(Value::scalar(1i64)))
    {
        Some(object)
    } else {
        None
    }
}

/// Returns `true` if an object has two entries, and one that is removed is gone.
fn has_two_entries(object: &mut Object) -> bool {
    object.len() == 2
        && object.contains_key("a")
        && !object.contains_key("c")
        && object.remove("a").is_some()
        && object.get("a").is_none()
}

/// Sets the entry `c` to 3, and then to 4.
fn set_slot(alloc: Global, object: &mut Object) -> Result<(), AllocError> {
    let name = String::from_str(alloc, "c")?;
    let slot = object.entry(name)?.or_insert(Value::scalar(3i64));
    *slot = Value::scalar(4i64);
    Ok(())
}

/// Returns `true` if an entry can be set, and the object has this text then.
fn is_set(alloc: Global, mut object: Object, text: &str) -> bool {
    set_slot(alloc, &mut object).is_ok() & has_text(alloc, &Value::from(object), text)
}

/// Returns `true` if there is an object of two entries, and it is a map.
fn is_a_map(alloc: Global, made: Option<Object>) -> bool {
    match made {
        Some(mut object) => has_two_entries(&mut object) & is_set(alloc, object, "b2c4"),
        None => false,
    }
}

#[test]
fn objects_are_maps(rt: HostRuntime) -> Result<(), Fail> {
    let alloc = rt.alloc();
    holds(is_a_map(alloc, two_entries(alloc)), "entries")
}

#[test]
fn walks_over_entries_say_how_many_are_left_and_end(rt: HostRuntime) -> Result<(), Fail> {
    holds(
        entries_are_walked(two_entries(rt.alloc())),
        "each step over entries",
    )
}

#[test]
fn walks_over_names_say_how_many_are_left_and_end(rt: HostRuntime) -> Result<(), Fail> {
    holds(
        names_are_walked(two_entries(rt.alloc())),
        "each step over names",
    )
}

#[test]
fn walks_over_values_say_how_many_are_left_and_end(rt: HostRuntime) -> Result<(), Fail> {
    let alloc = rt.alloc();
    holds(
        values_are_walked(alloc, two_entries(alloc)),
        "each step over values",
    )
}

#[test]
fn owned_walks_say_how_many_are_left_and_end(rt: HostRuntime) -> Result<(), Fail> {
    holds(
        owned_entries_are_walked(two_entries(rt.alloc())),
        "each step over owned entries",
    )
}
