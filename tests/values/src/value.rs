//! Values as the rows of the tables name them.
mod comparisons;
mod lending;
mod sharing;
mod shown;
mod texts;
mod values;
mod walks;

use crate::texts::is_kstr;
pub(crate) use comparisons::name_of;
use liquid_dates::{Date, DateTime};
use liquid_json::to_value;
use liquid_value::{Array, Object, State, Value, ValueCow};
use rows::Line;
use serde_json::{Map, Value as Json};
use std::alloc::{AllocError, Global};

/// Returns `true` if a value has this text.
pub(crate) fn has_text(alloc: Global, value: &Value, text: &str) -> bool {
    is_kstr(value.to_kstr(alloc), text)
}

/// Returns `true` if there is a value and it is this number.
fn has_number(found: &Option<ValueCow<'_>>, number: i64) -> bool {
    match found {
        Some(found) => *found.as_view() == Value::scalar(number),
        None => false,
    }
}

/// Returns `true` if a value was found and is this number, and `false` if memory ran out.
pub(crate) fn is_number(found: Result<Option<ValueCow<'_>>, AllocError>, number: i64) -> bool {
    match found {
        Ok(found) => has_number(&found, number),
        Err(_) => false,
    }
}

/// Returns a day of February 2016.
pub(crate) fn day(number: i64) -> Option<Date> {
    match u8::try_from(number) {
        Ok(day) => Date::from_ymd(2016, 2, day).ok(),
        Err(_) => None,
    }
}

/// Returns the moment of an hour of 16 February 2016 and its offset in seconds.
pub(crate) fn moment(given: &Json) -> Option<DateTime> {
    let hour = u8::try_from(given.get(0)?.as_i64()?).ok()?;
    let offset = i32::try_from(given.get(1)?.as_i64()?).ok()?;
    DateTime::from_parts(day(16)?, hour, 0, 0, 0, offset).ok()
}

fn state(name: &str) -> Option<State> {
    match name {
        "truthy" => Some(State::Truthy),
        "default" => Some(State::DefaultValue),
        "empty" => Some(State::Empty),
        "blank" => Some(State::Blank),
        _ => None,
    }
}

/// Returns `true` if a JSON value is an object of one member that has a meaning of its own.
fn is_beyond_json(given: &Json) -> bool {
    given.get("day").is_some() || given.get("moment").is_some() || given.get("state").is_some()
}

/// Returns the date, date time or state that an object of one member means.
fn beyond_json(given: &Json) -> Option<Value> {
    match (given.get("day"), given.get("moment")) {
        (Some(number), _) => Some(Value::scalar(day(number.as_i64()?)?)),
        (None, Some(parts)) => Some(Value::scalar(moment(parts)?)),
        (None, None) => Some(Value::State(state(given.get("state")?.as_str()?)?)),
    }
}

/// Returns the value that JSON alone means, or the meaning of an object of one member.
fn plain_or_beyond(alloc: Global, given: &Json) -> Option<Value> {
    if is_beyond_json(given) {
        beyond_json(given)
    } else {
        to_value(alloc, given).ok()
    }
}

/// Puts a value after the items of an array, and returns `true` if there is one and memory doesn't run out.
fn push(array: &mut Array, value: Option<Value>) -> bool {
    match value {
        Some(value) => array.push(value).is_ok(),
        None => false,
    }
}

/// Puts the values of JSONs after the items of an array, and returns `true` if each could be put there.
fn push_all(alloc: Global, array: &mut Array, items: &Vec<Json>) -> bool {
    for item in items {
        if !push(array, plain_or_beyond(alloc, item)) {
            return false;
        }
    }
    true
}

fn array_of(alloc: Global, items: &Vec<Json>) -> Option<Value> {
    let mut array = Array::new(alloc);
    if push_all(alloc, &mut array, items) {
        Some(Value::from(array))
    } else {
        None
    }
}

/// Puts a value into an object, and returns `true` if the name was made and memory doesn't run out.
fn put(object: &mut Object, name: Result<String, AllocError>, value: Value) -> bool {
    match name {
        Ok(name) => object.insert(name, value).is_ok(),
        Err(_) => false,
    }
}

/// Puts a value into an object, and returns `true` if there is one and memory doesn't run out.
fn insert(alloc: Global, object: &mut Object, name: &str, value: Option<Value>) -> bool {
    match value {
        Some(value) => put(object, String::from_str(alloc, name), value),
        None => false,
    }
}

/// Puts the values of the members of a JSON into an object, and returns `true` if each could be put there.
fn insert_all(alloc: Global, object: &mut Object, members: &Map<String, Json>) -> bool {
    for (name, member) in members {
        if !insert(alloc, object, name.as_str(), plain_or_beyond(alloc, member)) {
            return false;
        }
    }
    true
}

fn object_of(alloc: Global, members: &Map<String, Json>) -> Option<Value> {
    let mut object = Object::new(alloc);
    if insert_all(alloc, &mut object, members) {
        Some(Value::from(object))
    } else {
        None
    }
}

/// Returns the value that a row gives as JSON. What JSON doesn't have is an object of one member there, alone or in an
/// array or object: a day of February 2016, as `{"day": 16}`; an hour of 16 February 2016 and its offset in seconds, as
/// `{"moment": [10, 3600]}`; and a state, as `{"state": "empty"}`.
fn value_of(alloc: Global, given: &Json) -> Option<Value> {
    match given {
        Json::Array(items) => array_of(alloc, items),
        Json::Object(members) if !is_beyond_json(given) => object_of(alloc, members),
        _ => plain_or_beyond(alloc, given),
    }
}

/// Returns the value of a text of JSON.
pub(crate) fn value_in(alloc: Global, text: &str) -> Option<Value> {
    match Json::from_str(alloc, text) {
        Ok(json) => value_of(alloc, &json),
        Err(_) => None,
    }
}

/// Returns the value at a place of a row.
fn value_at(alloc: Global, row: &Line, place: usize) -> Option<Value> {
    match row.member(place) {
        Some(given) => value_of(alloc, given),
        None => None,
    }
}

/// Returns the two values at the beginning of a row.
fn pair_of(alloc: Global, row: &Line) -> Option<(Value, Value)> {
    value_at(alloc, row, 0).zip(value_at(alloc, row, 1))
}
