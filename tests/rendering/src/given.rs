//! Globals that are given as JSON, and runtimes of them.
use crate::languages::plain_tables_hold;
use liquid_core::Error;
use liquid_core::model::{Date, DateTime, Object, ScalarCow, State, Value, ValueCow, to_object};
use liquid_core::runtime::{BuiltRuntime, Runtime, RuntimeBuilder};
use rows::{Line, holds};
use serde_json::Value as Json;
use std::alloc::Global;
use std::test::Fail;

/// Returns the text at a place of a list, or `None` if there is no text.
pub(crate) fn text_at(list: &Json, place: usize) -> Option<&str> {
    match list.get(place) {
        Some(member) => member.as_str(),
        None => None,
    }
}

/// Returns the integer at a place of a row, or `None` if there is none or it is negative.
pub(crate) fn count_at(row: &Line, place: usize) -> Option<u64> {
    match row.member(place) {
        Some(member) => member.as_u64(),
        None => None,
    }
}

/// Returns the object of a text of JSON, or `None` for another text or if memory runs out.
fn object_of(alloc: Global, names: &str) -> Option<Object> {
    match Json::from_str(alloc, names) {
        Ok(names) => to_object(alloc, &names).ok(),
        Err(_) => None,
    }
}

/// Returns a runtime without globals and without partials.
pub(crate) fn no_names(alloc: Global) -> BuiltRuntime<(), ()> {
    RuntimeBuilder::new(alloc).build()
}

/// Returns a runtime of these globals.
pub(crate) fn runtime_over(alloc: Global, globals: Object) -> BuiltRuntime<(), ()> {
    RuntimeBuilder::new(alloc).set_globals(globals).build()
}

/// Returns a runtime of the globals of a text of JSON, or `None` for another text or if memory runs out.
pub(crate) fn runtime_of(alloc: Global, globals: &str) -> Option<BuiltRuntime<(), ()>> {
    match object_of(alloc, globals) {
        Some(globals) => Some(runtime_over(alloc, globals)),
        None => None,
    }
}

/// Adds a value under a name, and returns `false` if memory runs out.
pub(crate) fn is_added(alloc: Global, object: &mut Object, name: &str, value: Value) -> bool {
    match String::from_str(alloc, name) {
        Ok(name) => object.insert(name, value).is_ok(),
        Err(_) => false,
    }
}

/// Returns globals that JSON can't give: the date 2016-02-16, ten o'clock of that date at an offset of one hour, and a
/// state. Returns `None` if memory runs out.
pub(crate) fn made_by_hand(alloc: Global) -> Option<Object> {
    let day = Date::from_ymd(2016, 2, 16).ok()?;
    let moment = DateTime::from_parts(day, 10, 0, 0, 0, 3600).ok()?;
    let mut object = Object::new(alloc);
    let is_made = is_added(alloc, &mut object, "day", Value::scalar(day))
        && is_added(alloc, &mut object, "moment", Value::scalar(moment))
        && is_added(alloc, &mut object, "none", Value::State(State::Blank));
    if is_made { Some(object) } else { None }
}

/// Templates over those globals.
const ROWS: &str =
    r#"{"template": "{{ day }}, {{ moment }}", "globals": "made by hand", "written": "2016-02-16, 2016-02-16 10:00:00 +0100"}
{"template": "[{{ none }}]", "globals": "made by hand", "written": "[]"}"#;

#[test]
fn dates_and_states_are_rendered(rt: HostRuntime) -> Result<(), Fail> {
    plain_tables_hold(rt.alloc(), &[(ROWS, 2)], false)
}

/// Returns `true` for a refusal that has no place and is not out of memory.
fn is_refusal_without_place(answer: Result<ValueCow<'_>, Error>) -> bool {
    match answer {
        Ok(_) => false,
        Err(error) => error.place().is_none() && !error.is_memory(),
    }
}

/// Returns `true` for a runtime in which `x` has a value, and `y` has none and is refused.
fn has_x_alone<R: Runtime + Drop>(alloc: Global, runtime: Option<R>) -> bool {
    match runtime {
        Some(runtime) => {
            runtime.try_get_name("x").is_some()
                && runtime.try_get_name("y").is_none()
                && is_refusal_without_place(runtime.get(alloc, &[ScalarCow::from("y")]))
        }
        None => false,
    }
}

#[test]
fn a_built_runtime_has_the_globals_alone(rt: HostRuntime) -> Result<(), Fail> {
    let alloc = rt.alloc();
    holds(
        has_x_alone(alloc, runtime_of(alloc, r#"{"x": 1}"#)),
        "x has a value, and y has none and is refused",
    )
}
