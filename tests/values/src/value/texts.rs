//! Values with their texts and their states.
use super::shown::value_is_displayed;
use super::{has_text, value_at};
use liquid_value::{State, Value};
use rows::{Line, rows_hold};
use std::alloc::Global;
use std::test::Fail;

// The text that a value renders as, its source text, the name of its type, and the value.
const TEXTS: &str = r#"["1", "1", "whole number", 1]
["true", "true", "boolean", true]
["say \"a\"", "\"say \"a\"\"", "string", "say \"a\""]
["2016-02-16", "2016-02-16", "date", {"day": 16}]
["2016-02-16 10:00:00 +0100", "2016-02-16 10:00:00 +0100", "date time", {"moment": [10, 3600]}]
["1a", "[1, a, , ]", "array", [1, "a", null]]
["axb2", "{\"a\": x, \"b\": 2, }", "object", {"b": 2, "a": "x"}]
["", "truthy", "truthy", {"state": "truthy"}]
["", "default", "default", {"state": "default"}]
["", "empty", "empty", {"state": "empty"}]
["", "nil", "nil", null]"#;

/// Returns `true` if there is a value, it and the types that display it write the two texts, and its type has this name.
fn is_displayed(
    alloc: Global,
    value: Option<Value>,
    render: &str,
    source: &str,
    name: Option<&str>,
) -> bool {
    match value {
        Some(value) => {
            value_is_displayed(alloc, &value, render, source)
                & has_text(alloc, &value, render)
                & (name == Some(value.type_name()))
        }
        None => false,
    }
}

fn has_texts(alloc: Global, row: &Line) -> bool {
    match row.text(0).zip(row.text(1)) {
        Some((render, source)) => {
            is_displayed(alloc, value_at(alloc, row, 3), render, source, row.text(2))
        }
        None => false,
    }
}

#[test]
fn values_have_texts(rt: HostRuntime) -> Result<(), Fail> {
    rows_hold(rt.alloc(), TEXTS, has_texts)
}

/// Adds a name after others, with a space between, and returns `true` if memory doesn't run out.
fn add_name(names: &mut String, name: &str) -> bool {
    (names.is_empty() || names.push_str(" ").is_ok()) && names.push_str(name).is_ok()
}

/// Writes down the names of the states that a value is in, and returns `true` if memory doesn't run out.
fn add_states(names: &mut String, value: &Value) -> bool {
    for (state, name) in &STATE_NAMES {
        if value.query_state(*state) && !add_name(names, name) {
            return false;
        }
    }
    true
}

static STATE_NAMES: [(State, &str); 4] = [
    (State::Truthy, "truthy"),
    (State::DefaultValue, "default"),
    (State::Empty, "empty"),
    (State::Blank, "blank"),
];

// The states that a value is in, and the value.
const STATES: &str = r#"["truthy", 0]
["truthy", true]
["default blank", false]
["truthy default empty blank", ""]
["truthy blank", " \n"]
["truthy", {"day": 16}]
["truthy", {"moment": [10, 3600]}]
["truthy default empty blank", []]
["truthy", {"a": 1}]
["default empty blank", null]
["default empty blank", {"state": "truthy"}]"#;

/// Returns `true` if these are the names of the states that a value is in.
fn has_states(alloc: Global, value: &Value, wanted: &str) -> bool {
    let mut names = String::new(alloc);
    add_states(&mut names, value) & (names.as_str() == wanted)
}

/// Returns `true` if there is a value, and it is in the states with these names.
fn is_in(alloc: Global, value: Option<Value>, names: &str) -> bool {
    match value {
        Some(value) => has_states(alloc, &value, names),
        None => false,
    }
}

fn is_in_states(alloc: Global, row: &Line) -> bool {
    match row.text(0) {
        Some(names) => is_in(alloc, value_at(alloc, row, 1), names),
        None => false,
    }
}

#[test]
fn values_are_in_states(rt: HostRuntime) -> Result<(), Fail> {
    rows_hold(rt.alloc(), STATES, is_in_states)
}
