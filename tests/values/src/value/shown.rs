//! The two texts of values that hold nil and states, by every type that displays them.

use super::{is_number, value_at};
use crate::texts::is_kstr;
use liquid_value::render::{ValueRender, ValueSource};
use liquid_value::{State, Value};
use liquid_views::{ObjectRender, ObjectSource, ObjectView, ValueView};
use rows::{Line, holds, is_text, rows_hold};
use std::alloc::{AllocError, Global};
use std::collections::{BTreeMap, HashMap};
use std::test::Fail;
use test_plugins::Name;

// The text that a value renders as, its source text, and the value.
const TEXTS: &str = r#"["", "nil", null]
["", "truthy", {"state": "truthy"}]
["", "default", {"state": "default"}]
["", "empty", {"state": "empty"}]
["", "blank", {"state": "blank"}]
["nil", "\"nil\"", "nil"]
["", "[, ]", [null]]
["1a", "[1, , , , a, ]", [1, null, {"state": "blank"}, [null], "a"]]
["a", "{\"a\": , }", {"a": null}]
["abc", "{\"a\": , \"b\": , \"c\": , }", {"a": null, "b": {"state": "truthy"}, "c": [null]}]
["abc", "{\"a\": , \"b\": , \"c\": , }", {"a": null, "b": {"state": "empty"}, "c": [null]}]
["a", "[a, , ]", [{"a": null}, {"state": "blank"}]]"#;

/// Returns `true` if the view displays the two texts.
fn shows<V: ValueView>(alloc: Global, view: &V, render: &str, source: &str) -> bool {
    is_text(view.render().to_string(alloc), render)
        && is_text(view.source().to_string(alloc), source)
        && is_kstr(view.to_kstr(alloc), render)
}

/// Returns `true` if the object displays the two texts.
fn object_shows<O: ObjectView>(alloc: Global, object: &O, render: &str, source: &str) -> bool {
    is_text(ObjectRender::new(object).to_string(alloc), render)
        && is_text(ObjectSource::new(object).to_string(alloc), source)
        && shows(alloc, object, render, source)
}

/// Returns `true` if the object and a reference to it display the two texts.
fn lent_object_shows<O: ObjectView>(alloc: Global, object: &O, render: &str, source: &str) -> bool {
    object_shows(alloc, object, render, source) && object_shows(alloc, &object, render, source)
}

/// Returns `true` if the view and a reference to it display the two texts.
fn lent_shows<V: ValueView>(alloc: Global, view: &V, render: &str, source: &str) -> bool {
    shows(alloc, view, render, source) && shows(alloc, &view, render, source)
}

/// Returns `true` if the types that display a value write the two texts.
pub(super) fn value_is_displayed(alloc: Global, value: &Value, render: &str, source: &str) -> bool {
    is_text(ValueRender::new(value).to_string(alloc), render)
        && is_text(ValueSource::new(value).to_string(alloc), source)
}

/// Returns `true` if the value is not an object, or if it and a reference to it display the two texts as an object.
fn held_object_shows(alloc: Global, value: &Value, render: &str, source: &str) -> bool {
    match value.as_object() {
        Some(object) => lent_object_shows(alloc, object, render, source),
        None => true,
    }
}

/// Returns `true` if there is a value, and it displays the two texts, by itself and through a reference, and so do the
/// types that display it or the object that it is.
fn all_show(alloc: Global, value: Option<Value>, render: &str, source: &str) -> bool {
    match value {
        Some(value) => {
            lent_shows(alloc, &value, render, source)
                & value_is_displayed(alloc, &value, render, source)
                & held_object_shows(alloc, &value, render, source)
        }
        None => false,
    }
}

fn is_shown(alloc: Global, row: &Line) -> bool {
    match row.text(0).zip(row.text(1)) {
        Some((render, source)) => all_show(alloc, value_at(alloc, row, 2), render, source),
        None => false,
    }
}

#[test]
fn nil_and_states_are_shown(rt: HostRuntime) -> Result<(), Fail> {
    rows_hold(rt.alloc(), TEXTS, is_shown)
}

fn listed(alloc: Global) -> Result<Vec<Option<&'static str>>, AllocError> {
    Ok(vec![in alloc; Some("a"), None]?)
}

/// Returns `true` if a list with an absent text shows it as nothing.
fn list_is_shown(alloc: Global) -> bool {
    match listed(alloc) {
        Ok(list) => shows(alloc, &list, "a", "[a, , ]"),
        Err(_) => false,
    }
}

/// Returns `true` if a state and an absent one are shown.
fn states_are_shown(alloc: Global) -> bool {
    let absent: Option<State> = None;
    shows(alloc, &Some(State::Empty), "", "empty") && shows(alloc, &absent, "", "nil")
}

#[test]
fn views_show_what_is_absent(rt: HostRuntime) -> Result<(), Fail> {
    let alloc = rt.alloc();
    holds(
        list_is_shown(alloc) && states_are_shown(alloc),
        "a list and states",
    )
}

static NAMES: [(&str, Option<i64>); 3] = [("b", Some(2)), ("c", None), ("a", None)];

const NAMES_SOURCE: &str = "{\"a\": , \"b\": 2, \"c\": , }";

type Named = BTreeMap<Name, Option<i64>>;

/// Puts a name of a program's own type into a map, and returns `true` if memory doesn't run out.
fn add_name(alloc: Global, names: &mut Named, name: &str, number: Option<i64>) -> bool {
    match String::from_str(alloc, name) {
        Ok(name) => names.insert(Name(name), number).is_ok(),
        Err(_) => false,
    }
}

/// Puts names of a program's own type into a map, and returns `true` if memory doesn't run out.
fn add_names(alloc: Global, names: &mut Named) -> bool {
    for (name, number) in &NAMES {
        if !add_name(alloc, names, name, *number) {
            return false;
        }
    }
    true
}

/// Returns `true` if a map displays its names.
fn shows_names<O: ObjectView>(alloc: Global, names: &O) -> bool {
    object_shows(alloc, names, "ab2c", NAMES_SOURCE)
}

/// Returns `true` if a map shows its names, finds the number of one, and has no others.
fn names_are_shown(alloc: Global, names: &Named) -> bool {
    shows_names(alloc, names)
        && ObjectView::contains_key(names, "c")
        && !ObjectView::contains_key(names, "d")
        && is_number(names.lookup(alloc, "b"), 2)
}

/// Returns `true` if a map shows names of a program's own type.
fn shows_own_names(alloc: Global) -> bool {
    let mut names: Named = BTreeMap::new(alloc);
    add_names(alloc, &mut names) & names_are_shown(alloc, &names)
}

#[test]
fn maps_show_what_is_absent(rt: HostRuntime) -> Result<(), Fail> {
    holds(shows_own_names(rt.alloc()), "names of a program's own type")
}

type Hashed = HashMap<String, Option<i64>>;

/// Puts a name into a map without order, and returns `true` if memory doesn't run out.
fn add_hashed_name(alloc: Global, names: &mut Hashed, name: &str, number: Option<i64>) -> bool {
    match String::from_str(alloc, name) {
        Ok(name) => names.insert(name, number).is_ok(),
        Err(_) => false,
    }
}

/// Puts names into a map without order, and returns `true` if memory doesn't run out.
fn add_hashed(alloc: Global, names: &mut Hashed) -> bool {
    for (name, number) in &NAMES {
        if !add_hashed_name(alloc, names, name, *number) {
            return false;
        }
    }
    true
}

/// Returns `true` if a map without order shows its names.
fn shows_hashed_names(alloc: Global) -> bool {
    let mut names: Hashed = HashMap::new(alloc);
    add_hashed(alloc, &mut names) & shows_names(alloc, &names)
}

#[test]
fn maps_without_order_show_what_is_absent(rt: HostRuntime) -> Result<(), Fail> {
    holds(shows_hashed_names(rt.alloc()), "names without order")
}
