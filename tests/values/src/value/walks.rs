//! Walks over objects, and their steps.
use super::has_text;
use liquid_value::map::{IntoIter, Iter, Keys, Values};
use liquid_value::steps::{
    step_over_entries, step_over_keys, step_over_owned_entries, step_over_values,
};
use liquid_value::{Object, Value};
use std::alloc::Global;

// How many are left before a step, the name and the text of the entry that it takes, and how many are left then.
static STEPS: [(usize, Option<&str>, &str, usize); 4] = [
    (2, Some("a"), "1", 1),
    (1, Some("b"), "2", 0),
    (0, None, "", 0),
    (0, None, "", 0),
];

/// Returns `true` if a name was found and is the one wanted, or if there is neither.
fn is_name(found: Option<&String>, wanted: Option<&str>) -> bool {
    match found {
        Some(name) => wanted == Some(name.as_str()),
        None => wanted.is_none(),
    }
}

/// Returns `true` if a walk over names takes the steps.
fn takes_steps_over_names(mut keys: Keys<'_>) -> bool {
    for (left, name, _, then) in &STEPS {
        let (before, key, after) = step_over_keys(&mut keys);
        if !((before == *left) & is_name(key, *name) & (after == *then)) {
            return false;
        }
    }
    true
}

/// Returns `true` if there is an object, and a walk over its names takes the steps.
pub(super) fn names_are_walked(made: Option<Object>) -> bool {
    match made {
        Some(object) => takes_steps_over_names(object.keys()),
        None => false,
    }
}

/// Returns `true` if an entry has this name, or if there is neither.
fn has_name(entry: Option<(&String, &Value)>, wanted: Option<&str>) -> bool {
    match entry {
        Some((name, _)) => is_name(Some(name), wanted),
        None => wanted.is_none(),
    }
}

/// Returns `true` if a walk over entries takes the steps.
fn takes_steps_over_entries(mut entries: Iter<'_>) -> bool {
    for (left, name, _, then) in &STEPS {
        let (before, entry, after) = step_over_entries(&mut entries);
        if !((before == *left) & has_name(entry, *name) & (after == *then)) {
            return false;
        }
    }
    true
}

/// Returns `true` if there is an object, and a walk over its entries takes the steps.
pub(super) fn entries_are_walked(made: Option<Object>) -> bool {
    match made {
        Some(object) => takes_steps_over_entries(object.iter()),
        None => false,
    }
}

/// Returns `true` if a value has this text, or if there is neither.
fn is_value(alloc: Global, value: Option<&Value>, text: &str) -> bool {
    match value {
        Some(value) => has_text(alloc, value, text),
        None => text.is_empty(),
    }
}

/// Returns `true` if a walk over values takes the steps.
fn takes_steps_over_values(alloc: Global, mut values: Values<'_>) -> bool {
    for (left, _, text, then) in &STEPS {
        let (before, value, after) = step_over_values(&mut values);
        if !((before == *left) & is_value(alloc, value, text) & (after == *then)) {
            return false;
        }
    }
    true
}

/// Returns `true` if there is an object, and a walk over its values takes the steps.
pub(super) fn values_are_walked(alloc: Global, made: Option<Object>) -> bool {
    match made {
        Some(object) => takes_steps_over_values(alloc, object.values()),
        None => false,
    }
}

/// Returns `true` if an owned entry has this name, or if there is neither.
fn has_owned_name(entry: &Option<(String, Value)>, wanted: Option<&str>) -> bool {
    match entry {
        Some((name, _)) => is_name(Some(name), wanted),
        None => wanted.is_none(),
    }
}

/// Takes a step over owned entries, and returns `true` if it is this one.
fn takes_owned_step(owned: &mut IntoIter, left: usize, name: Option<&str>, then: usize) -> bool {
    let (before, entry, after) = step_over_owned_entries(owned);
    (before == left) & has_owned_name(&entry, name) & (after == then)
}

/// Returns `true` if a walk over owned entries takes the steps.
fn takes_owned_steps(mut owned: IntoIter) -> bool {
    for (left, name, _, then) in &STEPS {
        if !takes_owned_step(&mut owned, *left, *name, *then) {
            return false;
        }
    }
    true
}

/// Returns `true` if there is an object, and a walk over its owned entries takes the steps.
pub(super) fn owned_entries_are_walked(made: Option<Object>) -> bool {
    match made {
        Some(object) => takes_owned_steps(object.into_iter()),
        None => false,
    }
}
