//! Calls of paths.
use crate::calls::answers::{Answer, Answered};
use crate::calls::given::Given;
use liquid_core::model::{Path, ScalarCow, Value, ValueCow, find, find_after, step, try_find};
use std::alloc::{AllocError, Global};

/// Returns that a change is done, or that memory ran out.
fn done<'g>(changed: Result<(), AllocError>) -> Answered<'g> {
    changed?;
    Ok(Answer::Done)
}

/// Extends a path.
fn extended<'g>(alloc: Global, given: &'g mut Given) -> Answered<'g> {
    let indexes = std::mem::replace(&mut given.added.indexes, Vec::new(alloc));
    Path::extend(&mut given.ways.path, indexes)?;
    Ok(Answer::Done)
}

/// Makes the calls that make a path, or add to it.
fn of_paths<'g>(alloc: Global, word: &str, given: &'g mut Given) -> Answered<'g> {
    match word {
        "with_index" => Ok(Answer::Path(Path::with_index(alloc, "a")?)),
        "push" => done(Path::push(&mut given.ways.path, "c")),
        "reserve" => done(Path::reserve(&mut given.ways.path, 100)),
        "extend" => extended(alloc, given),
        _ => Ok(Answer::Path(Path::clone(&given.ways.path)?)),
    }
}

/// Returns a value, or that there is none.
fn found_or_nothing<'g>(found: Option<ValueCow<'g>>) -> Answer<'g> {
    match found {
        Some(value) => Answer::Found(value),
        None => Answer::Nothing,
    }
}

/// Takes a step of a walk.
fn stepped<'g>(alloc: Global, value: &'g Value) -> Answered<'g> {
    let size = ScalarCow::from("size");
    let found = step(alloc, value, &size);
    drop(size);
    Ok(found_or_nothing(found?))
}

/// Walks along a path that may lead nowhere.
fn tried<'g>(alloc: Global, value: &'g Value, path: &[ScalarCow<'_>]) -> Answered<'g> {
    Ok(found_or_nothing(try_find(alloc, value, path)?))
}

/// Walks along a path.
fn found<'g>(alloc: Global, value: &'g Value, path: &[ScalarCow<'_>]) -> Answered<'g> {
    Ok(Answer::Found(find(alloc, value, path)?))
}

/// Walks along a path whose first index is the name of the value.
fn found_after<'g>(alloc: Global, value: &'g Value, path: &[ScalarCow<'_>]) -> Answered<'g> {
    Ok(Answer::Found(find_after(alloc, 1, value, path)?))
}

/// Makes the calls that walk along a path.
fn of_walks<'g>(alloc: Global, word: &str, value: &'g Value) -> Answered<'g> {
    match word {
        "step" => stepped(alloc, value),
        "try_find" => tried(alloc, value, &[ScalarCow::from("size")]),
        "find" => found(alloc, value, &[ScalarCow::from(2i64), ScalarCow::from("x")]),
        _ => found_after(alloc, value, &[ScalarCow::from("l"), ScalarCow::from("x")]),
    }
}

/// Makes a call of paths.
pub fn call<'g>(alloc: Global, word: &str, given: &'g mut Given) -> Answered<'g> {
    match word {
        "step" | "try_find" | "find" | "find_after" => of_walks(alloc, word, &given.values.value),
        _ => of_paths(alloc, word, given),
    }
}
