//! The parents of rows in isolation, and what is left of one.
use liquid_core::Error;
use liquid_core::model::{Object, Value, to_object};
use liquid_core::runtime::{BuiltRuntime, Interrupt, Runtime, RuntimeBuilder, Seen};
use liquid_std::marks::Marks;
use rows::{Line, Row};
use std::alloc::Global;

/// A parent over a store of partials.
pub(crate) type Over<P> = BuiltRuntime<Marks, P>;

/// The parents, a row each: globals, and whether an interrupt is set. One has no name, and the globals of the other hide
/// the names of the rows.
pub(crate) static PARENTS: &str = r#"[{}, false]
[{"a": "A", "b": [9], "d": {"q": 1}, "e": ["E"], "f": true, "forloop": {"index": 8}, "fresh": "F", "here": 5, "i": 17, "l": ["L"], "n": "N", "p": 61, "pages": [], "q": 62, "s": "S", "t": false, "tablerowloop": 4, "unknown": "U", "w": [63], "x": 64, "y": "Y", "z": "Z"}, true]"#;

/// The names that the rows and the parents use.
const NAMES: [&str; 22] = [
    "a",
    "b",
    "c",
    "d",
    "e",
    "f",
    "forloop",
    "fresh",
    "here",
    "i",
    "l",
    "n",
    "p",
    "pages",
    "q",
    "s",
    "t",
    "tablerowloop",
    "unknown",
    "w",
    "x",
    "z",
];

/// Returns the globals of a parent, or `None` if its row has none.
fn globals_of(alloc: Global, parent: &Line) -> Option<Object> {
    match parent.member(0) {
        Some(globals) => to_object(alloc, globals).ok(),
        None => None,
    }
}

/// Returns a runtime of these globals over a store.
pub(crate) fn built<P: Drop>(
    alloc: Global,
    globals: Object,
    store: P,
    is_lenient: bool,
) -> Over<P> {
    RuntimeBuilder::new(alloc)
        .set_globals(globals)
        .set_partials(store)
        .set_lenient(is_lenient)
        .build()
}

/// Sets an index variable that no row uses.
fn set_spare<R: Runtime>(alloc: Global, runtime: &mut R) -> Result<(), Error> {
    runtime.set_index(String::from_str(alloc, "spare")?, Value::scalar(3i64))?;
    Ok(())
}

/// Sets the index variable and the interrupt of a parent. Returns `false` if its row doesn't say whether an interrupt is
/// set, or if memory runs out.
fn fill<R: Runtime>(alloc: Global, parent: &Line, runtime: &mut R) -> bool {
    let Some(is_interrupted) = parent.truth(1) else {
        return false;
    };
    if is_interrupted {
        runtime.registers_mut().interrupt.set(Interrupt::Continue);
    }
    set_spare(alloc, runtime).is_ok()
}

/// Returns a parent over a store, as lenient as the row, or `None` if it could not be made.
pub(crate) fn over<P: Drop>(alloc: Global, parent: &Line, row: &Row, store: P) -> Option<Over<P>> {
    let globals = globals_of(alloc, parent)?;
    let mut runtime = built(alloc, globals, store, row.is_lenient());
    if fill(alloc, parent, &mut runtime) {
        Some(runtime)
    } else {
        None
    }
}

/// Returns `true` if both are missing, or both are there and the same.
fn is_same(left: Option<&Value>, right: Option<&Value>) -> bool {
    match (left, right) {
        (Some(left), Some(right)) => *left == *right,
        (None, None) => true,
        _ => false,
    }
}

/// Returns `true` if a runtime has these globals, and no other name but index variables.
fn are_names_kept<R: Runtime>(globals: &Object, after: &R) -> bool {
    for name in NAMES {
        let found = match after.try_get_name(name) {
            Some(Seen::Lent(value)) => Some(value),
            _ => None,
        };
        if !is_same(globals.get(name), found) && !is_same(after.get_index(name), found) {
            return false;
        }
    }
    true
}

/// Returns `true` if a runtime has the parent's globals, no other name but index variables, and its interrupt.
pub(crate) fn is_kept<R: Runtime>(alloc: Global, parent: &Line, after: &R) -> bool {
    parent.truth(1) == Some(after.registers().interrupt.interrupted())
        && is_same(Some(&Value::scalar(3i64)), after.get_index("spare"))
        && match globals_of(alloc, parent) {
            Some(globals) => are_names_kept(&globals, after),
            None => false,
        }
}
