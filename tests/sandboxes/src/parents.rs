//! The parents of sandboxes, and what is left of one.
use liquid_core::Error;
use liquid_core::model::{Object, Value, ValueSource, to_object};
use liquid_core::runtime::{BuiltRuntime, Interrupt, Runtime, RuntimeBuilder, Seen};
use rows::{Line, Row, is_text};
use std::alloc::{AllocError, Global};
use test_plugins::Visits;

/// A parent over a store of partials.
pub(crate) type Over<P> = BuiltRuntime<Visits, P>;

/// The parents of a table, a row each: globals, assigned names, what the register counts, the interrupt that is set,
/// if there is one, and an index variable, which is 3. One has no name, and the globals and assigned names of the other
/// hide the names of the sites.
pub(crate) static EMPTY_OR_FULL: &str = r#"[{}, {}, 0, "", "spare"]
[{"a": "A", "b": [9], "c": 41, "e": ["E"], "forloop": {"index": 8}, "i": 17, "k": {"k": "K"}, "l": ["L", "M"]}, {"a": 70, "d": 42, "h": 9, "n": "1", "o": ["O"], "s": "S", "t": 1, "unknown": [5, 6], "x": true, "z": "Z"}, 7, "break", "spare"]"#;

/// The parents of rows whose names are lenient.
pub(crate) static LENIENT: &str = r#"[{}, {}, 0, "", "n"]
[{"x": 10, "t": "T", "y": "z"}, {"s": "S", "g": 11}, 0, "continue", "n"]
[{"b": 12, "n": 13}, {"t": 14, "x": null, "y": 0}, 0, "", "n"]"#;

/// The parents of rows in the language of the test plug-ins.
pub(crate) static STRICT: &str = r#"[{}, {}, 0, "", "n"]
[{"x": 10, "t": "T"}, {"s": "S", "g": 11}, 0, "continue", "n"]
[{"b": 12, "n": 13}, {"t": 14, "x": null}, 0, "", "n"]"#;

fn set_index<R: Runtime>(alloc: Global, runtime: &mut R, name: &str) -> Result<(), Error> {
    runtime.set_index(String::from_str(alloc, name)?, Value::scalar(3i64))?;
    Ok(())
}

/// Returns the object at a place of a parent's row, or `None` if there is no object.
fn names(alloc: Global, parent: &Line, place: usize) -> Option<Object> {
    match parent.member(place) {
        Some(names) => to_object(alloc, names).ok(),
        None => None,
    }
}

/// Returns what the register of a parent counts, or `None` if the row doesn't say it.
fn count(parent: &Line) -> Option<u8> {
    match parent.number(2) {
        Some(count) => u8::try_from(count).ok(),
        None => None,
    }
}

/// Returns a runtime of these globals over a store.
fn built<P: Drop>(alloc: Global, globals: Object, store: P, is_lenient: bool) -> Over<P> {
    RuntimeBuilder::new(alloc)
        .set_globals(globals)
        .set_partials(store)
        .set_lenient(is_lenient)
        .build()
}

fn assign<R: Runtime>(names: Object, runtime: &mut R) -> Result<(), Error> {
    for (name, value) in names {
        runtime.set_global(name, value)?;
    }
    Ok(())
}

/// Sets the registers that a parent's row says.
fn set_registers<R>(runtime: &mut R, count: u8, interrupt: &str)
where
    R: Runtime<Register = Visits>,
{
    let registers = runtime.registers_mut();
    registers.value.count = count;
    match interrupt {
        "break" => registers.interrupt.set(Interrupt::Break),
        "continue" => registers.interrupt.set(Interrupt::Continue),
        _ => {}
    }
}

/// Assigns names and an index variable in a runtime. Returns `false` if one of them could not be assigned.
fn set_names<R: Runtime>(
    alloc: Global,
    names: Option<Object>,
    index: Option<&str>,
    runtime: &mut R,
) -> bool {
    match (names, index) {
        (Some(names), Some(index)) => {
            assign(names, runtime).is_ok() && set_index(alloc, runtime, index).is_ok()
        }
        _ => false,
    }
}

/// Assigns and sets in a runtime what a parent's row says. Returns `false` if that is not possible.
fn fill<R>(alloc: Global, parent: &Line, runtime: &mut R) -> bool
where
    R: Runtime<Register = Visits>,
{
    match (count(parent), parent.text(3)) {
        (Some(count), Some(interrupt)) => {
            set_registers(runtime, count, interrupt);
            set_names(alloc, names(alloc, parent, 1), parent.text(4), runtime)
        }
        _ => false,
    }
}

/// Returns a parent over a store, lenient if the row says so, or `None` if it could not be made.
pub(crate) fn over<P: Drop>(alloc: Global, parent: &Line, row: &Row, store: P) -> Option<Over<P>> {
    let globals = names(alloc, parent, 0)?;
    let mut runtime = built(alloc, globals, store, row.is_lenient());
    if fill(alloc, parent, &mut runtime) {
        Some(runtime)
    } else {
        None
    }
}

/// Returns `true` if the register and the interrupt of a runtime are the parent's, and whether it is as lenient as the
/// row.
fn has_registers<R: Runtime<Register = Visits>>(parent: &Line, row: &Row, runtime: &R) -> bool {
    let registers = runtime.registers();
    match (count(parent), parent.text(3)) {
        (Some(count), Some(interrupt)) => {
            registers.value.count == count
                && registers.interrupt.interrupted() != interrupt.is_empty()
                && runtime.is_lenient() == row.is_lenient()
                && runtime.name().is_none()
        }
        _ => false,
    }
}

/// The names that the rows and the parents use.
const NAMES: [&str; 22] = [
    "a", "b", "c", "d", "e", "f", "forloop", "g", "h", "i", "k", "l", "n", "o", "p", "r", "s", "t",
    "unknown", "x", "y", "z",
];

/// Returns the source text of a value, or `-` if there is none.
fn shown(alloc: Global, value: Option<&Value>) -> Result<String, AllocError> {
    match value {
        Some(value) => ValueSource::new(value).to_string(alloc),
        None => String::from_str(alloc, "-"),
    }
}

/// Returns `true` if a value is left as it was.
fn is_unchanged(alloc: Global, before: Option<&Value>, after: Option<&Value>) -> bool {
    match shown(alloc, before) {
        Ok(before) => is_text(shown(alloc, after), before.as_str()),
        Err(_) => false,
    }
}

/// Returns `true` if a value is left as a row says, or as it was if the row says nothing.
fn has_value(
    alloc: Global,
    left: Option<&str>,
    before: Option<&Value>,
    after: Option<&Value>,
) -> bool {
    match left {
        Some(left) => is_text(shown(alloc, after), left),
        None => is_unchanged(alloc, before, after),
    }
}

/// Returns the value of a name, if it is lent.
fn lent<'r, R: Runtime>(runtime: &'r R, name: &str) -> Option<&'r Value> {
    match runtime.try_get_name(name) {
        Some(Seen::Lent(value)) => Some(value),
        _ => None,
    }
}

/// Returns `true` if the names are what a row leaves. A name that is counted is seen if it has no other value.
fn are_names_left<R: Runtime, Q: Runtime>(alloc: Global, row: &Row, before: &R, after: &Q) -> bool {
    for name in NAMES {
        let was = lent(before, name);
        let left = match row.text_within("assigned", name) {
            None if was.is_none() => row.text_within("counted", name),
            left => left,
        };
        if !has_value(alloc, left, was, lent(after, name)) {
            return false;
        }
    }
    true
}

/// Returns `true` if the index variables are what a row leaves.
fn are_indexes_left<R: Runtime, Q: Runtime>(
    alloc: Global,
    row: &Row,
    before: &R,
    after: &Q,
) -> bool {
    for name in ["c", "d", "n", "spare"] {
        let (left, was) = (row.text_within("counted", name), before.get_index(name));
        if !has_value(alloc, left, was, after.get_index(name)) {
            return false;
        }
    }
    true
}

/// Returns `true` if a runtime is what a row leaves of the parent, which was `before`: the names and index variables
/// that the row leaves, and all others as they were.
pub(crate) fn is_left<R: Runtime<Register = Visits>>(
    alloc: Global,
    parent: &Line,
    row: &Row,
    before: &Over<()>,
    after: &R,
) -> bool {
    has_registers(parent, row, after)
        && are_names_left(alloc, row, before, after)
        && are_indexes_left(alloc, row, before, after)
}
