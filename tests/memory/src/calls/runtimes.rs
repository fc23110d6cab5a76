//! Calls of a built runtime.
use crate::calls::answers::{Answer, Answered};
use crate::calls::given::Given;
use liquid_core::model::{ScalarCow, Value};
use liquid_core::runtime::Runtime;
use std::alloc::Global;

/// Looks up a path.
fn got<'g, R: Runtime>(alloc: Global, runtime: &'g R, path: &[ScalarCow<'_>]) -> Answered<'g> {
    Ok(Answer::Found(Runtime::get(runtime, alloc, path)?))
}

/// Looks up a path that may lead nowhere.
fn tried<'g, R: Runtime>(alloc: Global, runtime: &'g R, path: &[ScalarCow<'_>]) -> Answered<'g> {
    match Runtime::try_get(runtime, alloc, path)? {
        Some(value) => Ok(Answer::Found(value)),
        None => Ok(Answer::Nothing),
    }
}

/// Makes the calls that look up a name.
fn of_lookups<'g, R: Runtime>(alloc: Global, word: &str, runtime: &'g R) -> Answered<'g> {
    let path = [ScalarCow::from("a"), ScalarCow::from("size")];
    match word {
        "get" => got(alloc, runtime, &path),
        "get_refused" => got(alloc, runtime, &[ScalarCow::from("none")]),
        _ => tried(alloc, runtime, &path),
    }
}

/// Returns the old value of a name that was set.
fn old<'g>(value: Option<Value>) -> Answer<'g> {
    match value {
        Some(value) => Answer::Value(value),
        None => Answer::Nothing,
    }
}

/// Makes the calls that read names.
fn of_reads<'g, R: Runtime>(alloc: Global, word: &str, runtime: &'g R) -> Answered<'g> {
    match word {
        "roots" => Ok(Answer::Names(Runtime::roots(runtime, alloc)?)),
        _ => of_lookups(alloc, word, runtime),
    }
}

/// Makes the calls that set a name.
fn of_sets<'g, R: Runtime>(
    word: &str,
    runtime: &'g mut R,
    name: String,
    value: Value,
) -> Answered<'g> {
    match word {
        "set_global" => Ok(old(Runtime::set_global(runtime, name, value)?)),
        _ => Ok(old(Runtime::set_index(runtime, name, value)?)),
    }
}

/// Makes a call of a built runtime.
pub fn call<'g>(alloc: Global, word: &str, given: &'g mut Given) -> Answered<'g> {
    match word {
        "set_global" | "set_index" => {
            let name = std::mem::replace(&mut given.alone.text, String::new(alloc));
            let value = std::mem::replace(&mut given.alone.member, Value::Nil);
            of_sets(word, &mut given.engine.runtime, name, value)
        }
        _ => of_reads(alloc, word, &given.engine.runtime),
    }
}
