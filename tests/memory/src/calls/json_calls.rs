//! Calls of JSON.
use crate::calls::answers::{Answer, Answered};
use crate::calls::given::{GLOBALS, Given};
use liquid_core::model::{
    Value, from_value, into_object, into_value, object_from_str, to_object, to_scalar, to_value,
};
use serde_json::Value as Json;
use std::alloc::Global;

/// Makes the calls that read JSON.
fn of_reads<'g>(alloc: Global, word: &str, json: &Json) -> Answered<'g> {
    match word {
        "to_value" => Ok(Answer::Value(to_value(alloc, json)?)),
        "to_object" => Ok(Answer::Value(Value::from(to_object(alloc, json)?))),
        _ => match json.get("i") {
            Some(member) => Ok(Answer::Value(Value::Scalar(to_scalar(alloc, member)?))),
            None => Ok(Answer::Nothing),
        },
    }
}

/// Reads the globals from their text.
fn of_text<'g>(alloc: Global) -> Answered<'g> {
    match object_from_str(alloc, GLOBALS) {
        Ok(object) => Ok(Answer::Value(Value::from(object?))),
        Err(error) => Ok(if error.is_memory() {
            Answer::Memory
        } else {
            Answer::Nothing
        }),
    }
}

/// Returns the JSON that a call takes.
fn json(given: &mut Given) -> Json {
    std::mem::replace(&mut given.values.json, Json::Null)
}

/// Makes the calls that take JSON whole.
fn of_wholes<'g>(alloc: Global, word: &str, json: Json) -> Answered<'g> {
    match word {
        "into_value" => Ok(Answer::Value(into_value(alloc, json)?)),
        _ => Ok(Answer::Value(Value::from(into_object(alloc, json)?))),
    }
}

/// Makes a call of JSON.
pub fn call<'g>(alloc: Global, word: &str, given: &'g mut Given) -> Answered<'g> {
    match word {
        "to_value" | "to_object" | "to_scalar" => of_reads(alloc, word, &given.values.json),
        "into_value" | "into_object" => of_wholes(alloc, word, json(given)),
        "object_from_str" => of_text(alloc),
        _ => Ok(Answer::Json(from_value(alloc, &given.values.value)?)),
    }
}
