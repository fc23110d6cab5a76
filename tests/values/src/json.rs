//! JSON as values, and values as JSON.
use crate::texts::{is_count, push_times};
use crate::value::value_in;
use liquid_error::{Error, Result};
use liquid_json::{
    from_value, into_object, into_value, object_from_str, to_object, to_scalar, to_value,
};
use liquid_scalar::Scalar;
use liquid_value::render::ValueSource;
use liquid_value::{Object, Value};
use rows::{Line, holds, is_text, rows_hold};
use serde_json::{Error as JsonError, Value as Json};
use std::alloc::{AllocError, Global};
use std::test::Fail;

/// Returns `true` if this is the source of a value.
fn value_is_told(alloc: Global, value: &Value, wanted: &str) -> bool {
    is_text(ValueSource::new(value).to_string(alloc), wanted)
}

/// Returns `true` if this is the text of an error.
fn error_is_told(alloc: Global, error: &Error, wanted: &str) -> bool {
    is_text(error.to_string(alloc), wanted)
}

/// Returns `true` if the source of the value that was made, or the text of the error, is this one.
fn is_told(alloc: Global, made: Result<Value>, wanted: &str) -> bool {
    match made {
        Ok(value) => value_is_told(alloc, &value, wanted),
        Err(error) => error_is_told(alloc, &error, wanted),
    }
}

/// Returns `true` if the source of the object that was made, or the text of the error, is this one.
fn object_is_told(alloc: Global, made: Result<Object>, wanted: &str) -> bool {
    match made {
        Ok(object) => value_is_told(alloc, &Value::from(object), wanted),
        Err(error) => error_is_told(alloc, &error, wanted),
    }
}

/// Returns `true` if the source of the scalar that was made, or the text of the error, is this one.
fn scalar_is_told(alloc: Global, made: Result<Scalar>, wanted: &str) -> bool {
    match made {
        Ok(scalar) => value_is_told(alloc, &Value::Scalar(scalar), wanted),
        Err(error) => error_is_told(alloc, &error, wanted),
    }
}

// The source text of the value of a JSON, or the text of the error, and the JSON.
const VALUES: &str = r#"["nil", null]
["true", true]
["\"é\"", "\u00e9"]
["-5", -5]
["9223372036854775807", 9223372036854775807]
["-9223372036854775808", -9223372036854775808]
["liquid: Cannot fit number\n", 9223372036854775808]
["liquid: Cannot fit number\n", 18446744073709551615]
["liquid: Fractional number\n", 18446744073709551616]
["liquid: Fractional number\n", -9223372036854775809]
["liquid: Fractional number\n", 1.5]
["liquid: Fractional number\n", 1e2]
["[1, a, , , ]", [1, "a", [], null]]
["{\"a\": x, \"b\": 2, \"c\": , }", {"b": 2, "a": "x", "c": {}}]
["liquid: Fractional number\n", [[1.5], 9223372036854775808]]
["liquid: Cannot fit number\n", {"b": 1.5, "a": 9223372036854775808}]
["{\"a\": 2, }", {"a": 1.5, "a": 2}]
["liquid: Cannot fit number\n", [[[[[9223372036854775808]]]], 1.5]]"#;

/// Returns `true` if a JSON was copied and is this value taken apart.
fn is_taken(alloc: Global, copy: std::result::Result<Json, AllocError>, wanted: &str) -> bool {
    match copy {
        Ok(json) => is_told(alloc, into_value(alloc, json), wanted),
        Err(_) => false,
    }
}

/// Returns `true` if the JSON of a row is the row's value, copied and taken apart.
fn is_value(alloc: Global, row: &Line) -> bool {
    match row.text(0).zip(row.member(1)) {
        Some((wanted, json)) => {
            is_told(alloc, to_value(alloc, json), wanted) && is_taken(alloc, json.clone(), wanted)
        }
        None => false,
    }
}

#[test]
fn json_is_a_value(rt: HostRuntime) -> std::result::Result<(), Fail> {
    rows_hold(rt.alloc(), VALUES, is_value)
}

// A JSON as an object and as a scalar, each by its source text or by the error, and the JSON.
const OBJECTS_AND_SCALARS: &str =
    r#"["liquid: Object cannot be a scalar.\n", "liquid: Scalar must be a string.\n", null]
["liquid: Object cannot be a scalar.\n", "false", false]
["liquid: Object cannot be a scalar.\n", "\"\"", ""]
["liquid: Object cannot be a scalar.\n", "7", 7]
["liquid: Object cannot be a scalar.\n", "liquid: Cannot fit number\n", 9223372036854775808]
["liquid: Object cannot be a scalar.\n", "liquid: Fractional number\n", 0.0]
["liquid: Object cannot be an array.\n", "liquid: Scalar must be a string.\n", [1.5]]
["{\"a\": 1, }", "liquid: Scalar must be a string.\n", {"a": [1]}]
["liquid: Fractional number\n", "liquid: Scalar must be a string.\n", {"a": 1.5}]"#;

/// Returns `true` if a JSON was copied and is this object taken apart.
fn is_taken_object(
    alloc: Global,
    copy: std::result::Result<Json, AllocError>,
    wanted: &str,
) -> bool {
    match copy {
        Ok(json) => object_is_told(alloc, into_object(alloc, json), wanted),
        Err(_) => false,
    }
}

/// Returns `true` if a JSON is this object, copied and taken apart.
fn is_object(alloc: Global, json: &Json, wanted: &str) -> bool {
    object_is_told(alloc, to_object(alloc, json), wanted)
        && is_taken_object(alloc, json.clone(), wanted)
}

/// Returns `true` if the JSON of a row is the row's object and its scalar.
fn is_object_or_scalar(alloc: Global, row: &Line) -> bool {
    match row.text(0).zip(row.text(1)).zip(row.member(2)) {
        Some(((object, scalar), json)) => {
            is_object(alloc, json, object) && scalar_is_told(alloc, to_scalar(alloc, json), scalar)
        }
        None => false,
    }
}

#[test]
fn json_is_an_object_or_a_scalar(rt: HostRuntime) -> std::result::Result<(), Fail> {
    rows_hold(rt.alloc(), OBJECTS_AND_SCALARS, is_object_or_scalar)
}

// A text as an object, by its source text or by the error, and the text.
const READ: &str =
    r#"["{\"a\": 1, \"é\": x-2true, }", "{\"\\u00e9\": [\"x\", -2, true, null, []], \"a\": 1}"]
["{}", "  { } "]
["{\"a\": 9223372036854775807, \"b\": -9223372036854775808, }", "{\"b\": -9223372036854775808, \"a\": 9223372036854775807}"]
["{\"a\": 2, }", "{\"a\": 1, \"a\": 2}"]
["{\"a\": 2, }", "{\"a\": 1.5, \"a\": 2}"]
["liquid: Cannot fit number\n", "{\"a\": 9223372036854775808}"]
["liquid: Fractional number\n", "{\"a\": -9223372036854775809}"]
["liquid: Fractional number\n", "{\"a\": -0}"]
["liquid: Fractional number\n", "{\"a\": 1e2}"]
["liquid: Fractional number\n", "{\"a\": {\"b\": [0.5]}}"]
["liquid: Cannot fit number\n", "{\"b\": 1.5, \"a\": 9223372036854775808}"]
["liquid: Object cannot be an array.\n", "[1.5]"]
["liquid: Object cannot be a scalar.\n", "\"a\""]
["liquid: Object cannot be a scalar.\n", "null"]
["no JSON", ""]
["no JSON", "{"]
["no JSON", "{\"a\": }"]
["no JSON", "{\"a\": 1,}"]
["no JSON", "{\"a\" 1}"]
["no JSON", "{\"a\": 1} {}"]
["no JSON", "{\"a\": 1.5, \"b\"}"]
["no JSON", "{a: 1}"]
["no JSON", "{\"a\": 01}"]
["no JSON", "{\"a\": +1}"]
["no JSON", "[\"a\""]
["no JSON", "{\"a\": \"\\ud800\"}"]"#;

/// Returns `true` if the source of the object of the text, or the text of the error, is this one.
fn is_read_as(alloc: Global, text: &str, wanted: &str) -> bool {
    match object_from_str(alloc, text) {
        Ok(object) => object_is_told(alloc, object, wanted),
        Err(error) => !error.is_memory() & (wanted == "no JSON"),
    }
}

fn is_read(alloc: Global, row: &Line) -> bool {
    match row.text(0).zip(row.text(1)) {
        Some((wanted, text)) => is_read_as(alloc, text, wanted),
        None => false,
    }
}

/// Adds an object with that many nested arrays as a member to a text, and returns `true` if memory doesn't run out.
fn push_nested(text: &mut String, arrays: usize) -> bool {
    text.push_str("{\"a\": ").is_ok()
        && push_times(text, "[", arrays)
        && push_times(text, "]", arrays)
        && text.push_str("}").is_ok()
}

/// Returns `true` if an object of that many nested arrays is read as a text.
fn is_nested_as(alloc: Global, arrays: usize, wanted: &str) -> bool {
    let mut text = String::new(alloc);
    push_nested(&mut text, arrays) & is_read_as(alloc, text.as_str(), wanted)
}

// With 126 arrays in an object, 127 are nested, and `serde_json` reads no more.
#[test]
fn texts_are_objects(rt: HostRuntime) -> std::result::Result<(), Fail> {
    let alloc = rt.alloc();
    rows_hold(alloc, READ, is_read)?;
    holds(
        is_nested_as(alloc, 126, "{\"a\": , }") && is_nested_as(alloc, 127, "no JSON"),
        "126 arrays are read, and 127 are not",
    )
}

// A text that is not JSON: what its error is called, the line and the column of it, and the text. Lines are counted
// from 1, and columns are bytes of the line up to what is wrong.
const NO_JSON: &str = r#"["ends too soon", 1, 0, ""]
["ends too soon", 1, 1, "{"]
["ends too soon", 2, 6, "{\n\"a\": 1"]
["ends too soon", 1, 6, "{\"a\": "]
["is wrong", 1, 7, "{\"a\": }"]
["is wrong", 1, 9, "{\"a\": 1,}"]
["is wrong", 1, 6, "{\"a\" 1}"]
["is wrong", 1, 10, "{\"a\": 1} {}"]
["is wrong", 1, 2, "{a: 1}"]
["is wrong", 2, 8, "{\n  \"a\": x}"]
["is wrong", 3, 1, "[1.5,\n2\n}"]"#;

/// Returns `true` if an error has the kind and the place of the row.
fn is_at(error: &JsonError, row: &Line) -> bool {
    let told = if error.is_eof() {
        "ends too soon"
    } else {
        "is wrong"
    };
    row.text(0) == Some(told)
        && is_count(error.line(), row.number(1))
        && is_count(error.column(), row.number(2))
}

/// Returns `true` if a text was not read, with the error of the row.
fn is_no_object(read: std::result::Result<Result<Object>, JsonError>, row: &Line) -> bool {
    match read {
        Ok(_) => false,
        Err(error) => is_at(&error, row),
    }
}

/// Returns `true` if reading the text of the row fails with the error of the row.
fn is_no_json(alloc: Global, row: &Line) -> bool {
    match row.text(3) {
        Some(text) => is_no_object(object_from_str(alloc, text), row),
        None => false,
    }
}

// The error is that of reading this text: its kind and its place.
#[test]
fn errors_have_the_place_in_the_text(rt: HostRuntime) -> std::result::Result<(), Fail> {
    rows_hold(rt.alloc(), NO_JSON, is_no_json)
}

// A text as a value, and the JSON that it is shown as.
const TEXTS: &str = r#"["42", "42"]
["+7", "7"]
["-9223372036854775808", "-9223372036854775808"]
["9223372036854775808", "\"9223372036854775808\""]
["1.5", "\"1.5\""]
["true", "\"true\""]
["", "\"\""]"#;

fn shown(alloc: Global, value: &Value) -> std::result::Result<String, AllocError> {
    from_value(alloc, value)?.to_string(alloc)
}

/// Returns `true` if a text was made and is shown as this JSON.
fn is_shown(alloc: Global, made: std::result::Result<String, AllocError>, json: &str) -> bool {
    match made {
        Ok(text) => is_text(shown(alloc, &Value::scalar(text)), json),
        Err(_) => false,
    }
}

fn text_is_shown(alloc: Global, row: &Line) -> bool {
    match row.text(0).zip(row.text(1)) {
        Some((text, json)) => is_shown(alloc, String::from_str(alloc, text), json),
        None => false,
    }
}

const ALL: &str =
    r#"[-5, null, {"state": "blank"}, {"day": 16}, {"moment": [10, 3600]}, {"t": true, "n": "a"}]"#;

const ALL_SHOWN: &str =
    r#"[-5,null,null,"2016-02-16","2016-02-16 10:00:00 +0100",{"n":"a","t":true}]"#;

/// Returns `true` if there is a value and it is shown as this JSON.
fn value_is_shown(alloc: Global, value: Option<Value>, json: &str) -> bool {
    match value {
        Some(value) => is_text(shown(alloc, &value), json),
        None => false,
    }
}

#[test]
fn values_are_shown(rt: HostRuntime) -> std::result::Result<(), Fail> {
    let alloc = rt.alloc();
    rows_hold(alloc, TEXTS, text_is_shown)?;
    holds(
        value_is_shown(alloc, value_in(alloc, ALL), ALL_SHOWN),
        "values of all kinds",
    )
}
