//! Texts that assignments set.
use liquid_json::{from_value, object_from_str};
use liquid_value::{Object, Value};
use page_site::data_files::set_member;
use rows::{Line, rows_hold};
use std::alloc::Global;
use std::test::Fail;

/// Returns the object of a text of JSON, or `None` if it is not one.
pub fn object_of(alloc: Global, json: &str) -> Option<Object> {
    match object_from_str(alloc, json) {
        Ok(Ok(object)) => Some(object),
        _ => None,
    }
}

/// Returns the JSON of a value, or `None` if memory runs out.
pub fn json_of(alloc: Global, value: &Value) -> Option<String> {
    from_value(alloc, value).ok()?.to_string(alloc).ok()
}

fn set_text(alloc: Global, row: &Line) -> Option<String> {
    let object = object_of(alloc, row.text(0)?)?;
    let text = match set_member(alloc, object, row.text(1)?) {
        Ok(changed) => json_of(alloc, &Value::from(changed)),
        Err(fault) => fault.to_string(alloc).ok(),
    };
    text
}

fn is_set(alloc: Global, row: &Line) -> bool {
    match set_text(alloc, row).zip(row.text(2)) {
        Some((found, wanted)) => found.as_str() == wanted,
        None => false,
    }
}

// The object, the assignment, and the object after it or the fault.
const SET: &str = r#"["{}", "a=x", "{\"a\":\"x\"}"]
["{\"a\": 1}", "a=two", "{\"a\":\"two\"}"]
["{}", "a.b.c=x=y", "{\"a\":{\"b\":{\"c\":\"x=y\"}}}"]
["{\"a\": {\"b\": 1, \"d\": 2}}", "a.b=x", "{\"a\":{\"b\":\"x\",\"d\":2}}"]
["{}", "a=", "{\"a\":\"\"}"]
["{\"a\": 1}", "a.b=x", "the value of 'a' is not an object"]
["{\"a\": {\"b\": [1]}}", "a.b.c=x", "the value of 'b' is not an object"]
["{}", "a", "no '=' after the name"]
["{}", "=x", "a name is empty"]
["{}", "a..b=x", "a name is empty"]
["{}", "a.=x", "a name is empty"]"#;

#[test]
fn texts_are_set(rt: HostRuntime) -> Result<(), Fail> {
    rows_hold(rt.alloc(), SET, is_set)
}
