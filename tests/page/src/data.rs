//! Data of three formats, objects put together, and what is wrong with a text.
use crate::set::{json_of, object_of};
use liquid_value::Value;
use page_site::data_files::{Format, merge, read_data, under};
use rows::{Line, holds, rows_hold, same};
use std::alloc::Global;
use std::test::Fail;

/// Returns the text of the object that a row's text is, or of its fault.
fn read_text(alloc: Global, row: &Line) -> Option<String> {
    let format = Format::of_path(row.text(0)?)?;
    let text = match read_data(alloc, format, "rows", row.text(1)?) {
        Ok(object) => json_of(alloc, &Value::from(object)),
        Err(fault) => fault.to_string(alloc).ok(),
    };
    text
}

fn is_read(alloc: Global, row: &Line) -> bool {
    match read_text(alloc, row).zip(row.text(2)) {
        Some((found, wanted)) => found.as_str() == wanted,
        None => false,
    }
}

// The file, its text, and its object or its fault.
const DATA: &str =
    r##"["a.json", "{\"b\": 1, \"a\": [true, null, \"x\"]}", "{\"a\":[true,null,\"x\"],\"b\":1}"]
["a.json", "\ufeff{\"a\": 12.50}", "{\"a\":\"12.50\"}"]
["a.json", "{\"a\": 1.5e3}", "{\"a\":1500}"]
["a.json", "{\n \"a\": 1,\n}", "line 3, column 1: invalid JSON: there is a comma before it"]
["a.json", "{\"a\": 'x'}", "line 1, column 7: invalid JSON: a text is put between double quotes"]
["a.json", "{\"é\": x}", "line 1, column 7: invalid JSON"]
["a.json", "{\"a\": ", "line 1, column 6: the text ends too soon"]
["a.json", "// a\n{}", "line 1, column 1: invalid JSON: JSON has no comments"]
["a.json", "[1]", "liquid: Object cannot be an array.\n"]
["a.json", "{\"a\": 9223372036854775808}", "liquid: Cannot fit number\n"]
["a.toml", "a = 1\nb = \"x\"\n[c]\nd = [1, true]\n", "{\"a\":1,\"b\":\"x\",\"c\":{\"d\":[1,true]}}"]
["a.toml", "\ufeffa = 12.5", "{\"a\":\"12.5\"}"]
["a.toml", "a = 1.0\nb = 1e3\nc = -0.25", "{\"a\":\"1.0\",\"b\":\"1000.0\",\"c\":\"-0.25\"}"]
["a.toml", "a = 0.00001", "{\"a\":\"0.00001\"}"]
["a.toml", "a = 2024-05-01\nb = 2024-05-01T10:20:30Z\nc = 10:20:30", "{\"a\":\"2024-05-01\",\"b\":\"2024-05-01T10:20:30Z\",\"c\":\"10:20:30\"}"]
["a.toml", "[[a]]\nb = 1\n[[a]]\nb = 2", "{\"a\":[{\"b\":1},{\"b\":2}]}"]
["a.toml", "a = inf", "liquid: Cannot fit number\n"]
["a.toml", "a = 1\na = 2", "line 2, column 1: duplicate key"]
["a.toml", "a = \nb = 1", "line 1, column 5: invalid value, expected a string, number, boolean, date-time, array or inline table"]
["a.csv", "a,b\n1,x\n2,\"y, z\"\n", "{\"rows\":[{\"a\":1,\"b\":\"x\"},{\"a\":2,\"b\":\"y, z\"}]}"]
["a.csv", "\ufeffa;b\r\n1;2\r\n", "{\"rows\":[{\"a;b\":\"1;2\"}]}"]
["a.csv", "a,b\n", "{\"rows\":[]}"]
["a.csv", "", "{\"rows\":[]}"]
["a.csv", "a,a\n1,2\n", "{\"rows\":[{\"a\":2}]}"]
["a.csv", "a,b\n\"x\ny\",1\n2\n", "line 4, column 1: the row has 1 fields, and the first row has 2"]"##;

#[test]
fn data_is_read(rt: HostRuntime) -> Result<(), Fail> {
    rows_hold(rt.alloc(), DATA, is_read)
}

#[test]
fn a_format_is_the_ending_of_a_name(_rt: HostRuntime) -> Result<(), Fail> {
    holds(Format::of_path("data/a.json") == Some(Format::Json), "json")?;
    holds(Format::of_path("a.b.toml") == Some(Format::Toml), "toml")?;
    holds(Format::of_path(".csv") == Some(Format::Csv), "csv")?;
    holds(Format::of_path("a.yaml").is_none(), "yaml")?;
    holds(Format::of_path("json").is_none(), "no point")
}

#[test]
fn the_later_object_is_above(rt: HostRuntime) -> Result<(), Fail> {
    let alloc = rt.alloc();
    let below = object_of(alloc, r#"{"a": {"x": 1}, "b": 2}"#).ok_or("no object")?;
    let above = object_of(alloc, r#"{"a": {"y": 3}, "c": 4}"#).ok_or("no object")?;
    let both = Value::from(merge(below, above)?);
    let text = json_of(alloc, &both).ok_or("no text")?;
    same(text.as_str(), r#"{"a":{"y":3},"b":2,"c":4}"#)
}

#[test]
fn an_object_is_put_under_a_name(rt: HostRuntime) -> Result<(), Fail> {
    let alloc = rt.alloc();
    let object = object_of(alloc, r#"{"a": 1}"#).ok_or("no object")?;
    let outer = Value::from(under(alloc, "site", object)?);
    let text = json_of(alloc, &outer).ok_or("no text")?;
    same(text.as_str(), r#"{"site":{"a":1}}"#)
}
