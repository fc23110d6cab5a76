//! Rows of the filter `date`: what texts are read as.
use super::answers::are_answered;
use liquid_error::Error;
use liquid_filters::{CallArguments, FilterKind, StdKind, filters};
use liquid_value::{Value, ValueCow};
use std::alloc::Global;
use std::test::Fail;

/// The filter, its input, its arguments, and the source of what it returns.
const ROWS: &str =
    r#"["date", "2024-01-15T12:00:00Z", ["%Y-%m-%d %H:%M:%S.%N %z"], "\"2024-01-15 12:00:00.000000000 +0000\""]
["date", "2024-01-15 12:00:00+01:00", ["%Y-%m-%d %H:%M:%S.%N %z"], "\"2024-01-15 12:00:00.000000000 +0100\""]
["date", "2024-01-15T12:00:00.25-0430", ["%Y-%m-%d %H:%M:%S.%N %z"], "\"2024-01-15 12:00:00.250000000 -0430\""]
["date", "2024-01-15T12:00", ["%Y-%m-%d %H:%M:%S.%N %z"], "\"2024-01-15 12:00:00.000000000 +0000\""]
["date", "2024-01-15T12:00:00 +01:00", ["%Y-%m-%d %H:%M:%S.%N %z"], "\"2024-01-15 12:00:00.000000000 +0100\""]
["date", "2024-01-15 12:00:00+01", ["%Y-%m-%d %H:%M:%S.%N %z"], "\"2024-01-15 12:00:00.000000000 +0100\""]
["date", "2024-01-15 09:05 UTC", ["%Y-%m-%d %H:%M:%S.%N %z"], "\"2024-01-15 09:05:00.000000000 +0000\""]
["date", "2026/02/05", ["%Y-%m-%d %H:%M:%S.%N %z"], "\"2026-02-05 00:00:00.000000000 +0000\""]
["date", "2026/02/05 10:20:30 GMT", ["%Y-%m-%d %H:%M:%S.%N %z"], "\"2026-02-05 10:20:30.000000000 +0000\""]
["date", "Thu, 14 Mar 2016 08:30:00 +0000", ["%Y-%m-%d %H:%M:%S.%N %z"], "\"2016-03-14 08:30:00.000000000 +0000\""]
["date", "14 Mar 2016 8:30", ["%Y-%m-%d %H:%M:%S.%N %z"], "\"2016-03-14 08:30:00.000000000 +0000\""]
["date", "Thursday, 14 March 2016", ["%Y-%m-%d %H:%M:%S.%N %z"], "\"2016-03-14 00:00:00.000000000 +0000\""]
["date", "March 14, 2016", ["%Y-%m-%d %H:%M:%S.%N %z"], "\"2016-03-14 00:00:00.000000000 +0000\""]
["date", "mar 4 2016 23:59:59 Z", ["%Y-%m-%d %H:%M:%S.%N %z"], "\"2016-03-04 23:59:59.000000000 +0000\""]
["date", "5 Sept 2020", ["%Y-%m-%d %H:%M:%S.%N %z"], "\"2020-09-05 00:00:00.000000000 +0000\""]
["date", "March 14,2016", ["%Y-%m-%d %H:%M:%S.%N %z"], "\"2016-03-14 00:00:00.000000000 +0000\""]
["date", "2024-13-15T12:00:00Z", ["%Y"], "\"2024-13-15T12:00:00Z\""]
["date", "2024-02-30", ["%Y"], "\"2024-02-30\""]
["date", "2024-01-15T25:00:00Z", ["%Y"], "\"2024-01-15T25:00:00Z\""]
["date", "2024-01-15T12:00:00+99:00", ["%Y"], "\"2024-01-15T12:00:00+99:00\""]
["date", "2024-01-15T12:00:60Z", ["%Y"], "\"2024-01-15T12:00:60Z\""]
["date", "2024-01-15X12:00:00Z", ["%Y"], "\"2024-01-15X12:00:00Z\""]
["date", "March 32, 2016", ["%Y"], "\"March 32, 2016\""]
["date", "Mars 14, 2016", ["%Y"], "\"Mars 14, 2016\""]
["date", "14.3.2016", ["%Y"], "\"14.3.2016\""]
["date", "one day", ["%Y"], "\"one day\""]"#;

/// Returns what the filter of this name returns.
fn answered(
    alloc: Global,
    name: &str,
    input: &Value,
    arguments: &[ValueCow<'_>],
) -> Result<Value, Error> {
    let registry = filters(alloc, None)?;
    let kind = match registry.get(name) {
        Some(plugin) => Some(plugin.kind),
        None => None,
    };
    drop(registry);
    match kind {
        Some(kind) => answer(alloc, &kind, input, arguments),
        None => Ok(Value::Nil),
    }
}

fn answer(
    alloc: Global,
    kind: &StdKind,
    input: &Value,
    arguments: &[ValueCow<'_>],
) -> Result<Value, Error> {
    let given = CallArguments {
        positional: arguments,
        keyword: &[],
    };
    kind.answer(alloc, input, &given)
}

#[test]
fn dates_are_read(rt: HostRuntime) -> Result<(), Fail> {
    are_answered(rt.alloc(), ROWS, answered)
}
