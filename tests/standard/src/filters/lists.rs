//! Rows of the filters on lists.
use super::answers::are_answered;
use liquid_error::Error;
use liquid_filters::list::choices::{compact, keep_where, map, uniq};
use liquid_filters::list::lists::{concat, first, join, last, reverse};
use liquid_filters::list::searches::{find, find_index, has, reject};
use liquid_filters::list::sums::sum;
use liquid_value::{Value, ValueCow};
use std::alloc::Global;
use std::test::Fail;

/// A filter, its input, its arguments, and the source of what it returns.
const ROWS: &str = r#"["first", [[1], 2], [], "[1, ]"]
["first", {"b": 1, "a": 2}, [], "[a, 2, ]"]
["first", "ab", [], "nil"]
["last", [1, [2, 3]], [], "[2, 3, ]"]
["last", {"a": 1}, [], "nil"]
["reverse", [1, [2, [3]]], [], "[3, 2, 1, ]"]
["reverse", "ab", [], "[ab, ]"]
["concat", [1, [2]], [[[3], 4]], "[1, 2, 3, 4, ]"]
["concat", null, ["a"], "liquid: Array expected\n  with:\n    found=\"a\"\n"]
["join", [[7, 8], null], ["日"], "\"7日8日\""]
["join", [1, [2]], [], "\"1 2\""]
["map", [{"k": 1}, null, {"n": 2}], ["k"], "[1, , , ]"]
["map", [{"k": 1}, 5], ["k"], "liquid: Object expected\n  with:\n    property=k\n    found=5\n"]
["compact", [1, null, [null, 2]], [], "[1, 2, ]"]
["compact", [{"k": 1}, {"n": 2}], ["k"], "[k1, ]"]
["where", [{"k": 1}, {"k": false}, {"k": 2}], ["k"], "[k1, k2, ]"]
["where", [{"k": 1}, {"k": "1"}], ["k", 1], "[k1, ]"]
["find", [{"k": 1}, {"k": 2, "n": 3}, {"k": 2}], ["k", 2], "{\"k\": 2, \"n\": 3, }"]
["find", [{"k": false}, {"n": 1}, {"k": 2}], ["k"], "{\"k\": 2, }"]
["find", [{"k": 1}, {"k": 2}], ["k", "2"], "nil"]
["find", [], ["k", 1], "nil"]
["find", [{"k": 1}, 5], ["k", 1], "liquid: Object expected\n  with:\n    property=k\n    found=5\n"]
["find_index", [{"k": 1}, {"k": 2}, {"k": 2}], ["k", 2], "1"]
["find_index", [{"k": 1}, {"k": null}], ["k"], "0"]
["find_index", [{"k": 1}], ["k", 7], "nil"]
["has", [{"k": 1}, {"k": 2}], ["k", 2], "true"]
["has", [{"k": false}, {"n": 1}], ["k"], "false"]
["has", [], ["k"], "false"]
["has", [{"k": 1}], [], "liquid: Unexpected arguments\n"]
["reject", [{"k": 1}, {"k": false}, {"k": 2}, {"n": 3}], ["k"], "[kfalse, n3, ]"]
["reject", [{"k": 1}, {"k": 2}, [{"k": 1}, {"k": 3}]], ["k", 1], "[k2, k3, ]"]
["uniq", [1, true, "1", 1, null, null], [], "[1, true, 1, , ]"]
["uniq", [{"k": 1, "n": 1}, {"k": 1, "n": 2}, {"k": 2, "n": 3}], ["k"], "[k1n1, k2n3, ]"]
["sum", [" 3 ", 7, null, [-1]], [], "9"]
["sum", [9223372036854775807, 1, -1], [], "9223372036854775807"]
["sum", [9223372036854775807, 1], [], "liquid: Number past its limit\n"]
["sum", [{"k": 4}, {"n": 2}], ["k"], "4"]
["sum", ["0.1", "0.2"], [], "\"0.3\""]
["sum", ["1.5", 2, null, "-0.25"], [], "\"3.25\""]
["sum", ["1.50", "-1.5"], [], "\"0.00\""]
["sum", [{"p": "19.99"}, {"p": 5}, {}], ["p"], "\"24.99\""]
["sum", ["0.000000000000000001", 9223372036854775807, 9223372036854775807, -9223372036854775807, -9223372036854775807], [], "\"0.000000000000000001\""]
["sum", ["-922337203685477580.8", "0.0"], [], "\"-922337203685477580.8\""]
["sum", ["-922337203685477580.8", "-0.1"], [], "liquid: Number past its limit\n"]
["sum", ["0.5", 922337203685477581], [], "liquid: Number past its limit\n"]
["sum", ["1.5", "1,5"], [], "liquid: Whole number expected\n  with:\n    found=\"1,5\"\n"]"#;

/// Returns the result of a filter.
fn answered(
    alloc: Global,
    filter: &str,
    input: &Value,
    arguments: &[ValueCow<'_>],
) -> Result<Value, Error> {
    match filter {
        "first" => first(alloc, input),
        "last" => last(alloc, input),
        "reverse" => reverse(alloc, input),
        "concat" => concat(alloc, input, arguments),
        "join" => join(alloc, input, arguments),
        "map" => map(alloc, input, arguments),
        "compact" => compact(alloc, input, arguments),
        "where" => keep_where(alloc, input, arguments),
        "uniq" => uniq(alloc, input, arguments),
        "find" => find(alloc, input, arguments),
        "find_index" => find_index(alloc, input, arguments),
        "has" => has(alloc, input, arguments),
        "reject" => reject(alloc, input, arguments),
        "sum" => sum(alloc, input, arguments),
        _ => Ok(Value::Nil),
    }
}

#[test]
fn lists_are_answered(rt: HostRuntime) -> Result<(), Fail> {
    are_answered(rt.alloc(), ROWS, answered)
}
