//! Rows of the filters that put a list in order.
use super::answers::are_answered;
use liquid_error::Error;
use liquid_filters::sort::numbers::sort_numeric;
use liquid_filters::sort::order::{sort, sort_natural};
use liquid_value::{Value, ValueCow};
use std::alloc::Global;
use std::test::Fail;

/// A filter, its input, its arguments, and the source of what it returns.
const ROWS: &str = r#"["sort", [3, null, 1], [], "[1, 3, , ]"]
["sort", [{"k": 2, "n": 1}, {"n": 2}, {"k": 1, "n": 3}, {"k": 2, "n": 4}], ["k"], "[k1n3, k2n1, k2n4, n2, ]"]
["sort", ["b", "a", "b", 3], [], "liquid: Values without an order\n  with:\n    first=\"b\"\n    second=3\n"]
["sort", [{"a": 1}], [], "[a1, ]"]
["sort_natural", ["b", "C", "a", null, "B"], [], "[a, b, B, C, , ]"]
["sort_natural", [10, 9, "x"], [], "[10, 9, x, ]"]
["sort_natural", [1, 2], ["a", "b"], "liquid: Unexpected arguments\n"]
["sort_numeric", ["10", 9, null, "9.5", "-1.25", " 2 "], [], "[-1.25,  2 , 9, 9.5, 10, , ]"]
["sort_numeric", ["1.50", "0.999999999999999999", "1.5", 1, "9223372036854775807"], [], "[0.999999999999999999, 1, 1.50, 1.5, 9223372036854775807, ]"]
["sort_numeric", [{"k": "10"}, {"n": 2}, {"k": 9}], ["k"], "[k9, k10, n2, ]"]
["sort_numeric", ["2", "x"], [], "liquid: Whole number expected\n  with:\n    found=\"x\"\n"]
["sort_numeric", [1, 2], ["a", "b"], "liquid: Unexpected arguments\n"]"#;

/// Returns the result of a filter.
fn answered(
    alloc: Global,
    filter: &str,
    input: &Value,
    arguments: &[ValueCow<'_>],
) -> Result<Value, Error> {
    match filter {
        "sort" => sort(alloc, input, arguments),
        "sort_numeric" => sort_numeric(alloc, input, arguments),
        _ => sort_natural(alloc, input, arguments),
    }
}

#[test]
fn lists_are_put_in_order(rt: HostRuntime) -> Result<(), Fail> {
    are_answered(rt.alloc(), ROWS, answered)
}
