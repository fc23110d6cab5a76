//! Pairs of values: their loose equality, their order, and whether they are the same.
use super::pair_of;
use liquid_value::{Value, ValueViewCmp};
use rows::{Line, rows_hold};
use std::alloc::Global;
use std::cmp::Ordering;
use std::hash::{DefaultHasher, Hash, Hasher};
use std::test::Fail;

// Two values, and whether they are loosely equal. A text and an array without members each equal the state `empty`, but
// not each other, so that loose equality is not transitive; and within an object the sides are swapped.
const EQUALITIES: &str = r#"[true, "", true]
[null, false, true]
[null, true, false]
[true, [1], true]
[false, [], false]
[true, 7, true]
[7, false, false]
[{"state": "empty"}, [], true]
["", {"state": "empty"}, true]
[{"state": "empty"}, " ", false]
[{"state": "blank"}, " ", true]
[null, {"state": "blank"}, true]
[{"state": "truthy"}, {"state": "empty"}, false]
[{"state": "empty"}, {"state": "truthy"}, true]
[{"state": "truthy"}, {"state": "truthy"}, false]
[{"state": "default"}, false, true]
["", [], false]
[[1], [1, 2], false]
[{"a": 1, "b": 2}, {"b": 2, "a": 1}, true]
[{"a": 1, "b": 2}, {"a": 1, "c": 2}, false]
[{"a": 1, "b": 2}, {"a": 1}, false]
[{"a": {"state": "truthy"}}, {"a": {"state": "empty"}}, true]
[{"a": {"state": "empty"}}, {"a": {"state": "truthy"}}, false]
[{"day": 16}, {"moment": [10, 3600]}, true]
[{"moment": [10, 3600]}, {"day": 16}, true]
[{"day": 15}, {"moment": [10, 3600]}, false]
[{"day": 16}, {"day": 17}, false]
[{"moment": [10, 3600]}, {"moment": [9, 0]}, true]
[{"day": 16}, true, true]"#;

fn are_equal(left: &Value, right: &Value) -> bool {
    ValueViewCmp::new(left).value_eq(&ValueViewCmp::new(right))
}

/// Returns the name of an order, if there is one.
pub(crate) fn name_of(order: Option<Ordering>) -> Option<&'static str> {
    match order {
        Some(Ordering::Less) => Some("less"),
        Some(Ordering::Equal) => Some("equal"),
        Some(Ordering::Greater) => Some("greater"),
        None => None,
    }
}

/// Returns the name of the loose order of two values, if they have one.
fn order_of(left: &Value, right: &Value) -> Option<&'static str> {
    name_of(ValueViewCmp::new(left).value_cmp(&ValueViewCmp::new(right)))
}

fn fed(value: &Value) -> u64 {
    let mut hasher = DefaultHasher::new();
    value.hash(&mut hasher);
    hasher.finish()
}

/// Returns `true` if two values are the same if that is wanted, and have one hash where they are.
fn are_same(left: &Value, right: &Value, wanted: Option<bool>) -> bool {
    let is_same = *left == *right;
    wanted == Some(is_same) && (!is_same || fed(left) == fed(right))
}

/// Returns `true` if two values compare as a row says.
fn compare(left: &Value, right: &Value, how: &str, row: &Line) -> bool {
    match how {
        "loosely" => row.truth(2) == Some(are_equal(left, right)),
        "in order" => row.text(2) == order_of(left, right),
        "strictly" => are_same(left, right, row.truth(2)),
        _ => false,
    }
}

/// Returns `true` if the values of a row compare as it says.
fn are_compared(alloc: Global, row: &Line, how: &str) -> bool {
    match pair_of(alloc, row) {
        Some((left, right)) => compare(&left, &right, how, row),
        None => false,
    }
}

fn is_equality(alloc: Global, row: &Line) -> bool {
    are_compared(alloc, row, "loosely")
}

#[test]
fn values_are_loosely_equal(rt: HostRuntime) -> Result<(), Fail> {
    rows_hold(rt.alloc(), EQUALITIES, is_equality)
}

// Two values, and their loose order.
const ORDERS: &str = r#"[[1], [1, 2], "less"]
[[1, 2], [1], "greater"]
[[1, 2], [1, 2], "equal"]
[[1, "a", null], [1, 2], null]
[{"a": 1}, {"b": 0}, "less"]
[{"a": 1, "b": 2}, {"a": 1}, "greater"]
[false, true, "less"]
[null, null, null]
[1, [1], null]
[{"day": 16}, {"moment": [10, 3600]}, "equal"]
[{"day": 17}, {"moment": [10, 3600]}, "greater"]
[{"moment": [10, 3600]}, {"day": 17}, "less"]
[{"day": 15}, {"day": 16}, "less"]
[{"moment": [10, 3600]}, {"moment": [10, 0]}, "less"]"#;

fn is_order(alloc: Global, row: &Line) -> bool {
    are_compared(alloc, row, "in order")
}

#[test]
fn the_first_difference_decides(rt: HostRuntime) -> Result<(), Fail> {
    rows_hold(rt.alloc(), ORDERS, is_order)
}

// Two values, and whether they are the same.
const SAME: &str = r#"[{"a": 1, "b": 2}, {"b": 2, "a": 1}, true]
[[1, "a", null], [1, "a", null], true]
[true, 1, false]
["1", 1, false]
[{"state": "empty"}, {"state": "blank"}, false]
[{"state": "truthy"}, {"state": "truthy"}, true]
[[1], [1, 2], false]
[{"day": 16}, {"moment": [10, 3600]}, false]
[{"moment": [10, 3600]}, {"moment": [9, 0]}, true]"#;

fn is_sameness(alloc: Global, row: &Line) -> bool {
    are_compared(alloc, row, "strictly")
}

#[test]
fn strict_equality_wants_the_same_kind(rt: HostRuntime) -> Result<(), Fail> {
    rows_hold(rt.alloc(), SAME, is_sameness)
}
