//! Chains of filters, made by hand.
use crate::made::{arguments_in, path_at};
use crate::runtimes::{Check, rows_hold_over_all};
use crate::shown::displays;
use liquid_core::model::ValueCow;
use liquid_core::parser::Filter;
use liquid_core::runtime::Runtime;
use liquid_core::{Error, Leniency, ValueView};
use liquid_plugins::{Expression, FilterChain, ParseFilter};
use rows::Line;
use serde_json::Value as Json;
use std::alloc::Global;
use std::test::Fail;
use test_plugins::filters::{AnyFilter, Filters};

/// Returns `true` if a result is a value that renders as a text, or an error with that text.
pub(crate) fn is_rendered(alloc: Global, answer: Result<ValueCow<'_>, Error>, text: &str) -> bool {
    match answer {
        Ok(value) => displays(alloc, &value.render(), text),
        Err(error) => displays(alloc, &error, text),
    }
}

/// Chains: the first value and its indexes, and the filters, each with its arguments; then the text that the chain
/// shows, and its result; its result with lenient names, if that is something else; and its result with lenient indexes,
/// if that is something else again.
static ROWS: &str =
    r#"[{"text": "a"}, [], [["append", [{"text": "b"}]], ["append", [1]]], "\"a\" | append | append", "ab1"]
["x", [], [], "x | ", "liquid: Unknown variable\n  with:\n    requested variable=x\n", ""]
[5, [], [["fail", []]], "5 | fail", "liquid: bad\nfrom: Filter error\n  with:\n    filter=fail\n    input=5\n"]
["box", ["one"], [], "box[one] | ", "liquid: Expected scalar\n  with:\n    found=[1, ]\n", "liquid: Expected scalar\n  with:\n    found=[1, ]\n", ""]
["x", ["y"], [], "x[y] | ", "liquid: Unknown variable\n  with:\n    requested variable=y\n", "liquid: Expected scalar\n  with:\n    found=nil\n", ""]
["x", ["one", "y"], [], "x[one][y] | ", "liquid: Expected scalar\n  with:\n    found=[1, ]\n", "liquid: Expected scalar\n  with:\n    found=[1, ]\n", ""]
["box", ["one"], [["append", [{"text": "b"}]]], "box[one] | append", "liquid: Expected scalar\n  with:\n    found=[1, ]\n", "liquid: Expected scalar\n  with:\n    found=[1, ]\n", "b"]
["list", [{"text": "size"}, {"text": "size"}], [], "list[\"size\"][\"size\"] | ", "2"]
["list", [-11], [], "list[-11] | ", "liquid: Unknown index\n  with:\n    variable=list\n    requested index=-11\n    available indexes=0..9, first, last\n", ""]
["box", ["word"], [["append", ["word"]]], "box[word] | append", "7part"]
[5, [], [["append", ["x"]], ["fail", []]], "5 | append | fail", "liquid: Unknown variable\n  with:\n    requested variable=x\nfrom: Filter error\n  with:\n    filter=append\n    input=5\n", "liquid: bad\nfrom: Filter error\n  with:\n    filter=fail\n    input=\"5\"\n"]
["x", [], [["fail", []]], "x | fail", "liquid: Unknown variable\n  with:\n    requested variable=x\n", "liquid: bad\nfrom: Filter error\n  with:\n    filter=fail\n    input=nil\n"]"#;

/// Returns the filter of this name, or `None` if no filter has it.
pub(crate) fn filter_named(name: Option<&Json>) -> Option<Filters> {
    match name {
        Some(Json::String(name)) if name.as_str() == "append" => Some(Filters::Append),
        Some(Json::String(name)) if name.as_str() == "fail" => Some(Filters::Fail),
        _ => None,
    }
}

/// Returns the filter of a name with these arguments.
fn filter_with(alloc: Global, name: Option<&Json>, given: &Vec<Json>) -> Option<AnyFilter> {
    let filter = filter_named(name)?;
    filter.parse(alloc, arguments_in(alloc, given)?).ok()
}

/// Returns the filter of a call: a name, and a list of arguments.
fn filter_of(alloc: Global, call: &Json) -> Option<AnyFilter> {
    match call.get(1) {
        Some(Json::Array(given)) => filter_with(alloc, call.get(0), given),
        _ => None,
    }
}

/// Adds a filter to others. Returns `false` if there is none, or if memory runs out.
fn add_filter(filters: &mut Vec<AnyFilter>, filter: Option<AnyFilter>) -> bool {
    match filter {
        Some(filter) => filters.push(filter).is_ok(),
        None => false,
    }
}

/// Returns the filters of these calls, or `None` if a call has none.
fn filters_of(alloc: Global, calls: &Vec<Json>) -> Option<Vec<AnyFilter>> {
    let mut filters = Vec::new(alloc);
    for call in calls {
        if !add_filter(&mut filters, filter_of(alloc, call)) {
            return None;
        }
    }
    Some(filters)
}

/// Returns the chain of a row, or `None` for a row without one.
fn chain_of(alloc: Global, row: &Line) -> Option<FilterChain<AnyFilter>> {
    let filters = filters_of(alloc, row.list(2)?)?;
    match path_at(alloc, row, 0) {
        Some(entry) => Some(FilterChain::new(entry, filters)),
        None => None,
    }
}

/// Returns the result of the chain of a row over a runtime of this leniency.
fn expected(row: &Line, leniency: Leniency) -> Option<&str> {
    let strict = row.text(4);
    let lenient = row.text(5).or(strict);
    match leniency {
        Leniency::Strict => strict,
        Leniency::Paths => lenient,
        Leniency::Indexes => row.text(6).or(lenient),
    }
}

/// Returns `true` if a chain shows a text and has this result.
fn has_result<X: Filter, R: Runtime>(
    alloc: Global,
    chain: &FilterChain<X>,
    shown: &str,
    answer: &str,
    runtime: &R,
) -> bool {
    displays(alloc, chain, shown) && is_rendered(alloc, chain.evaluate(alloc, runtime), answer)
}

/// Returns `true` if a chain shows the text and has the result of its row.
fn has_results<X: Filter, R: Runtime>(
    alloc: Global,
    chain: &FilterChain<X>,
    row: &Line,
    runtime: &R,
) -> bool {
    match (row.text(3), expected(row, runtime.leniency())) {
        (Some(shown), Some(answer)) => has_result(alloc, chain, shown, answer, runtime),
        _ => false,
    }
}

/// Returns `true` if the chain of a row is as the row says.
pub(crate) fn chain_has_results<R: Runtime>(alloc: Global, row: &Line, runtime: &R) -> bool {
    match chain_of(alloc, row) {
        Some(chain) => has_results(alloc, &chain, row, runtime),
        None => false,
    }
}

#[test]
fn chains_come_to_their_values(rt: HostRuntime) -> Result<(), Fail> {
    rows_hold_over_all(rt.alloc(), Check::Chain, ROWS)
}

/// Returns `true` if trying gives the value that evaluating gives, or nothing if that is nil because names are lenient.
fn is_same(tried: &Option<ValueCow<'_>>, value: &ValueCow<'_>, is_lenient: bool) -> bool {
    match tried {
        Some(tried) => *tried == *value,
        None => is_lenient && value.is_nil(),
    }
}

/// Returns `true` if what was tried is the result, or nothing if that is an error, or is nil because names are lenient.
fn is_alike(
    tried: &Option<ValueCow<'_>>,
    answer: Result<ValueCow<'_>, Error>,
    is_lenient: bool,
) -> bool {
    match answer {
        Ok(value) => is_same(tried, &value, is_lenient),
        Err(_) => tried.is_none(),
    }
}

/// Returns `true` if trying an entry gives what evaluating it does, or nothing if that is an error, or is nil because
/// names are lenient.
fn is_tried<R: Runtime>(alloc: Global, entry: &Expression, runtime: &R) -> bool {
    match entry.try_evaluate(alloc, runtime) {
        Ok(tried) => is_alike(&tried, entry.evaluate(alloc, runtime), runtime.is_lenient()),
        Err(_) => false,
    }
}

/// Returns `true` if the entry of a row is tried alike.
pub(crate) fn entry_is_tried<R: Runtime>(alloc: Global, row: &Line, runtime: &R) -> bool {
    match path_at(alloc, row, 0) {
        Some(entry) => is_tried(alloc, &entry, runtime),
        None => false,
    }
}

#[test]
fn what_is_tried_is_not_refused(rt: HostRuntime) -> Result<(), Fail> {
    rows_hold_over_all(rt.alloc(), Check::Entry, ROWS)
}
