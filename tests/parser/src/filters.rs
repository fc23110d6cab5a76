//! Filters without a template, and registries.
use crate::chains::{filter_named, is_rendered};
use crate::made::{arguments_in, list_of};
use liquid_core::Error;
use liquid_core::model::{Value, ValueCow};
use liquid_plugins::{Expression, FilterArguments, FilterReflection, PluginRegistry, call_filter};
use rows::{Line, holds, rows_hold};
use std::alloc::{AllocError, Global};
use std::test::Fail;
use test_plugins::filters::Filters;

/// Returns what a filter makes of the number 5.
fn made_of_five(
    alloc: Global,
    filter: Filters,
    given: FilterArguments<'_>,
) -> Result<ValueCow<'static>, Error> {
    let input = ValueCow::Owned(Value::scalar(5i64));
    Ok(ValueCow::Owned(call_filter(alloc, &filter, &input, given)?))
}

/// Returns `true` if a filter makes of the number 5 a value that renders as a text, or fails with that text.
fn makes(alloc: Global, filter: Filters, given: Option<FilterArguments<'_>>, text: &str) -> bool {
    match given {
        Some(given) => is_rendered(alloc, made_of_five(alloc, filter, given), text),
        None => false,
    }
}

/// A filter whose input is 5, its arguments, and what it makes of them.
const CALLS: &str = r#"["append", [{"text": "%"}], "5%"]
["append", [], "liquid: Unexpected arguments\n"]
["append", [1, 2], "liquid: Unexpected arguments\n"]
["append", ["y"], "liquid: Unknown variable\n  with:\n    requested variable=y\n"]
["fail", [], "liquid: bad\n"]
["fail", [1], "liquid: Unexpected arguments\n"]"#;

/// Returns `true` if a filter makes of its arguments what the row says.
fn is_called(alloc: Global, row: &Line) -> bool {
    match (filter_named(row.member(0)), row.list(1), row.text(2)) {
        (Some(filter), Some(given), Some(text)) => {
            makes(alloc, filter, arguments_in(alloc, given), text)
        }
        _ => false,
    }
}

/// Returns the argument 2 by a keyword.
fn keyword(alloc: Global) -> Result<Vec<(&'static str, Expression)>, AllocError> {
    let mut keyword = Vec::new(alloc);
    keyword.push(("by", Expression::with_literal(2i64)))?;
    Ok(keyword)
}

/// Returns the argument 1, and the argument 2 by a keyword.
fn keyword_arguments(alloc: Global) -> Result<FilterArguments<'static>, AllocError> {
    Ok(FilterArguments {
        positional: list_of(alloc, Expression::with_literal(1i64))?,
        keyword: keyword(alloc)?,
    })
}

/// Returns `true` if a keyword that a filter doesn't know is an error.
fn keyword_is_refused(alloc: Global) -> bool {
    let given = keyword_arguments(alloc).ok();
    makes(
        alloc,
        Filters::Append,
        given,
        "liquid: Unexpected arguments\n",
    )
}

/// Returns `true` if the filters return their names and parameters.
fn filters_are_reflected() -> bool {
    let first = Filters::Append.positional_parameters().first();
    Filters::Append.name() == "append"
        && first.is_some_and(|parameter| parameter.name == "value")
        && Filters::Fail.keyword_parameters().is_empty()
}

#[test]
fn filters_are_called_without_a_template(rt: HostRuntime) -> Result<(), Fail> {
    rows_hold(rt.alloc(), CALLS, is_called)?;
    holds(
        keyword_is_refused(rt.alloc()) && filters_are_reflected(),
        "an unknown keyword is refused, and the filters list their names and parameters",
    )
}

type Registry = PluginRegistry<Filters>;

/// Returns `true` if a filter is registered, and takes the place of another one if it should.
fn registers(registry: &mut Registry, name: &str, filter: Filters, replaces: bool) -> bool {
    match registry.register(name, filter) {
        Ok(is_replaced) => is_replaced == replaces,
        Err(_) => false,
    }
}

/// Returns `true` if a filter is registered as `fail`, and none as `Fail`.
fn has_fail(registry: &Registry, filter: &Filters) -> bool {
    registry.get("fail") == Some(filter) && registry.get("Fail").is_none()
}

/// Returns `true` if the other filter takes the place of the first one, but not in a copy made before.
fn replaces_one(registry: &mut Registry) -> bool {
    match registry.clone() {
        Ok(before) => {
            registers(registry, "fail", Filters::Fail, true)
                && has_fail(registry, &Filters::Fail)
                && has_fail(&before, &Filters::Append)
        }
        Err(_) => false,
    }
}

/// Returns `true` if the names are listed in order.
fn names_are_listed(registry: &Registry) -> bool {
    let mut names = registry.plugin_names();
    names.len() == 2
        && names.next() == Some("append")
        && names.len() == 1
        && names.next() == Some("fail")
        && names.next().is_none()
        && names.next().is_none()
}

/// Returns `true` if the filters are listed in the order of their names.
fn plugins_are_listed(registry: &Registry) -> bool {
    let mut plugins = registry.plugins();
    plugins.len() == 2
        && plugins.next() == Some(&Filters::Append)
        && plugins.next() == Some(&Filters::Fail)
        && plugins.next().is_none()
}

/// Returns `true` if an empty registry has the filters that are registered, by name.
fn has_plug_ins(registry: &mut Registry) -> bool {
    registers(registry, "fail", Filters::Append, false)
        && registers(registry, "append", Filters::Append, false)
        && replaces_one(registry)
        && names_are_listed(registry)
        && plugins_are_listed(registry)
}

#[test]
fn a_registry_has_plug_ins_by_name(rt: HostRuntime) -> Result<(), Fail> {
    let mut registry = PluginRegistry::new(rt.alloc());
    holds(
        has_plug_ins(&mut registry),
        "two names are new, one filter takes the place of another, and both are listed in order",
    )
}
