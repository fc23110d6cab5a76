//! What the tables share: a row's filter is called with the row's values, and its answer is compared.
use jekyll_language::expressions::filters;
use liquid_error::Error;
use liquid_filters::json_text::json;
use liquid_json::to_value;
use liquid_plugins::{Expression, Filter, FilterArguments, ParseFilter};
use liquid_runtime::{BuiltRuntime, RuntimeBuilder};
use liquid_value::render::{ValueRender, ValueSource};
use liquid_value::{Object, Value, ValueCow};
use rows::{Line, is_text};
use serde_json::Value as Json;
use std::alloc::Global;

/// Returns `true` if the filter of a row returns what the row says: the filter's name, its input, its arguments, and the
/// source of what it returns, or the text of its error.
pub(crate) fn is_answered(alloc: Global, row: &Line) -> bool {
    match (row.text(0), row.member(1), row.list(2), row.text(3)) {
        (Some(name), Some(input), Some(arguments), Some(wanted)) => {
            match answered(alloc, name, input, arguments.as_slice()) {
                Ok(value) => is_text(ValueSource::new(&value).to_string(alloc), wanted),
                Err(error) => is_text(error.to_string(alloc), wanted),
            }
        }
        _ => false,
    }
}

/// Returns `true` if the filter of a row returns what the row says, as JSON.
pub(crate) fn is_written(alloc: Global, row: &Line) -> bool {
    match (row.text(0), row.member(1), row.list(2), row.text(3)) {
        (Some(name), Some(input), Some(arguments), Some(wanted)) => {
            match written(alloc, name, input, arguments.as_slice()) {
                Ok(value) => is_text(ValueRender::new(&value).to_string(alloc), wanted),
                Err(_) => false,
            }
        }
        _ => false,
    }
}

/// Returns `true` if this is the text of what a filter returned, or of its error.
pub(crate) fn is_shown(alloc: Global, found: &Result<Value, Error>, wanted: &str) -> bool {
    match found {
        Ok(value) => is_text(ValueRender::new(value).to_string(alloc), wanted),
        Err(error) => is_text(error.to_string(alloc), wanted),
    }
}

/// Returns what the filter of this name returns, as JSON.
fn written(alloc: Global, name: &str, input: &Json, arguments: &[Json]) -> Result<Value, Error> {
    let answer = answered(alloc, name, input, arguments)?;
    json(alloc, &answer)
}

/// Returns what the filter of this name returns, without any names.
fn answered(alloc: Global, name: &str, input: &Json, arguments: &[Json]) -> Result<Value, Error> {
    answered_among(alloc, name, input, arguments, Object::new(alloc))
}

/// Returns what the filter of this name returns, among these names.
pub(crate) fn answered_among(
    alloc: Global,
    name: &str,
    input: &Json,
    arguments: &[Json],
    names: Object,
) -> Result<Value, Error> {
    let input = ValueCow::Owned(to_value(alloc, input)?);
    let arguments = FilterArguments {
        positional: literals(alloc, arguments)?,
        keyword: Vec::new(alloc),
    };
    let runtime: BuiltRuntime<(), ()> = RuntimeBuilder::new(alloc)
        .set_globals(names)
        .set_lenient(true)
        .build();
    let registry = filters(alloc, None)?;
    match registry.get(name) {
        Some(plugin) => plugin
            .parse(alloc, arguments)?
            .evaluate(alloc, &input, &runtime),
        None => Err(Error::with_msg(alloc, "Unknown filter")),
    }
}

/// Returns the values of a list, each as an expression.
fn literals(alloc: Global, list: &[Json]) -> Result<Vec<Expression>, Error> {
    let mut literals = Vec::new(alloc);
    for json in list {
        literals.push(Expression::Literal(to_value(alloc, json)?))?;
    }
    Ok(literals)
}
