//! Expressions and arguments, made by hand.
use liquid_core::model::Scalar;
use liquid_plugins::{Expression, FilterArguments, Variable};
use rows::Line;
use serde_json::Value as Json;
use std::alloc::{AllocError, Global};

/// Returns a text as an expression.
pub(crate) fn word(alloc: Global, word: &str) -> Result<Expression, AllocError> {
    Ok(Expression::with_literal(String::from_str(alloc, word)?))
}

/// Returns the variable of a name as an expression.
pub(crate) fn named(alloc: Global, name: &str) -> Result<Expression, AllocError> {
    let name = String::from_str(alloc, name)?;
    Ok(Expression::Variable(Variable::with_literal(alloc, name)))
}

/// Returns the expression of a name and indexes.
pub(crate) fn path(
    alloc: Global,
    name: &str,
    indexes: Vec<Expression>,
) -> Result<Expression, AllocError> {
    Ok(Expression::of_parts(Scalar::from(String::from_str(alloc, name)?), indexes))
}

/// Returns a list of one expression.
pub(crate) fn list_of(alloc: Global, item: Expression) -> Result<Vec<Expression>, AllocError> {
    let mut items = Vec::new(alloc);
    items.push(item)?;
    Ok(items)
}

/// Returns the expression that a row gives, or `None` if it gives none: an integer, `{"text": ".."}`, or a name.
fn part_in(alloc: Global, given: &Json) -> Option<Expression> {
    match (given.get("text"), given.as_str(), given.as_i64()) {
        (Some(Json::String(text)), _, _) => word(alloc, text.as_str()).ok(),
        (None, Some(name), _) => named(alloc, name).ok(),
        (None, None, Some(number)) => Some(Expression::with_literal(number)),
        _ => None,
    }
}

/// Returns the path of a name and one index.
fn short_path_in(alloc: Global, name: &str, index: &Json) -> Option<Expression> {
    let index = part_in(alloc, index)?;
    path(alloc, name, list_of(alloc, index).ok()?).ok()
}

/// Returns the index that a row gives, or `None` if it gives none: a part, or a list of a name and its index.
fn index_in(alloc: Global, given: &Json) -> Option<Expression> {
    match (given.get(0), given.get(1)) {
        (Some(Json::String(name)), Some(index)) => short_path_in(alloc, name.as_str(), index),
        _ => part_in(alloc, given),
    }
}

/// Adds an index to others. Returns `false` if there is none, or if memory runs out.
fn add_index(indexes: &mut Vec<Expression>, index: Option<Expression>) -> bool {
    match index {
        Some(index) => indexes.push(index).is_ok(),
        None => false,
    }
}

/// Returns the indexes that a row gives, or `None` if one of them is not an index.
fn indexes_in(alloc: Global, given: &Vec<Json>) -> Option<Vec<Expression>> {
    let mut indexes = Vec::new(alloc);
    for index in given {
        if !add_index(&mut indexes, index_in(alloc, index)) {
            return None;
        }
    }
    Some(indexes)
}

/// Returns the path of an entry and indexes, or `None` if the entry or an index is none. A literal has no indexes.
fn path_in(alloc: Global, entry: &Json, indexes: &Vec<Json>) -> Option<Expression> {
    match entry.as_str() {
        Some(name) => path(alloc, name, indexes_in(alloc, indexes)?).ok(),
        None if indexes.is_empty() => part_in(alloc, entry),
        None => None,
    }
}

/// Returns the path whose entry is at a place of a row, and whose indexes are at the next one.
pub(crate) fn path_at(alloc: Global, row: &Line, place: usize) -> Option<Expression> {
    match (row.member(place), row.list(place.saturating_add(1))) {
        (Some(entry), Some(indexes)) => path_in(alloc, entry, indexes),
        _ => None,
    }
}

/// Returns the arguments that a row gives, or `None` if one of them is none.
pub(crate) fn arguments_in(alloc: Global, given: &Vec<Json>) -> Option<FilterArguments<'static>> {
    match indexes_in(alloc, given) {
        Some(positional) => Some(FilterArguments {
            positional,
            keyword: Vec::new(alloc),
        }),
        None => None,
    }
}
