//! Expressions and paths, made by hand.
use crate::made::{list_of, named, path, word};
use crate::runtimes::{Check, rows_hold_over};
use crate::shown::{displays, is_answer};
use liquid_core::Leniency;
use liquid_core::model::{Scalar, Value};
use liquid_core::runtime::Runtime;
use liquid_plugins::{Expression, Variable};
use rows::{Line, holds};
use std::alloc::{AllocError, Global};
use std::test::Fail;

/// Returns the path of a name without indexes.
fn path_to(alloc: Global, name: &str) -> Result<Variable, AllocError> {
    Ok(Variable::with_literal(alloc, String::from_str(alloc, name)?))
}

/// Returns the path `foo[0]["bar"]`.
fn literal_path(alloc: Global) -> Result<Variable, AllocError> {
    let index = String::from_str(alloc, "bar")?;
    path_to(alloc, "foo")?
        .push_literal(0i64)?
        .push_literal(index)
}

/// Returns the path `foo["bar"]` as an index.
fn path_index(alloc: Global) -> Result<Vec<Expression>, AllocError> {
    let indexes = list_of(alloc, word(alloc, "bar")?)?;
    list_of(alloc, path(alloc, "foo", indexes)?)
}

/// Returns the indexes 7 and true.
fn scalars(alloc: Global) -> Result<Vec<Scalar>, AllocError> {
    let mut scalars = Vec::new(alloc);
    scalars.push(Scalar::from(7i64))?;
    scalars.push(Scalar::from(true))?;
    Ok(scalars)
}

/// Adds a path and two scalars after the indexes.
fn add_indexes(alloc: Global, variable: &mut Variable) -> Result<(), AllocError> {
    variable.extend(path_index(alloc)?)?;
    variable.extend(scalars(alloc)?)
}

/// Returns the path `foo[0]["bar"][foo["bar"]][7][true]`.
fn long_path(alloc: Global) -> Result<Variable, AllocError> {
    let mut variable = literal_path(alloc)?;
    add_indexes(alloc, &mut variable)?;
    Ok(variable)
}

/// Returns a copy of a path as an expression.
fn as_expression(variable: &Variable) -> Result<Expression, AllocError> {
    Ok(Expression::Variable(variable.clone()?))
}

/// Returns `true` if a copy of a path equals it.
fn copy_is_equal(variable: &Variable) -> bool {
    match variable.clone() {
        Ok(copy) => copy == *variable,
        Err(_) => false,
    }
}

/// Returns `true` if the expression of a path was made, and equals another expression if it should.
fn compares(variable: &Variable, other: &Expression, is_equal: bool) -> bool {
    match as_expression(variable) {
        Ok(expression) => (expression == *other) == is_equal,
        Err(_) => false,
    }
}

/// Returns `true` if an expression was made, and the expression of a path equals it if it should.
fn becomes(
    variable: &Variable,
    expression: Result<Expression, AllocError>,
    is_equal: bool,
) -> bool {
    match expression {
        Ok(expression) => compares(variable, &expression, is_equal),
        Err(_) => false,
    }
}

/// Returns `true` if the expression of a path has no literal.
fn has_no_literal(variable: &Variable) -> bool {
    match as_expression(variable) {
        Ok(expression) => expression.into_literal().is_none(),
        Err(_) => false,
    }
}

/// Returns `true` if what was taken out of an expression is this path.
fn is_path(taken: Option<Variable>, variable: &Variable) -> bool {
    match taken {
        Some(taken) => taken == *variable,
        None => false,
    }
}

/// Returns `true` if the path is taken out of its expression again.
fn is_taken_out(variable: &Variable) -> bool {
    match as_expression(variable) {
        Ok(expression) => is_path(expression.into_variable(), variable),
        Err(_) => false,
    }
}

/// Returns `true` if a path shows, and is copied, compared and taken out of its expression.
fn is_an_expression(alloc: Global, variable: &Variable) -> bool {
    displays(alloc, variable, "foo[0][\"bar\"][foo[\"bar\"]][7][true]")
        && copy_is_equal(variable)
        && becomes(variable, as_expression(variable), true)
        && becomes(variable, named(alloc, "foo"), false)
        && has_no_literal(variable)
        && is_taken_out(variable)
}

#[test]
fn expressions_are_copied_compared_and_taken_apart(rt: HostRuntime) -> Result<(), Fail> {
    holds(
        is_an_expression(rt.alloc(), &long_path(rt.alloc())?),
        "the path shows, and is copied, compared and taken apart",
    )
}

/// Returns `true` if what was taken out of an expression is the text `a`.
fn is_letter(alloc: Global, taken: &Value) -> bool {
    match String::from_str(alloc, "a") {
        Ok(letter) => *taken == Value::scalar(letter),
        Err(_) => false,
    }
}

/// Returns `true` if the text `a` is taken out of its expression.
fn literal_is_taken_out(alloc: Global, literal: Expression) -> bool {
    match literal.into_literal() {
        Some(taken) => is_letter(alloc, &taken),
        None => false,
    }
}

/// Returns `true` if the text `a` shows in quotes, and is taken out of its expression.
fn is_literal(alloc: Global, literal: Expression) -> bool {
    displays(alloc, &literal, "\"a\"") && literal_is_taken_out(alloc, literal)
}

#[test]
fn a_literal_shows_in_quotes_and_is_taken_out(rt: HostRuntime) -> Result<(), Fail> {
    holds(
        is_literal(rt.alloc(), word(rt.alloc(), "a")?),
        "the text shows in quotes, and is taken out of its expression",
    )
}

/// Returns the variable of a name as an index.
fn index_of(alloc: Global, name: &str) -> Result<Vec<Expression>, AllocError> {
    list_of(alloc, named(alloc, name)?)
}

/// Adds a variable after the indexes. Returns `false` if memory runs out.
fn add_index(alloc: Global, variable: &mut Variable, name: &str) -> bool {
    match index_of(alloc, name) {
        Ok(index) => variable.extend(index).is_ok(),
        Err(_) => false,
    }
}

/// Returns `true` if there is a value when a path is tried, or none if there should be none.
fn is_found<R: Runtime>(alloc: Global, variable: &Variable, is_there: bool, runtime: &R) -> bool {
    match variable.try_evaluate(alloc, runtime) {
        Ok(found) => found.is_some() == is_there,
        Err(_) => false,
    }
}

/// Returns `true` if the value of a path is a text, and there is a value if it is tried.
fn leads_to<R: Runtime>(alloc: Global, variable: &Variable, path: &str, runtime: &R) -> bool {
    is_answer(alloc, variable.evaluate(alloc, runtime), path)
        && is_found(alloc, variable, true, runtime)
}

/// Returns `true` if a path is an error, and there is no value if it is tried.
fn leads_nowhere<R: Runtime>(alloc: Global, variable: &Variable, runtime: &R) -> bool {
    variable.evaluate(alloc, runtime).is_err() && is_found(alloc, variable, false, runtime)
}

/// Returns `true` if a path with a row's first index leads where the row says, and with the row's second one nowhere.
fn is_tried<R: Runtime>(alloc: Global, row: &Line, variable: &mut Variable, runtime: &R) -> bool {
    match (row.text(1), row.text(2), row.text(3)) {
        (Some(first), Some(path), Some(second)) => {
            add_index(alloc, variable, first)
                && leads_to(alloc, variable, path, runtime)
                && add_index(alloc, variable, second)
                && leads_nowhere(alloc, variable, runtime)
        }
        _ => false,
    }
}

/// Returns `true` if the path of a row's name and indexes is tried index by index.
pub(crate) fn path_is_tried<R: Runtime>(alloc: Global, row: &Line, runtime: &R) -> bool {
    match path_to(alloc, row.text(0).unwrap_or("")) {
        Ok(mut variable) => is_tried(alloc, row, &mut variable, runtime),
        Err(_) => false,
    }
}

/// A name, an index, where the path leads, and an index after which it leads nowhere.
static PATHS: &str = r#"["box", "word", "box.part", "one"]"#;

#[test]
fn a_path_is_tried_index_by_index(rt: HostRuntime) -> Result<(), Fail> {
    rows_hold_over(rt.alloc(), Check::Path, PATHS, Leniency::Strict)
}
