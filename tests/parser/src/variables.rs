//! Texts that should be one variable.
use crate::made::path_at;
use crate::rows::pairs_hold;
use crate::shown::has_first_line;
use liquid_core::parser::parse_variable;
use liquid_plugins::Expression;
use rows::{Line, rows_hold};
use std::alloc::Global;
use std::test::Fail;

/// Returns `true` if a text is parsed as this variable.
fn parses_as(alloc: Global, text: &str, variable: &Expression) -> bool {
    match parse_variable(alloc, text) {
        Ok(parsed) => Expression::Variable(parsed) == *variable,
        Err(_) => false,
    }
}

/// Returns `true` if a row's text is parsed as the row's variable.
fn is_parsed(alloc: Global, row: &Line) -> bool {
    match (row.text(0), path_at(alloc, row, 1)) {
        (Some(text), Some(variable)) => parses_as(alloc, text, &variable),
        _ => false,
    }
}

/// A text, and the name and the indexes of the variable that it is.
const VARIABLES: &str =
    r#"["foo[0].bar.baz[foo.bar]", "foo", [0, {"text": "bar"}, {"text": "baz"}, ["foo", {"text": "bar"}]]]
["a", "a", []]
["a[ -1 ][b][ 'c' ]", "a", [-1, "b", {"text": "c"}]]"#;

#[test]
fn whole_texts_are_variables(rt: HostRuntime) -> Result<(), Fail> {
    rows_hold(rt.alloc(), VARIABLES, is_parsed)
}

/// Returns `true` if a text is not a variable, and this is the first line of the error.
fn is_refused(alloc: Global, text: &str, refusal: &str) -> bool {
    match parse_variable(alloc, text) {
        Ok(_) => false,
        Err(error) => has_first_line(alloc, &error, refusal),
    }
}

/// A text that is not a variable as a whole, and its error.
const REFUSED: &str = r#"["a b", "liquid: Invalid liquid (line 1, column 1)"]
["", "liquid: Invalid liquid (line 1, column 1)"]
[" a", "liquid: Invalid liquid (line 1, column 1)"]
["a ", "liquid: Invalid liquid (line 1, column 1)"]
["'a'", "liquid: Invalid liquid (line 1, column 1)"]
["a.", "liquid: Invalid liquid (line 1, column 1)"]
["a[\n4.5]", "liquid: Decimal not supported (line 2, column 1)"]
["a[9223372036854775808] b", "liquid: Invalid liquid (line 1, column 1)"]"#;

#[test]
fn other_texts_are_refused(rt: HostRuntime) -> Result<(), Fail> {
    pairs_hold(rt.alloc(), REFUSED, is_refused)
}
