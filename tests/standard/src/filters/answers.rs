//! What the tables share: a row's filter is called with the row's values, and its answer is compared.
use liquid_error::Error;
use liquid_json::to_value;
use liquid_value::render::ValueSource;
use liquid_value::{Value, ValueCow};
use rows::{Line, is_text, rows_hold};
use serde_json::Value as Json;
use std::alloc::Global;
use std::test::Fail;

/// A call of a filter, and what it should return.
#[derive(Drop)]
struct Call<'r> {
    filter: &'r str,
    input: Value,
    arguments: Vec<ValueCow<'static>>,
    wanted: &'r str,
}

impl<'r> Call<'r> {
    /// Returns the call of a row: a filter, its input, its arguments, and the source of what it returns, or the text of
    /// its error. Returns `None` for a row without them, or if memory runs out.
    fn of(alloc: Global, row: &'r Line) -> Option<Call<'r>> {
        match (row.text(0), row.member(1), row.list(2), row.text(3)) {
            (Some(filter), Some(input), Some(arguments), Some(wanted)) => {
                let input = to_value(alloc, input).ok()?;
                Some(Call {
                    filter,
                    input,
                    arguments: values_of(alloc, arguments.as_slice()).ok()?,
                    wanted,
                })
            }
            _ => None,
        }
    }

    /// Returns `true` if a filter's answer is what it should return.
    fn returns(&self, alloc: Global, answer: Result<Value, Error>) -> bool {
        match answer {
            Ok(value) => is_text(ValueSource::new(&value).to_string(alloc), self.wanted),
            Err(error) => is_text(error.to_string(alloc), self.wanted),
        }
    }
}

/// Fails for the first row whose filter does not return what the row says.
pub(crate) fn are_answered<F>(alloc: Global, rows: &str, answered: F) -> Result<(), Fail>
where
    F: Fn(Global, &str, &Value, &[ValueCow<'_>]) -> Result<Value, Error>,
{
    rows_hold(alloc, rows, |alloc, row| is_answered(alloc, row, &answered))
}

/// Returns `true` if a filter returns what its row says.
fn is_answered<F>(alloc: Global, row: &Line, answered: &F) -> bool
where
    F: Fn(Global, &str, &Value, &[ValueCow<'_>]) -> Result<Value, Error>,
{
    match Call::of(alloc, row) {
        Some(call) => {
            let answer = answered(alloc, call.filter, &call.input, call.arguments.as_slice());
            call.returns(alloc, answer)
        }
        None => false,
    }
}

/// Returns the values of a list.
fn values_of<'a>(alloc: Global, list: &[Json]) -> Result<Vec<ValueCow<'a>>, Error> {
    let mut values = Vec::new(alloc);
    for json in list {
        values.push(ValueCow::Owned(to_value(alloc, json)?))?;
    }
    Ok(values)
}
