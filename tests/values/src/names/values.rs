//! Texts, objects of numbers, and the texts of results.
use liquid_error::Error;
use liquid_value::{Object, Value, ValueCow};
use liquid_views::ValueView;
use std::alloc::{AllocError, Global};

pub(crate) fn text(alloc: Global, text: &str) -> Result<String, AllocError> {
    String::from_str(alloc, text)
}

/// Gives a name of an object a number, and returns `true` if there is memory for it.
fn add(alloc: Global, object: &mut Object, name: &str, number: i64) -> bool {
    match text(alloc, name) {
        Ok(name) => object.insert(name, Value::scalar(number)).is_ok(),
        Err(_) => false,
    }
}

/// Returns an object of numbers.
pub(crate) fn numbers(alloc: Global, pairs: &[(&'static str, i64)]) -> Result<Object, AllocError> {
    let mut object = Object::new(alloc);
    for (name, number) in pairs {
        if !add(alloc, &mut object, name, *number) {
            return Err(AllocError);
        }
    }
    Ok(object)
}

/// Returns what is written of a result: the value's text, or that of the error.
pub(crate) fn answer_text(
    alloc: Global,
    answer: Result<ValueCow<'_>, Error>,
) -> Result<String, AllocError> {
    match answer {
        Ok(value) => value.render().to_string(alloc),
        Err(error) => error.to_string(alloc),
    }
}
