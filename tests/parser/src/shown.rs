//! What answers and errors say.
use liquid_core::Error;
use rows::is_text;
use std::alloc::{AllocError, Global};
use std::fmt::Display;

/// Returns `true` if this text is displayed.
pub(crate) fn displays<D: Display>(alloc: Global, displayed: &D, text: &str) -> bool {
    is_text(displayed.to_string(alloc), text)
}

/// Returns the first line of a text.
fn first_line(text: &str) -> &str {
    match text.split_once("\n") {
        Some((line, _)) => line,
        None => text,
    }
}

/// Returns the first line of an error.
pub(crate) fn first_line_of(alloc: Global, error: &Error) -> Result<String, AllocError> {
    let text = error.to_string(alloc)?;
    String::from_str(alloc, first_line(text.as_str()))
}

/// Returns `true` if this is the first line of an error.
pub(crate) fn has_first_line(alloc: Global, error: &Error, line: &str) -> bool {
    is_text(first_line_of(alloc, error), line)
}

/// Returns `true` if an answer displays a text, or if its error has this first line.
pub(crate) fn is_answer<D: Display + Drop>(
    alloc: Global,
    answer: Result<D, Error>,
    text: &str,
) -> bool {
    match answer {
        Ok(answer) => displays(alloc, &answer, text),
        Err(error) => has_first_line(alloc, &error, text),
    }
}

/// Returns `true` if a name that was read is this text, or if its error has this first line.
pub(crate) fn is_name(alloc: Global, name: Result<&str, Error>, text: &str) -> bool {
    match name {
        Ok(name) => name == text,
        Err(error) => has_first_line(alloc, &error, text),
    }
}

/// Returns `true` if a call succeeded and a text is the name of that, or if its error has this first line.
pub(crate) fn is_done(alloc: Global, done: Result<(), Error>, name: &str, text: &str) -> bool {
    match done {
        Ok(()) => name == text,
        Err(error) => has_first_line(alloc, &error, text),
    }
}
