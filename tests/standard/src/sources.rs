//! What a row is rendered with.
use liquid_core::model::{Object, to_object};
use liquid_core::parser::{Language, ParseBlock, ParseFilter, ParseTag};
use liquid_core::partials::{InMemorySource, LazyCompiler, LazyStore, PartialCompiler};
use liquid_core::{Error, TextSink};
use rows::{Row, is_text};
use serde_json::Value as Json;
use std::alloc::{AllocError, Global};
use std::rc::Rc;

/// Returns the row of a line, lenient if it says so, or `None` for a line that is none.
pub(crate) fn row_of(alloc: Global, line: &str) -> Option<Row> {
    let row = Row::of(alloc, line)?;
    Some(if row.member("is_lenient").is_some() {
        row.leniently()
    } else {
        row
    })
}

/// Returns the names that a row is given.
pub(crate) fn data_of(alloc: Global, row: &Row) -> Result<Object, Error> {
    match row.member("data") {
        Some(data) => to_object(alloc, data),
        None => Ok(Object::new(alloc)),
    }
}

/// Adds a partial, and returns whether another one had its name.
pub(crate) fn add(
    alloc: Global,
    source: &mut InMemorySource,
    name: &str,
    text: &str,
) -> Result<bool, AllocError> {
    let name = String::from_str(alloc, name)?;
    source.add(name, String::from_str(alloc, text)?)
}

/// Adds a partial of a row. Returns `false` if it is not a name and a text, or if memory runs out.
fn add_partial(alloc: Global, source: &mut InMemorySource, partial: &Json) -> bool {
    match (partial.get(0), partial.get(1)) {
        (Some(Json::String(name)), Some(Json::String(text))) => {
            add(alloc, source, name.as_str(), text.as_str()).is_ok()
        }
        _ => false,
    }
}

/// Adds the partials of a row. Returns `false` if one of them could not be added.
fn add_partials(alloc: Global, source: &mut InMemorySource, row: &Row) -> bool {
    if let Some(Json::Array(partials)) = row.member("partials") {
        for partial in partials {
            if !add_partial(alloc, source, partial) {
                return false;
            }
        }
    }
    true
}

/// Returns the source of a row's partials, or `None` if one of them could not be added.
fn source_of(alloc: Global, row: &Row) -> Option<InMemorySource> {
    let mut source = InMemorySource::new(alloc);
    if add_partials(alloc, &mut source, row) {
        Some(source)
    } else {
        None
    }
}

/// Returns the store of a row's partials in a language, or `None` if it could not be made.
pub(crate) fn store_of<F, T, B>(
    alloc: Global,
    row: &Row,
    language: &Rc<Language<F, T, B>>,
) -> Option<LazyStore<InMemorySource, F, T, B>>
where
    F: ParseFilter,
    T: ParseTag<F>,
    B: ParseBlock<F>,
{
    let compiler = LazyCompiler::new(source_of(alloc, row)?);
    compiler.compile(alloc, language.clone().ok()?).ok()
}

/// Returns `true` if a text is that of a call's error, or if it is empty and there is no error.
fn is_error(alloc: Global, answer: Result<(), Error>, text: &str) -> bool {
    match answer {
        Ok(()) => text.is_empty(),
        Err(error) => is_text(error.to_string(alloc), text),
    }
}

/// Returns `true` if a call wrote what its row says, and has the row's error.
pub(crate) fn has_result(
    alloc: Global,
    row: &Row,
    written: &[u8],
    answer: Result<(), Error>,
) -> bool {
    written == row.written().as_bytes() && is_error(alloc, answer, row.error())
}

/// Returns `true` if a text is what was written, and then the text of the error, if there is one.
pub(crate) fn is_whole(
    alloc: Global,
    sink: TextSink,
    answer: Result<(), Error>,
    text: &str,
) -> bool {
    match sink.into_string() {
        Ok(written) => match text.strip_prefix(written.as_str()) {
            Some(rest) => is_error(alloc, answer, rest),
            None => false,
        },
        Err(_) => false,
    }
}
