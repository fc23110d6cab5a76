//! What tables of pages share: a row is a text, its globals as JSON, and what it writes.
use crate::sources::{add, is_whole};
use liquid_core::model::{Object, object_from_str};
use liquid_core::parser::PluginRegistry;
use liquid_core::partials::InMemorySource;
use liquid_core::{Error, NoPlugin, TextSink};
use liquid_std::render_page;
use rows::{Line, rows_hold};
use std::alloc::Global;
use std::test::Fail;

/// Returns the globals of a text of JSON.
pub(crate) fn globals_of(alloc: Global, globals: &str) -> Result<Object, Error> {
    match object_from_str(alloc, globals) {
        Ok(globals) => globals,
        Err(_) => Err(Error::with_msg(alloc, "no globals")),
    }
}

/// Renders a text in the standard language over these globals and partials, without filters.
pub(crate) fn render_standard(
    alloc: Global,
    text: &str,
    globals: &str,
    partials: &[(&str, &str)],
    sink: &mut TextSink,
) -> Result<(), Error> {
    let globals = globals_of(alloc, globals)?;
    let mut source = InMemorySource::new(alloc);
    for (name, text) in partials {
        add(alloc, &mut source, name, text)?;
    }
    let filters: PluginRegistry<NoPlugin> = PluginRegistry::new(alloc);
    render_page(alloc, text, globals, source, filters, sink)
}

/// Fails for the first row for which `render` does not write what the row says, and then its error, if there is one.
pub(crate) fn rows_write<R>(alloc: Global, rows: &str, render: R) -> Result<(), Fail>
where
    R: Fn(Global, &str, &str, &mut TextSink) -> Result<(), Error>,
{
    rows_hold(alloc, rows, |alloc, row| row_writes(alloc, row, &render))
}

/// Returns `true` if `render` writes what a row says, and then its error, if there is one.
fn row_writes<R>(alloc: Global, row: &Line, render: &R) -> bool
where
    R: Fn(Global, &str, &str, &mut TextSink) -> Result<(), Error>,
{
    match (row.text(0), row.text(1), row.text(2)) {
        (Some(text), Some(globals), Some(wanted)) => {
            let mut sink = TextSink::new(alloc);
            let answer = render(alloc, text, globals, &mut sink);
            is_whole(alloc, sink, answer, wanted)
        }
        _ => false,
    }
}
